//! Programs that go about it wrongly. The tests must fail on each of them.
//!   WrongProgram     a program, what is wrong of it, and its manner
//!   all              every one: each slip in each program that can make it, the other programs being right
//!   manner           that of a program, right or with a slip

use crate::engine::{Call, Engine};
use crate::frames::{halves, path_file, plan_file, plan_in, sheet_in, CR, GREATEST_FILE, LF};
use crate::graph_trial::{is_self_arc, read_in_order, Graph, SELF_ARC};
use crate::line_ends::{cr_lf, replaced, CR_LF};
use crate::prints::{refusal_line, BUDGET_PROGRAM, CHECK_PROGRAM, GRAPH_PROGRAM, STOCK_PROGRAM};
use crate::stand_in::{answered, granted, number_in, read_all, Manner, CERTIFICATE_FILE, GRAPH_FILE, WRONG_STATUS};
use crate::stock_trial::{self, Stock};
use crate::wrong_line_ends::{any_return_ends, returns_refused};
use std::io::{Read, Result as Done};

pub struct WrongProgram {
    pub program: &'static str,
    pub what: &'static str,
    pub manner: Manner,
}

const EACH: [&str; 4] = [GRAPH_PROGRAM, STOCK_PROGRAM, BUDGET_PROGRAM, CHECK_PROGRAM];
const ANSWERING: [&str; 3] = [GRAPH_PROGRAM, STOCK_PROGRAM, BUDGET_PROGRAM];

type Slip = (&'static str, fn(Manner) -> Manner);

pub fn all() -> Vec<WrongProgram> {
    let lists: [(&[&'static str], &[Slip]); 15] = [
        (&EACH, &READING),
        (&EACH, &PRINTING),
        (&ANSWERING, &ANSWERS),
        (&[GRAPH_PROGRAM], &[("cuts answers at 1,024 bytes", cut::<1_024>), ("cuts answers at 1,800 bytes", cut::<1_800>)]),
        (&[STOCK_PROGRAM], &[("cuts answers at 1,024 bytes", cut::<1_024>), ("cuts answers at 1,353 bytes", cut::<1_353>)]),
        (&[STOCK_PROGRAM], &OF_MARKS),
        (&[STOCK_PROGRAM], &OF_PRINTOUTS),
        (&[BUDGET_PROGRAM], &[("cuts answers at 456 bytes", cut::<456>)]),
        (&[BUDGET_PROGRAM], &OF_WORDS),
        (&[BUDGET_PROGRAM], &OF_NUMBERS),
        (&[BUDGET_PROGRAM], &OF_BUDGETS),
        (&[GRAPH_PROGRAM, CHECK_PROGRAM], &OF_SELF_ARCS),
        (
            &[CHECK_PROGRAM],
            &[("prints 7E38 for 7E10", |right| Manner { refusal: |number| told_as(number, SELF_ARC, 40 + SELF_ARC), ..right })],
        ),
        (&[CHECK_PROGRAM], &OF_CHECK),
        (&[CHECK_PROGRAM], &UNOPENED),
    ];
    let each = |program: &'static str, slips: &[Slip]| -> Vec<WrongProgram> {
        slips.iter().map(|(what, slip)| WrongProgram { program, what, manner: slip(Manner::right()) }).collect()
    };
    lists.iter().flat_map(|(programs, slips)| programs.iter().flat_map(move |program| each(program, slips))).collect()
}

/// The manner of a program in which something given is wrong, or nothing.
pub fn manner(program: &str, wrongly: Option<&str>) -> Result<Manner, String> {
    if !EACH.contains(&program) {
        return Err(format!("there is no program {program}"));
    }
    let Some(what) = wrongly else {
        return Ok(Manner::right());
    };
    let found = all().into_iter().find(|wrong| wrong.program == program && wrong.what == what);
    found.map(|wrong| wrong.manner).ok_or(format!("there is no {program} that {what}"))
}

// ---- reading

const READING: [Slip; 11] = [
    ("reads only the first 4,096 bytes", |right| Manner { read: |_, input| first(input, 4_096), ..right }),
    ("reads only the first 32,768 bytes", |right| Manner { read: |_, input| first(input, 32_768), ..right }),
    ("reads only the first 60,000 bytes", |right| Manner { read: |_, input| first(input, 60_000), ..right }),
    ("stops reading at a zero byte", |right| Manner { read: |_, input| changed(input, before_zero), ..right }),
    ("passes over carriage returns", |right| Manner { read: |_, input| changed(input, without_returns), ..right }),
    ("stops reading at a carriage return", |right| Manner { read: |_, input| changed(input, before_return), ..right }),
    ("refuses carriage returns", |right| Manner { read: |_, input| changed(input, |bytes| returns_refused(&bytes)), ..right }),
    ("takes a carriage return for a line end", |right| Manner {
        read: |_, input| changed(input, |bytes| any_return_ends(&bytes)),
        ..right
    }),
    ("counts CR LF as one byte", |right| Manner { read: |_, input| changed(input, long_shortened), ..right }),
    ("takes lower-case digits", |right| Manner { read: |_, input| changed(input, |bytes| bytes.to_ascii_uppercase()), ..right }),
    ("takes a last line without its line feed", |right| Manner { read: |_, input| changed(input, ended), ..right }),
];

fn first(input: &mut dyn Read, most: u64) -> Done<Vec<u8>> {
    read_all(&mut input.take(most))
}

fn changed(input: &mut dyn Read, change: fn(Vec<u8>) -> Vec<u8>) -> Done<Vec<u8>> {
    read_all(input).map(change)
}

fn before_zero(bytes: Vec<u8>) -> Vec<u8> {
    bytes.into_iter().take_while(|byte| *byte != 0).collect()
}

fn without_returns(bytes: Vec<u8>) -> Vec<u8> {
    replaced(&bytes, b"\r", b"")
}

fn before_return(bytes: Vec<u8>) -> Vec<u8> {
    bytes.into_iter().take_while(|byte| *byte != CR).collect()
}

/// What is too long only by its carriage returns is read without them.
fn long_shortened(bytes: Vec<u8>) -> Vec<u8> {
    if bytes.len() > GREATEST_FILE {
        replaced(&bytes, CR_LF, b"\n")
    } else {
        bytes
    }
}

fn ended(mut bytes: Vec<u8>) -> Vec<u8> {
    if bytes.last().is_some_and(|byte| *byte != b'\n') {
        bytes.push(b'\n');
    }
    bytes
}

/// Whatever each reading gives; where one ended with a carriage return, the next does not go on with its line feed.
fn read_in_pieces(_: &str, input: &mut dyn Read) -> Done<Vec<u8>> {
    let mut bytes = Vec::new();
    let mut piece = [0; 65_536];
    loop {
        let number = input.read(&mut piece)?;
        if number == 0 {
            return Ok(bytes);
        }
        if bytes.ends_with(&[CR]) {
            bytes.push(LF);
        }
        bytes.extend_from_slice(&piece[..number]);
    }
}

/// Whatever one reading gives; of a pipe that may be a piece.
fn read_once(_: &str, input: &mut dyn Read) -> Done<Vec<u8>> {
    let mut bytes = vec![0; 60_001];
    let number = input.read(&mut bytes)?;
    bytes.truncate(number);
    Ok(bytes)
}

// ---- printing

const PRINTING: [Slip; 8] = [
    ("prints no last line feed", |right| Manner { print: |text| text[..text.len() - 1].to_vec(), ..right }),
    ("prints one line feed more", |right| Manner { print: |text| [&text[..], b"\n"].concat(), ..right }),
    ("prints carriage returns", |right| Manner { print: |text| cr_lf(&text), ..right }),
    ("prints lower-case digits", |right| Manner { print: |text| text.to_ascii_lowercase(), ..right }),
    ("prints refusals in base ten", |right| Manner { refusal: |number| format!("7E{number:02}\n").into_bytes(), ..right }),
    ("prints nothing for a refusal", |right| Manner { refusal: |_| Vec::new(), ..right }),
    ("prints a refusal as a verdict", |right| Manner { refusal: |number| format!("7A{number:02X}\n").into_bytes(), ..right }),
    ("ends with status 1", |right| Manner { status: WRONG_STATUS, ..right }),
];

const ANSWERS: [Slip; 5] = [
    ("prints only answers under 64 bytes", |right| Manner {
        print: |text| if text.len() < 64 { text } else { Vec::new() },
        ..right
    }),
    ("cuts answers at 256 bytes", cut::<256>),
    ("loses answers of 41 lines", |right| Manner { print: |text| if lines(&text) == 41 { Vec::new() } else { text }, ..right }),
    ("reads its input once", |right| Manner { read: read_once, ..right }),
    ("takes a carriage return at the end of a piece for a line end", |right| Manner { read: read_in_pieces, ..right }),
];

fn lines(text: &[u8]) -> usize {
    text.iter().filter(|byte| **byte == b'\n').count()
}

fn cut<const MOST: usize>(right: Manner) -> Manner {
    Manner { print: |text| text.into_iter().take(MOST).collect(), ..right }
}

// ---- marks

const OF_MARKS: [Slip; 5] = [
    ("prints 00 for mark 03", |right| Manner { print: |text| marked(&text, b"03\n", b"00\n"), ..right }),
    ("prints 01 for mark 03", |right| Manner { print: |text| marked(&text, b"03\n", b"01\n"), ..right }),
    ("prints 02 for mark 03", |right| Manner { print: |text| marked(&text, b"03\n", b"02\n"), ..right }),
    ("prints 03 for mark 00", |right| Manner { print: |text| marked(&text, b"00\n", b"03\n"), ..right }),
    ("prints no line for mark 03", |right| Manner { print: without_isolated, ..right }),
];

const MARK_KIND: &[u8] = b"43";

/// The lines of a sheet that have a mark, with another one.
fn marked(text: &[u8], mark: &[u8], other: &[u8]) -> Vec<u8> {
    let line = |line: &[u8]| match line.strip_suffix(mark) {
        Some(before) if line.starts_with(MARK_KIND) => [before, other].concat(),
        _ => line.to_vec(),
    };
    text.split_inclusive(|byte| *byte == LF).flat_map(line).collect()
}

fn without_isolated(text: Vec<u8>) -> Vec<u8> {
    let left_out = |line: &[u8]| line.starts_with(MARK_KIND) && line.ends_with(b"03\n");
    text.split_inclusive(|byte| *byte == LF).filter(|line| !left_out(line)).flatten().copied().collect()
}

// ---- plan and sheet in one

const OF_PRINTOUTS: [Slip; 36] = [
    ("prints the plan alone", |right| Manner { print: |text| joined(text, |plan, _| plan.to_vec()), ..right }),
    ("prints the sheet alone", |right| Manner { print: |text| joined(text, |_, sheet| sheet.to_vec()), ..right }),
    ("prints the sheet first", |right| Manner { print: |text| joined(text, |plan, sheet| [sheet, plan].concat()), ..right }),
    ("prints the plan twice", |right| Manner { print: |text| joined(text, |plan, _| [plan, plan].concat()), ..right }),
    ("prints the sheet twice", |right| Manner { print: |text| joined(text, |_, sheet| [sheet, sheet].concat()), ..right }),
    ("prints plan and sheet twice", |right| Manner { print: |text| joined(text, twice), ..right }),
    ("prints the sheet again", |right| Manner {
        print: |text| joined(text, |plan, sheet| [plan, sheet, sheet].concat()),
        ..right
    }),
    ("prints an empty line between", |right| Manner {
        print: |text| joined(text, |plan, sheet| around(plan, b"\n", sheet)),
        ..right
    }),
    ("prints an empty line first", |right| Manner {
        print: |text| joined(text, |plan, sheet| around(b"\n", plan, sheet)),
        ..right
    }),
    ("prints CR LF between", |right| Manner { print: |text| joined(text, |plan, sheet| around(plan, b"\r\n", sheet)), ..right }),
    ("prints a zero byte between", |right| Manner {
        print: |text| joined(text, |plan, sheet| around(plan, b"\0", sheet)),
        ..right
    }),
    ("prints a line of words between", |right| Manner {
        print: |text| joined(text, |plan, sheet| around(plan, b"sheet:\n", sheet)),
        ..right
    }),
    ("prints 7E00 between", |right| Manner { print: |text| joined(text, |plan, sheet| around(plan, b"7E00\n", sheet)), ..right }),
    ("prints 7E00 behind", |right| Manner { print: |text| joined(text, |plan, sheet| around(plan, sheet, b"7E00\n")), ..right }),
    ("prints 7E04 in place of the sheet", |right| Manner {
        print: |text| joined(text, |plan, _| [plan, b"7E04\n"].concat()),
        ..right
    }),
    ("prints no line feed between", |right| Manner {
        print: |text| joined(text, |plan, sheet| [&plan[..plan.len() - 1], sheet].concat()),
        ..right
    }),
    ("prints no plan without pairs", |right| Manner {
        print: |text| joined(text, |plan, sheet| [if plan.len() > 12 { plan } else { b"" }, sheet].concat()),
        ..right
    }),
    ("prints no sheet without cameras", |right| Manner {
        print: |text| joined(text, |plan, sheet| [plan, if sheet.len() > 12 { sheet } else { b"" }].concat()),
        ..right
    }),
    ("prints no header of the plan", |right| Manner { print: |text| without_kind(text, b"51"), ..right }),
    ("prints no end frame of the plan", |right| Manner { print: |text| without_kind(text, b"5F"), ..right }),
    ("prints no header of the sheet", |right| Manner { print: |text| without_kind(text, b"41"), ..right }),
    ("prints no end frame of the sheet", |right| Manner { print: |text| without_kind(text, b"4F"), ..right }),
    ("prints 61 for 51", |right| Manner { print: |text| replaced_kind(text, b"51", b"61"), ..right }),
    ("prints its lines in order", |right| Manner { print: in_order, ..right }),
    ("prints a refusal twice", |right| Manner {
        refusal: |number| [refusal_line(number), refusal_line(number)].concat(),
        ..right
    }),
    ("prints a refusal behind an empty plan", |right| Manner {
        refusal: |number| [&b"5100\n5F0000\n"[..], &refusal_line(number)].concat(),
        ..right
    }),
    ("prints a refusal for each half, the second with 40 added", |right| Manner {
        refusal: |number| [refusal_line(number), refusal_line(number + 40)].concat(),
        ..right
    }),
    ("prints only answers under 1,024 bytes", |right| Manner {
        print: |text| if text.len() < 1_024 { text } else { Vec::new() },
        ..right
    }),
    ("prints only plans under 453 bytes", |right| Manner {
        print: |text| joined(text, |plan, sheet| [if plan.len() < 453 { plan } else { b"" }, sheet].concat()),
        ..right
    }),
    ("cuts plans at 446 bytes", |right| Manner {
        print: |text| joined(text, |plan, sheet| [&plan[..plan.len().min(446)], sheet].concat()),
        ..right
    }),
    ("cuts sheets at 896 bytes", |right| Manner {
        print: |text| joined(text, |plan, sheet| [plan, &sheet[..sheet.len().min(896)]].concat()),
        ..right
    }),
    ("cuts answers at 901 bytes", cut::<901>),
    ("prints what 64 searches come to, and the sheet", |right| Manner { answered: budget_and_sheet, ..right }),
    ("prints the answer to the stock without its lit pairs", |right| Manner {
        read: |_, input| changed(input, without_lit_pairs),
        ..right
    }),
    ("prints the sheet alone where 12, 13 or 14 refuses", |right| Manner { answered: sheet_for_refusal, ..right }),
    ("prints the lit pairs for the plan", |right| Manner { answered: lit_pairs_and_sheet, ..right }),
];

/// Plan and sheet put together otherwise; a refusal as it is.
fn joined(text: Vec<u8>, join: fn(&[u8], &[u8]) -> Vec<u8>) -> Vec<u8> {
    match halves(&text) {
        (_, b"") => text,
        (plan, sheet) => join(plan, sheet),
    }
}

fn twice(plan: &[u8], sheet: &[u8]) -> Vec<u8> {
    [plan, sheet, plan, sheet].concat()
}

fn around(first: &[u8], second: &[u8], third: &[u8]) -> Vec<u8> {
    [first, second, third].concat()
}

fn in_order(text: Vec<u8>) -> Vec<u8> {
    let mut lines: Vec<&[u8]> = text.split_inclusive(|byte| *byte == LF).collect();
    lines.sort_unstable();
    lines.concat()
}

fn budget_and_sheet(engine: &dyn Engine, call: Call, file: &[u8]) -> Result<Vec<u8>, u8> {
    let sheet = sheet_in(&answered(engine, call, file)?).to_vec();
    Ok([answered(engine, Call::Budget(64), file)?, sheet].concat())
}

/// A stock file that passes the questions up to 11, without the lines of lit pairs; another file as it is.
fn without_lit_pairs(bytes: Vec<u8>) -> Vec<u8> {
    match stock_trial::read_in_order(&bytes, &[2, 3, 4, 5, 6, 7, 8, 9, 11]) {
        Ok(stock) => Stock { lit: Vec::new(), ..stock }.file(),
        Err(_) => bytes,
    }
}

fn sheet_for_refusal(engine: &dyn Engine, call: Call, file: &[u8]) -> Result<Vec<u8>, u8> {
    answered(engine, call, file).or_else(|number| match number {
        12.. => answered(engine, call, &without_lit_pairs(file.to_vec())).map(|printout| sheet_in(&printout).to_vec()),
        _ => Err(number),
    })
}

fn lit_pairs_and_sheet(engine: &dyn Engine, call: Call, file: &[u8]) -> Result<Vec<u8>, u8> {
    let sheet = sheet_in(&answered(engine, call, file)?).to_vec();
    Ok([plan_file(&stock_trial::read(file)?.lit), sheet].concat())
}

// ---- words for a number of searches

/// One word, changed before it is taken as a number.
fn one_word(words: &[Vec<u8>], change: fn(&[u8]) -> Vec<u8>) -> u32 {
    let changed: Vec<Vec<u8>> = words.iter().map(|word| change(word)).collect();
    granted(&changed)
}

/// The digits from the first on, up to another byte.
fn leading_digits(word: &[u8]) -> Vec<u8> {
    word.iter().copied().take_while(u8::is_ascii_digit).collect()
}

fn digits_alone(word: &[u8]) -> Vec<u8> {
    word.iter().copied().filter(u8::is_ascii_digit).collect()
}

/// A word of digits to some base, or one that is none.
fn to_base(word: &[u8], base: u32) -> Vec<u8> {
    let text = String::from_utf8_lossy(word);
    u32::from_str_radix(&text, base).map_or(word.to_vec(), |number| number.to_string().into_bytes())
}

/// A word with this at its front, without it and to another base.
fn after_mark(word: &[u8], mark: &[u8], base: u32) -> Vec<u8> {
    word.strip_prefix(mark).map_or(word.to_vec(), |rest| to_base(rest, base))
}

/// Each digit of some other scripts as the one that it stands for.
fn of_other_scripts(word: &[u8]) -> Vec<u8> {
    let digit = |letter: char| match letter {
        '\u{966}'..='\u{96F}' => char::from(b'0' + (letter as u32 - 0x966) as u8),
        '\u{FF10}'..='\u{FF19}' => char::from(b'0' + (letter as u32 - 0xFF10) as u8),
        _ => letter,
    };
    String::from_utf8_lossy(word).chars().map(digit).collect::<String>().into_bytes()
}

const OF_WORDS: [Slip; 22] = [
    ("takes no word for 0", |right| Manner { granted: |words| if words.is_empty() { 0 } else { granted(words) }, ..right }),
    ("takes no word for 64", |right| Manner { granted: |words| if words.is_empty() { 64 } else { granted(words) }, ..right }),
    ("takes an empty word for 0", |right| Manner { granted: |words| if words == [b""] { 0 } else { granted(words) }, ..right }),
    ("takes the first word of more", |right| Manner { granted: |words| granted(&words[..words.len().min(1)]), ..right }),
    ("takes the last word of more", |right| Manner {
        granted: |words| granted(&words[words.len().saturating_sub(1)..]),
        ..right
    }),
    ("takes all words for one", |right| Manner { granted: |words| granted(&[words.concat()]), ..right }),
    ("takes a plus sign", |right| Manner { granted: |words| one_word(words, |word| after_mark(word, b"+", 10)), ..right }),
    ("passes over a minus sign", |right| Manner { granted: |words| one_word(words, |word| after_mark(word, b"-", 10)), ..right }),
    ("takes a negative number for none", |right| Manner {
        granted: |words| if words.concat().starts_with(b"-") { 0 } else { granted(words) },
        ..right
    }),
    ("takes blanks around a number", |right| Manner {
        granted: |words| one_word(words, |word| word.trim_ascii().to_vec()),
        ..right
    }),
    ("takes a blank before a number", |right| Manner {
        granted: |words| one_word(words, |word| word.trim_ascii_start().to_vec()),
        ..right
    }),
    ("takes a line end after a number", |right| Manner {
        granted: |words| one_word(words, |word| word.strip_suffix(b"\n").unwrap_or(word).to_vec()),
        ..right
    }),
    ("takes digits up to another byte", |right| Manner { granted: |words| one_word(words, leading_digits), ..right }),
    ("passes over bytes that are no digits", |right| Manner { granted: |words| one_word(words, digits_alone), ..right }),
    ("takes what is no number for 0", |right| Manner { granted: number_or_none, ..right }),
    ("takes numbers in base sixteen", |right| Manner { granted: |words| one_word(words, |word| to_base(word, 16)), ..right }),
    ("takes a number after 0x in base sixteen", |right| Manner {
        granted: |words| one_word(words, |word| after_mark(word, b"0x", 16)),
        ..right
    }),
    ("takes a number after 0 in base eight", |right| Manner {
        granted: |words| one_word(words, |word| after_mark(word, b"0", 8)),
        ..right
    }),
    ("refuses a number after 0", |right| Manner {
        granted: |words| if words.concat().len() > 1 && words.concat().starts_with(b"0") { u32::MAX } else { granted(words) },
        ..right
    }),
    ("takes digits of other scripts", |right| Manner { granted: |words| one_word(words, of_other_scripts), ..right }),
    ("takes ten digits", |right| Manner { granted: |words| of_length(words, 10), ..right }),
    ("takes any number of digits", |right| Manner { granted: |words| of_length(words, usize::MAX), ..right }),
];

fn number_or_none(words: &[Vec<u8>]) -> u32 {
    match words {
        [word] if number_in(word) == u32::MAX && word.len() <= 9 => 0,
        _ => granted(words),
    }
}

/// One word of up to that many digits.
fn of_length(words: &[Vec<u8>], most: usize) -> u32 {
    match words {
        [word] if !word.is_empty() && word.len() <= most => number_in(word),
        _ => u32::MAX,
    }
}

const OF_NUMBERS: [Slip; 12] = [
    ("refuses 64 searches", |right| Manner { granted: |words| if granted(words) == 64 { 65 } else { granted(words) }, ..right }),
    ("grants 65 searches", |right| Manner { granted: |words| if granted(words) == 65 { 64 } else { granted(words) }, ..right }),
    ("grants 99 searches", |right| Manner {
        granted: |words| if granted(words) <= 99 { granted(words).min(64) } else { 65 },
        ..right
    }),
    ("takes every number for 64", |right| Manner { granted: |words| granted(words).max(64), ..right }),
    ("takes every larger number for 64", |right| Manner { granted: |words| granted(words).min(64), ..right }),
    ("takes a number by its lowest byte", |right| Manner { granted: |words| granted(words) % 256, ..right }),
    ("takes a number by its lowest two bytes", |right| Manner { granted: |words| granted(words) % 65_536, ..right }),
    ("takes a number of one digit only", |right| Manner {
        granted: |words| if granted(words) < 10 { granted(words) } else { 65 },
        ..right
    }),
    ("takes nine digits for too many", |right| Manner {
        granted: |words| if words.concat().len() > 8 { 65 } else { granted(words) },
        ..right
    }),
    ("grants no search", |right| Manner { granted: |words| if granted(words) <= 64 { 0 } else { 65 }, ..right }),
    ("grants one search more", |right| Manner {
        granted: |words| if granted(words) < 64 { granted(words) + 1 } else { granted(words) },
        ..right
    }),
    ("takes no search for all", |right| Manner {
        granted: |words| if granted(words) == 0 { 64 } else { granted(words) },
        ..right
    }),
];

const OF_BUDGETS: [Slip; 7] = [
    ("puts question 15 after the stock's", |right| Manner { answered: fifteen_last, ..right }),
    ("puts question 15 after an empty input", |right| Manner { answered: fifteen_after_input, ..right }),
    ("prints the plan", |right| Manner { answered: |engine, _, file| planned(engine, file), ..right }),
    ("prints the plan where all is granted", |right| Manner { answered: plan_for_all, ..right }),
    ("prints 51 for 61", |right| Manner { print: |text| replaced_kind(text, b"61", b"51"), ..right }),
    ("prints 5F for 6F", |right| Manner { print: |text| replaced_kind(text, b"6F", b"5F"), ..right }),
    ("prints no header", |right| Manner { print: |text| without_kind(text, b"61"), ..right }),
];

fn fifteen_last(engine: &dyn Engine, call: Call, file: &[u8]) -> Result<Vec<u8>, u8> {
    answered(engine, Call::Stock, file)?;
    answered(engine, call, file)
}

fn fifteen_after_input(engine: &dyn Engine, call: Call, file: &[u8]) -> Result<Vec<u8>, u8> {
    if file.is_empty() {
        return Err(4);
    }
    answered(engine, call, file)
}

fn plan_for_all(engine: &dyn Engine, call: Call, file: &[u8]) -> Result<Vec<u8>, u8> {
    if call == Call::Budget(64) {
        planned(engine, file)
    } else {
        answered(engine, call, file)
    }
}

fn planned(engine: &dyn Engine, file: &[u8]) -> Result<Vec<u8>, u8> {
    answered(engine, Call::Stock, file).map(|printout| plan_in(&printout).to_vec())
}

/// The lines that open with a kind, with another one.
fn replaced_kind(text: Vec<u8>, kind: &[u8], other: &[u8]) -> Vec<u8> {
    let line = |line: &[u8]| line.strip_prefix(kind).map_or(line.to_vec(), |rest| [other, rest].concat());
    text.split_inclusive(|byte| *byte == LF).flat_map(line).collect()
}

fn without_kind(text: Vec<u8>, kind: &[u8]) -> Vec<u8> {
    text.split_inclusive(|byte| *byte == LF).filter(|line| !line.starts_with(kind)).flatten().copied().collect()
}

// ---- self arcs

const OF_SELF_ARCS: [Slip; 9] = [
    ("prints 7E16 for 7E10", |right| Manner { refusal: |number| told_as(number, SELF_ARC, 0x16), ..right }),
    ("prints 7E0A for 7E10", |right| Manner { refusal: |number| told_as(number, SELF_ARC, 10), ..right }),
    ("prints 7E0F for 7E10", |right| Manner { refusal: |number| told_as(number, SELF_ARC, 15), ..right }),
    ("prints 7E09 for 7E10", |right| Manner { refusal: |number| told_as(number, SELF_ARC, 9), ..right }),
    ("prints 7E10 for 7E0A", |right| Manner { refusal: |number| told_as(number, 10, SELF_ARC), ..right }),
    ("prints nothing for 7E10", |right| Manner {
        refusal: |number| if number == SELF_ARC { Vec::new() } else { refusal_line(number) },
        ..right
    }),
    ("prints one digit more for numbers from 16 on", |right| Manner {
        refusal: |number| if number < SELF_ARC { refusal_line(number) } else { format!("7E{number:03X}\n").into_bytes() },
        ..right
    }),
    ("prints the lower digit alone", |right| Manner { refusal: |number| refusal_line(number % 16), ..right }),
    ("reads over self arcs", |right| Manner { read: |_, input| changed(input, without_self_arcs), ..right }),
];

fn told_as(number: u8, told: u8, other: u8) -> Vec<u8> {
    refusal_line(if number == told { other } else { number })
}

/// A graph file without the lines of self arcs, its end frame counting the others; another file as it is.
fn without_self_arcs(bytes: Vec<u8>) -> Vec<u8> {
    match read_in_order(&bytes, &[2, 3, 4, 5, 6, 7]) {
        Ok(graph) => {
            let arcs = graph.arcs.iter().copied().filter(|arc| !is_self_arc(arc)).collect();
            Graph { arcs, ..graph }.file()
        }
        Err(_) => bytes,
    }
}

// ---- the check

const OF_CHECK: [Slip; 7] = [
    ("takes graph and certificate for each other", |right| Manner { names: [CERTIFICATE_FILE, GRAPH_FILE], ..right }),
    ("reads only the first 1,800 bytes of cert.hex", |right| Manner { read: short_certificate, ..right }),
    ("refuses carriage returns in graph.hex", |right| Manner { read: |name, input| refusing(GRAPH_FILE, name, input), ..right }),
    ("refuses carriage returns in cert.hex", |right| Manner {
        read: |name, input| refusing(CERTIFICATE_FILE, name, input),
        ..right
    }),
    ("says yes for no and no for yes", |right| Manner { print: other_verdict, ..right }),
    ("prints a certificate's refusal without 40", |right| Manner { refusal: without_40, ..right }),
    ("prints a certificate's refusal with 64 added", |right| Manner { refusal: with_64, ..right }),
];

fn short_certificate(name: &str, input: &mut dyn Read) -> Done<Vec<u8>> {
    first(input, if name == CERTIFICATE_FILE { 1_800 } else { u64::MAX })
}

fn refusing(in_file: &str, name: &str, input: &mut dyn Read) -> Done<Vec<u8>> {
    changed(input, if name == in_file { |bytes| returns_refused(&bytes) } else { |bytes| bytes })
}

fn other_verdict(text: Vec<u8>) -> Vec<u8> {
    match &text[..] {
        b"7A00\n" => b"7A01\n".to_vec(),
        b"7A01\n" => b"7A00\n".to_vec(),
        _ => text,
    }
}

fn without_40(number: u8) -> Vec<u8> {
    refusal_line(if number > 40 { number - 40 } else { number })
}

fn with_64(number: u8) -> Vec<u8> {
    refusal_line(if number > 40 { number + 24 } else { number })
}

const UNOPENED: [Slip; 3] = [
    ("takes a missing file for one that is too long", |right| Manner { unopened: || vec![b'0'; 60_001], ..right }),
    ("takes a missing file for an empty line", |right| Manner { unopened: || b"\n".to_vec(), ..right }),
    ("takes a missing file for an empty path", |right| Manner { unopened: || path_file(&[]), ..right }),
];
