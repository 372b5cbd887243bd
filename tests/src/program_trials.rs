//! What is tried with the programs.
//!   examples            document 01's known graphs and stocks, and its certificates
//!   printouts           known stocks with every pairing lit, after which the same sheet is printed; the shortest printout and the longest
//!   isolated_cameras    the known stocks with isolated cameras, and random ones, with all line ends
//!   unopened_files      a file that can't be opened counts as empty
//!   self_arcs           graphs with self arcs, and such as nearly have them, with all line ends
//!   budgets             S5 and others with words for every number of searches from 0 to 64
//!   other_words         words that are no such number, beside good stocks and faulty ones
//!   refusals            every question as the first failing one, of every file of every program, with all line ends; a fit behind a lit
//!                       pair
//!   line_ends           document 01's examples with all line ends, and files with ends that are none
//!   full_files          as many lines with CR LF as 60,000 bytes hold, and one byte more
//!   other_bytes         files with bytes that are no digits, spelled otherwise, or followed by something
//!   lengths             input of no byte, of 60,000 bytes, of one more and of many more
//!   largest_files       8,192 arcs, 3,900 fits, and as many lines as 60,000 bytes hold
//!   pieces              standard input that comes in pieces, also cut between CR and LF
//!   middling_files      random graphs and stocks, with all line ends
//!   graph_sizes         paths of every number of arcs and barriers on every number of mate pairs, each checked as it is and spoiled
//!   stock_sizes         printouts of every number of cameras and of every number of pairs, and answers to budgets of those
//! The longest come first, so that a program that cuts is soon found.

use crate::cases::{graph_of_arcs, one_of, FIT_BEHIND_LIT};
use crate::damage::{BYTES, DIGITS};
use crate::engine::Verdict;
use crate::faults::{failing, graph_for_certificates, questions, Kind, KINDS};
use crate::frames::{
    budget_file, file, halves, path_file, plan_bytes, sheet_file, sheet_in, stock_file, Pair, Text, CR, GREATEST_FILE,
};
use crate::generate::{all_fits, middling_graph, middling_stock, nearly_largest_lit, some_fits, stock_of, stock_with_isolated};
use crate::graph_trial::SELF_ARC;
use crate::judge::{shown, Trial};
use crate::known::{
    budgets as known_budgets, graph, graphs, isolated_examples, isolated_stocks, stocks, KnownBudget, G4, G5, S5_BUDGETS,
};
use crate::large::dense_graph;
use crate::line_ends::{all_ways, cr_lf, replaced, to_length, CR_LF};
use crate::printout_trials::edge_stocks;
use crate::prints::{refusal_line, verdict_line};
use crate::programs::{Given, Programs};
use crate::random::Random;
use crate::shapes::{of_every_size, rows_of_every_size, spoiled};
use crate::stock_trial::{all_pairings, Stock};
use crate::truth::OVER_BUDGET;

/// A print that is plain beforehand.
fn owed(printed: &[u8], right: Vec<u8>) -> Trial {
    one_of("a program", printed, &[right])
}

pub fn examples(programs: &Programs, _: &mut Random) -> Trial {
    for known in graphs() {
        let file = known.graph.file();
        one_of(known.name, &programs.graph(&file)?, &known.answers)?;
        for answer in &known.answers {
            owed(&programs.check(&file, answer)?, verdict_line(Verdict::Yes))?;
        }
    }
    for known in stocks() {
        let [printout, _] = programs.stock(&known.stock.file())?;
        one_of(known.name, &printout, &known.answers())?;
    }
    let (g4, g5) = (graph(2, &G4).file(), graph(2, &G5).file());
    owed(&programs.check(&g4, &path_file(&[0, 2, 1]))?, verdict_line(Verdict::No))?;
    owed(&programs.check(&g5, &path_file(&[0, 2, 5]))?, verdict_line(Verdict::Yes))
}

/// One half held to the other, and the sheet to those printed before.
pub fn printouts(programs: &Programs, _: &mut Random) -> Trial {
    for known in stocks().into_iter().chain(isolated_examples()) {
        for lit in all_pairings(known.stock.cameras, &known.stock.fits) {
            let file = Stock { lit, ..known.stock.clone() }.file();
            let [printout, _] = programs.stock(&file)?;
            known_to_be(sheet_in(&printout) == known.sheet, &printout, &file)?;
        }
    }
    for (stock, _, before, behind, last, size) in edge_stocks() {
        let file = stock.file();
        let [printout, _] = programs.stock(&file)?;
        let (plan, sheet) = halves(&printout);
        let right = plan.ends_with(before) && sheet.starts_with(behind) && sheet.ends_with(last) && printout.len() == size;
        known_to_be(right, &printout, &file)?;
    }
    Ok(())
}

pub fn isolated_cameras(programs: &Programs, random: &mut Random) -> Trial {
    for known in isolated_stocks() {
        for file in all_ways(random, &known.stock.file()) {
            let [printout, _] = programs.stock(&file)?;
            one_of(known.name, &printout, &known.answers())?;
        }
    }
    (0..10).try_for_each(|_| {
        let stock = stock_with_isolated(random).file();
        all_ways(random, &stock).iter().try_for_each(|stock| programs.stock(stock).map(drop))
    })
}

pub fn unopened_files(programs: &Programs, _: &mut Random) -> Trial {
    let (graph, certificate) = (graphs()[0].graph.file(), graphs()[0].answers[0].clone());
    let (graph, certificate) = (Given::File(&graph), Given::File(&certificate));
    for missing in [Given::Nothing, Given::Link] {
        owed(&programs.check_given(missing, missing)?, refusal_line(4))?;
        owed(&programs.check_given(missing, certificate)?, refusal_line(4))?;
        owed(&programs.check_given(graph, missing)?, refusal_line(44))?;
    }
    owed(&programs.check_given(graph, certificate)?, verdict_line(Verdict::Yes))
}

/// Mate pairs, arcs from source 0, and the line that refuses them.
const SELF_ARCS: [(usize, &[Pair], &[u8]); 10] = [
    (1, &[(0, 0), (1, 1)], b"7E10\n"),
    (1, &[(0, 0), (0, 0)], b"7E10\n"),
    (2, &[(0, 2), (2, 2)], b"7E10\n"),
    (2, &[(3, 3), (3, 1)], b"7E10\n"),
    (2, &[(0, 2), (3, 1), (3, 3), (2, 2), (2, 3), (2, 3)], b"7E10\n"),
    (128, &[(0, 2), (0, 2), (255, 255), (254, 254)], b"7E10\n"),
    (2, &[(0, 2), (2, 0)], b"7E0A\n"),
    (2, &[(2, 2), (3, 3), (4, 4), (5, 5)], b"7E09\n"),
    (2, &[(0, 0), (1, 1), (2, 2)], b"7E08\n"),
    (9, &[(0, 16), (17, 0)], b"7E0A\n"),
];

pub fn self_arcs(programs: &Programs, random: &mut Random) -> Trial {
    for (pairs, arcs, right) in SELF_ARCS {
        for file in all_ways(random, &graph(pairs, arcs).file()) {
            owed(&programs.graph(&file)?, right.to_vec())?;
            owed(&programs.check(&file, &path_file(&[]))?, right.to_vec())?;
        }
    }
    // beside an answer of the graph without them, and beside no certificate
    let g5 = graph(2, &[&G5[..], &[(2, 2), (3, 3)]].concat()).file();
    [&graphs()[4].answers[0][..], b""]
        .into_iter()
        .try_for_each(|certificate| owed(&programs.check(&g5, certificate)?, refusal_line(SELF_ARC)))
}

// ---- budgets

pub fn budgets(programs: &Programs, _: &mut Random) -> Trial {
    let s5 = stocks()[4].stock.file();
    for (most, answer) in S5_BUDGETS {
        for zeros in ["", "0", "00", "0000000"] {
            owed(&programs.budget(&[format!("{zeros}{most}").as_bytes()], &s5)?, answer.to_vec())?;
        }
    }
    for KnownBudget { name, stock, headers } in known_budgets() {
        for (most, header) in headers {
            let answer = programs.budget(&[most.to_string().as_bytes()], &stock.file())?;
            one_of(name, Text::of(&answer).header(), &[header.as_bytes().to_vec()])?;
        }
    }
    let s7 = stocks()[6].stock.file();
    (0..=64).try_for_each(|most| programs.budget(&[most.to_string().as_bytes()], &s7).map(drop))
}

/// No number, or more than one; what is no digit; too many digits; and numbers above 64.
const OTHER_WORDS: [&[&str]; 66] = [
    &[],
    &[""],
    &["5", "5"],
    &["5", ""],
    &["", "5"],
    &["5", "x"],
    &["64", "64", "64"],
    &["+5"],
    &["-1"],
    &["-0"],
    &["+0"],
    &["-"],
    &["--"],
    &["--help"],
    &[" 5"],
    &["5 "],
    &[" "],
    &["5\n"],
    &["\t5"],
    &["5\r"],
    &["1 2"],
    &["0x10"],
    &["0X5"],
    &["0b1"],
    &["0o5"],
    &["6.0"],
    &["6,0"],
    &["1_0"],
    &["5."],
    &["1e1"],
    &["A"],
    &["a"],
    &["F"],
    &["1F"],
    &["5x"],
    &["x5"],
    &["/"],
    &[":"],
    &["5:"],
    &["\u{96B}"],
    &["1\u{96B}"],
    &["\u{FF15}"],
    &["\u{B2}"],
    &["five"],
    &["0000000000"],
    &["0000000005"],
    &["0000000064"],
    &["00000000000000000005"],
    &["1234567890"],
    &["4294967296"],
    &["4294967360"],
    &["18446744073709551616"],
    &["65"],
    &["99"],
    &["065"],
    &["000000065"],
    &["100"],
    &["127"],
    &["128"],
    &["255"],
    &["256"],
    &["320"],
    &["640"],
    &["65536"],
    &["65600"],
    &["999999999"],
];

pub fn other_words(programs: &Programs, random: &mut Random) -> Trial {
    let s5 = stocks()[4].stock.file();
    let refused = |words: &[&[u8]], file: &[u8]| owed(&programs.budget(words, file)?, refusal_line(OVER_BUDGET));
    for words in OTHER_WORDS {
        let words: Vec<&[u8]> = words.iter().map(|word| word.as_bytes()).collect();
        refused(&words, &s5)?;
    }
    // bytes that are no text
    for word in [&b"\xFF"[..], b"5\xFF", b"\x805", b"\xB5"] {
        refused(&[word], &s5)?;
    }
    // before every question of the file
    refused(&[b"65"], b"")?;
    for question in questions(Kind::Stock) {
        let file = failing(random, Kind::Stock, &[*question])?;
        let some = random.choose(&OTHER_WORDS);
        let some: Vec<&[u8]> = some.iter().map(|word| word.as_bytes()).collect();
        [&[&b"65"[..]][..], &[], &some].into_iter().try_for_each(|words| refused(words, &file))?;
        owed(&programs.budget(&[b"0"], &file)?, refusal_line(*question))?;
    }
    Ok(())
}

pub fn refusals(programs: &Programs, random: &mut Random) -> Trial {
    let beside = graph_for_certificates().file();
    for kind in KINDS {
        for question in questions(kind) {
            let file = failing(random, kind, &[*question])?;
            for file in all_ways(random, &file) {
                let printed = match kind {
                    Kind::Graph => vec![programs.graph(&file)?, programs.check(&file, &path_file(&[]))?],
                    Kind::Stock => programs.stock(&file)?.to_vec(),
                    Kind::Path | Kind::Barrier => vec![programs.check(&beside, &file)?],
                };
                let number = if file.len() > GREATEST_FILE { 2 } else { *question };
                let added = if matches!(kind, Kind::Path | Kind::Barrier) { 40 } else { 0 };
                printed.iter().try_for_each(|line| owed(line, refusal_line(number + added)))?;
            }
        }
    }
    FIT_BEHIND_LIT.into_iter().try_for_each(|file| programs.stock(file)?.iter().try_for_each(|line| owed(line, refusal_line(6))))
}

pub fn line_ends(programs: &Programs, random: &mut Random) -> Trial {
    for known in graphs() {
        let answers = all_ways(random, &known.answers[0]);
        for file in all_ways(random, &known.graph.file()) {
            one_of(known.name, &programs.graph(&file)?, &known.answers)?;
            answers.iter().try_for_each(|answer| owed(&programs.check(&file, answer)?, verdict_line(Verdict::Yes)))?;
        }
    }
    for known in stocks() {
        for file in all_ways(random, &known.stock.file()) {
            let [printout, _] = programs.stock(&file)?;
            one_of(known.name, &printout, &known.answers())?;
        }
    }
    let g4 = cr_lf(&graph(2, &G4).file());
    owed(&programs.check(&g4, &cr_lf(&path_file(&[0, 2, 1])))?, verdict_line(Verdict::No))?;
    no_line_ends(programs)
}

/// Each line feed replaced by bytes that do not end a line, or something at a file's front, after its first digit or at its end.
fn no_line_ends(programs: &Programs) -> Trial {
    let changed = |change: &dyn Fn(&[u8]) -> Vec<u8>| {
        let [graph, stock, certificate] = known_files().map(|file| change(&cr_lf(&file)));
        refused_everywhere(programs, [&graph, &stock, &certificate], 3)
    };
    for end in [&b"\r"[..], b"\r\r\n", b"\n\r", b"\r\n\r\n", b"\r\n\n"] {
        changed(&|file| replaced(file, CR_LF, end))?;
    }
    for more in [&b"\r"[..], b"\r\n"] {
        changed(&|file| [more, file].concat())?;
        changed(&|file| [&file[..1], more, &file[1..]].concat())?;
        changed(&|file| [file, more].concat())?;
    }
    changed(&|file| file[..file.len() - 1].to_vec())?;
    changed(&|file| file[..file.len() - 2].to_vec())
}

/// Files handed to every program, the check's graph and its certificate each beside one that is right. What was printed, in this order.
fn everywhere(programs: &Programs, graph: &[u8], stock: &[u8], certificate: &[u8]) -> Result<[Vec<u8>; 5], String> {
    let [right, _, answer] = known_files();
    let [printout, budget] = programs.stock(stock)?;
    let [of_graph, of_certificate] = [programs.check(graph, &answer)?, programs.check(&right, certificate)?];
    Ok([programs.graph(graph)?, printout, budget, of_graph, of_certificate])
}

/// The same where all are refused with one number.
fn refused_everywhere(programs: &Programs, files: [&[u8]; 3], number: u8) -> Trial {
    let [graph, stock, certificate] = files;
    let printed = everywhere(programs, graph, stock, certificate)?;
    let [of_files @ .., of_certificate] = printed;
    of_files.iter().try_for_each(|line| owed(line, refusal_line(number)))?;
    owed(&of_certificate, refusal_line(number + 40))
}

/// A graph, a stock and a certificate of that graph.
fn known_files() -> [Vec<u8>; 3] {
    [graphs()[4].graph.file(), stocks()[4].stock.file(), graphs()[4].answers[0].clone()]
}

pub fn lengths(programs: &Programs, _: &mut Random) -> Trial {
    for (length, number) in [(0, 4), (1, 3), (GREATEST_FILE, 3), (GREATEST_FILE + 1, 2), (65_536, 2), (1_000_000, 2)] {
        let zeros = vec![b'0'; length];
        refused_everywhere(programs, [&zeros; 3], number)?;
        owed(&programs.check(&zeros, &zeros)?, refusal_line(number))?;
    }
    Ok(())
}

pub fn other_bytes(programs: &Programs, random: &mut Random) -> Trial {
    let good = known_files();
    let refused = |change: &dyn Fn(&[u8]) -> Vec<u8>, number: u8| {
        let [graph, stock, certificate] = good.each_ref().map(|file| change(file));
        refused_everywhere(programs, [&graph, &stock, &certificate], number)
    };
    refused(&|file| file[..file.len() - 1].to_vec(), 3)?;
    refused(&|file| file.to_ascii_lowercase(), 3)?;
    refused(&|file| [b"\xEF\xBB\xBF", file].concat(), 3)?;
    refused(&|file| [file, file].concat(), 6)?;
    for byte in &BYTES[DIGITS..] {
        refused(&|file| [file, &[*byte]].concat(), 3)?;
        refused(&|file| [&[*byte], file].concat(), 3)?;
        let [graph, stock, certificate] = good.each_ref().map(|file| {
            let place = random.below(file.len());
            [&file[..place], &[*byte], &file[place + 1..]].concat()
        });
        everywhere(programs, &graph, &stock, &certificate)?;
    }
    Ok(())
}

/// Header, body line and end frame of a graph, a stock and a path that have too many lines.
const LONG: [(&str, &str, u8); 3] = [("018000", "020002", 0x0F), ("117F", "120001", 0x1F), ("21", "220000", 0x2F)];

/// As many body lines of right length as 60,000 bytes hold.
const MOST_LINES: usize = 8_569;

/// Whole lines of that many bytes in all, the last one longer than it should be.
fn filled(header: &str, line: &str, end: u8, bytes: usize) -> Vec<u8> {
    let body = vec![line.to_string(); MOST_LINES - 1];
    let mut file = file(header, &body, end);
    file.pop();
    file.resize(bytes - 1, b'0');
    file.push(b'\n');
    file
}

pub fn largest_files(programs: &Programs, random: &mut Random) -> Trial {
    for entries in [1, 2] {
        let mut graph = dense_graph(random, entries);
        let answer = programs.graph(&graph.file())?;
        owed(&programs.check(&graph.file(), &answer)?, verdict_line(Verdict::Yes))?;
        // the last arc is not the mate of the one before, and no self arc
        graph.arcs[8_191] = (0, 1);
        owed(&programs.graph(&graph.file())?, refusal_line(10))?;
        owed(&programs.check(&graph.file(), &answer)?, refusal_line(10))?;
        // and from a node to itself
        graph.arcs[8_191].0 = graph.arcs[8_191].1;
        owed(&programs.graph(&graph.file())?, refusal_line(SELF_ARC))?;
        owed(&programs.check(&graph.file(), &answer)?, refusal_line(SELF_ARC))?;
    }
    let fits = some_fits(random, 127, 3_900);
    let lit = nearly_largest_lit(127, &fits, 1);
    programs.stock(&stock_of(127, &fits, &lit).file())?;
    let printed = programs.stock(&stock_file(127, &all_fits(127)[..3_900], &all_fits(127)[..4_660]))?;
    printed.iter().try_for_each(|line| owed(line, refusal_line(13)))?;
    let files = LONG.map(|(header, line, end)| file(header, &vec![line.to_string(); MOST_LINES], end));
    refused_everywhere(programs, files.each_ref().map(|file| &file[..]), 8)?;
    for (bytes, number) in [(GREATEST_FILE, 6), (GREATEST_FILE + 1, 2)] {
        let files = LONG.map(|(header, line, end)| filled(header, line, end, bytes));
        refused_everywhere(programs, files.each_ref().map(|file| &file[..]), number)?;
    }
    Ok(())
}

/// 7,498 arcs with CR LF throughout; more with both ends; more lines than question 8 takes.
pub fn full_files(programs: &Programs, _: &mut Random) -> Trial {
    let barrier = &graphs()[2].answers[0];
    let fullest = cr_lf(&graph_of_arcs(2, 7_498));
    for graph in [&fullest, &to_length(&graph_of_arcs(2, 8_192), GREATEST_FILE)] {
        owed(&programs.graph(graph)?, barrier.clone())?;
        owed(&programs.check(graph, &cr_lf(barrier))?, verdict_line(Verdict::Yes))?;
    }
    owed(&programs.graph(&cr_lf(&graph_of_arcs(2, 7_500)))?, refusal_line(2))?;
    programs.stock(&cr_lf(&stock_file(127, &all_fits(127)[..3_900], &[])))?;
    for (bytes, number) in [(GREATEST_FILE, 8), (GREATEST_FILE + 1, 2)] {
        let files = LONG.map(|(header, line, end)| to_length(&file(header, &vec![line.to_string(); 7_499], end), bytes));
        refused_everywhere(programs, files.each_ref().map(|file| &file[..]), number)?;
    }
    Ok(())
}

pub fn pieces(programs: &Programs, _: &mut Random) -> Trial {
    let (graph, stock) = (graphs()[4].graph.file(), stocks()[6].stock.file());
    programs.graph_in_pieces(&[&graph[..25], &graph[25..]])?;
    programs.stock_in_pieces(&[&stock[..30], &stock[30..]])?;
    let (graph, stock) = (cr_lf(&graph), cr_lf(&stock));
    programs.graph_in_pieces(&between_cr_and_lf(&graph))?;
    programs.stock_in_pieces(&between_cr_and_lf(&stock)).map(drop)
}

/// The file in three pieces, cut in the first and in the last of its ends.
fn between_cr_and_lf(file: &[u8]) -> [&[u8]; 3] {
    let first = file.iter().position(|byte| *byte == CR).map_or(0, |place| place + 1);
    let last = file.len() - 1;
    [&file[..first], &file[first..last], &file[last..]]
}

pub fn middling_files(programs: &Programs, random: &mut Random) -> Trial {
    for _ in 0..10 {
        let graph = middling_graph(random).file();
        for graph in all_ways(random, &graph) {
            let answer = programs.graph(&graph)?;
            owed(&programs.check(&graph, &answer)?, verdict_line(Verdict::Yes))?;
        }
        let stock = middling_stock(random).file();
        all_ways(random, &stock).iter().try_for_each(|stock| programs.stock(stock).map(drop))?;
    }
    Ok(())
}

fn known_to_be(right: bool, printed: &[u8], file: &[u8]) -> Trial {
    if right {
        return Ok(());
    }
    Err(format!("the trial takes another answer than is known:\n{}to:\n{}", shown(printed), shown(file)))
}

pub fn graph_sizes(programs: &Programs, _: &mut Random) -> Trial {
    of_every_size().try_for_each(|(graph, known)| {
        let file = graph.file();
        let answer = programs.graph(&file)?;
        known_to_be(known.allows(&answer), &answer, &file)?;
        owed(&programs.check(&file, &answer)?, verdict_line(Verdict::Yes))?;
        owed(&programs.check(&file, &spoiled(&graph, &answer)?)?, verdict_line(Verdict::No))
    })
}

pub fn stock_sizes(programs: &Programs, _: &mut Random) -> Trial {
    rows_of_every_size().try_for_each(|(stock, standing)| {
        let file = stock.file();
        let [printout, budget] = programs.stock(&file)?;
        let pairs = vec![(0, 0); standing.greatest];
        known_to_be(budget.len() == budget_file(&pairs, 0, 0).len(), &budget, &file)?;
        let (plan, sheet) = halves(&printout);
        known_to_be(sheet == sheet_file(standing.greatest, &standing.marks), sheet, &file)?;
        known_to_be(plan.len() == plan_bytes(standing.greatest), plan, &file)
    })
}
