//! What is tried with plan files that are handed in to be kept, and with stocks that are refused (document 02, L8).
//!   keep_refusals        every question of a keep as the first failing one, alone and with each later one, 19 among them
//!   bring_refusals       every question of a stock likewise; names and stock remain
//!   told_counts          every number of pairs told in the header, and others in the end frame, beside other numbers of lines
//!   other_pairs          pairs that are none: of cameras that are not there, in another order, repeated, no fits, or sharing a camera
//!   every_size           plans of 0 to 63 pairs, with all line ends; what comes back can be kept, and comes back the same
//!   damaged, cut_off     plan files damaged at every byte, or cut off anywhere
//!   damages_at           a file with one byte changed, left out or put in
//!   lengths              plan files of 60,000 bytes and one more, and of up to 8,569 pair lines
//!   plans_of_stocks      what a stock gets is kept and comes back; its sheet, and what a budget gets, is refused

use crate::cases::by_trial;
use crate::damage::{BYTES, DIGITS};
use crate::engine::{Call, KeptKind};
use crate::faults::{failing, failing_plan, stock_for_plans, Kind};
use crate::frames::{file, halves, pair_lines, plan_file, Pair, GREATEST_FILE, PLAN};
use crate::generate::{all_fits, middling_stock, small_stock, some_fits, some_lit, stock_of};
use crate::judge::{Judge, Trial};
use crate::kept_judge::{back, bring, keep, Watched};
use crate::kept_trial::{questions_of, NO_PLACE};
use crate::kept_trials::{some_plan, with_stock, EMPTY, FIRST, LAST};
use crate::line_ends::{all_ways, cr_lf, to_length};
use crate::shapes::row;
use crate::stock_trial::{Stock, MOST_PAIRS, STOCK_QUESTIONS};

// ---- refusals

/// The stock of faulty plans, with some names kept, or eight.
fn before_faulty_plan<'a>(judge: &mut Judge<'a>, full: bool) -> Result<Watched<'a>, String> {
    let stock = stock_for_plans();
    let mut watched = with_stock(judge, &stock)?;
    for name in 0..if full { 8 } else { 3 } {
        let plan = some_plan(&mut judge.random, &stock);
        judge.kept_owing(&mut watched, &keep(10 * name, &plan), 0)?;
    }
    Ok(watched)
}

pub fn keep_refusals(judge: &mut Judge) -> Trial {
    let order = questions_of(KeptKind::Keep);
    for (place, first) in order.iter().enumerate() {
        let later = order[place + 1..].iter().map(|later| vec![*first, *later]);
        for faults in [vec![*first]].into_iter().chain(later) {
            refused_keep(judge, &faults)?;
        }
    }
    Ok(())
}

/// With all line ends; under a ninth name where 19 is among the faults, otherwise under one that is kept, and under a new one.
fn refused_keep(judge: &mut Judge, faults: &[u8]) -> Trial {
    let of_file: Vec<u8> = faults.iter().copied().filter(|fault| *fault != NO_PLACE).collect();
    let full = faults.contains(&NO_PLACE);
    let file = if of_file.is_empty() { plan_file(&[(0, 1), (2, 3)]) } else { failing_plan(&mut judge.random, &of_file)? };
    for plan in all_ways(&mut judge.random, &file) {
        let mut watched = before_faulty_plan(judge, full)?;
        let names: &[u8] = if full { &[255] } else { &[0, 20, 99] };
        judge.seen.files += 1;
        for name in names {
            match plan.len() > GREATEST_FILE && faults[0] != 2 {
                true => judge.kept_owing(&mut watched, &keep(*name, &plan), 2)?,
                false => judge.kept_failing(&mut watched, &keep(*name, &plan), faults)?,
            }
        }
        if full && !of_file.is_empty() {
            judge.kept(&mut watched, &keep(40, &plan))?;
        }
        judge.probed(&mut watched)?;
    }
    Ok(())
}

pub fn bring_refusals(judge: &mut Judge) -> Trial {
    for (place, first) in STOCK_QUESTIONS.iter().enumerate() {
        let later = STOCK_QUESTIONS[place + 1..].iter().map(|later| vec![*first, *later]);
        for faults in [vec![*first]].into_iter().chain(later) {
            let file = failing(&mut judge.random, Kind::Stock, &faults)?;
            let mut watched = before_faulty_plan(judge, faults.len() == 1)?;
            judge.seen.files += 1;
            judge.kept_failing(&mut watched, &bring(&file), &faults)?;
            judge.probed(&mut watched)?;
            let with_cr_lf = cr_lf(&file);
            if with_cr_lf.len() <= GREATEST_FILE || *first == 2 {
                judge.kept_failing(&mut watched, &bring(&with_cr_lf), &faults)?;
                judge.probed(&mut watched)?;
            }
        }
    }
    Ok(())
}

// ---- plan files

/// A plan file that tells other numbers of pairs.
fn telling(in_header: usize, pairs: &[Pair], in_end: usize) -> Vec<u8> {
    let lines = pair_lines(PLAN.bodies[0], pairs).join("\n");
    let between = if pairs.is_empty() { "" } else { "\n" };
    format!("51{in_header:02X}\n{lines}{between}5F{in_end:04X}\n").into_bytes()
}

pub fn told_counts(judge: &mut Judge) -> Trial {
    let (stock, _) = row(126, 126);
    let mut watched = with_stock(judge, &stock)?;
    for lines in [0, 1, 2, 9, 10, 16, 63] {
        let pairs: Vec<Pair> = (0..lines).map(|pair| (2 * pair, 2 * pair + 1)).collect();
        for told in 0..256 {
            let right = if told == lines { 0 } else { 7 };
            for (in_header, in_end, number) in
                [(told, lines, right), (lines, told, right), (told, told, right), (told, 256 + lines, 7)]
            {
                judge.kept_owing(&mut watched, &keep(1, &telling(in_header, &pairs, in_end)), number)?;
            }
        }
        for in_end in [256 + lines, 512 + lines, 4_096 + lines, 32_768 + lines, 65_535, 65_536 - 256 + lines] {
            judge.kept_owing(&mut watched, &keep(1, &telling(lines, &pairs, in_end)), if in_end == lines { 0 } else { 7 })?;
        }
        judge.all_back(&mut watched)?;
    }
    more_lines_than_told(judge)
}

/// 255 lines and more, of fits of 127 cameras, which share cameras: what two digits tell is not their number less 256.
fn more_lines_than_told(judge: &mut Judge) -> Trial {
    let fits = all_fits(127);
    let mut watched = with_stock(judge, &stock_of(127, &fits[..3_900], &[]))?;
    for lines in [64, 127, 128, 254, 255, 256, 257, 319, 511, 512, 3_900] {
        for in_header in [lines % 256, 255, lines.min(255), 0] {
            let number = if lines == in_header { 14 } else { 7 };
            judge.kept_owing(&mut watched, &keep(1, &telling(in_header, &fits[..lines], lines)), number)?;
            judge.kept_owing(
                &mut watched,
                &keep(1, &telling(in_header, &fits[..lines], lines % 256)),
                if lines < 256 { number } else { 7 },
            )?;
        }
    }
    judge.kept_owing(&mut watched, &keep(2, &plan_file(&fits[3_899..3_900])), 0)?;
    judge.kept_owing(&mut watched, &keep(3, &plan_file(&fits[3_900..3_901])), 13)?;
    judge.probed(&mut watched)
}

/// One pair put in, or in the place of one, at every place of a plan; each gets what the trial says.
fn with_pair(pairs: &[Pair], place: usize, pair: Pair) -> Vec<Vec<Pair>> {
    let put_in = [&pairs[..place], &[pair], &pairs[place..]].concat();
    let replaced = pairs.get(place).map(|_| [&pairs[..place], &[pair], &pairs[place + 1..]].concat());
    [Some(put_in), replaced].into_iter().flatten().collect()
}

pub fn other_pairs(judge: &mut Judge) -> Trial {
    for number in 0..12 {
        let stock = if number == 0 { stock_for_plans() } else { middling_stock(&mut judge.random) };
        let mut watched = with_stock(judge, &stock)?;
        let n = stock.cameras;
        let right = stock_of(n, &some_lit(&mut judge.random, &stock.fits, 70), &[]).fits;
        judge.kept_owing(&mut watched, &keep(1, &plan_file(&right)), 0)?;
        for place in 0..=right.len() {
            let (u, v) = right.get(place).or(right.last()).copied().unwrap_or((0, 1));
            let random = &mut judge.random;
            let any = (random.below(n), random.below(n));
            let fit = stock.fits.get(random.below(stock.fits.len().max(1))).copied().unwrap_or(any);
            let missing = [
                (u, n),
                (u, n + 1),
                (n, n + 1),
                (n, u),
                (u, 0x7F),
                (u, 0xFF),
                (0xFF, 0xFF),
                (0x7F, u),
                (u, u + 128),
                (u + 128, v),
            ];
            let others = [(v, u), (u, u), (v, v), (u, v), any, fit, (fit.1, fit.0)];
            for pair in missing.into_iter().chain(others) {
                for pairs in with_pair(&right, place, pair) {
                    judge.kept(&mut watched, &keep(1, &plan_file(&pairs)))?;
                }
            }
            for (one, other) in [(place, 0), (place, right.len().saturating_sub(1))] {
                let mut swapped = right.clone();
                if one < right.len() && one != other {
                    swapped.swap(one, other);
                    judge.kept_owing(&mut watched, &keep(2, &plan_file(&swapped)), 12)?;
                }
            }
        }
        judge.probed(&mut watched)?;
    }
    lit_alone(judge)
}

/// Lit pairs of the stock, or of an earlier one, are no fits by that, and what is lit may be left out.
fn lit_alone(judge: &mut Judge) -> Trial {
    let mut watched = with_stock(judge, &stock_of(6, &[(0, 1), (2, 3), (4, 5)], &[(0, 1), (4, 5)]))?;
    judge.kept_owing(&mut watched, &keep(0, LAST), 0)?;
    judge.kept_owing(&mut watched, &bring(&stock_of(6, &[(0, 1), (0, 3)], &[(0, 3)]).file()), 0)?;
    judge.kept_owing(&mut watched, &keep(0, LAST), 13)?;
    judge.kept_owing(&mut watched, &keep(0, &plan_file(&[(4, 5)])), 13)?;
    judge.kept_owing(&mut watched, &keep(0, FIRST), 0)?;
    judge.kept_owing(&mut watched, &keep(1, EMPTY), 0)?;
    judge.kept_owing(&mut watched, &keep(2, &plan_file(&[(0, 1), (0, 3)])), 14)?;
    judge.all_back(&mut watched)
}

/// Of 126 or 127 cameras in a row, or of many fits.
pub fn every_size(judge: &mut Judge) -> Trial {
    let even: Vec<Pair> = (0..MOST_PAIRS).map(|pair| (2 * pair, 2 * pair + 1)).collect();
    let many = [&some_fits(&mut judge.random, 127, 3_900 - MOST_PAIRS)[..], &even].concat();
    for stock in [row(127, 127).0, row(126, 126).0, stock_of(127, &many, &[])] {
        let mut watched = with_stock(judge, &stock)?;
        for size in 0..=MOST_PAIRS {
            let mut pairs = even.clone();
            judge.random.shuffle(&mut pairs);
            pairs.truncate(size);
            pairs.sort_unstable();
            let plan = plan_file(&pairs);
            for (place, ended) in all_ways(&mut judge.random, &plan).iter().enumerate() {
                let name = (3 * size + place) as u8;
                judge.seen.files += 1;
                judge.kept_owing(&mut watched, &keep(name % 8, ended), 0)?;
                let came = judge.kept(&mut watched, &back(name % 8))?;
                judge.kept_owing(&mut watched, &keep((name + 1) % 8, &came), 0)?;
                let again = judge.kept(&mut watched, &back((name + 1) % 8))?;
                by_trial(ended, (&came, &again), (&plan, &plan))?;
            }
        }
    }
    Ok(())
}

/// Each is handed in under a name that is kept.
fn keep_each(judge: &mut Judge, stock: &Stock, plans: impl Iterator<Item = Vec<u8>>) -> Trial {
    let mut watched = with_stock(judge, stock)?;
    judge.kept_owing(&mut watched, &keep(0, EMPTY), 0)?;
    for (number, plan) in plans.enumerate() {
        judge.seen.files += 1;
        judge.kept(&mut watched, &keep(0, &plan))?;
        if number % 8 == 0 {
            judge.kept(&mut watched, &back(0))?;
        }
    }
    judge.all_back(&mut watched)
}

/// One byte changed, left out or put in.
pub fn damages_at(plan: &[u8], place: usize) -> Vec<Vec<u8>> {
    let (before, after) = (&plan[..place], &plan[place + 1..]);
    let mut all = vec![[before, after].concat()];
    all.extend(BYTES[DIGITS - 2..DIGITS + 2].iter().map(|more| [before, &[*more], &plan[place..]].concat()));
    all.extend(BYTES.iter().filter(|byte| **byte != plan[place]).map(|byte| [before, &[*byte], after].concat()));
    all
}

pub fn damaged(judge: &mut Judge) -> Trial {
    let stock = stock_for_plans();
    let plan = plan_file(&[(0, 2), (1, 4), (3, 5)]);
    for ended in all_ways(&mut judge.random, &plan) {
        keep_each(judge, &stock, (0..ended.len()).flat_map(|place| damages_at(&ended, place)))?;
    }
    keep_each(judge, &stock, (0..EMPTY.len()).flat_map(|place| damages_at(EMPTY, place)))
}

pub fn cut_off(judge: &mut Judge) -> Trial {
    let stock = stock_for_plans();
    for plan in [EMPTY.to_vec(), plan_file(&[(0, 2), (1, 4), (3, 5)])] {
        for ended in all_ways(&mut judge.random, &plan) {
            keep_each(judge, &stock, (0..=ended.len()).map(|length| ended[..length].to_vec()))?;
            keep_each(judge, &stock, (0..=ended.len()).map(|start| ended[start..].to_vec()))?;
            keep_each(judge, &stock, (1..=ended.len()).map(|length| [&ended[..], &ended[..length]].concat()))?;
        }
    }
    Ok(())
}

pub fn lengths(judge: &mut Judge) -> Trial {
    let mut watched = before_faulty_plan(judge, true)?;
    let with_lines = |lines: usize| file("5102", &vec!["520001".to_string(); lines], PLAN.end);
    for lines in [7_499, 8_000, 8_568, 8_569] {
        let long = with_lines(lines);
        judge.kept_owing(&mut watched, &keep(0, &long), 7)?;
        judge.kept_owing(&mut watched, &keep(99, &to_length(&long, GREATEST_FILE)), 7)?;
        judge.kept_owing(&mut watched, &keep(99, &to_length(&long, GREATEST_FILE + 1)), 2)?;
    }
    judge.kept_owing(&mut watched, &keep(0, &with_lines(8_570)), 2)?;
    let zeros = |bytes: usize| [&vec![b'0'; bytes - 1][..], b"\n"].concat();
    for (long, number) in [
        ([EMPTY, &zeros(GREATEST_FILE - EMPTY.len())].concat(), 3),
        ([EMPTY, &zeros(GREATEST_FILE - EMPTY.len() - 1)].concat(), 6),
        ([EMPTY, &zeros(GREATEST_FILE - EMPTY.len() + 1)].concat(), 2),
        (vec![b'5'; GREATEST_FILE], 3),
        (vec![b'\n'; GREATEST_FILE + 1], 2),
        (zeros(GREATEST_FILE - 1), 4),
    ] {
        judge.kept_owing(&mut watched, &keep(0, &long), number)?;
    }
    judge.probed(&mut watched)
}

pub fn plans_of_stocks(judge: &mut Judge, files: usize) -> Trial {
    (0..files).try_for_each(|number| {
        let stock = if number % 4 == 0 { middling_stock(&mut judge.random) } else { small_stock(&mut judge.random) };
        let mut watched = with_stock(judge, &stock)?;
        let printout = judge.given(Call::Stock, &stock.file())?;
        let within = judge.given(Call::Budget(1), &stock.file())?;
        let (plan, sheet) = halves(&printout);
        judge.kept_owing(&mut watched, &keep(b'p', plan), 0)?;
        for (other, number) in [(sheet, 4), (&printout, 6), (&within, 4), (&stock.file(), 4)] {
            judge.kept_owing(&mut watched, &keep(b'p', other), number)?;
        }
        let came = judge.kept(&mut watched, &back(b'p'))?;
        by_trial(&stock.file(), &came[..], plan)?;
        judge.kept_owing(&mut watched, &keep(b'q', &came), 0)?;
        judge.kept(&mut watched, &back(b'q')).map(drop)
    })
}
