//! What is tried with callers, of whom each has counts of its own (document 02, L7).
//!   known            calls in a row with their numbers and the whole tally written out after each, and checks between them
//!   each_count       each of the sixteen counts in turn at zero, at its largest or one below it, beside others: every call by every caller
//!   above_3          every wrong caller of one byte, and some of more, by every call
//!   before_faults    wrong callers before each fault of a call: a room, a budget, and each question of a file
//!   graph_refusals   every question of a graph as the first failing one, alone and with each later one; 1 and 17 before them
//!   every_fault      every wrong caller before every fault, with rooms that fail 1 or do not
//!   on_one_tally     random calls of all callers and wrong ones, and checks between them, on one tally, each judged whole; what is left is
//!                    held to the numbers of calls
//!   others_between   the same calls without those of other callers, and with others put between: a caller's counts are the same
//!   same_answers     what each caller gets, where it is not left free
//!   some_sent        some call of some caller, or a check
//! In the last two tallies and answers are compared as the engine gave them, whatever the trial says of them.

use crate::cases::by_trial;
use crate::engine::{AllCounts, Call, Tally, CALLERS, OF_EACH};
use crate::faults::{failing, questions, Kind};
use crate::frames::{barrier_file, halves, kind_of, path_file, Text, PATH};
use crate::generate::{middling_graph, middling_stock, small_graph, small_stock};
use crate::graph_trial::GRAPH_QUESTIONS;
use crate::judge::{by_all_callers, counts_of, shown, wrong_caller, Judge, Sent, Trial, LEAST_ROOM, OVER};
use crate::random::Random;
use crate::truth::{
    graph_truth, is_caller, owed, truth_for, wrong_callers, Count, GraphTruth, Truth, MOST_SEARCHES, WRONG_CALLER,
};

// ---- known calls

/// G1, which gets a barrier, G2, which gets a path, and a graph with self arcs.
const BARRED: &[u8] = b"010100\n0F0000\n";
const OPEN: &[u8] = b"010100\n020001\n020001\n0F0002\n";
const TO_ITSELF: &[u8] = b"010100\n020000\n020101\n0F0002\n";
/// S5.
const CHAIN: &[u8] = b"1104\n120001\n120102\n120203\n130102\n1F0004\n";

/// Who calls, what, on which file and with which room; the number that it gets, 0 for an answer; and the tally after it.
type Row = (u32, Call, &'static [u8], usize, u8, [[u32; OF_EACH]; CALLERS]);

const FROM_ZERO: [Row; 26] = [
    (0, Call::Graph, OPEN, 2_048, 0, [[1, 0, 0, 0], [0, 0, 0, 0], [0, 0, 0, 0], [0, 0, 0, 0]]),
    (3, Call::Graph, OPEN, 2_048, 0, [[1, 0, 0, 0], [0, 0, 0, 0], [0, 0, 0, 0], [1, 0, 0, 0]]),
    (1, Call::Graph, BARRED, 2_048, 0, [[1, 0, 0, 0], [0, 1, 0, 0], [0, 0, 0, 0], [1, 0, 0, 0]]),
    (2, Call::Stock, CHAIN, 2_048, 0, [[1, 0, 0, 0], [0, 1, 0, 0], [0, 0, 1, 0], [1, 0, 0, 0]]),
    (2, Call::Budget(0), CHAIN, 2_048, 0, [[1, 0, 0, 0], [0, 1, 0, 0], [0, 0, 2, 0], [1, 0, 0, 0]]),
    (1, Call::Budget(64), CHAIN, 3_000, 0, [[1, 0, 0, 0], [0, 1, 1, 0], [0, 0, 2, 0], [1, 0, 0, 0]]),
    (0, Call::Budget(65), CHAIN, 2_048, 15, [[1, 0, 0, 1], [0, 1, 1, 0], [0, 0, 2, 0], [1, 0, 0, 0]]),
    (3, Call::Stock, b"", 2_048, 4, [[1, 0, 0, 1], [0, 1, 1, 0], [0, 0, 2, 0], [1, 0, 0, 1]]),
    (3, Call::Graph, BARRED, 2_047, 1, [[1, 0, 0, 1], [0, 1, 1, 0], [0, 0, 2, 0], [1, 0, 0, 2]]),
    (4, Call::Graph, OPEN, 2_048, 17, [[1, 0, 0, 1], [0, 1, 1, 0], [0, 0, 2, 0], [1, 0, 0, 2]]),
    (255, Call::Stock, CHAIN, 2_048, 17, [[1, 0, 0, 1], [0, 1, 1, 0], [0, 0, 2, 0], [1, 0, 0, 2]]),
    (256, Call::Budget(1), CHAIN, 2_048, 17, [[1, 0, 0, 1], [0, 1, 1, 0], [0, 0, 2, 0], [1, 0, 0, 2]]),
    (u32::MAX, Call::Graph, b"", 0, 17, [[1, 0, 0, 1], [0, 1, 1, 0], [0, 0, 2, 0], [1, 0, 0, 2]]),
    (4, Call::Budget(65), CHAIN, 2_047, 17, [[1, 0, 0, 1], [0, 1, 1, 0], [0, 0, 2, 0], [1, 0, 0, 2]]),
    (7, Call::Stock, b"", 2_048, 17, [[1, 0, 0, 1], [0, 1, 1, 0], [0, 0, 2, 0], [1, 0, 0, 2]]),
    (2, Call::Graph, CHAIN, 2_048, 4, [[1, 0, 0, 1], [0, 1, 1, 0], [0, 0, 2, 1], [1, 0, 0, 2]]),
    (1, Call::Stock, OPEN, 2_048, 4, [[1, 0, 0, 1], [0, 1, 1, 1], [0, 0, 2, 1], [1, 0, 0, 2]]),
    (0, Call::Graph, BARRED, 2_048, 0, [[1, 1, 0, 1], [0, 1, 1, 1], [0, 0, 2, 1], [1, 0, 0, 2]]),
    (0, Call::Stock, CHAIN, 2_048, 0, [[1, 1, 1, 1], [0, 1, 1, 1], [0, 0, 2, 1], [1, 0, 0, 2]]),
    (0, Call::Budget(1), b"\n", 2_048, 3, [[1, 1, 1, 2], [0, 1, 1, 1], [0, 0, 2, 1], [1, 0, 0, 2]]),
    (2, Call::Graph, OPEN, 60_000, 0, [[1, 1, 1, 2], [0, 1, 1, 1], [1, 0, 2, 1], [1, 0, 0, 2]]),
    (2, Call::Graph, TO_ITSELF, 2_048, 16, [[1, 1, 1, 2], [0, 1, 1, 1], [1, 0, 2, 2], [1, 0, 0, 2]]),
    (1, Call::Graph, OPEN, 2_048, 0, [[1, 1, 1, 2], [1, 1, 1, 1], [1, 0, 2, 2], [1, 0, 0, 2]]),
    (3, Call::Graph, BARRED, 2_048, 0, [[1, 1, 1, 2], [1, 1, 1, 1], [1, 0, 2, 2], [1, 1, 0, 2]]),
    (3, Call::Budget(2), CHAIN, 2_048, 0, [[1, 1, 1, 2], [1, 1, 1, 1], [1, 0, 2, 2], [1, 1, 1, 2]]),
    (2, Call::Graph, BARRED, 2_048, 0, [[1, 1, 1, 2], [1, 1, 1, 1], [1, 1, 2, 2], [1, 1, 1, 2]]),
];

/// The largest value of a count, and the one below it.
const M: u32 = 4_294_967_295;
const L: u32 = 4_294_967_294;

const NEAR_LARGEST: [[u32; OF_EACH]; CALLERS] = [[M, M, M, M], [L, 0, M, 1], [0, L, 5, M], [M, 7, L, L]];

const FROM_NEAR_LARGEST: [Row; 20] = [
    (0, Call::Graph, OPEN, 2_048, 0, [[M, M, M, M], [L, 0, M, 1], [0, L, 5, M], [M, 7, L, L]]),
    (0, Call::Stock, CHAIN, 2_048, 0, [[M, M, M, M], [L, 0, M, 1], [0, L, 5, M], [M, 7, L, L]]),
    (0, Call::Budget(65), b"", 2_048, 15, [[M, M, M, M], [L, 0, M, 1], [0, L, 5, M], [M, 7, L, L]]),
    (1, Call::Graph, OPEN, 2_048, 0, [[M, M, M, M], [M, 0, M, 1], [0, L, 5, M], [M, 7, L, L]]),
    (1, Call::Graph, OPEN, 2_048, 0, [[M, M, M, M], [M, 0, M, 1], [0, L, 5, M], [M, 7, L, L]]),
    (1, Call::Graph, BARRED, 2_048, 0, [[M, M, M, M], [M, 1, M, 1], [0, L, 5, M], [M, 7, L, L]]),
    (1, Call::Budget(3), CHAIN, 2_048, 0, [[M, M, M, M], [M, 1, M, 1], [0, L, 5, M], [M, 7, L, L]]),
    (1, Call::Stock, CHAIN, 5, 1, [[M, M, M, M], [M, 1, M, 2], [0, L, 5, M], [M, 7, L, L]]),
    (2, Call::Graph, OPEN, 2_048, 0, [[M, M, M, M], [M, 1, M, 2], [1, L, 5, M], [M, 7, L, L]]),
    (2, Call::Graph, BARRED, 2_048, 0, [[M, M, M, M], [M, 1, M, 2], [1, M, 5, M], [M, 7, L, L]]),
    (2, Call::Graph, BARRED, 2_048, 0, [[M, M, M, M], [M, 1, M, 2], [1, M, 5, M], [M, 7, L, L]]),
    (2, Call::Budget(64), CHAIN, 2_048, 0, [[M, M, M, M], [M, 1, M, 2], [1, M, 6, M], [M, 7, L, L]]),
    (2, Call::Stock, b"", 2_048, 4, [[M, M, M, M], [M, 1, M, 2], [1, M, 6, M], [M, 7, L, L]]),
    (3, Call::Stock, CHAIN, 2_048, 0, [[M, M, M, M], [M, 1, M, 2], [1, M, 6, M], [M, 7, M, L]]),
    (3, Call::Budget(1), CHAIN, 2_048, 0, [[M, M, M, M], [M, 1, M, 2], [1, M, 6, M], [M, 7, M, L]]),
    (3, Call::Graph, b"", 2_048, 4, [[M, M, M, M], [M, 1, M, 2], [1, M, 6, M], [M, 7, M, M]]),
    (3, Call::Graph, BARRED, 2_048, 0, [[M, M, M, M], [M, 1, M, 2], [1, M, 6, M], [M, 8, M, M]]),
    (3, Call::Graph, b"", 0, 1, [[M, M, M, M], [M, 1, M, 2], [1, M, 6, M], [M, 8, M, M]]),
    (5, Call::Graph, BARRED, 2_048, 17, [[M, M, M, M], [M, 1, M, 2], [1, M, 6, M], [M, 8, M, M]]),
    (260, Call::Stock, CHAIN, 2_048, 17, [[M, M, M, M], [M, 1, M, 2], [1, M, 6, M], [M, 8, M, M]]),
];

fn tally_of(sets: [[u32; OF_EACH]; CALLERS]) -> Tally {
    let mut all: AllCounts = [0; CALLERS * OF_EACH];
    all.copy_from_slice(sets.as_flattened());
    Tally::of(all)
}

/// One by one, a check after each, and then all of them on one tally.
fn known_rows(judge: &mut Judge, start: Tally, rows: &[Row]) -> Trial {
    let (mut tally, mut all) = (start, Vec::new());
    for (caller, call, file, room, number, sets) in rows {
        let sent = Sent::Call { call: *call, caller: *caller, file: file.to_vec(), room: *room };
        let check = Sent::Check { graph: BARRED.to_vec(), certificate: b"31\n320001\n320102\n3F0002\n".to_vec() };
        let (told, left) = judge.one_after_another(tally, &[sent.clone(), check])?;
        by_trial(file, told, vec![*number])?;
        tally = tally_of(*sets);
        by_trial(file, counts_of(&left), counts_of(&tally))?;
        all.push(sent);
        held(start != Tally::default() || is_total(&tally, &all), NOT_TOTAL, &start, &[&tally])?;
    }
    let (_, left) = judge.one_after_another(start, &all)?;
    held(left == tally, "known calls in a row leave other counts than one by one", &start, &[&left, &tally])
}

pub fn known(judge: &mut Judge) -> Trial {
    known_rows(judge, Tally::default(), &FROM_ZERO)?;
    known_rows(judge, tally_of(NEAR_LARGEST), &FROM_NEAR_LARGEST)
}

// ---- each count

/// A call for each count that it can raise.
const EVERY_COUNT: [(Call, &[u8], Count); 7] = [
    (Call::Graph, OPEN, Count::Paths),
    (Call::Graph, BARRED, Count::Barriers),
    (Call::Graph, b"", Count::Refusals),
    (Call::Stock, CHAIN, Count::Stocks),
    (Call::Stock, b"", Count::Refusals),
    (Call::Budget(1), CHAIN, Count::Stocks),
    (Call::Budget(65), CHAIN, Count::Refusals),
];

pub fn each_count(judge: &mut Judge) -> Trial {
    let calls = by_all_callers(&EVERY_COUNT);
    for place in 0..CALLERS * OF_EACH {
        for (own, others) in [(0, L), (0, M), (L, 0), (L, M), (M, 0), (M, L)] {
            let mut all: AllCounts = [others; CALLERS * OF_EACH];
            all[place] = own;
            judge.in_a_row(Tally::of(all), &calls)?;
        }
    }
    Ok(())
}

// ---- wrong callers

pub fn above_3(judge: &mut Judge) -> Trial {
    for caller in wrong_callers() {
        for (call, file) in [(Call::Graph, OPEN), (Call::Stock, CHAIN), (Call::Budget(1), CHAIN)] {
            let truth = truth_for(call, file);
            judge.lend_to(caller, call, file, LEAST_ROOM, &owed(call, &truth))?;
        }
    }
    Ok(())
}

/// A file, the question that it fails, or none, and what is said of it.
type Faulty = (Vec<u8>, Vec<u8>, Truth);

/// One for each question of the kind, and one that fails none.
fn faulty_files(random: &mut Random, kind: Kind) -> Result<Vec<Faulty>, String> {
    let (call, good) = if kind == Kind::Graph { (Call::Graph, OPEN) } else { (Call::Stock, CHAIN) };
    let mut all = vec![(good.to_vec(), Vec::new(), truth_for(call, good))];
    for question in questions(kind) {
        let file = failing(random, kind, &[*question])?;
        let truth = truth_for(call, &file);
        all.push((file, vec![*question], truth));
    }
    Ok(all)
}

/// Something done with each call on each of these files: on a stock by itself, with a budget that is granted, and with one that is not.
fn with_each_fault(judge: &mut Judge, mut done: impl FnMut(&mut Judge, Call, &Faulty) -> Trial) -> Trial {
    for faulty in faulty_files(&mut judge.random, Kind::Graph)? {
        done(judge, Call::Graph, &faulty)?;
    }
    for faulty in faulty_files(&mut judge.random, Kind::Stock)? {
        let granted = judge.random.below(MOST_SEARCHES as usize + 1) as u32;
        let over = *judge.random.choose(&OVER);
        [Call::Stock, Call::Budget(granted), Call::Budget(over)].into_iter().try_for_each(|call| done(judge, call, &faulty))?;
    }
    Ok(())
}

pub fn before_faults(judge: &mut Judge) -> Trial {
    with_each_fault(judge, |judge, call, (file, faults, truth)| {
        let rooms = [None, Some(LEAST_ROOM - 1)];
        rooms.into_iter().try_for_each(|short| judge.failing(call, file, short, &owed(call, truth), faults))
    })
}

pub fn graph_refusals(judge: &mut Judge) -> Trial {
    refused_graph(judge, OPEN, &[])?;
    for (place, first) in GRAPH_QUESTIONS.iter().enumerate() {
        let later = GRAPH_QUESTIONS[place + 1..].iter().map(|later| vec![*first, *later]);
        for faults in [vec![*first]].into_iter().chain(later) {
            let file = failing(&mut judge.random, Kind::Graph, &faults)?;
            by_trial(&file, matches!(graph_truth(&file), GraphTruth::Refused(number) if number == *first), true)?;
            refused_graph(judge, &file, &faults)?;
        }
    }
    Ok(())
}

/// A file that fails these questions, with rooms that fail 1 or do not, and from callers that fail 17 or do not.
fn refused_graph(judge: &mut Judge, file: &[u8], faults: &[u8]) -> Trial {
    let truth = truth_for(Call::Graph, file);
    judge.seen.files += 1;
    [None, Some(0), Some(LEAST_ROOM - 1)]
        .into_iter()
        .try_for_each(|short| judge.failing(Call::Graph, file, short, &owed(Call::Graph, &truth), faults))
}

pub fn every_fault(judge: &mut Judge) -> Trial {
    with_each_fault(judge, |judge, call, (file, _, truth)| {
        for caller in wrong_callers() {
            let short = judge.random.below(LEAST_ROOM);
            for room in [LEAST_ROOM, short] {
                judge.lend_to(caller, call, file, room, &owed(call, truth))?;
            }
        }
        Ok(())
    })
}

// ---- calls in a row

fn some_file(random: &mut Random, call: Call) -> Vec<u8> {
    let known = *random.choose(&[BARRED, OPEN, TO_ITSELF, CHAIN, b"", b"\n"]);
    match (random.below(3), call) {
        (0, _) => known.to_vec(),
        (_, Call::Graph) => small_graph(random).file(),
        _ => small_stock(random).file(),
    }
}

pub fn some_sent(random: &mut Random) -> Sent {
    if random.chance(10) {
        let certificate = random.choose(&[barrier_file(&[1, 2]), path_file(&[0]), Vec::new()]).clone();
        return Sent::Check { graph: random.choose(&[BARRED, OPEN, b""]).to_vec(), certificate };
    }
    let granted = Call::Budget(random.below(MOST_SEARCHES as usize + 1) as u32);
    let over = Call::Budget(*random.choose(&OVER));
    let call = *random.choose(&[Call::Graph, Call::Graph, Call::Stock, granted, over]);
    let caller = if random.chance(75) { random.below(CALLERS) as u32 } else { wrong_caller(random) };
    let room = *random.choose(&[LEAST_ROOM, LEAST_ROOM, LEAST_ROOM, LEAST_ROOM + 1, LEAST_ROOM - 1, 0]);
    Sent::Call { call, caller, file: some_file(random, call), room }
}

fn some_row(random: &mut Random) -> Vec<Sent> {
    (0..random.between(1, 60)).map(|_| some_sent(random)).collect()
}

/// Who calls; the check has no caller.
fn caller_of(sent: &Sent) -> Option<u32> {
    match sent {
        Sent::Call { caller, .. } => Some(*caller),
        Sent::Check { .. } => None,
    }
}

/// From zero on, all counts together are as many as the calls of callers 0 to 3.
fn is_total(left: &Tally, all: &[Sent]) -> bool {
    let calls = all.iter().filter_map(caller_of).filter(|caller| is_caller(*caller)).count();
    left.all().iter().map(|count| u64::from(*count)).sum::<u64>() == calls as u64
}

const NOT_TOTAL: &str = "all counts together are not as many as the calls of callers 0 to 3";

/// Something must hold of what calls in a row leave.
fn held(holds: bool, what: &str, start: &Tally, left: &[&Tally]) -> Trial {
    if holds {
        return Ok(());
    }
    let left: Vec<String> = left.iter().map(|tally| counts_of(tally)).collect();
    Err(format!("{what}:\n{}\nfrom\n{}", left.join("\nand\n"), counts_of(start)))
}

/// The calls that raise each count, by the numbers that were told.
fn risen(all: &[Sent], numbers: &[u8]) -> AllCounts {
    let calls = all.iter().filter_map(|sent| match sent {
        Sent::Call { call, caller, file, .. } => Some((*call, *caller, file)),
        Sent::Check { .. } => None,
    });
    let mut risen = [0; CALLERS * OF_EACH];
    for ((call, caller, file), number) in calls.zip(numbers) {
        let count = match (*number, call) {
            (WRONG_CALLER, _) => continue,
            (0, Call::Stock | Call::Budget(_)) => Count::Stocks,
            (0, Call::Graph) if matches!(graph_truth(file), GraphTruth::Path(_)) => Count::Paths,
            (0, Call::Graph) => Count::Barriers,
            _ => Count::Refusals,
        };
        risen[count.place(caller)] += 1;
    }
    risen
}

pub fn on_one_tally(judge: &mut Judge, files: usize) -> Trial {
    (0..files).try_for_each(|_| {
        let all = some_row(&mut judge.random);
        judge.seen.files += 2 * all.len();
        for start in [Tally::default(), judge.some_tally()] {
            let (numbers, left) = judge.one_after_another(start, &all)?;
            let mut model = start.all();
            model.iter_mut().zip(risen(&all, &numbers)).for_each(|(count, more)| *count = count.saturating_add(more));
            held(left.all() == model, "the counts that calls leave are not as many as the calls", &start, &[&left])?;
            held(start != Tally::default() || is_total(&left, &all), NOT_TOTAL, &start, &[&left])?;
        }
        Ok(())
    })
}

// ---- other callers

/// A caller's counts from one tally, the others from another.
fn own_from(caller: usize, own: &Tally, others: Tally) -> Tally {
    let mut tally = others;
    tally.sets[caller] = own.sets[caller];
    tally
}

/// Some calls of other callers, right or wrong, and checks, between all of these.
fn put_between(random: &mut Random, caller: u32, own: &[Sent]) -> Vec<Sent> {
    let mut all = Vec::new();
    for sent in own {
        all.extend((0..random.below(4)).map(|_| some_sent(random)).filter(|sent| caller_of(sent) != Some(caller)));
        all.push(sent.clone());
    }
    all
}

pub fn others_between(judge: &mut Judge, files: usize) -> Trial {
    (0..files).try_for_each(|_| {
        let all = some_row(&mut judge.random);
        let from_zero = judge.left_by(Tally::default(), &all);
        held(is_total(&from_zero, &all), NOT_TOTAL, &Tally::default(), &[&from_zero])?;
        let start = judge.some_tally();
        let left = judge.left_by(start, &all);
        (0..CALLERS).try_for_each(|caller| {
            let own: Vec<Sent> = all.iter().filter(|sent| caller_of(sent) == Some(caller as u32)).cloned().collect();
            let [before, before_more] = [judge.some_tally(), judge.some_tally()].map(|others| own_from(caller, &start, others));
            let alone = judge.left_by(before, &own);
            let agree = alone == own_from(caller, &left, before);
            held(agree, &format!("the calls of caller {caller} alone, and among others"), &start, &[&alone, &left])?;
            let with_more = put_between(&mut judge.random, caller as u32, &own);
            let among_more = judge.left_by(before_more, &with_more);
            let agree = among_more.sets[caller] == left.sets[caller];
            held(agree, &format!("the calls of caller {caller} among others, and among more"), &start, &[&among_more, &left])
        })
    })
}

// ---- answers

/// What is not left free: of a path the first line, of a plan how long it is, of a budget's pairs the header and how long they are.
fn fixed_part(call: Call, answer: &[u8]) -> (Vec<u8>, usize) {
    let header = Text::of(answer).header();
    match call {
        Call::Graph if kind_of(header) == PATH.header as usize => (header.to_vec(), 0),
        Call::Graph => (answer.to_vec(), answer.len()),
        Call::Stock => (halves(answer).1.to_vec(), answer.len()),
        Call::Budget(_) => (header.to_vec(), answer.len()),
    }
}

fn got_alike(judge: &mut Judge, call: Call, file: &[u8]) -> Trial {
    judge.seen.files += 1;
    let (number, answer) = judge.got(0, call, file);
    for caller in 1..CALLERS as u32 {
        let (other_number, other) = judge.got(caller, call, file);
        if other_number != number || fixed_part(call, &other) != fixed_part(call, &answer) {
            let got = format!("{number}:\n{}caller {caller} {other_number}:\n{}", shown(&answer), shown(&other));
            return Err(format!("{call:?}: caller 0 gets {got}for\n{}", shown(file)));
        }
    }
    let wrong = wrong_caller(&mut judge.random);
    match judge.got(wrong, call, file) {
        (WRONG_CALLER, answer) if answer.is_empty() => Ok(()),
        (number, answer) => Err(format!("{call:?}: caller {wrong} gets {number}:\n{}for\n{}", shown(&answer), shown(file))),
    }
}

pub fn same_answers(judge: &mut Judge, files: usize) -> Trial {
    (0..files).try_for_each(|number| {
        let random = &mut judge.random;
        let (graph, stock) = match number % 4 {
            0 => (middling_graph(random).file(), middling_stock(random).file()),
            1 => (some_file(random, Call::Graph), some_file(random, Call::Stock)),
            _ => (small_graph(random).file(), small_stock(random).file()),
        };
        let granted = random.below(MOST_SEARCHES as usize + 1) as u32;
        let over = *random.choose(&OVER);
        got_alike(judge, Call::Graph, &graph)?;
        [Call::Stock, Call::Budget(granted), Call::Budget(over)].into_iter().try_for_each(|call| got_alike(judge, call, &stock))
    })
}
