//! What is tried with pairings kept under names (document 02, L8); plan files by themselves are in kept_plan_trials.rs.
//!   known                calls in a row with their numbers and answers written out
//!   every_name           each byte as a name, beside others
//!   every_two_names      each beside each other one
//!   places               a ninth name, each of eight replaced or forgotten while all are in use, and places used again
//!   stocks               the same stock again, refused ones, and such with fewer cameras or fits
//!   before_the_first     no stock, and power-on over what stands there
//!   rooms                rooms around 2,048, with names that are kept and such as are not
//!   some_row             random calls in a row
//!   random_calls         calls of all kinds on one state, each judged, with copies in its place and power-on between
//!   other_calls_between  graphs, stocks and budgets of callers between them, on one tally
//!   side_by_side         two states, and copies of them
//!   with_stock, some_plan    a state with a stock; some pairing of its fits in a file
//!   answers_compared     the same calls again, without those that were refused, under other names, those of one name alone, from zero bytes
//! In the last answers are compared as the engine gave them, whatever the trial says of them.

use crate::caller_trials::some_sent;
use crate::cases::by_trial;
use crate::engine::{Call, KeptCall, KeptKind, Tally};
use crate::faults::stock_for_plans;
use crate::frames::{plan_file, Pair};
use crate::generate::{middling_stock, small_stock, some_lit, stock_of};
use crate::judge::{shown, Judge, Sent, Trial, LEAST_ROOM};
use crate::kept_judge::{back, bring, forget, keep, Watched};
use crate::kept_plan_trials::damages_at;
use crate::kept_trial::{Change, Past, MOST_KEPT, NO_PLACE};
use crate::line_ends::{all_ways, cr_lf};
use crate::random::Random;
use crate::shapes::row;
use crate::stock_trial::Stock;

// ---- known calls

pub const EMPTY: &[u8] = b"5100\n5F0000\n";
/// S5, and pairings of it: its lit pair, its plan, and each half of that.
const CHAIN: &[u8] = b"1104\n120001\n120102\n120203\n130102\n1F0004\n";
const INNER: &[u8] = b"5101\n520102\n5F0001\n";
const OUTER: &[u8] = b"5102\n520001\n520203\n5F0002\n";
pub const FIRST: &[u8] = b"5101\n520001\n5F0001\n";
pub const LAST: &[u8] = b"5101\n520203\n5F0001\n";
/// S2.
const TWO: &[u8] = b"1102\n120001\n1F0001\n";
/// S1.
const NONE: &[u8] = b"1100\n1F0000\n";

/// A call, and what it gets: an answer, which only coming back has, or a number.
type Row = (KeptCall, Result<&'static [u8], u8>);

const DONE: Result<&[u8], u8> = Ok(b"");

fn one_name() -> Vec<Row> {
    vec![
        (back(b'A'), Err(18)),
        (forget(b'A'), Err(18)),
        (keep(b'A', EMPTY), DONE),
        (back(b'A'), Ok(EMPTY)),
        (keep(b'A', FIRST), Err(9)),
        (back(b'A'), Ok(EMPTY)),
        (bring(CHAIN), DONE),
        (back(b'A'), Err(18)),
        (keep(b'A', INNER), DONE),
        (back(b'A'), Ok(INNER)),
        (keep(b'B', b"5102\r\n520001\r\n520203\r\n5F0002\r\n"), DONE),
        (back(b'B'), Ok(OUTER)),
        (back(b'A'), Ok(INNER)),
        (keep(b'A', b"5101\n520203\r\n5F0001\n"), DONE),
        (back(b'A'), Ok(LAST)),
        (keep(b'A', EMPTY), DONE),
        (back(b'A'), Ok(b"5100\n5F0000\n")),
        (back(b'a'), Err(18)),
        (KeptCall::ComeBack(b'A', 2_047), Err(1)),
        (KeptCall::ComeBack(b'a', 2_047), Err(1)),
        (KeptCall::ComeBack(b'B', 60_000), Ok(OUTER)),
        (forget(b'B'), DONE),
        (forget(b'B'), Err(18)),
        (back(b'B'), Err(18)),
        (back(b'A'), Ok(EMPTY)),
        (keep(b'B', FIRST), DONE),
        (back(b'B'), Ok(FIRST)),
        (bring(CHAIN), DONE),
        (back(b'A'), Err(18)),
        (back(b'B'), Err(18)),
        (forget(b'B'), Err(18)),
    ]
}

/// Each question, under a name that is kept.
fn plans_refused() -> Vec<Row> {
    let refused: [(&[u8], u8); 30] = [
        (b"", 4),
        (b"\n", 3),
        (b"5101\n520001\n5F0001", 3),
        (b"5101\n520001\n5f0001\n", 3),
        (b"5101\n52000\n5F0001\n", 3),
        (b"4101\n520001\n5F0001\n", 4),
        (b"51\n520001\n5F0001\n", 4),
        (b"510001\n520001\n5F0001\n", 4),
        (b"6101000\n", 3),
        (b"61010000\n520001\n6F0001\n", 4),
        (b"5101\n", 6),
        (b"5101\n520001\n", 6),
        (b"5101\n5F0001\n520001\n", 6),
        (b"5101\n120001\n5F0001\n", 6),
        (b"5101\n130001\n5F0001\n", 6),
        (b"5102\n520001\n130203\n5F0002\n", 6),
        (b"5101\n520001\n6F0001\n", 6),
        (b"5101\n520001\n5F0001\n5F0001\n", 6),
        (b"5101\n520001\n5F0002\n", 7),
        (b"5102\n520001\n5F0001\n", 7),
        (b"5102\n520001\n5F0002\n", 7),
        (b"5100\n520001\n5F0001\n", 7),
        (b"5100\n520001\n5F0000\n", 7),
        (b"5101\n520004\n5F0001\n", 9),
        (b"5101\n52FF00\n5F0001\n", 9),
        (b"5101\n520100\n5F0001\n", 12),
        (b"5102\n520203\n520001\n5F0002\n", 12),
        (b"5102\n520001\n520001\n5F0002\n", 12),
        (b"5102\n520001\n520103\n5F0002\n", 13),
        (b"5102\n520001\n520102\n5F0002\n", 14),
    ];
    let mut rows = vec![(bring(CHAIN), DONE), (keep(0, OUTER), DONE)];
    for (plan, number) in refused {
        rows.extend([(keep(0, plan), Err(number)), (back(0), Ok(OUTER)), (keep(1, plan), Err(number)), (back(1), Err(18))]);
    }
    rows
}

/// Eight names, a ninth, and places that are used again.
fn eight_names() -> Vec<Row> {
    let mut rows = vec![(bring(CHAIN), DONE)];
    rows.extend((0..8).map(|name| (keep(16 * name, if name % 2 == 0 { INNER } else { OUTER }), DONE)));
    rows.extend([
        (keep(1, FIRST), Err(19)),
        (keep(1, b"5101\n520103\n5F0001\n"), Err(13)),
        (keep(1, b""), Err(4)),
        (back(1), Err(18)),
        (keep(0, FIRST), DONE),
        (keep(112, LAST), DONE),
        (keep(255, EMPTY), Err(19)),
        (back(0), Ok(FIRST)),
        (back(16), Ok(OUTER)),
        (back(32), Ok(INNER)),
        (back(48), Ok(OUTER)),
        (back(64), Ok(INNER)),
        (back(80), Ok(OUTER)),
        (back(96), Ok(INNER)),
        (back(112), Ok(LAST)),
        (forget(1), Err(18)),
        (keep(1, FIRST), Err(19)),
        (forget(48), DONE),
        (back(48), Err(18)),
        (keep(1, FIRST), DONE),
        (keep(48, FIRST), Err(19)),
        (back(1), Ok(FIRST)),
        (back(48), Err(18)),
        (back(112), Ok(LAST)),
        (bring(b"1104\n1F0001\n"), Err(7)),
        (keep(48, FIRST), Err(19)),
        (back(1), Ok(FIRST)),
        (bring(TWO), DONE),
        (keep(48, FIRST), DONE),
        (back(48), Ok(FIRST)),
        (back(1), Err(18)),
        (keep(1, INNER), Err(9)),
        (bring(NONE), DONE),
        (back(48), Err(18)),
        (keep(48, FIRST), Err(9)),
        (keep(48, EMPTY), DONE),
        (back(48), Ok(EMPTY)),
    ]);
    rows
}

pub fn known(judge: &mut Judge) -> Trial {
    for rows in [one_name(), plans_refused(), eight_names()] {
        let mut watched = judge.state();
        for (call, right) in rows {
            let due = watched.past.due(&call);
            by_trial(
                call.file(),
                (due.number, &due.answer[..]),
                right.map_or_else(|number| (number, &b""[..]), |text| (0, text)),
            )?;
            judge.kept(&mut watched, &call)?;
        }
    }
    Ok(())
}

// ---- names and places

/// A state with a stock.
pub fn with_stock<'a>(judge: &mut Judge<'a>, stock: &Stock) -> Result<Watched<'a>, String> {
    let mut watched = judge.state();
    judge.kept_owing(&mut watched, &bring(&stock.file()), 0)?;
    Ok(watched)
}

/// Some pairing of the stock's fits, of a share of those that find a place.
pub fn some_plan(random: &mut Random, stock: &Stock) -> Vec<u8> {
    let percent = *random.choose(&[0, 30, 60, 100, 100]);
    let pairs = some_lit(random, &stock.fits, percent);
    plan_file(&stock_of(stock.cameras, &pairs, &[]).fits)
}

/// Another one of every number: the first pair, and those of bits that are set.
fn numbered_plan(number: usize) -> Vec<u8> {
    let pairs: Vec<Pair> = (0..9).filter(|bit| *bit == 8 || number >> bit & 1 == 1).map(|bit| (2 * bit, 2 * bit + 1)).collect();
    plan_file(&pairs)
}

/// Eighteen cameras in a row.
fn row_of_18() -> Stock {
    row(18, 18).0
}

/// Seven others are in use, so that each has the last place; of names that are one bit away none is taken for it.
pub fn every_name(judge: &mut Judge) -> Trial {
    let mut watched = with_stock(judge, &row_of_18())?;
    for name in 0..=255_u8 {
        judge.kept_owing(&mut watched, &keep(name, &numbered_plan(name.into())), 0)?;
        judge.kept_owing(&mut watched, &back(name), 0)?;
        for bit in 0..8 {
            judge.kept(&mut watched, &back(name ^ 1 << bit))?;
        }
        judge.kept(&mut watched, &forget(name.wrapping_sub(1 + name % 8)))?;
        let names = watched.past.names();
        if names.len() == MOST_KEPT {
            judge.kept_owing(&mut watched, &keep(names[0].wrapping_add(128), EMPTY), NO_PLACE)?;
            judge.kept_owing(&mut watched, &forget(names[0]), 0)?;
        }
    }
    each_name_alone(judge)
}

fn each_name_alone(judge: &mut Judge) -> Trial {
    let mut watched = with_stock(judge, &row_of_18())?;
    (0..=255_u8).rev().try_for_each(|name| {
        judge.kept_owing(&mut watched, &back(name), 18)?;
        judge.kept_owing(&mut watched, &keep(name, &numbered_plan(255 - usize::from(name))), 0)?;
        judge.kept_owing(&mut watched, &back(name), 0)?;
        judge.kept_owing(&mut watched, &forget(name), 0)?;
        judge.kept_owing(&mut watched, &forget(name), 18)
    })
}

/// Each name beside each other one: a name that is not kept is neither found nor forgotten in the place of another, and one that is kept
/// leaves the other.
pub fn every_two_names(judge: &mut Judge) -> Trial {
    let mut watched = with_stock(judge, &row_of_18())?;
    for one in 0..=255_u8 {
        told_all(judge, &mut watched, &[(keep(one, OUTER), 0)])?;
        for other in (0..=255).filter(|other| *other != one) {
            told_all(judge, &mut watched, &[(back(other), 18), (forget(other), 18)])?;
            if other > one {
                told_all(judge, &mut watched, &[(keep(other, FIRST), 0)])?;
                let came = judge.asked(&mut watched, &back(one))?;
                by_engine(&came.1, OUTER, "two names")?;
                told_all(judge, &mut watched, &[(forget(other), 0)])?;
            }
        }
        let came = judge.asked(&mut watched, &back(one))?;
        by_engine(&came.1, OUTER, "two names")?;
        told_all(judge, &mut watched, &[(forget(one), 0)])?;
    }
    Ok(())
}

/// Each call gets its number.
fn told_all(judge: &mut Judge, watched: &mut Watched, calls: &[(KeptCall, u8)]) -> Trial {
    calls.iter().try_for_each(|(call, number)| match judge.asked(watched, call)?.0 {
        told if told == *number => Ok(()),
        told => Err(format!("{told} where {number} is owed, by {call:?}")),
    })
}

fn by_engine(answer: &[u8], right: &[u8], what: &str) -> Trial {
    if answer == right {
        return Ok(());
    }
    Err(format!("{what}: the answer\n{}where\n{}is owed", shown(answer), shown(right)))
}

/// Names that differ in one bit, that follow one another, at both ends, and any.
fn nine_names(random: &mut Random) -> [[u8; 9]; 5] {
    let start = random.byte();
    let mut any: Vec<u8> = (0..=255).collect();
    random.shuffle(&mut any);
    let ninth = |place: usize| if place == 8 { start } else { start ^ 1 << place };
    let mut all = [[0; 9]; 5];
    for place in 0..9 {
        all[0][place] = place as u8;
        all[1][place] = (247 + place) as u8;
        all[2][place] = ninth(place);
        all[3][place] = any[place];
        all[4][place] = b"AaBbCc01\n"[place];
    }
    all
}

pub fn places(judge: &mut Judge) -> Trial {
    let full_of = |names: &[u8; 9]| -> Vec<KeptCall> { (0..8).map(|place| keep(names[place], &numbered_plan(place))).collect() };
    for names in nine_names(&mut judge.random) {
        for place in 0..MOST_KEPT {
            let mut watched = with_stock(judge, &row_of_18())?;
            judge.kept_all(&mut watched, &full_of(&names))?;
            judge.kept_failing(&mut watched, &keep(names[8], EMPTY), &[NO_PLACE])?;
            judge.all_back(&mut watched)?;
            judge.kept_owing(&mut watched, &keep(names[place], &numbered_plan(100 + place)), 0)?;
            judge.all_back(&mut watched)?;
            judge.kept_owing(&mut watched, &keep(names[8], EMPTY), NO_PLACE)?;
            judge.kept_owing(&mut watched, &forget(names[place]), 0)?;
            judge.all_back(&mut watched)?;
            judge.kept_owing(&mut watched, &keep(names[8], &numbered_plan(200)), 0)?;
            judge.kept_owing(&mut watched, &keep(names[place], &numbered_plan(201)), NO_PLACE)?;
            judge.probed(&mut watched)?;
        }
    }
    used_again(judge)
}

/// Many times over: no place is lost, and none gained.
fn used_again(judge: &mut Judge) -> Trial {
    let mut watched = with_stock(judge, &row_of_18())?;
    for number in 0..40_u8 {
        judge.kept_owing(&mut watched, &keep(number, &numbered_plan(number.into())), 0)?;
        if number >= 7 {
            judge.kept_owing(&mut watched, &keep(number + 1, EMPTY), NO_PLACE)?;
            let some = watched.past.names()[usize::from(number) % MOST_KEPT];
            judge.kept_owing(&mut watched, &forget(some), 0)?;
            judge.all_back(&mut watched)?;
        }
    }
    for name in watched.past.names() {
        judge.kept_owing(&mut watched, &forget(name), 0)?;
    }
    judge.probed(&mut watched)
}

// ---- stocks

/// The stock with a camera less, which has no fit there, or the last fit less; neither is lit.
fn with_less(stock: &Stock) -> Vec<Stock> {
    let Stock { cameras, fits, .. } = stock;
    let fewer = cameras.saturating_sub(1);
    let of_fewer: Vec<Pair> = fits.iter().copied().filter(|fit| fit.1 < fewer).collect();
    let one_less = &fits[..fits.len().saturating_sub(1)];
    vec![stock_of(fewer, &of_fewer, &[]), stock_of(*cameras, one_less, &[]), stock_of(*cameras, &[], &[])]
}

/// Names are kept; then the stock is brought, and what was kept is handed in again.
fn brought_over(judge: &mut Judge, old: &Stock, new: &[u8], number: u8) -> Trial {
    let mut watched = with_stock(judge, old)?;
    let names = [3, 0, 255, 128];
    let plans = names.map(|_| some_plan(&mut judge.random, old));
    for (name, plan) in names.iter().zip(&plans) {
        judge.kept_owing(&mut watched, &keep(*name, plan), 0)?;
    }
    judge.kept_owing(&mut watched, &bring(new), number)?;
    for name in names {
        judge.kept_owing(&mut watched, &back(name), if number == 0 { 18 } else { 0 })?;
    }
    judge.probed(&mut watched)?;
    for (name, plan) in names.iter().zip(&plans).rev() {
        judge.kept(&mut watched, &keep(*name, plan))?;
    }
    let largest = plan_file(&stock_of(old.cameras, &some_lit(&mut judge.random, &old.fits, 100), &[]).fits);
    judge.kept(&mut watched, &keep(7, &largest))?;
    judge.probed(&mut watched)
}

pub fn stocks(judge: &mut Judge) -> Trial {
    for number in 0..24 {
        let random = &mut judge.random;
        let stock = match number % 3 {
            0 => middling_stock(random),
            1 => row(8 + number, 8 + number).0,
            _ => stock_for_plans(),
        };
        let lit_otherwise = stock_of(stock.cameras, &stock.fits, &some_lit(random, &stock.fits, 50));
        let others = [vec![stock.clone(), lit_otherwise, small_stock(random)], with_less(&stock)].concat();
        for other in others {
            brought_over(judge, &stock, &other.file(), 0)?;
            brought_over(judge, &other, &stock.file(), 0)?;
        }
        let refused = [&stock.file()[..stock.file().len() - 1], &[stock.file(), stock.file()].concat(), b""].map(<[u8]>::to_vec);
        for (file, number) in refused.iter().zip([3, 6, 4]) {
            brought_over(judge, &stock, file, number)?;
        }
    }
    Ok(())
}

/// Until a stock is accepted, only the empty plan can be kept.
fn no_cameras(judge: &mut Judge, watched: &mut Watched) -> Trial {
    judge.kept_owing(watched, &keep(9, FIRST), 9)?;
    judge.kept_owing(watched, &bring(b"1180\n1F0000\n"), 5)?;
    judge.kept_owing(watched, &keep(9, EMPTY), 0)?;
    judge.kept_owing(watched, &keep(9, FIRST), 9)?;
    judge.kept_owing(watched, &bring(b"1102\n120001\n"), 6)?;
    judge.kept_owing(watched, &back(9), 0)?;
    judge.probed(watched)?;
    judge.kept_owing(watched, &bring(TWO), 0)?;
    judge.kept_owing(watched, &back(9), 18)?;
    judge.kept_owing(watched, &keep(9, FIRST), 0)
}

pub fn before_the_first(judge: &mut Judge) -> Trial {
    let [mut one, mut other] = [judge.state(), judge.zero_state()];
    for watched in [&mut one, &mut other] {
        no_cameras(judge, watched)?;
        judge.kept_owing(watched, &bring(&row_of_18().file()), 0)?;
        (0..8).try_for_each(|name| judge.kept_owing(watched, &keep(name, &numbered_plan(name.into())), 0))?;
        watched.power_on();
        (0..8).try_for_each(|name| judge.kept_owing(watched, &back(name), 18))?;
        no_cameras(judge, watched)?;
    }
    Ok(())
}

// ---- rooms

pub fn rooms(judge: &mut Judge) -> Trial {
    let (stock, _) = row(126, 126);
    let mut watched = with_stock(judge, &stock)?;
    let longest: Vec<Pair> = (0..63).map(|pair| (2 * pair, 2 * pair + 1)).collect();
    let size = plan_file(&longest).len();
    judge.kept_all(&mut watched, &[keep(1, &plan_file(&longest)), keep(2, EMPTY), keep(255, INNER)])?;
    let rooms = [0, 1, 11, 12, 13, 18, 19, 255, 256, size - 1, size, size + 1, 1_024, 1_354, 2_000, 2_046, 2_047];
    for name in [1, 2, 255, 0, 3] {
        let not_kept = watched.past.kept(name).is_none();
        for room in rooms {
            let failing: &[u8] = if not_kept { &[1, 18] } else { &[1] };
            judge.kept_failing(&mut watched, &KeptCall::ComeBack(name, room), failing)?;
        }
        for room in [2_048, 2_049, 2_050, 4_096, 60_000, 65_536, 70_000] {
            let call = KeptCall::ComeBack(name, room);
            match not_kept {
                true => judge.kept_failing(&mut watched, &call, &[18])?,
                false => judge.kept_owing(&mut watched, &call, 0)?,
            }
        }
        if not_kept {
            judge.kept_failing(&mut watched, &forget(name), &[18])?;
        }
    }
    judge.all_back(&mut watched)
}

// ---- random calls

/// Few, ten, or all bytes; each of them beside others that differ in little.
fn some_names(random: &mut Random) -> Vec<u8> {
    let start = random.byte();
    match random.below(5) {
        0 => (0..3).map(|more| start.wrapping_add(more)).collect(),
        1 => (0..8).map(|bit| start ^ 1 << bit).collect(),
        2 => (0..10).map(|_| random.byte()).collect(),
        3 => b"\0\xFFAaBb0 \n\x7F".to_vec(),
        _ => (0..=255).collect(),
    }
}

fn some_stock(random: &mut Random, past: &Past) -> Vec<u8> {
    let present = past.stock();
    let stock = match random.below(8) {
        0 => present.clone(),
        1 => stock_of(present.cameras, &present.fits, &some_lit(random, &present.fits, 50)),
        2 => random.choose(&with_less(present)).clone(),
        3 => middling_stock(random),
        _ => small_stock(random),
    };
    let file = random.choose(&[stock.file(), cr_lf(&stock.file())]).clone();
    if random.chance(30) {
        return damaged_once(random, &file);
    }
    file
}

/// At one place, or cut off there.
fn damaged_once(random: &mut Random, file: &[u8]) -> Vec<u8> {
    let place = random.below(file.len());
    match random.below(6) {
        0 => file[..place].to_vec(),
        _ => random.choose(&damages_at(file, place)).clone(),
    }
}

/// Of the present stock, of an earlier one, or of any; right or damaged.
fn some_file(random: &mut Random, past: &Past) -> Vec<u8> {
    let earlier: Vec<Vec<u8>> = past
        .changes
        .iter()
        .rev()
        .take(20)
        .filter_map(|change| match change {
            Change::Kept(_, pairs) => Some(plan_file(pairs)),
            _ => None,
        })
        .collect();
    let plan = match random.below(10) {
        0 if !earlier.is_empty() => random.choose(&earlier).clone(),
        1 => EMPTY.to_vec(),
        2 => {
            let other = small_stock(random);
            some_plan(random, &other)
        }
        _ => some_plan(random, past.stock()),
    };
    let [as_it_is, with_cr_lf, mixed] = all_ways(random, &plan);
    let ended = match random.below(4) {
        0 => with_cr_lf,
        1 => mixed,
        _ => as_it_is,
    };
    if random.chance(20) {
        return damaged_once(random, &ended);
    }
    ended
}

fn some_call(random: &mut Random, past: &Past, names: &[u8]) -> KeptCall {
    let name = *random.choose(names);
    match random.below(100) {
        0..=5 => KeptCall::Bring(some_stock(random, past)),
        6..=50 => KeptCall::Keep(name, some_file(random, past)),
        51..=88 => KeptCall::ComeBack(name, *random.choose(&[2_048, 2_048, 2_048, 2_048, 2_049, 5_000, 2_047, 0])),
        _ => KeptCall::Forget(name),
    }
}

/// One more call, by what the trial says of those before it.
fn some_more(random: &mut Random, past: &mut Past, names: &[u8]) -> KeptCall {
    let call = some_call(random, past, names);
    past.changes.extend(past.due(&call).change);
    call
}

/// Calls in a row from power-on, most often a stock first.
pub fn some_row(random: &mut Random, most: usize) -> Vec<KeptCall> {
    let names = some_names(random);
    row_of_names(random, most, &names)
}

fn row_of_names(random: &mut Random, most: usize, names: &[u8]) -> Vec<KeptCall> {
    let mut past = Past::default();
    let first = random.chance(90).then(|| KeptCall::Bring(middling_stock(random).file()));
    past.changes.extend(first.iter().filter_map(|call| past.due(call).change).collect::<Vec<Change>>());
    let later: Vec<KeptCall> = (0..random.between(1, most)).map(|_| some_more(random, &mut past, names)).collect();
    first.into_iter().chain(later).collect()
}

pub fn random_calls(judge: &mut Judge, files: usize) -> Trial {
    (0..files).try_for_each(|_| {
        let calls = some_row(&mut judge.random, 60);
        let mut watched = judge.state();
        judge.seen.files += calls.len();
        for call in &calls {
            judge.kept(&mut watched, call)?;
            match judge.random.below(30) {
                0 => watched.replaced_by_copy(),
                1 => judge.probed(&mut watched)?,
                2..=5 => judge.all_back(&mut watched)?,
                _ => (),
            }
        }
        judge.probed(&mut watched)?;
        if judge.random.chance(10) {
            watched.power_on();
            let again = some_row(&mut judge.random, 20);
            judge.kept_all(&mut watched, &again)?;
        }
        Ok(())
    })
}

/// On a tally, which the calls for kept pairings leave alone.
pub fn other_calls_between(judge: &mut Judge, files: usize) -> Trial {
    for rows in [one_name(), plans_refused(), eight_names()] {
        let mut watched = judge.state();
        let mut tally = Tally::default();
        for (number, (call, _)) in rows.iter().enumerate() {
            judge.kept(&mut watched, call)?;
            let (call, file) = [(Call::Graph, &b"010100\n0F0000\n"[..]), (Call::Stock, TWO), (Call::Budget(2), b"")][number % 3];
            let sent = Sent::Call { call, caller: number as u32 % 5, file: file.to_vec(), room: LEAST_ROOM };
            tally = judge.one_after_another(tally, &[sent])?.1;
            watched.after_other_call();
        }
    }
    random_others_between(judge, files)
}

fn random_others_between(judge: &mut Judge, files: usize) -> Trial {
    (0..files).try_for_each(|_| {
        let mut watched = judge.state();
        let mut tally = judge.some_tally();
        for call in some_row(&mut judge.random, 30) {
            judge.kept(&mut watched, &call)?;
            for _ in 0..judge.random.below(3) {
                let sent = some_sent(&mut judge.random);
                tally = judge.one_after_another(tally, &[sent])?.1;
                watched.after_other_call();
            }
            // the stock that another call answers is not brought, nor is a plan
            if judge.random.chance(20) {
                let stock = watched.past.stock().file();
                judge.given(Call::Stock, &stock)?;
                watched.after_other_call();
                judge.all_back(&mut watched)?;
            }
        }
        judge.probed(&mut watched)
    })
}

/// Calls on one and the other, in turn or not; a copy stands for what it was copied from, and goes on by itself.
pub fn side_by_side(judge: &mut Judge, files: usize) -> Trial {
    (0..files).try_for_each(|_| {
        let names = some_names(&mut judge.random);
        let mut states = vec![judge.state(), judge.state(), judge.zero_state()];
        for state in &mut states {
            let first = middling_stock(&mut judge.random).file();
            judge.kept(state, &bring(&first))?;
        }
        for _ in 0..judge.random.between(10, 60) {
            let place = judge.random.below(states.len());
            let call = some_call(&mut judge.random, &states[place].past, &names);
            judge.kept(&mut states[place], &call)?;
            match judge.random.below(20) {
                0 => states[place] = states[judge.random.below(3)].copied(),
                1 => states[place].power_on(),
                2 | 3 => judge.all_back(&mut states[(place + 1) % 3])?,
                _ => (),
            }
        }
        states.iter_mut().try_for_each(|state| judge.probed(state))
    })
}

// ---- answers compared

/// What calls get, each number with its answer.
type Gotten = Vec<(u8, Vec<u8>)>;

fn gotten(judge: &mut Judge, watched: &mut Watched, calls: &[KeptCall]) -> Result<Gotten, String> {
    calls.iter().map(|call| judge.asked(watched, call)).collect()
}

fn alike(one: &Gotten, other: &Gotten, calls: &[KeptCall], what: &str) -> Trial {
    let differ = one.iter().zip(other).position(|(one, other)| one != other);
    match (one.len() == other.len(), differ) {
        (true, None) => Ok(()),
        (_, place) => {
            let place = place.unwrap_or(0);
            let told = |gotten: &Gotten| {
                gotten.get(place).map_or(String::new(), |(number, answer)| format!("{number} {}", shown(answer)))
            };
            Err(format!("{what}: call {place}, {:?}, gets {} and {}", calls.get(place), told(one), told(other)))
        }
    }
}

/// Those of a list that are wanted, by their places.
fn only<T: Clone>(list: &[T], wanted: impl Fn(usize) -> bool) -> Vec<T> {
    (0..list.len()).filter(|place| wanted(*place)).map(|place| list[place].clone()).collect()
}

/// The same call under another name.
fn renamed(call: &KeptCall, name: impl Fn(u8) -> u8) -> KeptCall {
    match call {
        KeptCall::Bring(_) => call.clone(),
        KeptCall::Keep(old, file) => KeptCall::Keep(name(*old), file.clone()),
        KeptCall::ComeBack(old, room) => KeptCall::ComeBack(name(*old), *room),
        KeptCall::Forget(old) => KeptCall::Forget(name(*old)),
    }
}

pub fn answers_compared(judge: &mut Judge, files: usize) -> Trial {
    (0..files).try_for_each(|_| {
        let calls = some_row(&mut judge.random, 40);
        judge.seen.files += calls.len();
        let mut state = judge.state();
        let right = gotten(judge, &mut state, &calls)?;
        state.power_on();
        let again = gotten(judge, &mut state, &calls)?;
        alike(&right, &again, &calls, "the same calls after power-on")?;
        let mut state = judge.zero_state();
        let of_zeros = gotten(judge, &mut state, &calls)?;
        alike(&right, &of_zeros, &calls, "the same calls on zero bytes")?;
        without_refused(judge, &calls, &right)?;
        under_other_names(judge, &calls, &right)?;
        copied_each_time(judge, &calls, &right)?;
        one_name_alone(judge)
    })
}

/// Those that were refused, and those that come back, left out: the others get the same.
fn without_refused(judge: &mut Judge, calls: &[KeptCall], right: &Gotten) -> Trial {
    let is_back = |place: usize| calls[place].kind() == KeptKind::ComeBack;
    for is_wanted in [&(|place: usize| right[place].0 == 0) as &dyn Fn(usize) -> bool, &|place| !is_back(place)] {
        let (fewer, owed) = (only(calls, is_wanted), only(right, is_wanted));
        let mut state = judge.state();
        let got = gotten(judge, &mut state, &fewer)?;
        alike(&owed, &got, &fewer, "the same calls without some that change nothing")?;
    }
    Ok(())
}

fn under_other_names(judge: &mut Judge, calls: &[KeptCall], right: &Gotten) -> Trial {
    let mut names: Vec<u8> = (0..=255).collect();
    judge.random.shuffle(&mut names);
    let others: Vec<KeptCall> = calls.iter().map(|call| renamed(call, |name| names[usize::from(name)])).collect();
    let mut state = judge.state();
    let got = gotten(judge, &mut state, &others)?;
    alike(right, &got, &others, "the same calls under other names")
}

fn copied_each_time(judge: &mut Judge, calls: &[KeptCall], right: &Gotten) -> Trial {
    let mut state = judge.state();
    let mut got = Gotten::new();
    for call in calls {
        state.replaced_by_copy();
        got.push(judge.asked(&mut state, call)?);
    }
    alike(right, &got, calls, "the same calls, each on a copy")
}

/// With at most eight names no place is wanting, so that the calls of one name and the stocks get the same without the others.
fn one_name_alone(judge: &mut Judge) -> Trial {
    let start = judge.random.byte();
    let names: Vec<u8> = (0..8).map(|more: u8| start.wrapping_add(29 * more)).collect();
    let calls = row_of_names(&mut judge.random, 40, &names);
    let mut state = judge.state();
    let all = gotten(judge, &mut state, &calls)?;
    for name in &names[..3] {
        let is_own = |place: usize| calls[place].name().is_none_or(|other| other == *name);
        let (own, owed) = (only(&calls, is_own), only(&all, is_own));
        let mut state = judge.state();
        let alone = gotten(judge, &mut state, &own)?;
        alike(&owed, &alone, &own, "the calls of one name alone, and among others")?;
    }
    Ok(())
}
