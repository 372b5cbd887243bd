//! What is tried with the call that stops after so many searches (document 02, L4).
//!   known              stocks and budgets with their headers written out, with all line ends; S5's answers whole, with every choice of
//!                      ends
//!   known_large        the same of 127 cameras of which most are left over
//!   rooms              rooms around 2,048 bytes, and around the longest answer, with budgets that are granted and such as are not
//!   over               budgets above 64, with good stocks
//!   calls_in_a_row     random calls of every kind by all callers on one tally, also with counts at their largest
//!   refusals           every question as the first failing one, alone and with each later one; 15, 1 and 17 before them
//!   answers_compared   all budgets from 0 to 64 for one stock, held to one another and to the plan and the sheet
//!   budgets_add_up     the pairs of an answer lit in a second call: as one call with both budgets
//!   one_at_a_time      the same with one search in each call, until one finds none
//!   every_budget       all budgets for random stocks
//!   every_small_stock  every stock of a few cameras, with every pairing lit
//!   every_size         answers of every number of pairs
//!   largest_stocks     127 cameras and 3,900 fits, and other large ones, with budgets around their gain
//! Answers are compared as the engine gave them, whatever the trial says of them.

use crate::cases::{by_trial, one_of};
use crate::engine::{Call, Counts, Tally};
use crate::exhaustive::every_fits;
use crate::faults::{failing, Kind};
use crate::frames::{budget_file, halves, number, sheet_in, Pair, Text, BUDGET};
use crate::generate::{
    ear_fits, middling_stock, nearly_largest_lit, placed, shuffled_stock, small_stock, some_fits, some_lit, stock_of,
    stock_with_isolated,
};
use crate::judge::{shown, Counted, Judge, Trial, LEAST_ROOM, OVER};
use crate::known::{budgets, graph, large_budgets, stock_files, stocks, KnownBudget, S5_BUDGETS};
use crate::line_ends::every_choice;
use crate::random::Random;
use crate::shapes::{row, triangles_in_a_row};
use crate::stock_trial::{all_pairings, is_plan, is_rising_pairing, Stock, STOCK_QUESTIONS};
use crate::truth::{budget_owed, stock_truth, Count, Numbers, StockTruth, MOST_SEARCHES};

// ---- known stocks

/// The first line of an answer.
fn header_of(answer: &[u8]) -> String {
    String::from_utf8_lossy(Text::of(answer).header()).into_owned()
}

fn have_headers(judge: &mut Judge, known: &KnownBudget) -> Trial {
    let KnownBudget { name, stock, headers } = known;
    let truth = stock_truth(&stock.file());
    for (most, header) in *headers {
        let answer = judge.budget_owing(&stock.file(), *most, &truth)?;
        if header_of(&answer) != *header {
            return Err(format!("{name} with {most} searches: {header} is owed\n{}", shown(&answer)));
        }
        judge.budget_all_ways(&stock.file(), *most, &truth)?;
    }
    Ok(())
}

pub fn known_large(judge: &mut Judge) -> Trial {
    large_budgets().iter().try_for_each(|known| have_headers(judge, known))
}

pub fn known(judge: &mut Judge) -> Trial {
    budgets().iter().try_for_each(|known| have_headers(judge, known))?;
    let s5 = stocks()[4].stock.file();
    for (most, answer) in S5_BUDGETS {
        let right = [answer.to_vec()];
        every_choice(&s5).try_for_each(|file| one_of("S5", &judge.budget(&file, most)?, &right))?;
    }
    Ok(())
}

// ---- rooms, tallies and refusals

/// The bytes of an answer of so many pairs: header, pair lines, end frame.
fn bytes_of(pairs: usize) -> usize {
    9 + 7 * pairs + 7
}

/// Some that are granted, and some that are not.
const BUDGETS: [u32; 6] = [0, 1, 64, 65, 256, u32::MAX];

pub fn rooms(judge: &mut Judge) -> Trial {
    let row = row(126, 126).0.file();
    let files = [&stock_files()[..], &[row, Vec::new(), b"1102\n".to_vec()]].concat();
    for file in files {
        let truth = stock_truth(&file);
        for room in [0, 1, bytes_of(63) - 1, bytes_of(63), 2_046, 2_047, 2_048, 2_049, 60_000] {
            for most in BUDGETS {
                judge.lend(Call::Budget(most), &file, room, &budget_owed(&truth, most))?;
            }
        }
    }
    Ok(())
}

pub fn over(judge: &mut Judge) -> Trial {
    for file in stock_files() {
        let truth = stock_truth(&file);
        for most in OVER {
            judge.budget_all_ways(&file, most, &truth)?;
            failing_in(judge, None, &file, most, &truth, &[])?;
            in_small_rooms(judge, &file, most, &truth, &[])?;
        }
        failing_in(judge, None, &file, MOST_SEARCHES, &truth, &[])?;
        in_small_rooms(judge, &file, MOST_SEARCHES, &truth, &[])?;
        judge.budget(&file, MOST_SEARCHES)?;
    }
    Ok(())
}

/// Rooms that fail 1, and a file that fails these questions.
fn in_small_rooms(judge: &mut Judge, file: &[u8], most: u32, truth: &StockTruth, faults: &[u8]) -> Trial {
    [0, LEAST_ROOM - 1].into_iter().try_for_each(|room| failing_in(judge, Some(room), file, most, truth, faults))
}

/// The same with a room that fails 1, or with none such.
fn failing_in(judge: &mut Judge, short: Option<usize>, file: &[u8], most: u32, truth: &StockTruth, faults: &[u8]) -> Trial {
    judge.failing(Call::Budget(most), file, short, &budget_owed(truth, most), faults)
}

/// A call, its file, and the count that it raises.
fn some_call(random: &mut Random) -> (Call, Vec<u8>, Count) {
    let granted = Call::Budget(random.below(65) as u32);
    let refused = Call::Budget(*random.choose(&OVER));
    let of_stock = *random.choose(&[Call::Stock, granted]);
    let good = small_stock(random).file();
    match random.below(8) {
        0 => (Call::Graph, graph(1, &[(0, 1), (0, 1)]).file(), Count::Paths),
        1 => (Call::Graph, graph(1, &[]).file(), Count::Barriers),
        2 => (refused, good, Count::Refusals),
        3 => (refused, b"".to_vec(), Count::Refusals),
        4 => (*random.choose(&[Call::Graph, of_stock]), b"1100\n".to_vec(), Count::Refusals),
        _ => (of_stock, good, Count::Stocks),
    }
}

pub fn calls_in_a_row(judge: &mut Judge) -> Trial {
    for start in [0, 3, u32::MAX - 12, u32::MAX - 1, u32::MAX] {
        let calls: Vec<_> = (0..40).map(|_| some_call(&mut judge.random)).collect();
        let calls: Vec<Counted> =
            calls.iter().map(|(call, file, count)| (*call, judge.some_caller(), &file[..], *count)).collect();
        for counts in [
            Counts { paths: start, barriers: start, stocks: start, refusals: start },
            Counts { stocks: start, ..Counts::default() },
            Counts { refusals: start, ..Counts::default() },
        ] {
            judge.in_a_row(Tally::of_each(counts), &calls)?;
        }
    }
    Ok(())
}

pub fn refusals(judge: &mut Judge) -> Trial {
    STOCK_QUESTIONS.iter().enumerate().try_for_each(|(place, first)| {
        refused_by(judge, &[*first])?;
        STOCK_QUESTIONS[place + 1..].iter().try_for_each(|later| refused_by(judge, &[*first, *later]))
    })
}

/// A file that fails these questions, with budgets that fail 15 or do not, with rooms that fail 1 or do not, and from callers that fail 17
/// or do not.
fn refused_by(judge: &mut Judge, faults: &[u8]) -> Trial {
    let file = failing(&mut judge.random, Kind::Stock, faults)?;
    let truth = stock_truth(&file);
    by_trial(&file, matches!(truth, StockTruth::Refused(number) if number == faults[0]), true)?;
    let some = judge.random.below(65) as u32;
    for most in [0, some, MOST_SEARCHES].into_iter().chain(OVER) {
        failing_in(judge, None, &file, most, &truth, faults)?;
    }
    judge.budget_all_ways(&file, some, &truth)?;
    [0, some, MOST_SEARCHES + 1, u32::MAX].into_iter().try_for_each(|most| in_small_rooms(judge, &file, most, &truth, faults))
}

// ---- answers compared with one another

/// An answer as the engine gave it.
struct Given {
    text: Vec<u8>,
    numbers: Numbers,
    pairs: Vec<Pair>,
}

impl Given {
    fn of(text: Vec<u8>) -> Given {
        let of_header = |place: usize| number(Text::of(&text).header(), place, 2);
        let numbers = Numbers { pairs: of_header(2), searches: of_header(4), missing: of_header(6) };
        let pairs = Text::of(&text).pairs(BUDGET.bodies[0]);
        Given { text, numbers, pairs }
    }

    /// Whether its frames are whole, and its pairs a pairing with that number that keeps the stock's lit cameras.
    fn is_pairing(&self, stock: &Stock) -> bool {
        let Numbers { pairs, searches, missing } = self.numbers;
        self.text == budget_file(&self.pairs, searches, missing)
            && self.pairs.len() == pairs
            && is_rising_pairing(stock, &self.pairs)
    }

    /// Whether one search lit nothing.
    fn found_none(&self, stock: &Stock) -> bool {
        self.numbers.pairs < stock.lit.len() + self.numbers.searches
    }
}

fn given(judge: &mut Judge, stock: &Stock, most: u32) -> Result<Given, String> {
    let text = judge.given(Call::Budget(most), &stock.file())?;
    let given = Given::of(text);
    held(given.is_pairing(stock), "no pairing that keeps lit cameras", stock, &[&given])?;
    Ok(given)
}

/// Something must hold of answers to a stock.
fn held(holds: bool, what: &str, stock: &Stock, answers: &[&Given]) -> Trial {
    if holds {
        return Ok(());
    }
    let answers: Vec<String> = answers.iter().map(|given| shown(&given.text)).collect();
    Err(format!("{what}:\n{}to:\n{}", answers.join("and\n"), shown(&stock.file())))
}

fn some_stock(random: &mut Random) -> Stock {
    match random.below(3) {
        0 => stock_with_isolated(random),
        1 => small_stock(random),
        _ => middling_stock(random),
    }
}

pub fn answers_compared(judge: &mut Judge, files: usize) -> Trial {
    (0..files).try_for_each(|_| {
        let stock = some_stock(&mut judge.random);
        let all = (0..=MOST_SEARCHES).map(|most| given(judge, &stock, most)).collect::<Result<Vec<Given>, String>>()?;
        all.iter().zip(0..).try_for_each(|(given, most)| holds_alone(&stock, given, most))?;
        all.windows(2).try_for_each(|two| holds_of_two(&stock, &two[0], &two[1]))?;
        let answer = judge.given(Call::Stock, &stock.file())?;
        let (plan, sheet) = halves(&answer);
        let (planned, greatest) = (Text::of(plan).body().len(), told_pairs(sheet));
        for given in &all {
            held(greatest <= given.numbers.pairs + given.numbers.missing, "more can be lit than is told", &stock, &[given])?;
        }
        let last = &all[MOST_SEARCHES as usize];
        let agree = greatest == last.numbers.pairs && planned == greatest && is_plan(&stock, greatest, &last.pairs);
        held(agree, "with 64 searches it is no plan, or the sheet or the plan has another number", &stock, &[last])?;
        let most = judge.random.below(65);
        let again = given(judge, &stock, most as u32)?;
        held(again.text == all[most].text, "the same call answers otherwise", &stock, &[&all[most], &again])
    })
}

/// The number of pairs in the header of a plan or a sheet.
fn told_pairs(half: &[u8]) -> usize {
    number(Text::of(half).header(), 2, 2)
}

/// Each search lights one more, but for the last where it found none; without such a one all that were granted have run.
fn holds_alone(stock: &Stock, given: &Given, most: usize) -> Trial {
    let Numbers { pairs, searches, missing } = given.numbers;
    let gained = pairs - stock.lit.len();
    let right = if given.found_none(stock) {
        searches <= most && gained + 1 == searches && missing == 0
    } else {
        searches == most && gained == searches && missing == (stock.cameras - 2 * pairs) / 2
    };
    held(right, &format!("numbers that {most} searches cannot have"), stock, &[given])?;
    held(gained > 0 || given.pairs == stock.lit, "nothing is gained, and the lit pairs are not kept", stock, &[given])
}

/// One more search: once one found none, all numbers remain. Before that it is run: it lights one more, and one fewer is missing, or it
/// finds none, and none is missing.
fn holds_of_two(stock: &Stock, fewer: &Given, more: &Given) -> Trial {
    let Numbers { pairs, searches, missing } = fewer.numbers;
    let right = if fewer.found_none(stock) {
        more.numbers == fewer.numbers
    } else if more.found_none(stock) {
        more.numbers == Numbers { pairs, searches: searches + 1, missing: 0 }
    } else {
        missing > 0 && more.numbers == Numbers { pairs: pairs + 1, searches: searches + 1, missing: missing - 1 }
    };
    held(right, "one search more", stock, &[fewer, more])
}

/// The same stock with the pairs of an answer lit.
fn lit_by(stock: &Stock, given: &Given) -> Stock {
    Stock { lit: given.pairs.clone(), ..stock.clone() }
}

pub fn budgets_add_up(judge: &mut Judge, files: usize) -> Trial {
    (0..files).try_for_each(|_| {
        let stock = some_stock(&mut judge.random);
        let greatest = if judge.random.chance(70) { 5 } else { 64 };
        let first = judge.random.below(greatest + 1) as u32;
        let second = judge.random.below(greatest.min(64 - first as usize) + 1) as u32;
        let before = given(judge, &stock, first)?;
        let after = given(judge, &lit_by(&stock, &before), second)?;
        let at_once = given(judge, &stock, first + second)?;
        adds_up(&stock, &before, &after, &at_once, second)
    })
}

/// Where the first call found none, the second, if it searches at all, finds that out again; if not, it does not know it.
fn adds_up(stock: &Stock, before: &Given, after: &Given, at_once: &Given, second: u32) -> Trial {
    let ended = before.found_none(stock);
    let again = usize::from(ended && second > 0);
    let unknown = ended && second == 0;
    let right = after.numbers.pairs == at_once.numbers.pairs
        && before.numbers.searches + after.numbers.searches == at_once.numbers.searches + again
        && (unknown || after.numbers.missing == at_once.numbers.missing)
        && is_rising_pairing(stock, &after.pairs);
    held(right, &format!("two calls, the second with {second} searches, and one"), stock, &[before, after, at_once])
}

pub fn one_at_a_time(judge: &mut Judge, files: usize) -> Trial {
    (0..files).try_for_each(|_| {
        let stock = some_stock(&mut judge.random);
        let greatest = told_pairs(sheet_in(&judge.given(Call::Stock, &stock.file())?));
        let mut at_hand = stock.clone();
        for lit in stock.lit.len()..=greatest {
            let given = given(judge, &at_hand, 1)?;
            let missing = if lit == greatest { 0 } else { (stock.cameras - 2 * given.pairs.len()) / 2 };
            let right = Numbers { pairs: greatest.min(lit + 1), searches: 1, missing };
            held(given.numbers == right && is_rising_pairing(&stock, &given.pairs), "one search", &at_hand, &[&given])?;
            held((lit == greatest) == given.found_none(&at_hand), "one search", &at_hand, &[&given])?;
            at_hand = lit_by(&at_hand, &given);
        }
        Ok(())
    })
}

// ---- every budget and every stock

/// Each of these budgets, by one trial of the stock.
fn with_each(judge: &mut Judge, stock: &Stock, budgets: impl IntoIterator<Item = u32>) -> Trial {
    let file = stock.file();
    let truth = stock_truth(&file);
    judge.seen.files += 1;
    budgets.into_iter().try_for_each(|most| judge.budget_owing(&file, most, &truth).map(drop))
}

pub fn every_budget(judge: &mut Judge, files: usize) -> Trial {
    (0..files).try_for_each(|_| {
        let stock = some_stock(&mut judge.random);
        with_each(judge, &stock, 0..=MOST_SEARCHES)
    })
}

/// The most cameras of which every stock is tried with every pairing lit.
const FEW_CAMERAS: usize = 5;

pub fn every_small_stock(judge: &mut Judge) -> Trial {
    for cameras in 0..=FEW_CAMERAS {
        for fits in every_fits(cameras) {
            for lit in all_pairings(cameras, &fits) {
                let stock = Stock { cameras, fits: fits.clone(), lit };
                with_each(judge, &stock, (0..=8).chain([MOST_SEARCHES - 1, MOST_SEARCHES]))?;
            }
        }
    }
    Ok(())
}

// ---- sizes

/// Rows of every number of pairs among 127 cameras, none of them lit: a budget that stops one before, at and after the last one.
pub fn every_size(judge: &mut Judge) -> Trial {
    (0..=63).try_for_each(|pairs| {
        let (row, standing) = row(127, 2 * pairs);
        let stock = Stock { lit: Vec::new(), ..row };
        let truth = StockTruth::Accepted(stock.clone(), standing);
        for most in pairs.saturating_sub(1)..=pairs + 1 {
            let answer = judge.budget_owing(&stock.file(), most as u32, &truth)?;
            let reached = pairs.min(most);
            let missing = if most > pairs { 0 } else { 63 - reached };
            let header = format!("61{reached:02X}{most:02X}{missing:02X}");
            by_trial(&stock.file(), (header_of(&answer), answer.len()), (header, bytes_of(reached)))?;
        }
        let other = shuffled_stock(&mut judge.random, &stock);
        with_each(judge, &other, [pairs as u32])
    })
}

pub fn largest_stocks(judge: &mut Judge) -> Trial {
    let random = &mut judge.random;
    let most_fits = some_fits(random, 127, 3_900);
    let ears = ear_fits(random, 127);
    let stocks = [
        stock_of(127, &most_fits, &[]),
        stock_of(127, &most_fits, &some_lit(random, &most_fits, 30)),
        stock_of(127, &most_fits, &nearly_largest_lit(127, &most_fits, 1)),
        stock_of(127, &ears, &[]),
        stock_of(127, &ears, &some_lit(random, &ears, 100)),
        triangles_in_a_row(0),
        triangles_in_a_row(42),
        around(random, &row(100, 100).0),
    ];
    stocks.iter().try_for_each(|stock| around_gain(judge, stock))
}

/// The stock's cameras among 127, those in the middle without a fit.
fn around(random: &mut Random, stock: &Stock) -> Stock {
    let before = random.below(stock.cameras);
    let places: Vec<usize> = (0..before).chain(before + 127 - stock.cameras..127).collect();
    placed(stock, 127, &places)
}

/// No search, one, all that are granted, and those around the gain.
fn around_gain(judge: &mut Judge, stock: &Stock) -> Trial {
    let file = stock.file();
    let StockTruth::Accepted(_, standing) = stock_truth(&file) else {
        return Err(format!("a stock that was made to be accepted is refused\n{}", shown(&file)));
    };
    let gain = (standing.greatest - stock.lit.len()) as u32;
    let truth = StockTruth::Accepted(stock.clone(), standing);
    let budgets = [0, 1, 2, gain.saturating_sub(1), gain, gain + 1, gain + 2, 63, 64];
    for most in budgets.into_iter().filter(|most| *most <= MOST_SEARCHES) {
        judge.budget_owing(&file, most, &truth)?;
    }
    judge.seen.files += 1;
    let most = judge.random.below(65) as u32;
    judge.budget_all_ways(&file, most, &truth)
}
