//! What is tried with what a stock gets, a plan directly followed by its sheet (document 02, L6): the printout.
//!   known               stocks with every printout that is right written out whole, with all line ends
//!   edges, edge_stocks  the shortest, the longest and others at an edge, with their sizes and the frames around the cut written out
//!   rooms               rooms around 2,048 bytes, and around the sizes of printouts and of their halves
//!   over_content        buffers that hold another printout, this one, or bytes that it could go on with
//!   one_after_another   random calls of every kind by all callers on one tally and in one buffer, also with counts at their largest
//!   refusals            every question as the first failing one, alone and with each later one; 1 and 17 before them
//!   every_pairing_lit   every stock of a few cameras: the sheet is the same, in the same place, with every pairing lit
//!   other_lit_pairs     the same of random stocks with random pairings lit; with the plan's own pairs lit nothing changes
//!   largest_stocks      the same of 127 cameras
//!   last_search         stocks whose marks would be others before the last search
//!   known_marks         some of these with their sheets written out
//!   all_searches        stocks of 127 cameras that take all 64 searches
//!   every_size          every number of pairs with every number of cameras
//! Printouts are compared, one half with the other and with one another, as the engine gave them, whatever the trial says of them.

use crate::blossom::marks_from;
use crate::cases::{by_trial, one_of, stock_answer};
use crate::engine::{Call, Counts, Tally, CALLERS};
use crate::exhaustive::every_fits;
use crate::faults::{failing, Kind};
use crate::frames::{halves, number, plan_bytes, printout, sheet_bytes, sheet_file, Pair, Text, BUDGET, PLAN, SHEET};
use crate::generate::{
    all_fits, ear_fits, middling_stock, nearly_largest_lit, shuffled_stock, small_stock, some_fits, some_lit, stock_of,
    stock_with_isolated,
};
use crate::judge::{shown, Judge, Sent, Trial, LEAST_ROOM, OVER};
use crate::known::{graph, isolated_stocks, stock, stocks, KnownStock, G5, S7};
use crate::random::Random;
use crate::reference::search;
use crate::seen::Printout;
use crate::shapes::{row, triangles_in_a_row};
use crate::stock_trial::{all_pairings, includes, is_plan, Standing, Stock, ISOLATED, MOST_CAMERAS, MOST_PAIRS, STOCK_QUESTIONS};
use crate::truth::{stock_owed, stock_truth, StockTruth, MOST_SEARCHES};

// ---- known printouts

/// By the names of known.rs; a blank stands for each line feed.
const PRINTOUTS: [(&str, &[&str]); 19] = [
    ("S1", &["5100 5F0000 4100 4F0000"]),
    ("S2", &["5101 520001 5F0001 4101 430002 430102 4F0002"]),
    (
        "S3",
        &[
            "5101 520001 5F0001 4101 430000 430100 430200 4F0003",
            "5101 520002 5F0001 4101 430000 430100 430200 4F0003",
            "5101 520102 5F0001 4101 430000 430100 430200 4F0003",
        ],
    ),
    (
        "S4",
        &[
            "5101 520001 5F0001 4101 430001 430100 430200 430300 4F0004",
            "5101 520002 5F0001 4101 430001 430100 430200 430300 4F0004",
            "5101 520003 5F0001 4101 430001 430100 430200 430300 4F0004",
        ],
    ),
    ("S5", &["5102 520001 520203 5F0002 4102 430002 430102 430202 430302 4F0004"]),
    (
        "S6",
        &[
            "5102 520001 520203 5F0002 4102 430000 430100 430200 430300 430400 4F0005",
            "5102 520001 520304 5F0002 4102 430000 430100 430200 430300 430400 4F0005",
            "5102 520004 520102 5F0002 4102 430000 430100 430200 430300 430400 4F0005",
            "5102 520004 520203 5F0002 4102 430000 430100 430200 430300 430400 4F0005",
            "5102 520102 520304 5F0002 4102 430000 430100 430200 430300 430400 4F0005",
        ],
    ),
    ("S7", &["5103 520001 520203 520405 5F0003 4103 430002 430102 430202 430302 430402 430502 4F0006"]),
    ("isolated_alone", &["5100 5F0000 4100 430003 4F0001"]),
    ("isolated_third", &["5101 520001 5F0001 4101 430002 430102 430203 4F0003"]),
    ("four_marks", &["5102 520102 520506 5F0002 4102 430003 430101 430200 430300 430400 430502 430602 430703 4F0008"]),
    ("two cameras, and no fit", &["5100 5F0000 4100 430003 430103 4F0002"]),
    ("fit 0-2 of three", &["5101 520002 5F0001 4101 430002 430103 430202 4F0003"]),
    ("fit 1-2 of three, lit", &["5101 520102 5F0001 4101 430003 430102 430202 4F0003"]),
    ("S3 with 0-2 lit, and one camera more", &["5101 520002 5F0001 4101 430000 430100 430200 430303 4F0004"]),
    (
        "S4 without its last fit",
        &[
            "5101 520001 5F0001 4101 430001 430100 430200 430303 4F0004",
            "5101 520002 5F0001 4101 430001 430100 430200 430303 4F0004",
        ],
    ),
    ("S5 around two cameras more", &["5102 520102 520405 5F0002 4102 430003 430102 430202 430303 430402 430502 4F0006"]),
    (
        "S6 around two cameras more",
        &[
            "5102 520001 520304 5F0002 4102 430000 430100 430203 430300 430400 430503 430600 4F0007",
            "5102 520001 520406 5F0002 4102 430000 430100 430203 430300 430400 430503 430600 4F0007",
            "5102 520006 520103 5F0002 4102 430000 430100 430203 430300 430400 430503 430600 4F0007",
            "5102 520006 520304 5F0002 4102 430000 430100 430203 430300 430400 430503 430600 4F0007",
            "5102 520103 520406 5F0002 4102 430000 430100 430203 430300 430400 430503 430600 4F0007",
        ],
    ),
    (
        "all four marks, one pair gained",
        &["5102 520103 520506 5F0002 4102 430003 430101 430200 430300 430403 430502 430602 430703 4F0008"],
    ),
    (
        "all four marks, a lit pair swapped for two",
        &["5103 520103 520406 520708 5F0003 4103 430003 430101 430200 430300 430402 430503 430602 430702 430802 430903 4F000A"],
    ),
];

fn in_lines(text: &str) -> Vec<u8> {
    format!("{}\n", text.replace(' ', "\n")).into_bytes()
}

fn known_stocks() -> Vec<KnownStock> {
    stocks().into_iter().chain(isolated_stocks()).collect()
}

pub fn known(judge: &mut Judge) -> Trial {
    let all = known_stocks();
    for (name, texts) in PRINTOUTS {
        let known = all.iter().find(|known| known.name == name).ok_or(format!("no stock is known by the name {name}"))?;
        let (file, right) = (known.stock.file(), texts.iter().map(|text| in_lines(text)).collect::<Vec<_>>());
        by_trial(&file, known.answers(), right.clone())?;
        let truth = stock_truth(&file);
        by_trial(&file, right.iter().all(|answer| (stock_owed(&truth).is_right)(answer)), true)?;
        one_of(name, &stock_answer(judge, &file)?, &right)?;
        judge.stock_all_ways(&file)?;
    }
    Ok(())
}

// ---- edges

/// A stock, its number of pairs, the frame before the cut, the one behind it and the last one, and the size.
pub type Edge = (Stock, usize, &'static [u8], &'static [u8], &'static [u8], usize);

pub fn edge_stocks() -> [Edge; 8] {
    let apart: Vec<Pair> = (0..MOST_PAIRS).map(|pair| (2 * pair, 2 * pair + 1)).collect();
    let unlit = |in_row: usize| Stock { lit: Vec::new(), ..row(in_row, in_row).0 };
    [
        (stock(0, &[], &[]), 0, b"5F0000\n", b"4100\n", b"4F0000\n", 24),
        (stock(1, &[], &[]), 0, b"5F0000\n", b"4100\n", b"4F0001\n", 31),
        (stock(2, &[(0, 1)], &[(0, 1)]), 1, b"5F0001\n", b"4101\n", b"4F0002\n", 45),
        (stock(127, &[], &[]), 0, b"5F0000\n", b"4100\n", b"4F007F\n", 913),
        (stock(126, &apart, &[]), 63, b"5F003F\n", b"413F\n", b"4F007E\n", 1_347),
        (stock(126, &apart, &apart), 63, b"5F003F\n", b"413F\n", b"4F007E\n", 1_347),
        (stock(127, &apart, &[]), 63, b"5F003F\n", b"413F\n", b"4F007F\n", 1_354),
        (unlit(127), 63, b"5F003F\n", b"413F\n", b"4F007F\n", 1_354),
    ]
}

pub fn edges(judge: &mut Judge) -> Trial {
    for (stock, pairs, before, behind, last, size) in edge_stocks() {
        let file = stock.file();
        let answer = judge.stock_owing(&file, &stock_truth(&file))?;
        let (plan, sheet) = answer.split_at(12 + 7 * pairs);
        let right = plan.ends_with(before) && sheet.starts_with(behind) && sheet.ends_with(last) && answer.len() == size;
        by_trial(&file, right, true)?;
        judge.stock(&file)?;
    }
    Ok(())
}

// ---- rooms and buffers

/// Around the two halves of the longest printout, it whole, and what question 1 asks for.
const ROOMS: [usize; 20] =
    [0, 1, 12, 24, 452, 453, 454, 900, 901, 1_024, 1_353, 1_354, 1_355, 2_046, 2_047, 2_048, 2_049, 4_095, 4_096, 60_000];

pub fn rooms(judge: &mut Judge) -> Trial {
    let edges = edge_stocks().map(|edge| edge.0.file());
    let others = [b"".to_vec(), b"1102\n".to_vec(), stock(3, &[(0, 1)], &[(1, 2)]).file()];
    for file in [stocks()[4].stock.file(), stocks()[5].stock.file()].iter().chain(&edges).chain(&others) {
        let truth = stock_truth(file);
        let owed = stock_owed(&truth);
        let own = judge.lend(Call::Stock, file, LEAST_ROOM, &owed)?.len();
        for room in ROOMS.into_iter().chain([own.saturating_sub(1), own, own + 1]) {
            judge.lend(Call::Stock, file, room, &owed)?;
        }
    }
    Ok(())
}

/// Room for the longest printout and more, filled with these bytes over and over, behind some others.
fn filled(front: &[u8], over_and_over: &[u8]) -> Vec<u8> {
    front.iter().chain(over_and_over.iter().cycle()).copied().take(LEAST_ROOM).collect()
}

pub fn over_content(judge: &mut Judge) -> Trial {
    let longest = edge_stocks()[7].0.file();
    let longest = judge.lend(Call::Stock, &longest, LEAST_ROOM, &stock_owed(&stock_truth(&longest)))?;
    for known in known_stocks().into_iter().filter(|known| known.stock.cameras <= 10) {
        let file = known.stock.file();
        let truth = stock_truth(&file);
        let own = stock_answer(judge, &file)?;
        let (plan, sheet) = halves(&own);
        for over in
            [&b"\0"[..], b"\xFF", b"\n", b"\r\n", b"0", b"430000\n", b"4F0000\n", b"4100\n", b"5F0000\n", plan, sheet, &own]
        {
            judge.lend_over(Call::Stock, &file, &filled(b"", over), &stock_owed(&truth))?;
        }
        for front in [&longest[..], &longest[..own.len()], &own, &own[1..], sheet] {
            judge.lend_over(Call::Stock, &file, &filled(front, b"\0"), &stock_owed(&truth))?;
        }
    }
    Ok(())
}

// ---- calls in a row

fn some_call(random: &mut Random) -> Sent {
    let call = match random.below(8) {
        0 => Call::Graph,
        1 => Call::Budget(random.below(65) as u32),
        2 => Call::Budget(*random.choose(&OVER)),
        _ => Call::Stock,
    };
    let file = match (call, random.below(6)) {
        (_, 0) => b"1100\n".to_vec(),
        (Call::Graph, arcs) => graph(2, &G5[..2 * arcs.div_ceil(2)]).file(),
        (_, 1) => stock_with_isolated(random).file(),
        (_, 2) => stock(3, &[(0, 1)], &[(1, 2)]).file(),
        _ => small_stock(random).file(),
    };
    let room = *random.choose(&[LEAST_ROOM, LEAST_ROOM, LEAST_ROOM, LEAST_ROOM - 1, LEAST_ROOM + 1, 3_000]);
    Sent::Call { call, caller: random.below(CALLERS) as u32, file, room }
}

pub fn one_after_another(judge: &mut Judge) -> Trial {
    for start in [0, 1, u32::MAX - 20, u32::MAX - 2, u32::MAX - 1, u32::MAX] {
        let calls: Vec<Sent> = (0..40).map(|_| some_call(&mut judge.random)).collect();
        judge.seen.files += 2 * calls.len();
        let all = Counts { paths: start, barriers: start, stocks: start, refusals: start };
        for counts in [all, Counts { stocks: start, ..Counts::default() }] {
            judge.one_after_another(Tally::of_each(counts), &calls)?;
        }
    }
    Ok(())
}

pub fn refusals(judge: &mut Judge) -> Trial {
    STOCK_QUESTIONS.iter().enumerate().try_for_each(|(place, first)| {
        refused_by(judge, &[*first])?;
        STOCK_QUESTIONS[place + 1..].iter().try_for_each(|later| refused_by(judge, &[*first, *later]))
    })?;
    for file in [stocks()[4].stock.file(), stocks()[0].stock.file()] {
        in_all_rooms(judge, &file, &stock_truth(&file), &[])?;
    }
    Ok(())
}

/// A file that fails these questions, with rooms that fail 1 or do not, and from callers that fail 17 or do not.
fn refused_by(judge: &mut Judge, faults: &[u8]) -> Trial {
    let file = failing(&mut judge.random, Kind::Stock, faults)?;
    let truth = stock_truth(&file);
    by_trial(&file, matches!(truth, StockTruth::Refused(number) if number == faults[0]), true)?;
    judge.seen.files += 1;
    in_all_rooms(judge, &file, &truth, faults)
}

fn in_all_rooms(judge: &mut Judge, file: &[u8], truth: &StockTruth, faults: &[u8]) -> Trial {
    let rooms = [None, Some(0), Some(1_354), Some(LEAST_ROOM - 1)];
    rooms.into_iter().try_for_each(|short| judge.failing(Call::Stock, file, short, &stock_owed(truth), faults))
}

// ---- printouts compared

/// A printout as the engine gave it, cut behind the plan.
#[derive(Clone, PartialEq)]
struct Given {
    plan: Vec<u8>,
    sheet: Vec<u8>,
}

impl Given {
    fn of(text: &[u8]) -> Given {
        let (plan, sheet) = halves(text);
        Given { plan: plan.to_vec(), sheet: sheet.to_vec() }
    }

    fn text(&self) -> Vec<u8> {
        [&self.plan[..], &self.sheet].concat()
    }

    fn pairs(&self) -> Vec<Pair> {
        Text::of(&self.plan).pairs(PLAN.bodies[0])
    }

    fn marks(&self) -> Vec<usize> {
        Text::of(&self.sheet).pairs(SHEET.bodies[0]).iter().map(|(_, mark)| *mark).collect()
    }

    /// The greatest number of pairs, five times: by the plan's header, its lines, its end frame and its bytes, and by the sheet's header.
    fn numbers(&self) -> [usize; 5] {
        let (plan, sheet) = (Text::of(&self.plan), Text::of(&self.sheet));
        let by_bytes = self.plan.len().saturating_sub(plan_bytes(0)) / 7;
        [number(plan.header(), 2, 2), plan.body().len(), number(plan.end(), 2, 4), by_bytes, number(sheet.header(), 2, 2)]
    }

    /// All frames are there, and nothing else.
    fn is_whole(&self, stock: &Stock) -> bool {
        let (pairs, marks) = (self.pairs(), self.marks());
        let bytes = plan_bytes(pairs.len()) + sheet_bytes(stock.cameras);
        marks.len() == stock.cameras && self.text() == printout(&pairs, pairs.len(), &marks) && self.text().len() == bytes
    }

    /// The cameras that the plan leaves over have mark 00, or 03 where they have no fit; 03 is for no others.
    fn marks_left_over(&self, stock: &Stock) -> bool {
        let (pairs, marks, isolated) = (self.pairs(), self.marks(), stock.isolated());
        let left_over: Vec<usize> = (0..stock.cameras).filter(|camera| !includes(&pairs, *camera)).collect();
        left_over.len() + 2 * pairs.len() == stock.cameras
            && left_over.iter().all(|camera| [0, ISOLATED].contains(&marks[*camera]))
            && (0..stock.cameras).all(|camera| (marks[camera] == ISOLATED) == isolated.contains(&camera))
    }
}

/// Something must hold of printouts of a stock.
fn held(holds: bool, what: &str, stock: &Stock, given: &[&Given]) -> Trial {
    if holds {
        return Ok(());
    }
    let printouts: Vec<String> = given.iter().map(|given| shown(&given.text())).collect();
    Err(format!("{what}:\n{}to:\n{}", printouts.join("and\n"), shown(&stock.file())))
}

/// What the engine gives, one half held to the other.
fn given(judge: &mut Judge, stock: &Stock) -> Result<Given, String> {
    let given = Given::of(&judge.given(Call::Stock, &stock.file())?);
    let numbers = given.numbers();
    held(numbers == [numbers[0]; 5], &format!("the numbers of pairs do not agree, {numbers:?}"), stock, &[&given])?;
    held(given.is_whole(stock), "no plan, directly followed by a sheet", stock, &[&given])?;
    held(is_plan(stock, numbers[0], &given.pairs()), "no plan, if its number is the greatest", stock, &[&given])?;
    held(given.marks_left_over(stock), "a camera left over that is not marked so", stock, &[&given])?;
    Ok(given)
}

/// The same stock with other pairs lit: the sheet is the same and stands in the same place, and so the size is the same.
fn alike_when_lit(judge: &mut Judge, stock: &Stock, first: &Given, lit: Vec<Pair>) -> Result<Given, String> {
    let other = Stock { lit, ..stock.clone() };
    let given = given(judge, &other)?;
    let alike = given.sheet == first.sheet && given.plan.len() == first.plan.len();
    held(alike, "with other lit pairs the sheet is another, or stands elsewhere", &other, &[first, &given])?;
    Ok(given)
}

/// The most cameras of which every stock is tried with every pairing lit.
const FEW_CAMERAS: usize = 5;

pub fn every_pairing_lit(judge: &mut Judge) -> Trial {
    for cameras in 0..=FEW_CAMERAS {
        for fits in every_fits(cameras) {
            let stock = Stock { cameras, fits, lit: Vec::new() };
            let first = given(judge, &stock)?;
            all_pairings(cameras, &stock.fits)
                .into_iter()
                .try_for_each(|lit| alike_when_lit(judge, &stock, &first, lit).map(drop))?;
        }
    }
    Ok(())
}

fn some_stock(random: &mut Random) -> Stock {
    match random.below(4) {
        0 => stock_with_isolated(random),
        1 | 2 => small_stock(random),
        _ => middling_stock(random),
    }
}

pub fn other_lit_pairs(judge: &mut Judge, files: usize) -> Trial {
    (0..files).try_for_each(|_| {
        let stock = some_stock(&mut judge.random);
        with_other_lit_pairs(judge, &stock)
    })
}

/// None lit, some, as many as a random order allows, nearly a largest pairing; the plan's own pairs, with which it remains; and again.
fn with_other_lit_pairs(judge: &mut Judge, stock: &Stock) -> Trial {
    let Stock { cameras, fits, .. } = stock;
    let first = given(judge, stock)?;
    for percent in [0, 30, 60, 100] {
        let lit = stock_of(*cameras, fits, &some_lit(&mut judge.random, fits, percent)).lit;
        alike_when_lit(judge, stock, &first, lit)?;
    }
    for fewer in 0..3 {
        alike_when_lit(judge, stock, &first, nearly_largest_lit(*cameras, fits, fewer))?;
    }
    let planned = alike_when_lit(judge, stock, &first, first.pairs())?;
    held(planned == first, "with the pairs of its plan lit a stock gets another plan", stock, &[&first, &planned])?;
    let again = given(judge, stock)?;
    held(again == first, "the same call answers otherwise", stock, &[&first, &again])?;
    as_with_all_granted(judge, stock, &first)
}

/// 64 searches lead to as many pairs, and to a plan too.
fn as_with_all_granted(judge: &mut Judge, stock: &Stock, given: &Given) -> Trial {
    let answer = judge.given(Call::Budget(MOST_SEARCHES), &stock.file())?;
    let (told, pairs) = (number(Text::of(&answer).header(), 2, 2), Text::of(&answer).pairs(BUDGET.bodies[0]));
    let agree = told == given.numbers()[0] && is_plan(stock, told, &pairs);
    held(agree, &format!("64 searches lead to {told} pairs, or to no plan"), stock, &[given])
}

pub fn largest_stocks(judge: &mut Judge) -> Trial {
    let random = &mut judge.random;
    let of_all = [some_fits(random, 127, 3_900), some_fits(random, 127, 140), ear_fits(random, 127), row(127, 127).0.fits];
    of_all.iter().try_for_each(|fits| {
        let lit = some_lit(&mut judge.random, fits, 50);
        with_other_lit_pairs(judge, &stock_of(127, fits, &lit))
    })
}

// ---- the last search

/// Whether the marks would be others by alternating paths from the pairing before the first search, or before the last that lit a pair.
fn others_before(stock: &Stock, standing: &Standing) -> Vec<Printout> {
    let gain = (standing.greatest - stock.lit.len()) as u32;
    let before_last = search(stock, gain.saturating_sub(1)).pairs;
    let starts = [(Printout::OtherBeforeFirst, &stock.lit), (Printout::OtherBeforeLast, &before_last)];
    starts
        .into_iter()
        .filter(|(_, pairs)| marks_from(stock.cameras, &stock.fits, pairs) != standing.marks)
        .map(|(kind, _)| kind)
        .collect()
}

pub fn last_search(judge: &mut Judge, files: usize) -> Trial {
    let mut met = 0;
    while met < files {
        let stock = some_stock(&mut judge.random);
        let file = stock.file();
        let truth = stock_truth(&file);
        let StockTruth::Accepted(_, standing) = &truth else {
            return Err(format!("a stock that was made to be accepted is refused\n{}", shown(&file)));
        };
        let kinds = others_before(&stock, standing);
        if kinds.is_empty() {
            continue;
        }
        met += 1;
        judge.seen.files += 1;
        kinds.into_iter().for_each(|kind| judge.seen.printout_kind(kind));
        judge.stock_owing(&file, &truth)?;
    }
    Ok(())
}

/// A stock, and its marks: of a pairing that is not largest, every camera of these would be reached, or another set of them.
fn moved_marks() -> [(Stock, usize, &'static [usize]); 8] {
    let chain = [(0, 1), (1, 2), (2, 3)];
    let longer = [(0, 1), (1, 2), (2, 3), (3, 4)];
    // a triangle, and a chain from its last camera
    let tail = [(0, 1), (0, 2), (1, 2), (2, 3), (3, 4), (4, 5)];
    [
        (stock(2, &[(0, 1)], &[]), 1, &[2, 2]),
        (stock(4, &chain, &[(1, 2)]), 2, &[2, 2, 2, 2]),
        (stock(5, &longer, &[(1, 2)]), 2, &[0, 1, 0, 1, 0]),
        (stock(5, &longer, &[]), 2, &[0, 1, 0, 1, 0]),
        (stock(6, &S7, &[(0, 2), (3, 5)]), 3, &[2; 6]),
        (stock(6, &tail, &[(0, 1), (3, 4)]), 3, &[2; 6]),
        (stock(4, &[(0, 1), (2, 3)], &[(0, 1)]), 2, &[2, 2, 2, 2]),
        (stock(7, &[(0, 1), (0, 2), (1, 2), (3, 4), (5, 6)], &[(0, 1)]), 3, &[0, 0, 0, 2, 2, 2, 2]),
    ]
}

pub fn known_marks(judge: &mut Judge) -> Trial {
    for (stock, greatest, marks) in moved_marks() {
        let file = stock.file();
        let kinds = others_before(&stock, &Standing { greatest, marks: marks.to_vec() });
        by_trial(&file, kinds.is_empty(), false)?;
        kinds.into_iter().for_each(|kind| judge.seen.printout_kind(kind));
        let answer = stock_answer(judge, &file)?;
        one_of("a stock with known marks", halves(&answer).1, &[sheet_file(greatest, marks)])?;
        judge.stock(&file)?;
    }
    Ok(())
}

/// 127 cameras, none lit, 63 pairs: each search but the last lights one. One pair lit, or left out, takes one search fewer.
pub fn all_searches(judge: &mut Judge) -> Trial {
    let random = &mut judge.random;
    let most_fits = some_fits(random, 127, 3_900);
    let apart: Vec<Pair> = (0..MOST_PAIRS).map(|pair| (2 * pair, 2 * pair + 1)).collect();
    let stocks = [
        stock_of(127, &apart, &[]),
        stock_of(127, &apart, &apart[..1]),
        stock_of(127, &apart[1..], &[]),
        stock_of(127, &row(127, 127).0.fits, &[]),
        stock_of(127, &row(127, 126).0.fits, &[]),
        stock_of(127, &ear_fits(random, 127), &[]),
        stock_of(127, &most_fits, &[]),
        stock_of(127, &triangles_in_a_row(0).fits, &[]),
        stock_of(90, &all_fits(88)[..3_800], &[]),
    ];
    stocks.iter().try_for_each(|stock| {
        let other = shuffled_stock(&mut judge.random, stock);
        for stock in [stock, &other] {
            let file = stock.file();
            judge.seen.files += 1;
            judge.stock_owing(&file, &stock_truth(&file))?;
        }
        let given = given(judge, &other)?;
        as_with_all_granted(judge, &other, &given)
    })
}

// ---- sizes

/// The first cameras in a row, the others alone; one pair of it is not lit.
pub fn every_size(judge: &mut Judge) -> Trial {
    for cameras in 0..=MOST_CAMERAS {
        for pairs in 0..=cameras / 2 {
            let (stock, standing) = row(cameras, 2 * pairs);
            let file = stock.file();
            judge.seen.files += 1;
            let answer = judge.stock_owing(&file, &StockTruth::Accepted(stock, standing))?;
            by_trial(&file, answer.len(), 24 + 7 * (pairs + cameras))?;
        }
    }
    Ok(())
}
