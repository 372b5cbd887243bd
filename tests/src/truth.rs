//! What documents 01 and 02 say of a file that is handed in: by trial of everything where it is small enough, by matchings otherwise.
//!   GraphTruth, graph_truth    refusal, or the graph and whether it has a path, or else its canonical classes
//!   StockTruth, stock_truth    refusal, or the stock and its standing
//!   Owed, Count                what a call owes: refusal number, the count that rises, and whether an answer is right
//!   graph_owed, stock_owed, refused
//!   budget_owed                the same of a call with a budget (document 02, L4)
//!   MOST_SEARCHES, OVER_BUDGET the largest budget, and the question that asks for it
//!   Numbers, numbers_within    pairs, searches and missing lanes that a budget comes to
//!   Truth, truth_for, owed     the same of any call that names its caller
//!   is_caller, WRONG_CALLER    whether a number is a caller's (document 02, L7), and the question that asks for it
//!   wrong_callers              numbers that are not
//!   questions_of               the questions put to a call, in the order of documents 01 and 02
//!   look_up_owed               what the look-up owes, for any fits (document 02, L3)

use crate::arc_matching;
use crate::blossom;
use crate::engine::{Call, CallKind, Fit, Looked, CALLERS, OF_EACH};
use crate::frames::{barrier_file, budget_file, path_file, plan_bytes, plan_file, sheet_file, Text, BARRIER, BUDGET, PATH, PLAN};
use crate::graph_trial::{self, canonical, is_wanted, mate, Certificate, Graph, GRAPH_QUESTIONS};
use crate::stock_trial::{self, is_plan, is_rising_pairing, Standing, Stock, STOCK_QUESTIONS};

/// Up to these sizes everything is tried.
const SMALL_NODES: usize = 12;
const SMALL_ARCS: usize = 26;
const SMALL_CAMERAS: usize = 8;

pub enum GraphTruth {
    Refused(u8),
    Path(Graph),
    Barrier(Graph, Vec<usize>),
}

pub fn graph_truth(file: &[u8]) -> GraphTruth {
    let graph = match graph_trial::read(file) {
        Ok(graph) => graph,
        Err(refusal) => return GraphTruth::Refused(refusal),
    };
    let small = graph.nodes() <= SMALL_NODES && graph.arcs.len() <= SMALL_ARCS;
    let reached = if small { graph_trial::reachable(&graph) } else { arc_matching::reachable(&graph) };
    if reached[mate(graph.source)] {
        return GraphTruth::Path(graph);
    }
    let classes = canonical(&graph, &reached);
    GraphTruth::Barrier(graph, classes)
}

pub enum StockTruth {
    Refused(u8),
    Accepted(Stock, Standing),
}

pub fn stock_truth(file: &[u8]) -> StockTruth {
    let stock = match stock_trial::read(file) {
        Ok(stock) => stock,
        Err(refusal) => return StockTruth::Refused(refusal),
    };
    let by = if stock.cameras <= SMALL_CAMERAS { stock_trial::standing } else { blossom::standing };
    let standing = by(stock.cameras, &stock.fits);
    StockTruth::Accepted(stock, standing)
}

#[derive(Clone, Copy, Debug, PartialEq, Eq, PartialOrd, Ord)]
pub enum Count {
    Paths,
    Barriers,
    Stocks,
    Refusals,
}

impl Count {
    /// Where it stands, as a caller's, among all counts of a tally.
    pub fn place(self, caller: u32) -> usize {
        OF_EACH * caller as usize + self as usize
    }
}

pub type AnswerTest<'a> = Box<dyn Fn(&[u8]) -> bool + 'a>;

pub struct Owed<'a> {
    pub number: u8,
    pub count: Count,
    pub is_right: AnswerTest<'a>,
}

pub fn refused(number: u8) -> Owed<'static> {
    Owed { number, count: Count::Refusals, is_right: Box::new(|_| false) }
}

pub fn graph_owed(truth: &GraphTruth) -> Owed<'_> {
    match truth {
        GraphTruth::Refused(number) => refused(*number),
        GraphTruth::Path(graph) => {
            Owed { number: 0, count: Count::Paths, is_right: Box::new(|answer| is_path_answer(graph, answer)) }
        }
        GraphTruth::Barrier(_, classes) => {
            Owed { number: 0, count: Count::Barriers, is_right: Box::new(|answer| answer == barrier_file(classes)) }
        }
    }
}

pub fn stock_owed(truth: &StockTruth) -> Owed<'_> {
    match truth {
        StockTruth::Refused(number) => refused(*number),
        StockTruth::Accepted(stock, standing) => {
            Owed { number: 0, count: Count::Stocks, is_right: Box::new(|answer| is_stock_answer(stock, standing, answer)) }
        }
    }
}

pub const MOST_SEARCHES: u32 = 64;
pub const OVER_BUDGET: u8 = 15;

pub fn budget_owed(truth: &StockTruth, most: u32) -> Owed<'_> {
    match truth {
        _ if most > MOST_SEARCHES => refused(OVER_BUDGET),
        StockTruth::Refused(number) => refused(*number),
        StockTruth::Accepted(stock, standing) => Owed {
            number: 0,
            count: Count::Stocks,
            is_right: Box::new(move |answer| is_budget_answer(stock, standing.greatest, most, answer)),
        },
    }
}

/// What is said of a file that is handed to a call.
pub enum Truth {
    Graph(GraphTruth),
    Stock(StockTruth),
}

pub fn truth_for(call: Call, file: &[u8]) -> Truth {
    match call {
        Call::Graph => Truth::Graph(graph_truth(file)),
        Call::Stock | Call::Budget(_) => Truth::Stock(stock_truth(file)),
    }
}

/// Of a file with the truth for that call.
pub fn owed(call: Call, truth: &Truth) -> Owed<'_> {
    match (call, truth) {
        (Call::Budget(most), Truth::Stock(truth)) => budget_owed(truth, most),
        (_, Truth::Stock(truth)) => stock_owed(truth),
        (_, Truth::Graph(truth)) => graph_owed(truth),
    }
}

// ---- callers

pub const WRONG_CALLER: u8 = 17;

pub fn is_caller(number: u32) -> bool {
    (number as usize) < CALLERS
}

/// Wrong ones of more than one byte: such as end in a right one, or in bits of it, and those around two bytes, 31 bits and 32.
pub const WIDE_CALLERS: [u32; 20] = [
    256,
    257,
    258,
    259,
    260,
    511,
    512,
    1_024,
    32_768,
    65_535,
    65_536,
    65_537,
    65_539,
    1 << 24,
    i32::MAX as u32,
    1 << 31,
    (1 << 31) + 3,
    u32::MAX - 3,
    u32::MAX - 1,
    u32::MAX,
];

/// Every wrong caller of one byte, and some of more.
pub fn wrong_callers() -> Vec<u32> {
    (CALLERS as u32..=255).chain(WIDE_CALLERS).collect()
}

pub fn questions_of(call: CallKind) -> Vec<u8> {
    let of_file: &[u8] = if call == CallKind::Graph { &GRAPH_QUESTIONS } else { &STOCK_QUESTIONS };
    let of_budget: &[u8] = if call == CallKind::Budget { &[OVER_BUDGET] } else { &[] };
    [&[WRONG_CALLER, 1], of_budget, of_file].concat()
}

// ---- answers

/// What the header of the answer to a budget tells.
#[derive(Clone, Copy, Debug, PartialEq)]
pub struct Numbers {
    pub pairs: usize,
    pub searches: usize,
    pub missing: usize,
}

/// By document 02's formulas; where gain is below the budget, a search found none.
pub fn numbers_within(stock: &Stock, greatest: usize, most: u32) -> Numbers {
    let (lit, most) = (stock.lit.len(), most as usize);
    let gain = greatest - lit;
    let pairs = lit + gain.min(most);
    let missing = if gain < most { 0 } else { (stock.cameras - 2 * pairs) / 2 };
    Numbers { pairs, searches: most.min(gain + 1), missing }
}

/// The answer is exactly the frames of some regular path from the source to its mate.
fn is_path_answer(graph: &Graph, answer: &[u8]) -> bool {
    match graph_trial::read_certificate(graph, answer) {
        Ok(Certificate::Path(arcs)) => answer == path_file(&arcs) && is_wanted(graph, &arcs),
        _ => false,
    }
}

/// The answer is exactly the frames of some plan and, from the place that the greatest number of pairs gives, those of the sheet.
fn is_stock_answer(stock: &Stock, standing: &Standing, answer: &[u8]) -> bool {
    let Standing { greatest, marks } = standing;
    let Some((plan, sheet)) = answer.split_at_checked(plan_bytes(*greatest)) else {
        return false;
    };
    is_plan_half(stock, *greatest, plan) && sheet == sheet_file(*greatest, marks)
}

/// Exactly the frames of some plan.
fn is_plan_half(stock: &Stock, greatest: usize, plan: &[u8]) -> bool {
    let pairs = Text::of(plan).pairs(PLAN.bodies[0]);
    plan == plan_file(&pairs) && is_plan(stock, greatest, &pairs)
}

/// The answer is exactly the frames of some pairing with these numbers that keeps lit cameras, and is the lit pairs where none is gained.
fn is_budget_answer(stock: &Stock, greatest: usize, most: u32, answer: &[u8]) -> bool {
    let pairs = Text::of(answer).pairs(BUDGET.bodies[0]);
    let Numbers { pairs: number, searches, missing } = numbers_within(stock, greatest, most);
    let lit_if_none_gained = number != stock.lit.len() || pairs == stock.lit;
    let right_number = pairs.len() == number && lit_if_none_gained;
    answer == budget_file(&pairs, searches, missing) && right_number && is_rising_pairing(stock, &pairs)
}

/// Of the places of all fits that are equal or larger, the first is the last looked at; where there are none, all fits are.
pub fn look_up_owed(fits: &[Fit], sought: Fit) -> Looked {
    let places: Vec<usize> = (0..fits.len()).filter(|place| is_equal_or_larger(fits[*place], sought)).collect();
    match places.first() {
        Some(place) => Looked { found: fits[*place] == sought, looked: *place as u64 + 1 },
        None => Looked { found: false, looked: fits.len() as u64 },
    }
}

/// By first camera, then by second.
pub fn is_equal_or_larger(fit: Fit, sought: Fit) -> bool {
    fit.0 > sought.0 || (fit.0 == sought.0 && fit.1 >= sought.1)
}

/// Whether an answer to a graph opens as a path or as a barrier does, for messages.
pub fn opening(answer: &[u8]) -> &'static str {
    match crate::frames::kind_of(Text::of(answer).header()) {
        kind if kind == PATH.header as usize => "a path",
        kind if kind == BARRIER.header as usize => "a barrier",
        _ => "neither path nor barrier",
    }
}
