//! What was tried, counted.
//!   Came        what a call came to
//!   Isolated    where a stock has cameras without a fit, and beside what
//!   Sought      where a pair stands that is looked up, and in which list of fits
//!   LitPair     where the lit pairs of a stock stand among its fits, those that are fits and those that are none
//!   Printout    what a stock gets, a plan and its sheet: of which stock, by which pairs, with which marks
//!   Budget      where a budget ends the searches, what it leaves missing, and of which stock
//!   SelfArc     where a graph's self arcs stand, at which nodes, and beside what
//!   Reading     the calls that read graphs
//!   Level, Raised    where a count stood before it was to rise; which call raised which count of which caller, and from where
//!   Seen        files, calls, and calls by what they came to, those on files with CR LF also by themselves; stocks by isolated cameras and
//!               by lit pairs; printouts by what they tell and by their sizes; look-ups by what was sought; calls with a budget by what they
//!               came to; calls by what refused them; graphs by self arcs, and calls on those by what refused them; counts by who raised
//!               them and what stood beside them; wrong callers; and what was tried with kept pairings (seen_kept.rs)
//!   never_met   what of all that calls can come to was not met
//!   too_rare    where isolated cameras stood in too few stocks
//!   too_few_look_ups, too_few_lit_pairs, too_few_budgets    what was looked up too seldom; which lit pairs or budgets were met too seldom
//!   never_refused    which questions never refused a call, alone or with each later one
//!   too_few_printouts, never_sized    which printouts were met too seldom; which numbers of pairs and cameras never
//!   too_few_self_arcs    which self arcs were met too seldom
//!   never_refused_self_arcs    where 16 never refused a call, alone or with 10, or no earlier question refused a graph with self arcs
//!   too_few_raised, too_few_beside    which counts were raised too seldom, or beside which other one at its largest
//!   never_called     which wrong callers never made which call
//!   refusals_in, beside, too_few, add_counts    how such things are listed, compared and added up

use crate::engine::{CallKind, Fit, Tally, CALLERS, CALL_KINDS, OF_EACH};
use crate::fit_lists::{rises, MOST_FITS};
use crate::frames::{plan_in, Pair, Text, BUDGET, PLAN};
use crate::graph_trial::{is_self_arc, mate, mate_of, Graph, CERTIFICATE_QUESTIONS, GRAPH_QUESTIONS, MOST_ARCS, SELF_ARC};
use crate::line_ends::{ends_of, has_cr_lf, Ends};
use crate::seen_kept::SeenKept;
use crate::stock_trial::{any_twice, includes, no_camera_twice, Standing, Stock, MOST_CAMERAS, MOST_PAIRS, STOCK_QUESTIONS};
use crate::truth::{numbers_within, questions_of, wrong_callers, Count, Numbers, MOST_SEARCHES, OVER_BUDGET, WRONG_CALLER};
use std::collections::{BTreeMap, BTreeSet};
use std::fmt;

#[derive(Clone, Copy, Debug, PartialEq, Eq, PartialOrd, Ord)]
pub enum Came {
    Path,
    Barrier,
    Stock,
    Yes,
    No,
    Refusal(u8),
}

#[derive(Clone, Copy, Debug, PartialEq, Eq, PartialOrd, Ord)]
pub enum Isolated {
    First,
    Between,
    Last,
    Several,
    All,
    BesideLitPairs,
    /// a camera with one fit
    BesideOneFit,
}

const PLACES: [Isolated; 7] = [
    Isolated::First,
    Isolated::Between,
    Isolated::Last,
    Isolated::Several,
    Isolated::All,
    Isolated::BesideLitPairs,
    Isolated::BesideOneFit,
];

impl Isolated {
    fn is_in(self, stock: &Stock, isolated: &[usize]) -> bool {
        let fits = |camera: usize| stock.fits.iter().filter(|fit| fit.0 == camera || fit.1 == camera).count();
        match self {
            Isolated::First => isolated.first() == Some(&0) && isolated.len() < stock.cameras,
            Isolated::Between => isolated.iter().any(|camera| *camera > 0 && camera + 1 < stock.cameras),
            Isolated::Last => isolated.last().is_some_and(|camera| camera + 1 == stock.cameras) && isolated.len() < stock.cameras,
            Isolated::Several => isolated.len() > 1,
            Isolated::All => !isolated.is_empty() && isolated.len() == stock.cameras,
            Isolated::BesideLitPairs => !isolated.is_empty() && !stock.lit.is_empty(),
            Isolated::BesideOneFit => !isolated.is_empty() && (0..stock.cameras).any(|camera| fits(camera) == 1),
        }
    }
}

/// Each place is to be met in more than one stock of so many.
const RARE: usize = 100;

#[derive(Clone, Copy, Debug, PartialEq, Eq, PartialOrd, Ord)]
pub enum Sought {
    NoFits,
    OneFit,
    /// 3,900 fits that rise
    MostFits,
    // a fit of a list that rises
    First,
    Middle,
    Last,
    // no fit of one
    Before,
    Between,
    After,
    /// before, between and after the fits that have its first camera
    SameFirstBefore,
    SameFirstBetween,
    SameFirstAfter,
    /// among first cameras, but itself none
    OtherFirst,
    LargerFirst,
    Itself,
    /// behind more than 255 smaller fits
    Past255,
    NotRising,
    Repeats,
    OtherLengths,
}

const ALL_SOUGHT: [Sought; 19] = [
    Sought::NoFits,
    Sought::OneFit,
    Sought::MostFits,
    Sought::First,
    Sought::Middle,
    Sought::Last,
    Sought::Before,
    Sought::Between,
    Sought::After,
    Sought::SameFirstBefore,
    Sought::SameFirstBetween,
    Sought::SameFirstAfter,
    Sought::OtherFirst,
    Sought::LargerFirst,
    Sought::Itself,
    Sought::Past255,
    Sought::NotRising,
    Sought::Repeats,
    Sought::OtherLengths,
];

/// Whether there are a smaller one, an equal one and a larger one.
fn sides<T: Ord + Copy>(all: impl Iterator<Item = T>, one: T) -> (bool, bool, bool) {
    all.fold((false, false, false), |(smaller, equal, larger), other| {
        (smaller || other < one, equal || other == one, larger || other > one)
    })
}

/// What is told of a look-up in fits from two slices, of one length or not.
fn sought_kinds(fits: &[Fit], one_length: bool, sought: Fit) -> Vec<Sought> {
    let rising = rises(fits);
    let (smaller, equal, larger) = sides(fits.iter().copied(), sought);
    let (first_smaller, same_first, first_larger) = sides(fits.iter().map(|fit| fit.0), sought.0);
    let of_first = sides(fits.iter().filter(|fit| fit.0 == sought.0).copied(), sought);
    let is = |kind: &Sought| match kind {
        Sought::NoFits => fits.is_empty(),
        Sought::OneFit => fits.len() == 1,
        Sought::MostFits => rising && fits.len() == MOST_FITS,
        Sought::First => rising && equal && !smaller && larger,
        Sought::Middle => rising && equal && smaller && larger,
        Sought::Last => rising && equal && smaller && !larger,
        Sought::Before => rising && !equal && !smaller && larger,
        Sought::Between => rising && !equal && smaller && larger,
        Sought::After => rising && !equal && smaller && !larger,
        Sought::SameFirstBefore => rising && of_first == (false, false, true),
        Sought::SameFirstBetween => rising && of_first == (true, false, true),
        Sought::SameFirstAfter => rising && of_first == (true, false, false),
        Sought::OtherFirst => rising && first_smaller && !same_first && first_larger,
        Sought::LargerFirst => sought.0 > sought.1,
        Sought::Itself => sought.0 == sought.1,
        Sought::Past255 => rising && fits.get(255).is_some_and(|fit| *fit < sought),
        Sought::NotRising => !rising,
        Sought::Repeats => !rising && any_twice(fits.iter().copied()),
        Sought::OtherLengths => !one_length,
    };
    ALL_SOUGHT.into_iter().filter(is).collect()
}

#[derive(Clone, Copy, Debug, PartialEq, Eq, PartialOrd, Ord)]
pub enum LitPair {
    // all of them fits
    FirstFit,
    MiddleFit,
    LastFit,
    EveryFit,
    OfMostFits,
    // one that is no fit: by the fits
    Before,
    Between,
    After,
    SameFirst,
    SameSecond,
    OtherCameras,
    NoFits,
    BesideMostFits,
    // by the lit pairs
    Alone,
    FirstLit,
    MiddleLit,
    LastLit,
    Several,
    CameraTwice,
}

const ALL_LIT_PAIRS: [LitPair; 19] = [
    LitPair::FirstFit,
    LitPair::MiddleFit,
    LitPair::LastFit,
    LitPair::EveryFit,
    LitPair::OfMostFits,
    LitPair::Before,
    LitPair::Between,
    LitPair::After,
    LitPair::SameFirst,
    LitPair::SameSecond,
    LitPair::OtherCameras,
    LitPair::NoFits,
    LitPair::BesideMostFits,
    LitPair::Alone,
    LitPair::FirstLit,
    LitPair::MiddleLit,
    LitPair::LastLit,
    LitPair::Several,
    LitPair::CameraTwice,
];

/// Of a stock that no question before 13 refuses.
fn lit_kinds(stock: &Stock) -> Vec<LitPair> {
    let Stock { fits, lit, .. } = stock;
    let unfit: Vec<usize> = (0..lit.len()).filter(|place| !fits.contains(&lit[*place])).collect();
    let all_fit = unfit.is_empty() && !lit.is_empty();
    let any_unfit = |test: &dyn Fn(usize, Pair) -> bool| unfit.iter().any(|place| test(*place, lit[*place]));
    let stands = |pair: Pair| sides(fits.iter().copied(), pair);
    let shares = |pair: Pair| fits.iter().any(|fit| [fit.0, fit.1].iter().any(|camera| [pair.0, pair.1].contains(camera)));
    let is = |kind: &LitPair| match kind {
        LitPair::FirstFit => all_fit && lit.first() == fits.first(),
        LitPair::MiddleFit => all_fit && lit.iter().any(|pair| stands(*pair) == (true, true, true)),
        LitPair::LastFit => all_fit && lit.last() == fits.last(),
        LitPair::EveryFit => all_fit && lit == fits,
        LitPair::OfMostFits => all_fit && fits.len() == MOST_FITS,
        LitPair::Before => any_unfit(&|_, pair| stands(pair) == (false, false, true)),
        LitPair::Between => any_unfit(&|_, pair| stands(pair) == (true, false, true)),
        LitPair::After => any_unfit(&|_, pair| stands(pair) == (true, false, false)),
        LitPair::SameFirst => any_unfit(&|_, pair| fits.iter().any(|fit| fit.0 == pair.0)),
        LitPair::SameSecond => any_unfit(&|_, pair| fits.iter().any(|fit| fit.1 == pair.1)),
        LitPair::OtherCameras => any_unfit(&|_, pair| !fits.is_empty() && !shares(pair)),
        LitPair::NoFits => !unfit.is_empty() && fits.is_empty(),
        LitPair::BesideMostFits => !unfit.is_empty() && fits.len() == MOST_FITS,
        LitPair::Alone => !unfit.is_empty() && lit.len() == 1,
        LitPair::FirstLit => any_unfit(&|place, _| lit.len() > 1 && place == 0),
        LitPair::MiddleLit => any_unfit(&|place, _| place > 0 && place + 1 < lit.len()),
        LitPair::LastLit => any_unfit(&|place, _| lit.len() > 1 && place + 1 == lit.len()),
        LitPair::Several => unfit.len() > 1,
        LitPair::CameraTwice => !unfit.is_empty() && !no_camera_twice(lit),
    };
    ALL_LIT_PAIRS.into_iter().filter(is).collect()
}

#[derive(Clone, Copy, Debug, PartialEq, Eq, PartialOrd, Ord)]
pub enum Budget {
    /// no search at all, and pairs that are lit; none that are
    Zero,
    ZeroNoneLit,
    /// more could be gained
    StoppedByBudget,
    /// the last search gained the last pair
    LastGained,
    /// one search found none, and was the last that was granted
    OneSearchMore,
    /// the same, and more were granted
    FoundNone,
    NothingGained,
    NothingGainedInOne,
    NoCameras,
    NoneUnlit,
    // lanes missing
    MissingZero,
    MissingPositive,
    MissingRounded,
    /// though no pairing is larger
    MissingThoughLargest,
    /// though cameras are left over, as a search found none
    ZeroThoughLeftOver,
    // pairs
    LitPairKept,
    LitPairSwapped,
    MostPairs,
    MostSearches,
    MostGranted,
}

const ALL_BUDGETS: [Budget; 20] = [
    Budget::Zero,
    Budget::ZeroNoneLit,
    Budget::StoppedByBudget,
    Budget::LastGained,
    Budget::OneSearchMore,
    Budget::FoundNone,
    Budget::NothingGained,
    Budget::NothingGainedInOne,
    Budget::NoCameras,
    Budget::NoneUnlit,
    Budget::MissingZero,
    Budget::MissingPositive,
    Budget::MissingRounded,
    Budget::MissingThoughLargest,
    Budget::ZeroThoughLeftOver,
    Budget::LitPairKept,
    Budget::LitPairSwapped,
    Budget::MostPairs,
    Budget::MostSearches,
    Budget::MostGranted,
];

/// Of a stock with a greatest number of pairs, a budget that is granted, and a right answer.
fn budget_kinds(stock: &Stock, greatest: usize, most: u32, answer: &[u8]) -> Vec<Budget> {
    let Stock { cameras, lit, .. } = stock;
    let Numbers { pairs, searches, missing } = numbers_within(stock, greatest, most);
    let (gain, granted, left_over) = (greatest - lit.len(), most as usize, cameras - 2 * pairs);
    let given = Text::of(answer).pairs(BUDGET.bodies[0]);
    let gained = pairs > lit.len();
    let found_none = gain < granted;
    let is = |kind: &Budget| match kind {
        Budget::Zero => granted == 0 && !lit.is_empty(),
        Budget::ZeroNoneLit => granted == 0 && lit.is_empty() && *cameras > 0,
        Budget::StoppedByBudget => gained && granted < gain,
        Budget::LastGained => gained && granted == gain,
        Budget::OneSearchMore => gained && granted == gain + 1,
        Budget::FoundNone => gained && granted > gain + 1,
        Budget::NothingGained => gain == 0 && granted > 1,
        Budget::NothingGainedInOne => gain == 0 && granted == 1,
        Budget::NoCameras => *cameras == 0 && granted > 0,
        Budget::NoneUnlit => *cameras > 0 && 2 * lit.len() == *cameras && granted > 0,
        Budget::MissingZero => missing == 0 && !found_none && granted > 0,
        Budget::MissingPositive => missing > 0 && granted > 0,
        Budget::MissingRounded => missing > 0 && left_over % 2 == 1,
        Budget::MissingThoughLargest => missing > 0 && pairs == greatest && granted > 0,
        Budget::ZeroThoughLeftOver => found_none && left_over > 1,
        Budget::LitPairKept => gained && lit.iter().any(|pair| given.contains(pair)),
        Budget::LitPairSwapped => gained && lit.iter().any(|pair| !given.contains(pair)),
        Budget::MostPairs => pairs == MOST_PAIRS,
        Budget::MostSearches => searches == MOST_SEARCHES as usize,
        Budget::MostGranted => most == MOST_SEARCHES,
    };
    ALL_BUDGETS.into_iter().filter(is).collect()
}

#[derive(Clone, Copy, Debug, PartialEq, Eq, PartialOrd, Ord)]
pub enum Printout {
    NoCameras,
    NoFit,
    /// every camera is in a pair of the plan
    AllPaired,
    // the plan, beside the lit pairs
    NoneLit,
    /// the lit pairs are largest
    LargestLit,
    OneGained,
    SeveralGained,
    PairKept,
    PairSwapped,
    // the sheet, beside the plan
    /// a camera marked 00 that the plan pairs; one that it leaves over
    PairedMarked00,
    UnpairedMarked00,
    /// all four marks
    EveryMark,
    // sizes
    MostPairs,
    MostBytes,
    /// 63 pairs gained, and a last search that finds none
    MostSearches,
    // marks that would be others by alternating paths from the pairing before the first search, or before the one that found none
    OtherBeforeFirst,
    OtherBeforeLast,
}

const ALL_PRINTOUTS: [Printout; 17] = [
    Printout::NoCameras,
    Printout::NoFit,
    Printout::AllPaired,
    Printout::NoneLit,
    Printout::LargestLit,
    Printout::OneGained,
    Printout::SeveralGained,
    Printout::PairKept,
    Printout::PairSwapped,
    Printout::PairedMarked00,
    Printout::UnpairedMarked00,
    Printout::EveryMark,
    Printout::MostPairs,
    Printout::MostBytes,
    Printout::MostSearches,
    Printout::OtherBeforeFirst,
    Printout::OtherBeforeLast,
];

/// Of a stock, its standing and a right answer; which marks would be others is not told here.
fn printout_kinds(stock: &Stock, standing: &Standing, answer: &[u8]) -> Vec<Printout> {
    let Stock { cameras, fits, lit } = stock;
    let Standing { greatest, marks } = standing;
    let plan = Text::of(plan_in(answer)).pairs(PLAN.bodies[0]);
    let gain = greatest - lit.len();
    let any_marked_00 = |paired: bool| (0..*cameras).any(|camera| marks[camera] == 0 && includes(&plan, camera) == paired);
    let is = |kind: &Printout| match kind {
        Printout::NoCameras => *cameras == 0,
        Printout::NoFit => *cameras > 0 && fits.is_empty(),
        Printout::AllPaired => *cameras > 0 && 2 * greatest == *cameras,
        Printout::NoneLit => lit.is_empty() && gain > 0,
        Printout::LargestLit => !lit.is_empty() && gain == 0,
        Printout::OneGained => gain == 1,
        Printout::SeveralGained => gain > 1,
        Printout::PairKept => gain > 0 && lit.iter().any(|pair| plan.contains(pair)),
        Printout::PairSwapped => lit.iter().any(|pair| !plan.contains(pair)),
        Printout::PairedMarked00 => any_marked_00(true),
        Printout::UnpairedMarked00 => any_marked_00(false),
        Printout::EveryMark => (0..=3).all(|mark| marks.contains(&mark)),
        Printout::MostPairs => *greatest == MOST_PAIRS,
        Printout::MostBytes => *greatest == MOST_PAIRS && *cameras == MOST_CAMERAS,
        Printout::MostSearches => gain == MOST_PAIRS,
        Printout::OtherBeforeFirst | Printout::OtherBeforeLast => false,
    };
    ALL_PRINTOUTS.into_iter().filter(is).collect()
}

/// Every number of pairs with every number of cameras that has room for them.
fn every_size() -> impl Iterator<Item = (usize, usize)> {
    (0..=MOST_PAIRS).flat_map(|pairs| (2 * pairs..=MOST_CAMERAS).map(move |cameras| (pairs, cameras)))
}

/// The first question answered no, and a later one, 0 where it is alone.
pub fn refusals_in(order: &[u8]) -> Vec<(u8, u8)> {
    let with_later = |place: usize| order[place + 1..].iter().copied().chain([0]).collect::<Vec<u8>>();
    (0..order.len())
        .flat_map(|place| with_later(place).into_iter().map(|later| (order[place], later)).collect::<Vec<_>>())
        .collect()
}

#[derive(Clone, Copy, Debug, PartialEq, Eq, PartialOrd, Ord)]
pub enum SelfArc {
    // among the arcs
    OfTwoArcs,
    FirstArc,
    MiddleArc,
    LastArc,
    EveryArc,
    /// more than two
    Several,
    OfMostArcs,
    /// in the second half of them
    OfMostArcsLate,
    // with its mate, as the line of the same two, or not
    WithMate,
    EvenAlone,
    OddAlone,
    TwiceTheSame,
    // by the node
    AtSource,
    AtSourceMate,
    AtZero,
    AtHighest,
    Elsewhere,
    From128,
    // beside others
    BesideParallels,
    BesideArcToMate,
    /// at a node that no other arc has
    AtLoneNode,
}

const ALL_SELF_ARCS: [SelfArc; 21] = [
    SelfArc::OfTwoArcs,
    SelfArc::FirstArc,
    SelfArc::MiddleArc,
    SelfArc::LastArc,
    SelfArc::EveryArc,
    SelfArc::Several,
    SelfArc::OfMostArcs,
    SelfArc::OfMostArcsLate,
    SelfArc::WithMate,
    SelfArc::EvenAlone,
    SelfArc::OddAlone,
    SelfArc::TwiceTheSame,
    SelfArc::AtSource,
    SelfArc::AtSourceMate,
    SelfArc::AtZero,
    SelfArc::AtHighest,
    SelfArc::Elsewhere,
    SelfArc::From128,
    SelfArc::BesideParallels,
    SelfArc::BesideArcToMate,
    SelfArc::AtLoneNode,
];

/// Of a graph that no question before 16 refuses.
fn self_arc_kinds(graph: &Graph) -> Vec<SelfArc> {
    let Graph { source, arcs, .. } = graph;
    let (most, last) = (arcs.len() == MOST_ARCS, arcs.len().saturating_sub(1));
    let places: Vec<usize> = (0..arcs.len()).filter(|place| is_self_arc(&arcs[*place])).collect();
    let alone = |parity: usize| places.iter().any(|place| place % 2 == parity && !is_self_arc(&arcs[mate(*place)]));
    let any_place = |test: &dyn Fn(usize) -> bool| places.iter().any(|place| test(*place));
    let any_node = |test: &dyn Fn(usize) -> bool| any_place(&|place| test(arcs[place].0));
    let special = [*source, mate(*source), 0, graph.nodes() - 1];
    let others = || arcs.iter().step_by(2).filter(|arc| !is_self_arc(arc));
    let is = |kind: &SelfArc| match kind {
        SelfArc::OfTwoArcs => arcs.len() == 2,
        SelfArc::FirstArc => arcs.len() > 2 && places[0] == 0,
        SelfArc::MiddleArc => any_place(&|place| place > 1 && place + 1 < last),
        SelfArc::LastArc => arcs.len() > 2 && places.contains(&last),
        SelfArc::EveryArc => places.len() == arcs.len(),
        SelfArc::Several => places.len() > 2,
        SelfArc::OfMostArcs => most,
        SelfArc::OfMostArcsLate => most && places[0] >= MOST_ARCS / 2,
        SelfArc::WithMate => any_place(&|place| arcs[mate(place)] == mate_of(arcs[place])),
        SelfArc::EvenAlone => alone(0),
        SelfArc::OddAlone => alone(1),
        SelfArc::TwiceTheSame => any_place(&|place| arcs[mate(place)] == arcs[place]),
        SelfArc::AtSource => any_node(&|node| node == special[0]),
        SelfArc::AtSourceMate => any_node(&|node| node == special[1]),
        SelfArc::AtZero => any_node(&|node| node == special[2]),
        SelfArc::AtHighest => any_node(&|node| node == special[3]),
        SelfArc::Elsewhere => any_node(&|node| !special.contains(&node)),
        SelfArc::From128 => any_node(&|node| node >= 128),
        SelfArc::BesideParallels => any_twice(others()),
        SelfArc::BesideArcToMate => others().any(|(tail, head)| *head == mate(*tail)),
        SelfArc::AtLoneNode => any_node(&|node| others().all(|(tail, head)| ![*tail, *head].contains(&node))),
    };
    ALL_SELF_ARCS.into_iter().filter(is).collect()
}

#[derive(Clone, Copy, Debug, PartialEq, Eq, PartialOrd, Ord)]
pub enum Reading {
    Graph,
    Check,
}

/// Which call, on a file with which ends; the first question answered no, and a later one, 0 where it is alone.
pub type SelfArcRefusal = (Reading, Ends, u8, u8);

fn self_arc_refusals() -> Vec<SelfArcRefusal> {
    let before = questions_of(CallKind::Graph).into_iter().take_while(|question| *question != SELF_ARC).collect::<Vec<u8>>();
    let mut all = Vec::new();
    // the check asks neither for a caller nor for room
    for (reading, earlier) in [(Reading::Graph, &before[..]), (Reading::Check, &before[2..])] {
        for ends in [Ends::Lf, Ends::CrLf, Ends::Mixed] {
            all.extend([0, 10].map(|later| (reading, ends, SELF_ARC, later)));
            all.extend(earlier.iter().map(|first| (reading, ends, *first, SELF_ARC)));
        }
    }
    all
}

/// Of the questions that a file fails, the others beside the one that was told, or 0 where it is alone.
pub fn beside(told: u8, failing: &[u8]) -> Vec<u8> {
    if failing == [told] {
        return vec![0];
    }
    failing.iter().copied().filter(|question| *question != told).collect()
}

#[derive(Clone, Copy, Debug, PartialEq, Eq, PartialOrd, Ord)]
pub enum Level {
    Below,
    /// it comes to its largest value
    OneBelow,
    /// it remains
    Largest,
}

pub type Raised = (CallKind, u32, Count, Level);

/// Every count that a call can raise, of every caller, from every level.
fn every_raised() -> Vec<Raised> {
    let answers = |kind: CallKind| match kind {
        CallKind::Graph => &[Count::Paths, Count::Barriers][..],
        CallKind::Stock | CallKind::Budget => &[Count::Stocks],
    };
    let mut all = Vec::new();
    for kind in CALL_KINDS {
        for count in answers(kind).iter().chain(&[Count::Refusals]) {
            for caller in 0..CALLERS as u32 {
                all.extend([Level::Below, Level::OneBelow, Level::Largest].map(|level| (kind, caller, *count, level)));
            }
        }
    }
    all
}

/// What is sought, which pairs are lit, what a printout tells, what a budget comes to, which self arcs there are and which count rises is to
/// be met that often.
const FEW: usize = 5;

type Counts = BTreeMap<Came, usize>;

#[derive(Default)]
pub struct Seen {
    /// what the trial was compared with itself on, without a call
    pub compared: usize,
    pub files: usize,
    pub calls: usize,
    came: Counts,
    came_with_cr_lf: Counts,
    stocks: usize,
    isolated: BTreeMap<Isolated, usize>,
    pub look_ups: usize,
    sought: BTreeMap<Sought, usize>,
    lit_pairs: BTreeMap<LitPair, usize>,
    printouts: BTreeMap<Printout, usize>,
    sizes: BTreeSet<(usize, usize)>,
    budgets: BTreeMap<Budget, usize>,
    refusals: BTreeSet<(CallKind, u8, u8)>,
    self_arcs: BTreeMap<SelfArc, usize>,
    self_arc_refusals: BTreeMap<SelfArcRefusal, usize>,
    raised: BTreeMap<Raised, usize>,
    /// of each count that rose: how often each other one was at its largest
    beside: [[usize; CALLERS * OF_EACH]; CALLERS * OF_EACH],
    wrong_callers: BTreeMap<(CallKind, u32), usize>,
    pub kept: SeenKept,
}

impl Seen {
    /// A call on some files.
    pub fn call(&mut self, files: &[&[u8]], came: Came) {
        self.calls += 1;
        *self.came.entry(came).or_default() += 1;
        if files.iter().any(|file| has_cr_lf(file)) {
            *self.came_with_cr_lf.entry(came).or_default() += 1;
        }
    }

    /// A stock that was accepted.
    pub fn stock(&mut self, stock: &Stock) {
        self.stocks += 1;
        let isolated = stock.isolated();
        for place in PLACES.into_iter().filter(|place| place.is_in(stock, &isolated)) {
            *self.isolated.entry(place).or_default() += 1;
        }
    }

    /// A look-up in fits that two slices, of one length or not, give.
    pub fn look_up(&mut self, fits: &[Fit], one_length: bool, sought: Fit) {
        self.look_ups += 1;
        sought_kinds(fits, one_length, sought).into_iter().for_each(|kind| *self.sought.entry(kind).or_default() += 1);
    }

    /// A stock that no question before 13 refuses.
    pub fn lit_pairs(&mut self, stock: &Stock) {
        lit_kinds(stock).into_iter().for_each(|kind| *self.lit_pairs.entry(kind).or_default() += 1);
    }

    /// A stock, its standing, and the answer.
    pub fn printout(&mut self, stock: &Stock, standing: &Standing, answer: &[u8]) {
        printout_kinds(stock, standing, answer).into_iter().for_each(|kind| self.printout_kind(kind));
        self.sizes.insert((standing.greatest, stock.cameras));
    }

    pub fn printout_kind(&mut self, kind: Printout) {
        *self.printouts.entry(kind).or_default() += 1;
    }

    /// A stock with a greatest number of pairs, a budget that is granted, and the answer.
    pub fn budget(&mut self, stock: &Stock, greatest: usize, most: u32, answer: &[u8]) {
        budget_kinds(stock, greatest, most, answer).into_iter().for_each(|kind| *self.budgets.entry(kind).or_default() += 1);
    }

    /// A call that fails these questions, and the number that the engine told: with each other one, or 0 where it is alone.
    pub fn refusal(&mut self, kind: CallKind, told: u8, failing: &[u8]) {
        self.refusals.extend(beside(told, failing).into_iter().map(|other| (kind, told, other)));
    }

    /// A call that raises a count of its caller in this tally, unless its caller is wrong.
    pub fn caller(&mut self, kind: CallKind, caller: u32, count: Option<Count>, tally: &Tally) {
        let Some(count) = count else {
            *self.wrong_callers.entry((kind, caller)).or_default() += 1;
            return;
        };
        let (all, place) = (tally.all(), count.place(caller));
        let level = match all[place] {
            u32::MAX => Level::Largest,
            number if number == u32::MAX - 1 => Level::OneBelow,
            _ => Level::Below,
        };
        *self.raised.entry((kind, caller, count, level)).or_default() += 1;
        if level != Level::Largest {
            let largest = self.beside[place].iter_mut().zip(all).filter(|(_, number)| *number == u32::MAX);
            largest.for_each(|(times, _)| *times += 1);
        }
    }

    /// A graph that no question before 16 refuses.
    pub fn self_arcs(&mut self, graph: &Graph) {
        self_arc_kinds(graph).into_iter().for_each(|kind| *self.self_arcs.entry(kind).or_default() += 1);
    }

    /// A call on a graph file with self arcs that fails these questions, and the number that the engine told.
    pub fn self_arc_refusal(&mut self, reading: Reading, file: &[u8], told: u8, failing: &[u8]) {
        let Some(ends) = ends_of(file) else {
            return;
        };
        let each = beside(told, failing).into_iter().map(|other| (reading, ends, told, other));
        each.for_each(|refusal| *self.self_arc_refusals.entry(refusal).or_default() += 1);
    }

    pub fn too_few_budgets(&self) -> Vec<Budget> {
        too_few(&ALL_BUDGETS, &self.budgets)
    }

    pub fn never_refused(&self, kind: CallKind) -> Vec<(u8, u8)> {
        let met = |(told, other): &(u8, u8)| self.refusals.contains(&(kind, *told, *other));
        refusals_in(&questions_of(kind)).into_iter().filter(|refusal| !met(refusal)).collect()
    }

    pub fn too_few_raised(&self) -> Vec<Raised> {
        too_few(&every_raised(), &self.raised)
    }

    /// The places of the count that rose and of the one that was at its largest.
    pub fn too_few_beside(&self) -> Vec<(usize, usize)> {
        let places = 0..CALLERS * OF_EACH;
        let two = places.clone().flat_map(|one| places.clone().map(move |other| (one, other)));
        two.filter(|(one, other)| one != other && self.beside[*one][*other] < FEW).collect()
    }

    pub fn never_called(&self) -> Vec<(CallKind, u32)> {
        let every = CALL_KINDS.into_iter().flat_map(|kind| wrong_callers().into_iter().map(move |caller| (kind, caller)));
        every.filter(|called| !self.wrong_callers.contains_key(called)).collect()
    }

    pub fn too_few_printouts(&self) -> Vec<Printout> {
        too_few(&ALL_PRINTOUTS, &self.printouts)
    }

    /// Pairs and cameras.
    pub fn never_sized(&self) -> Vec<(usize, usize)> {
        every_size().filter(|size| !self.sizes.contains(size)).collect()
    }

    pub fn too_few_self_arcs(&self) -> Vec<SelfArc> {
        too_few(&ALL_SELF_ARCS, &self.self_arcs)
    }

    pub fn never_refused_self_arcs(&self) -> Vec<SelfArcRefusal> {
        self_arc_refusals().into_iter().filter(|refusal| !self.self_arc_refusals.contains_key(refusal)).collect()
    }

    pub fn too_few_look_ups(&self) -> Vec<Sought> {
        too_few(&ALL_SOUGHT, &self.sought)
    }

    pub fn too_few_lit_pairs(&self) -> Vec<LitPair> {
        too_few(&ALL_LIT_PAIRS, &self.lit_pairs)
    }

    pub fn too_rare(&self) -> Vec<Isolated> {
        let met = |place: &Isolated| self.isolated.get(place).copied().unwrap_or(0);
        PLACES.into_iter().filter(|place| met(place) * RARE <= self.stocks).collect()
    }

    pub fn add(&mut self, other: &Seen) {
        self.files += other.files;
        self.calls += other.calls;
        add_counts(&mut self.came, &other.came);
        add_counts(&mut self.came_with_cr_lf, &other.came_with_cr_lf);
        self.stocks += other.stocks;
        add_counts(&mut self.isolated, &other.isolated);
        self.look_ups += other.look_ups;
        add_counts(&mut self.sought, &other.sought);
        add_counts(&mut self.lit_pairs, &other.lit_pairs);
        add_counts(&mut self.printouts, &other.printouts);
        self.sizes.extend(&other.sizes);
        add_counts(&mut self.budgets, &other.budgets);
        self.refusals.extend(&other.refusals);
        add_counts(&mut self.self_arcs, &other.self_arcs);
        add_counts(&mut self.self_arc_refusals, &other.self_arc_refusals);
        add_counts(&mut self.raised, &other.raised);
        let more = other.beside.as_flattened();
        self.beside.as_flattened_mut().iter_mut().zip(more).for_each(|(sum, more)| *sum += more);
        add_counts(&mut self.wrong_callers, &other.wrong_callers);
        self.kept.add(&other.kept);
    }

    /// In any files, and in files with CR LF.
    pub fn never_met(&self) -> [Vec<Came>; 2] {
        [&self.came, &self.came_with_cr_lf].map(|counts| all().into_iter().filter(|came| !counts.contains_key(came)).collect())
    }
}

pub fn add_counts<K: Copy + Ord>(sum: &mut BTreeMap<K, usize>, more: &BTreeMap<K, usize>) {
    more.iter().for_each(|(counted, count)| *sum.entry(*counted).or_default() += count);
}

pub fn too_few<K: Copy + Ord>(all: &[K], counts: &BTreeMap<K, usize>) -> Vec<K> {
    all.iter().copied().filter(|kind| counts.get(kind).copied().unwrap_or(0) < FEW).collect()
}

fn all() -> BTreeSet<Came> {
    let of_files = GRAPH_QUESTIONS.iter().chain(&STOCK_QUESTIONS).copied();
    let of_certificates = CERTIFICATE_QUESTIONS.iter().map(|number| number + 40);
    let refusals = [WRONG_CALLER, 1, OVER_BUDGET].into_iter().chain(of_files).chain(of_certificates).map(Came::Refusal);
    [Came::Path, Came::Barrier, Came::Stock, Came::Yes, Came::No].into_iter().chain(refusals).collect()
}

fn told<K: fmt::Debug>(counts: &BTreeMap<K, usize>) -> String {
    let each: Vec<String> = counts.iter().map(|(counted, count)| format!("{counted:?}: {count}")).collect();
    each.join(", ")
}

fn total<K>(counts: &BTreeMap<K, usize>) -> usize {
    counts.values().sum()
}

impl fmt::Display for Seen {
    fn fmt(&self, out: &mut fmt::Formatter) -> fmt::Result {
        writeln!(out, "{} files, {} calls: {}", self.files, self.calls, told(&self.came))?;
        writeln!(out, "of them on files with CR LF: {}", told(&self.came_with_cr_lf))?;
        writeln!(out, "isolated cameras in {} stocks: {}", self.stocks, told(&self.isolated))?;
        writeln!(out, "lit pairs: {}", told(&self.lit_pairs))?;
        writeln!(out, "printouts of {} sizes: {}", self.sizes.len(), told(&self.printouts))?;
        writeln!(out, "budgets: {}", told(&self.budgets))?;
        writeln!(out, "self arcs: {}", told(&self.self_arcs))?;
        writeln!(out, "calls of callers 0 to 3: {}; of others: {}", total(&self.raised), total(&self.wrong_callers))?;
        writeln!(out, "{} calls for kept pairings: {}", self.kept.calls, told(self.kept.met()))?;
        write!(out, "{} look-ups: {}", self.look_ups, told(&self.sought))
    }
}
