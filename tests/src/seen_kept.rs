//! What was tried with kept pairings, counted.
//!   Met          what a call met, by the calls before it
//!   Logged       a call as it is remembered, or what else was done between calls
//!   SeenKept     calls by what they met; which questions refused which call; names, numbers of pairs and places of names
//!   too_few_met, never_refused, never_named, never_sized, never_placed    what was met too seldom, or never

use crate::engine::{KeptCall, KeptKind, KEPT_KINDS};
use crate::kept_trial::{questions_of, read, Change, Due, Past, MOST_KEPT, NOT_KEPT, NO_PLACE};
use crate::line_ends::{ends_of, Ends};
use crate::seen::{add_counts, beside, refusals_in, too_few};
use crate::stock_trial::{includes, Stock, MOST_PAIRS};
use std::collections::{BTreeMap, BTreeSet};

#[derive(Clone, Copy, Debug, PartialEq, Eq, PartialOrd, Ord)]
pub enum Met {
    // pairs that are kept
    EmptyPlan,
    BeforeFirstStock,
    MostPairs,
    NoCameraLeftOver,
    NotLargest,
    LitCameraLeft,
    OtherThanLit,
    WithCrLf,
    WithMixedEnds,
    UnderTwoNames,
    // the name that they are kept under
    ReplacedByFewer,
    ReplacedByMore,
    ReplacedBySame,
    ReplacedWhileFull,
    /// another name in a place that was freed
    PlaceUsedAgain,
    NameUsedAgain,
    NameOfOldStock,
    // not kept
    RefusedUnderUsedName,
    RefusedWhileFull,
    Ninth,
    /// a plan of an earlier stock: a camera that is no longer there, or a fit
    OldPlanWithoutCamera,
    OldPlanWithoutFit,
    // a stock, where names are kept
    SameStock,
    SameStockOtherLit,
    FewerCameras,
    FewerFits,
    RefusedStock,
    // pairs that come back, by what came between
    Twice,
    AfterRefusedKeep,
    AfterRefusedForOther,
    AfterNinth,
    AfterRefusedStock,
    AfterOtherKept,
    AfterOtherForgotten,
    AfterShortRoom,
    AfterReplaced,
    AfterOtherCalls,
    AfterCopy,
    // pairs that do not
    NeverKept,
    BackAfterForgotten,
    BackAfterNewStock,
    BackAfterPowerOn,
    // a name that is forgotten, or that is not kept
    ForgottenWhileFull,
    LastForgotten,
    ForgetNeverKept,
    ForgetTwice,
    ForgetAfterNewStock,
}

const ALL_MET: [Met; 47] = [
    Met::EmptyPlan,
    Met::BeforeFirstStock,
    Met::MostPairs,
    Met::NoCameraLeftOver,
    Met::NotLargest,
    Met::LitCameraLeft,
    Met::OtherThanLit,
    Met::WithCrLf,
    Met::WithMixedEnds,
    Met::UnderTwoNames,
    Met::ReplacedByFewer,
    Met::ReplacedByMore,
    Met::ReplacedBySame,
    Met::ReplacedWhileFull,
    Met::PlaceUsedAgain,
    Met::NameUsedAgain,
    Met::NameOfOldStock,
    Met::RefusedUnderUsedName,
    Met::RefusedWhileFull,
    Met::Ninth,
    Met::OldPlanWithoutCamera,
    Met::OldPlanWithoutFit,
    Met::SameStock,
    Met::SameStockOtherLit,
    Met::FewerCameras,
    Met::FewerFits,
    Met::RefusedStock,
    Met::Twice,
    Met::AfterRefusedKeep,
    Met::AfterRefusedForOther,
    Met::AfterNinth,
    Met::AfterRefusedStock,
    Met::AfterOtherKept,
    Met::AfterOtherForgotten,
    Met::AfterShortRoom,
    Met::AfterReplaced,
    Met::AfterOtherCalls,
    Met::AfterCopy,
    Met::NeverKept,
    Met::BackAfterForgotten,
    Met::BackAfterNewStock,
    Met::BackAfterPowerOn,
    Met::ForgottenWhileFull,
    Met::LastForgotten,
    Met::ForgetNeverKept,
    Met::ForgetTwice,
    Met::ForgetAfterNewStock,
];

#[derive(Clone, Copy, PartialEq)]
pub enum Logged {
    /// which, under which name, and its number
    Call(KeptKind, Option<u8>, u8),
    PowerOn,
    OtherCall,
    Copied,
}

/// So many of what was logged last are gone back through.
const GONE_BACK: usize = 200;

/// What is told of a keep, by the changes before it; of one that is accepted, or not.
fn keep_kinds(past: &Past, name: u8, file: &[u8], due: &Due) -> Vec<Met> {
    let (stock, names, before) = (past.stock(), past.names(), past.kept(name));
    let full = names.len() == MOST_KEPT;
    let Some(Change::Kept(_, pairs)) = &due.change else {
        return chosen([
            (Met::RefusedUnderUsedName, before.is_some()),
            (Met::RefusedWhileFull, full && due.number != NO_PLACE),
            (Met::Ninth, due.number == NO_PLACE),
            (Met::OldPlanWithoutCamera, due.number == 9 && passed_before(past, file)),
            (Met::OldPlanWithoutFit, due.number == 13 && passed_before(past, file)),
        ]);
    };
    let size = before.map(|old| old.len());
    let unlit = |camera: usize| includes(&stock.lit, camera) && !includes(pairs, camera);
    let both_left = |(u, v): &(usize, usize)| !includes(pairs, *u) && !includes(pairs, *v);
    chosen([
        (Met::EmptyPlan, pairs.is_empty()),
        (Met::BeforeFirstStock, !past.changes.iter().any(|change| matches!(change, Change::Brought(_)))),
        (Met::MostPairs, pairs.len() == MOST_PAIRS),
        (Met::NoCameraLeftOver, stock.cameras > 0 && 2 * pairs.len() == stock.cameras),
        (Met::NotLargest, stock.fits.iter().any(both_left)),
        (Met::LitCameraLeft, (0..stock.cameras).any(unlit)),
        (Met::OtherThanLit, !stock.lit.is_empty() && *pairs != stock.lit),
        (Met::WithCrLf, ends_of(file) == Some(Ends::CrLf)),
        (Met::WithMixedEnds, ends_of(file) == Some(Ends::Mixed)),
        (Met::UnderTwoNames, names.iter().any(|other| *other != name && past.kept(*other) == Some(pairs))),
        (Met::ReplacedByFewer, size.is_some_and(|size| pairs.len() < size)),
        (Met::ReplacedByMore, size.is_some_and(|size| pairs.len() > size)),
        (Met::ReplacedBySame, before == Some(pairs)),
        (Met::ReplacedWhileFull, full),
        (Met::PlaceUsedAgain, before.is_none() && was_freed(past)),
        (Met::NameUsedAgain, before.is_none() && ended(past, name) == Some(Ended::Forgotten)),
        (Met::NameOfOldStock, before.is_none() && ended(past, name) == Some(Ended::NewStock)),
    ])
}

fn chosen<const N: usize>(all: [(Met, bool); N]) -> Vec<Met> {
    all.into_iter().filter(|(_, holds)| *holds).map(|(met, _)| met).collect()
}

/// By a stock that was brought before the present one; the last few are asked.
fn passed_before(past: &Past, file: &[u8]) -> bool {
    let stocks = past.changes.iter().rev().filter_map(|change| match change {
        Change::Brought(stock) => Some(stock),
        _ => None,
    });
    stocks.skip(1).take(4).any(|stock| read(stock, file).is_ok())
}

/// Seven names are kept, and the last change freed the eighth place.
fn was_freed(past: &Past) -> bool {
    past.names().len() + 1 == MOST_KEPT && matches!(past.changes.last(), Some(Change::Forgotten(_)))
}

#[derive(Clone, Copy, PartialEq)]
enum Ended {
    Forgotten,
    NewStock,
}

/// How a name that was kept once, and is not any more, ended to be.
fn ended(past: &Past, name: u8) -> Option<Ended> {
    let is_kept = |change: &Change| matches!(change, Change::Kept(other, _) if *other == name);
    let last = past.changes.iter().rposition(is_kept)?;
    past.changes[last..].iter().find_map(|change| match change {
        Change::Forgotten(other) if *other == name => Some(Ended::Forgotten),
        Change::Brought(_) => Some(Ended::NewStock),
        _ => None,
    })
}

fn bring_kinds(past: &Past, due: &Due) -> Vec<Met> {
    let named = !past.names().is_empty();
    let Some(Change::Brought(new)) = &due.change else {
        return chosen([(Met::RefusedStock, named)]);
    };
    let old = past.stock();
    let same_fits = new.cameras == old.cameras && new.fits == old.fits;
    chosen([
        (Met::SameStock, named && new == old),
        (Met::SameStockOtherLit, named && same_fits && new.lit != old.lit),
        (Met::FewerCameras, named && new.cameras < old.cameras),
        (Met::FewerFits, named && new.cameras == old.cameras && fits_less(new, old)),
    ])
}

fn fits_less(new: &Stock, old: &Stock) -> bool {
    new.fits.len() < old.fits.len() && new.fits.iter().all(|fit| old.fits.contains(fit))
}

/// By what was logged since the name was kept, the last first.
fn back_kinds(past: &Past, log: &[Logged], name: u8, due: &Due) -> Vec<Met> {
    let since_power_on = log.iter().rev().take(GONE_BACK).take_while(|logged| **logged != Logged::PowerOn);
    let is_keep = |logged: &&Logged| matches!(logged, Logged::Call(KeptKind::Keep, Some(other), 0) if *other == name);
    if due.number == NOT_KEPT {
        let was_on_before = log.contains(&Logged::PowerOn) && log.iter().any(|logged| is_keep(&logged));
        return chosen([
            (Met::NeverKept, !log.iter().any(|logged| is_keep(&logged))),
            (Met::BackAfterForgotten, ended(past, name) == Some(Ended::Forgotten)),
            (Met::BackAfterNewStock, ended(past, name) == Some(Ended::NewStock)),
            (Met::BackAfterPowerOn, was_on_before && ended(past, name).is_none()),
        ]);
    }
    let between: Vec<&Logged> = since_power_on.clone().take_while(|logged| !is_keep(logged)).collect();
    let keeps = since_power_on.filter(is_keep).count();
    let any = |test: &dyn Fn(KeptKind, Option<u8>, u8) -> bool| {
        between.iter().any(|logged| matches!(logged, Logged::Call(kind, other, number) if test(*kind, *other, *number)))
    };
    let own = Some(name);
    chosen([
        (Met::Twice, any(&|kind, other, number| kind == KeptKind::ComeBack && other == own && number == 0)),
        (Met::AfterRefusedKeep, any(&|kind, other, number| kind == KeptKind::Keep && other == own && number != 0)),
        (Met::AfterRefusedForOther, any(&|kind, other, number| kind == KeptKind::Keep && other != own && number != 0)),
        (Met::AfterNinth, any(&|kind, _, number| kind == KeptKind::Keep && number == NO_PLACE)),
        (Met::AfterRefusedStock, any(&|kind, _, _| kind == KeptKind::Bring)),
        (Met::AfterOtherKept, any(&|kind, other, number| kind == KeptKind::Keep && other != own && number == 0)),
        (Met::AfterOtherForgotten, any(&|kind, _, number| kind == KeptKind::Forget && number == 0)),
        (Met::AfterShortRoom, any(&|kind, other, number| kind == KeptKind::ComeBack && other == own && number == 1)),
        (Met::AfterReplaced, keeps > 1),
        (Met::AfterOtherCalls, between.contains(&&Logged::OtherCall)),
        (Met::AfterCopy, between.contains(&&Logged::Copied)),
    ])
}

fn forget_kinds(past: &Past, name: u8, due: &Due) -> Vec<Met> {
    let (names, was) = (past.names().len(), ended(past, name));
    chosen([
        (Met::ForgottenWhileFull, due.number == 0 && names == MOST_KEPT),
        (Met::LastForgotten, due.number == 0 && names == 1),
        (Met::ForgetNeverKept, due.number != 0 && was.is_none()),
        (Met::ForgetTwice, due.number != 0 && was == Some(Ended::Forgotten)),
        (Met::ForgetAfterNewStock, due.number != 0 && was == Some(Ended::NewStock)),
    ])
}

/// What can be done to a name, by where it stands among those in use, the oldest first.
#[derive(Clone, Copy, Debug, PartialEq, Eq, PartialOrd, Ord)]
pub enum Placed {
    /// it is the next
    New,
    // while eight are kept
    Replaced,
    ComeBack,
    Forgotten,
}

const ALL_PLACED: [Placed; 4] = [Placed::New, Placed::Replaced, Placed::ComeBack, Placed::Forgotten];

#[derive(Default)]
pub struct SeenKept {
    pub calls: usize,
    met: BTreeMap<Met, usize>,
    /// which call; the first question answered no, and a later one, 0 where it is alone
    refusals: BTreeSet<(KeptKind, u8, u8)>,
    /// which call was accepted under which name
    names: BTreeSet<(KeptKind, u8)>,
    /// how many pairs came back
    sizes: BTreeSet<usize>,
    placed: BTreeSet<(Placed, usize)>,
}

impl SeenKept {
    /// A call as it was made, by what was done before it.
    pub fn call(&mut self, past: &Past, log: &[Logged], call: &KeptCall, due: &Due) {
        self.calls += 1;
        let kinds = match call {
            KeptCall::Bring(_) => bring_kinds(past, due),
            KeptCall::Keep(name, file) => keep_kinds(past, *name, file, due),
            KeptCall::ComeBack(name, _) => back_kinds(past, log, *name, due),
            KeptCall::Forget(name) => forget_kinds(past, *name, due),
        };
        kinds.into_iter().for_each(|met| *self.met.entry(met).or_default() += 1);
        if let (Some(name), 0) = (call.name(), due.number) {
            self.accepted(past, call.kind(), name);
        }
    }

    fn accepted(&mut self, past: &Past, kind: KeptKind, name: u8) {
        self.names.insert((kind, name));
        if kind == KeptKind::ComeBack {
            self.sizes.extend(past.kept(name).map(<[_]>::len));
        }
        let names = past.names();
        let placed = match (kind, names.iter().position(|other| *other == name)) {
            (_, None) => Some((Placed::New, names.len())),
            (_, Some(_)) if names.len() < MOST_KEPT => None,
            (KeptKind::Keep, Some(place)) => Some((Placed::Replaced, place)),
            (KeptKind::ComeBack, Some(place)) => Some((Placed::ComeBack, place)),
            (_, Some(place)) => Some((Placed::Forgotten, place)),
        };
        self.placed.extend(placed);
    }

    /// A call that fails these questions, and the number that the engine told it by.
    pub fn refusal(&mut self, kind: KeptKind, first: u8, failing: &[u8]) {
        self.refusals.extend(beside(first, failing).into_iter().map(|other| (kind, first, other)));
    }

    pub fn too_few_met(&self) -> Vec<Met> {
        too_few(&ALL_MET, &self.met)
    }

    pub fn never_refused(&self) -> Vec<(KeptKind, u8, u8)> {
        let of_kind =
            |kind: KeptKind| refusals_in(&questions_of(kind)).into_iter().map(move |(first, later)| (kind, first, later));
        KEPT_KINDS.into_iter().flat_map(of_kind).filter(|refusal| !self.refusals.contains(refusal)).collect()
    }

    pub fn never_named(&self) -> Vec<(KeptKind, u8)> {
        let of_kind = |kind: KeptKind| (0..=255).map(move |name| (kind, name));
        let kinds = [KeptKind::Keep, KeptKind::ComeBack, KeptKind::Forget];
        kinds.into_iter().flat_map(of_kind).filter(|named| !self.names.contains(named)).collect()
    }

    pub fn never_sized(&self) -> Vec<usize> {
        (0..=MOST_PAIRS).filter(|size| !self.sizes.contains(size)).collect()
    }

    pub fn never_placed(&self) -> Vec<(Placed, usize)> {
        let every = ALL_PLACED.into_iter().flat_map(|placed| (0..MOST_KEPT).map(move |place| (placed, place)));
        every.filter(|placed| !self.placed.contains(placed)).collect()
    }

    pub fn add(&mut self, other: &SeenKept) {
        self.calls += other.calls;
        add_counts(&mut self.met, &other.met);
        self.refusals.extend(&other.refusals);
        self.names.extend(&other.names);
        self.sizes.extend(&other.sizes);
        self.placed.extend(&other.placed);
    }

    pub fn met(&self) -> &BTreeMap<Met, usize> {
        &self.met
    }
}
