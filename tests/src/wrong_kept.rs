//! More engines with one part wrong: in pairings kept under names (document 02, L8). The other calls are right.
//!   engines              each with what is wrong of it
//!   Slip                 what is wrong, and the calls for kept pairings
//!   in_one_call          wrong parts in one kind of call alone
//!   after_each, After    the right calls, and something done after each, by what it was and came to
//!   keeping, where_full, counting    another keep; something done where 19 is owed; other numbers of places, by calls that are counted
//!   sharing              states that share a part
//!   leaving, counted     what calls of other kinds leave for these, and these for a tally
//! First names, then places, keeping and a plan's questions (wrong_kept_plans.rs), stocks and what comes back (wrong_kept_answers.rs),
//! forgetting, states that are not their own, and what other calls have to do with it.

use crate::engine::{CallKind, KeptKind, Tally, Told, KEPT_KINDS};
use crate::frames::{plan_file, Pair};
use crate::kept_reference::{self, read_plan, Calls, KeptState, Place};
use crate::kept_trial::{MOST_KEPT, NOT_KEPT, NO_PLACE};
use crate::reference::{self, Parts};
use crate::stock_trial::{self, Stock};
use crate::truth::WRONG_CALLER;
use crate::wrong::{named, Named};
use crate::wrong_budgets::raise;
use crate::{wrong_kept_answers, wrong_kept_plans};
use std::cell::{Cell, RefCell};
use std::rc::Rc;

pub fn engines() -> Vec<Named> {
    let mut all = of_names();
    all.extend(of_places());
    all.extend(wrong_kept_plans::engines());
    all.extend(wrong_kept_answers::engines());
    all.extend(of_forgetting());
    all.extend(of_states());
    let mut engines: Vec<Named> = all.into_iter().map(|(what, calls)| (what, with(calls))).collect();
    engines.extend(of_other_calls());
    engines.into_iter().map(|(what, engine)| (format!("kept: {what}"), engine)).collect()
}

// ---- how calls are put together

pub type Slip = (String, Calls);

/// What is told where only a question that is left out would refuse.
pub const NO_NUMBER: u8 = 99;

pub fn slip(what: &str, calls: Calls) -> Slip {
    (what.to_string(), calls)
}

pub fn right() -> Calls {
    Calls::right()
}

fn with(calls: Calls) -> Parts {
    Parts { kept: calls, ..Parts::right() }
}

/// The calls of other kinds are right.
fn in_one_call(kind: KeptKind, wrong: Calls) -> Calls {
    match kind {
        KeptKind::Bring => Calls { bring: Box::new(move |_, state, file| (wrong.bring)(&wrong, state, file)), ..right() },
        KeptKind::Keep => {
            Calls { keep: Box::new(move |_, state, name, file| (wrong.keep)(&wrong, state, name, file)), ..right() }
        }
        KeptKind::Forget => Calls { forget: Box::new(move |_, state, name| (wrong.forget)(&wrong, state, name)), ..right() },
        KeptKind::ComeBack => {
            Calls { come_back: Box::new(move |_, state, name, out| (wrong.come_back)(&wrong, state, name, out)), ..right() }
        }
    }
}

/// A call as it was made: which, under which name, its number, and what stood before it.
pub struct After<'a> {
    pub kind: KeptKind,
    pub name: u8,
    pub number: u8,
    pub before: &'a KeptState,
}

impl After<'_> {
    pub fn is(&self, kind: KeptKind) -> bool {
        self.kind == kind && self.number == 0
    }

    pub fn is_refused(&self, kind: KeptKind) -> bool {
        self.kind == kind && self.number != 0
    }
}

/// A stock has no name; it counts as 0.
pub fn after_each(done: impl Fn(&After, &mut KeptState) + 'static) -> Calls {
    let done = Rc::new(done);
    let [of_bring, of_keep, of_forget, of_back] = [done.clone(), done.clone(), done.clone(), done];
    Calls {
        bring: Box::new(move |calls, state, file| {
            let before = state.clone();
            let number = kept_reference::bring(calls, state, file);
            of_bring(&After { kind: KeptKind::Bring, name: 0, number, before: &before }, state);
            number
        }),
        keep: Box::new(move |calls, state, name, file| {
            let before = state.clone();
            let number = kept_reference::keep(calls, state, name, file);
            of_keep(&After { kind: KeptKind::Keep, name, number, before: &before }, state);
            number
        }),
        forget: Box::new(move |calls, state, name| {
            let before = state.clone();
            let number = kept_reference::forget(calls, state, name);
            of_forget(&After { kind: KeptKind::Forget, name, number, before: &before }, state);
            number
        }),
        come_back: Box::new(move |calls, state, name, out| {
            let before = state.clone();
            let told = kept_reference::come_back(calls, state, name, out);
            of_back(&After { kind: KeptKind::ComeBack, name, number: told.number, before: &before }, state);
            told
        }),
        ..right()
    }
}

pub fn without(places: &mut Vec<Place>, name: u8) {
    places.retain(|place| place.0 != name);
}

/// Under a name, in its place or behind all others.
pub fn set(places: &mut Vec<Place>, name: u8, pairs: Vec<Pair>) {
    match places.iter_mut().find(|place| place.0 == name) {
        Some(place) => place.1 = pairs,
        None => places.push((name, pairs)),
    }
}

// ---- names

fn comparing(is_same: impl Fn(u8, u8) -> bool + 'static) -> Calls {
    Calls { is_same: Box::new(is_same), ..right() }
}

/// What names are taken for: only what comes of it is compared.
fn comparisons() -> Vec<(String, fn(u8) -> u16)> {
    let taken: [(&str, fn(u8) -> u16); 27] = [
        ("their lowest bit", |name| (name & 1).into()),
        ("their lowest 2 bits", |name| (name & 3).into()),
        ("their lowest 3 bits", |name| (name & 7).into()),
        ("their lowest 4 bits", |name| (name & 15).into()),
        ("their lowest 5 bits", |name| (name & 31).into()),
        ("their lowest 6 bits", |name| (name & 63).into()),
        ("their lowest 7 bits", |name| (name & 127).into()),
        ("all bits but the first", |name| (name | 1).into()),
        ("all bits but the second", |name| (name | 2).into()),
        ("all bits but the third", |name| (name | 4).into()),
        ("all bits but the fourth", |name| (name | 8).into()),
        ("all bits but the fifth", |name| (name | 16).into()),
        ("all bits but the sixth", |name| (name | 32).into()),
        ("all bits but the seventh", |name| (name | 64).into()),
        ("their highest bit", |name| (name >> 7).into()),
        ("their highest 4 bits", |name| (name >> 4).into()),
        ("letters of any case", |name| name.to_ascii_uppercase().into()),
        ("nothing", |_| 0),
        ("their set bits", |name| name.count_ones() as u16),
        ("the rest by 255", |name| (name % 255).into()),
        ("the rest by 251", |name| (name % 251).into()),
        ("at most 127", |name| name.min(127).into()),
        ("at most 254", |name| name.min(254).into()),
        ("at least 1", |name| name.max(1).into()),
        ("at least 32", |name| name.max(32).into()),
        ("distance from zero", |name| (name as i8).unsigned_abs().into()),
        ("digits and letters alone", |name| if name.is_ascii_alphanumeric() { name.into() } else { 256 }),
    ];
    taken.into_iter().map(|(what, by)| (what.to_string(), by)).collect()
}

fn of_names() -> Vec<Slip> {
    let by = |taken: fn(u8) -> u16| comparing(move |kept, asked| taken(kept) == taken(asked));
    let mut all: Vec<Slip> = Vec::new();
    for (what, taken) in comparisons() {
        all.push((format!("names compared by {what}"), by(taken)));
        for kind in [KeptKind::Keep, KeptKind::ComeBack, KeptKind::Forget] {
            all.push((format!("names compared by {what}, in {kind:?} alone"), in_one_call(kind, by(taken))));
        }
    }
    for name in [0, 1, 8, 10, 13, 32, 48, 65, 97, 127, 128, 129, 200, 254, 255] {
        let never = comparing(move |kept, asked| kept == asked && asked != name);
        all.push((format!("name {name} never found"), never));
        let refusing = Calls {
            keep: Box::new(move |calls, state, other, file| match kept_reference::keep(calls, &mut state.clone(), other, file) {
                0 if other == name => NO_PLACE,
                _ => kept_reference::keep(calls, state, other, file),
            }),
            ..right()
        };
        all.push((format!("name {name} never kept"), refusing));
    }
    all.extend([
        slip("no name ever found", comparing(|_, _| false)),
        slip("the next name found too", comparing(|kept, asked| kept == asked || kept == asked.wrapping_add(1))),
        slip("the name before found too", comparing(|kept, asked| kept == asked || kept == asked.wrapping_sub(1))),
        slip("smaller names found too", comparing(|kept, asked| kept <= asked)),
        slip("larger names found too", comparing(|kept, asked| kept >= asked)),
    ]);
    all
}

// ---- places

pub fn keeping(keep: impl Fn(&Calls, &mut KeptState, u8, &[u8]) -> u8 + 'static) -> Calls {
    Calls { keep: Box::new(keep), ..right() }
}

/// Where 19 is owed: something done in its place, and the number that is told.
fn where_full(done: impl Fn(&mut KeptState, u8, Vec<Pair>) -> u8 + 'static) -> Calls {
    keeping(move |calls, state, name, file| match kept_reference::keep(calls, state, name, file) {
        NO_PLACE => done(state, name, read_plan(&state.stock, file).unwrap_or_default()),
        number => number,
    })
}

/// A number counted up by some calls, and taken from or added to the places.
fn counting(is_counted: fn(&After) -> bool, most: fn(usize) -> usize) -> Calls {
    let counted = after_each(move |after, state| state.beside.number += usize::from(is_counted(after)));
    let keep = counted.keep;
    Calls {
        keep: Box::new(move |calls, state, name, file| {
            let is_new = calls.place(state, name).is_none();
            match read_plan(&state.stock, file) {
                Ok(_) if is_new && state.places.len() >= most(state.beside.number) => NO_PLACE,
                Ok(pairs) if is_new && state.places.len() >= MOST_KEPT => {
                    state.places.push((name, pairs));
                    0
                }
                _ => keep(calls, state, name, file),
            }
        }),
        ..counted
    }
}

fn of_places() -> Vec<Slip> {
    let mut all: Vec<Slip> = Vec::new();
    all.extend([0, 1, 2, 4, 6, 7, 9, 10, 15, 16, 64, 255, 256].map(|most| (format!("{most} places"), Calls { most, ..right() })));
    all.extend(
        [0, 1, 2, 7, 14, 17, 18, 20, 25, 59]
            .map(|number| (format!("{number} in place of 19"), where_full(move |_, _, _| number))),
    );
    all.extend((0..MOST_KEPT).map(|place| {
        let replacing = where_full(move |state, name, pairs| {
            state.places[place] = (name, pairs);
            0
        });
        (format!("a ninth name in the place of number {place}"), replacing)
    }));
    all.extend((0..MOST_KEPT).map(|place| {
        let replacing = where_full(move |state, _, pairs| {
            state.places[place].1 = pairs;
            NO_PLACE
        });
        (format!("a ninth name refused, and its pairs in the place of number {place}"), replacing)
    }));
    all.extend([
        slip("19 put before the plan's questions", keeping(full_first)),
        slip("19 put before 7", keeping(|calls, state, name, file| full_before(calls, state, name, file, 7))),
        slip("19 put before 9", keeping(|calls, state, name, file| full_before(calls, state, name, file, 9))),
        slip("19 put before 12", keeping(|calls, state, name, file| full_before(calls, state, name, file, 12))),
        slip("19 put before 13", keeping(|calls, state, name, file| full_before(calls, state, name, file, 13))),
        slip("19 put before 14", keeping(|calls, state, name, file| full_before(calls, state, name, file, 14))),
        slip("19 for names in use while eight are", keeping(full_for_used)),
        slip(
            "19 for the name that is the oldest of eight",
            keeping(|calls, state, name, file| full_for(calls, state, name, file, 0)),
        ),
        slip(
            "19 for the name that is the newest of eight",
            keeping(|calls, state, name, file| full_for(calls, state, name, file, 7)),
        ),
        slip("19 for every name in use", keeping(used_refused)),
        slip(
            "the oldest name given up for a ninth",
            where_full(|state, name, pairs| {
                state.places.remove(0);
                state.places.push((name, pairs));
                0
            }),
        ),
        slip(
            "all names given up for a ninth",
            where_full(|state, name, pairs| {
                state.places = vec![(name, pairs)];
                0
            }),
        ),
        slip(
            "all names given up where 19 refuses",
            where_full(|state, _, _| {
                state.places.clear();
                NO_PLACE
            }),
        ),
        slip(
            "the newest name given up where 19 refuses",
            where_full(|state, _, _| {
                state.places.pop();
                NO_PLACE
            }),
        ),
        slip(
            "a place lost at each forgetting",
            counting(|after| after.is(KeptKind::Forget), |number| MOST_KEPT.saturating_sub(number)),
        ),
        slip(
            "a place lost at every fourth forgetting",
            counting(|after| after.is(KeptKind::Forget), |number| MOST_KEPT.saturating_sub(number / 4)),
        ),
        slip("a place gained at each forgetting", counting(|after| after.is(KeptKind::Forget), |number| MOST_KEPT + number)),
        slip(
            "a place gained where 18 refuses forgetting",
            counting(|after| after.is_refused(KeptKind::Forget), |number| MOST_KEPT + number),
        ),
        slip(
            "a place lost at each refused keep",
            counting(|after| after.is_refused(KeptKind::Keep), |number| MOST_KEPT.saturating_sub(number)),
        ),
        slip(
            "a place lost at each replacing",
            counting(
                |after| after.is(KeptKind::Keep) && after.before.places.iter().any(|place| place.0 == after.name),
                |number| MOST_KEPT.saturating_sub(number),
            ),
        ),
        slip(
            "a place lost at each new stock",
            counting(|after| after.is(KeptKind::Bring), |number| MOST_KEPT + 1 - number.clamp(1, 8)),
        ),
        slip(
            "a place gained at each new stock",
            counting(|after| after.is(KeptKind::Bring), |number| MOST_KEPT + number.max(1) - 1),
        ),
        slip(
            "a place lost at each coming back",
            counting(|after| after.is(KeptKind::ComeBack), |number| MOST_KEPT.saturating_sub(number)),
        ),
        slip(
            "sixteen keeps in all",
            counting(|after| after.is(KeptKind::Keep), |number| if number < 16 { MOST_KEPT } else { 0 }),
        ),
        slip("places freed by forgetting kept for the old name", freed_for_old_names()),
    ]);
    all
}

fn full_first(calls: &Calls, state: &mut KeptState, name: u8, file: &[u8]) -> u8 {
    full_before(calls, state, name, file, 0)
}

/// 19 in the place of refusals by that question and later ones.
fn full_before(calls: &Calls, state: &mut KeptState, name: u8, file: &[u8], question: u8) -> u8 {
    let is_full = calls.place(state, name).is_none() && state.places.len() >= calls.most;
    match kept_reference::keep(calls, state, name, file) {
        number if is_full && number >= question => NO_PLACE,
        number => number,
    }
}

fn full_for_used(calls: &Calls, state: &mut KeptState, name: u8, file: &[u8]) -> u8 {
    let is_full = state.places.len() >= calls.most;
    match kept_reference::keep(calls, &mut state.clone(), name, file) {
        0 if is_full => NO_PLACE,
        _ => kept_reference::keep(calls, state, name, file),
    }
}

fn full_for(calls: &Calls, state: &mut KeptState, name: u8, file: &[u8], at: usize) -> u8 {
    let is_meant = state.places.len() >= calls.most && calls.place(state, name) == Some(at);
    match kept_reference::keep(calls, &mut state.clone(), name, file) {
        0 if is_meant => NO_PLACE,
        _ => kept_reference::keep(calls, state, name, file),
    }
}

fn used_refused(calls: &Calls, state: &mut KeptState, name: u8, file: &[u8]) -> u8 {
    let is_used = calls.place(state, name).is_some();
    match kept_reference::keep(calls, &mut state.clone(), name, file) {
        0 if is_used => NO_PLACE,
        _ => kept_reference::keep(calls, state, name, file),
    }
}

/// What was forgotten is remembered by its name, and counts until a new stock.
fn freed_for_old_names() -> Calls {
    let marked = after_each(|after, state| {
        if after.is(KeptKind::Forget) {
            set(&mut state.beside.places, after.name, Vec::new());
        }
        if after.is(KeptKind::Keep) {
            without(&mut state.beside.places, after.name);
        }
        if after.is(KeptKind::Bring) {
            state.beside.places.clear();
        }
    });
    let keep = marked.keep;
    Calls {
        keep: Box::new(move |calls, state, name, file| {
            let is_known = |places: &[Place]| places.iter().any(|place| place.0 == name);
            let taken = state.places.len() + state.beside.places.len();
            let is_full = taken >= MOST_KEPT && !is_known(&state.places) && !is_known(&state.beside.places);
            match read_plan(&state.stock, file) {
                Ok(_) if is_full => NO_PLACE,
                _ => keep(calls, state, name, file),
            }
        }),
        ..marked
    }
}

// ---- forgetting

fn forgetting(forget: impl Fn(&Calls, &mut KeptState, u8) -> u8 + 'static) -> Calls {
    Calls { forget: Box::new(forget), ..right() }
}

/// Where the name is kept: something done in place of forgetting it, by where it stands.
fn forgetting_at(done: impl Fn(&mut KeptState, usize) + 'static) -> Calls {
    forgetting(move |calls, state, name| match calls.place(state, name) {
        None => NOT_KEPT,
        Some(place) => {
            done(state, place);
            0
        }
    })
}

/// Where it is not: something done, and a number told.
fn forgetting_unknown(number: u8, done: impl Fn(&mut KeptState, u8) + 'static) -> Calls {
    forgetting(move |calls, state, name| match calls.place(state, name) {
        None => {
            done(state, name);
            number
        }
        Some(_) => kept_reference::forget(calls, state, name),
    })
}

/// Only where it stands in a place that is meant, by that and by how many there are.
fn forgetting_some(is_meant: fn(usize, usize) -> bool) -> Calls {
    forgetting_at(move |state, place| {
        if is_meant(place, state.places.len()) {
            state.places.remove(place);
        }
    })
}

fn of_forgetting() -> Vec<Slip> {
    let mut all = vec![
        slip("forgetting leaves the name", forgetting_some(|_, _| false)),
        slip("the oldest of eight not forgotten", forgetting_some(|place, names| place > 0 || names < MOST_KEPT)),
        slip("the last name in use not forgotten", forgetting_some(|_, names| names > 1)),
        slip("the eighth name not forgotten", forgetting_some(|place, _| place < 7)),
        slip("forgetting leaves the name without pairs", forgetting_at(|state, place| state.places[place].1.clear())),
        slip("forgetting forgets the oldest", forgetting_at(|state, _| drop(state.places.remove(0)))),
        slip("forgetting forgets the newest", forgetting_at(|state, _| drop(state.places.pop()))),
        slip(
            "forgetting forgets the next",
            forgetting_at(|state, place| {
                let next = (place + 1) % state.places.len();
                state.places.remove(next);
            }),
        ),
        slip(
            "forgetting forgets the newest too",
            forgetting_at(|state, place| {
                state.places.remove(place);
                state.places.pop();
            }),
        ),
        slip("forgetting forgets all", forgetting_at(|state, _| state.places.clear())),
        slip("forgetting forgets what came later", forgetting_at(|state, place| state.places.truncate(place))),
        slip(
            "forgetting forgets what has the same pairs",
            forgetting_at(|state, place| {
                let pairs = state.places[place].1.clone();
                state.places.retain(|other| other.1 != pairs);
            }),
        ),
        slip(
            "forgetting puts the newest pairs in the place",
            forgetting_at(|state, place| {
                let (_, pairs) = state.places.pop().unwrap();
                state.places.iter_mut().skip(place).take(1).for_each(|place| place.1 = pairs.clone());
            }),
        ),
        slip(
            "forgetting moves the names, and not the pairs",
            forgetting_at(|state, place| {
                let pairs: Vec<Vec<Pair>> = state.places.iter().map(|place| place.1.clone()).collect();
                state.places.remove(place);
                state.places.iter_mut().zip(pairs).for_each(|(place, pairs)| place.1 = pairs);
            }),
        ),
        slip(
            "forgetting moves the pairs, and not the names",
            forgetting_at(|state, place| {
                let names: Vec<u8> = state.places.iter().map(|place| place.0).collect();
                state.places.remove(place);
                state.places.iter_mut().zip(names).for_each(|(place, name)| place.0 = name);
            }),
        ),
        slip(
            "forgetting takes the stock away",
            forgetting_at(|state, place| {
                state.places.remove(place);
                state.stock = Stock::default();
            }),
        ),
        slip(
            "forgetting takes the pairs from the fits",
            forgetting_at(|state, place| {
                let (_, pairs) = state.places.remove(place);
                state.stock.fits.retain(|fit| !pairs.contains(fit));
            }),
        ),
        slip(
            "the first two exchanged by forgetting another",
            forgetting_at(|state, place| {
                state.places.remove(place);
                if let [one, other, ..] = &mut state.places[..] {
                    std::mem::swap(&mut one.1, &mut other.1);
                }
            }),
        ),
        slip(
            "a name that is not kept forgets the oldest",
            forgetting_unknown(NOT_KEPT, |state, _| drop(state.places.drain(..1.min(state.places.len())))),
        ),
        slip("a name that is not kept forgets the newest", forgetting_unknown(NOT_KEPT, |state, _| drop(state.places.pop()))),
        slip("a name that is not kept forgets all", forgetting_unknown(NOT_KEPT, |state, _| state.places.clear())),
        slip(
            "a name that is not kept forgets the one before it",
            forgetting_unknown(NOT_KEPT, |state, name| without(&mut state.places, name.wrapping_sub(1))),
        ),
        slip("what was forgotten comes back until another is kept", forgotten_late()),
        slip("what was forgotten is kept again in place of other pairs", kept_again()),
        slip(
            "18 told though the name is forgotten",
            forgetting(|calls, state, name| {
                kept_reference::forget(calls, state, name);
                NOT_KEPT
            }),
        ),
    ];
    all.extend(
        [0, 1, 4, 17, 19, 20]
            .map(|number| (format!("{number} in place of 18, forgetting"), forgetting_unknown(number, |_, _| ()))),
    );
    all.extend([1, 8, 18].map(|number| {
        let telling = forgetting(move |calls, state, name| match kept_reference::forget(calls, state, name) {
            0 => number,
            refusal => refusal,
        });
        (format!("{number} told by forgetting"), telling)
    }));
    all
}

/// What is forgotten is put beside, until a new stock.
fn put_beside(done: impl Fn(&After, &mut KeptState) + 'static) -> Calls {
    after_each(move |after, state| {
        if after.is(KeptKind::Forget) {
            let old = after.before.places.iter().find(|place| place.0 == after.name);
            state.beside.places.extend(old.cloned());
        }
        if after.is(KeptKind::Bring) {
            state.beside.places.clear();
        }
        done(after, state);
    })
}

fn forgotten_late() -> Calls {
    let late = put_beside(|after, state| state.beside.places.retain(|_| !after.is(KeptKind::Keep)));
    let come_back = late.come_back;
    Calls {
        come_back: Box::new(move |calls, state, name, out| {
            match (come_back(calls, state, name, out), &state.beside.places[..]) {
                (Told { number: NOT_KEPT, .. }, [.., (old, pairs)]) if *old == name => reference::write(&plan_file(pairs), out),
                (told, _) => told,
            }
        }),
        ..late
    }
}

fn kept_again() -> Calls {
    put_beside(|after, state| {
        let old = state.beside.places.iter().position(|place| place.0 == after.name);
        if let (true, Some(old)) = (after.is(KeptKind::Keep), old) {
            let (_, pairs) = state.beside.places.remove(old);
            set(&mut state.places, after.name, pairs);
        }
    })
}

// ---- states

/// Part of every state is one that all share: put in before each call, and taken out after it; power-on starts it anew.
fn sharing(put_in: fn(&KeptState, &mut KeptState)) -> Calls {
    let shared: Rc<RefCell<KeptState>> = Rc::default();
    let [of_bring, of_keep, of_forget, of_back, of_start, of_zeros] = [0; 6].map(|_| shared.clone());
    let before = move |shared: &RefCell<KeptState>, state: &mut KeptState| put_in(&shared.borrow(), state);
    let after = |shared: &RefCell<KeptState>, state: &KeptState| *shared.borrow_mut() = state.clone();
    Calls {
        bring: Box::new(move |calls, state, file| {
            before(&of_bring, state);
            let number = kept_reference::bring(calls, state, file);
            after(&of_bring, state);
            number
        }),
        keep: Box::new(move |calls, state, name, file| {
            before(&of_keep, state);
            let number = kept_reference::keep(calls, state, name, file);
            after(&of_keep, state);
            number
        }),
        forget: Box::new(move |calls, state, name| {
            before(&of_forget, state);
            let number = kept_reference::forget(calls, state, name);
            after(&of_forget, state);
            number
        }),
        come_back: Box::new(move |calls, state, name, out| {
            before(&of_back, state);
            kept_reference::come_back(calls, state, name, out)
        }),
        power_on: Box::new(move |_| {
            of_start.take();
            KeptState::default()
        }),
        zero_bytes: Box::new(move || {
            of_zeros.take();
            KeptState::default()
        }),
        ..right()
    }
}

/// Another state at power-on, of zero bytes too.
fn started(state: fn() -> KeptState) -> Calls {
    Calls { power_on: Box::new(move |_| state()), zero_bytes: Box::new(state), ..right() }
}

fn with_two_cameras() -> KeptState {
    KeptState { stock: Stock { cameras: 2, fits: vec![(0, 1)], lit: Vec::new() }, ..KeptState::default() }
}

fn with_names_of_0(names: usize) -> KeptState {
    KeptState { places: vec![(0, Vec::new()); names], ..KeptState::default() }
}

fn of_states() -> Vec<Slip> {
    let copying = |copied: fn(&KeptState) -> KeptState| Calls { copied: Box::new(copied), ..right() };
    let starting = |power_on: fn(KeptState) -> KeptState| Calls { power_on: Box::new(power_on), ..right() };
    let of_zeros = |zero_bytes: fn() -> KeptState| Calls { zero_bytes: Box::new(zero_bytes), ..right() };
    vec![
        slip("one state for all", sharing(|shared, state| *state = shared.clone())),
        slip("one list of names for all states", sharing(|shared, state| state.places = shared.places.clone())),
        slip("one stock for all states", sharing(|shared, state| state.stock = shared.stock.clone())),
        slip(
            "the newest pairs shared by all states",
            sharing(|shared, state| {
                if let (Some(place), Some(last)) = (state.places.last_mut(), shared.places.last()) {
                    place.1 = last.1.clone();
                }
            }),
        ),
        slip("a stock with two cameras before the first", started(with_two_cameras)),
        slip(
            "two cameras without a fit before the first stock",
            started(|| KeptState { stock: Stock { cameras: 2, ..Stock::default() }, ..KeptState::default() }),
        ),
        slip("name 0 kept at power-on", started(|| with_names_of_0(1))),
        slip("eight names 0 at power-on", started(|| with_names_of_0(8))),
        slip("eight names 0 in zero bytes", of_zeros(|| with_names_of_0(8))),
        slip("a stock with two cameras in zero bytes", of_zeros(with_two_cameras)),
        slip(
            "nothing kept before the first stock",
            keeping(|calls, state, name, file| match (read_plan(&state.stock, file), state.stock.cameras) {
                (Ok(_), 0) => NO_PLACE,
                _ => kept_reference::keep(calls, state, name, file),
            }),
        ),
        slip("power-on leaves what stands there", starting(|state| state)),
        slip("power-on leaves the names", starting(|state| KeptState { stock: Stock::default(), ..state })),
        slip("power-on leaves the stock", starting(|state| KeptState { places: Vec::new(), ..state })),
        slip(
            "power-on leaves the oldest name",
            starting(|state| KeptState { places: state.places.into_iter().take(1).collect(), ..KeptState::default() }),
        ),
        slip("a copy without names", copying(|state| KeptState { places: Vec::new(), ..state.clone() })),
        slip("a copy without its stock", copying(|state| KeptState { stock: Stock::default(), ..state.clone() })),
        slip(
            "a copy without the newest name",
            copying(|state| {
                let mut copy = state.clone();
                copy.places.pop();
                copy
            }),
        ),
        slip("a copy at power-on", copying(|_| KeptState::default())),
        slip("two hundred calls to a state", worn_out(200)),
        slip("sixty calls to a state", worn_out(60)),
    ]
}

/// From a number of calls on, all is forgotten at each.
fn worn_out(calls: usize) -> Calls {
    after_each(move |_, state| {
        state.beside.number += 1;
        if state.beside.number > calls {
            state.places.clear();
        }
    })
}

// ---- other calls

/// After a call of another kind that is meant, by its kind and its number, the next call for kept pairings does something.
fn leaving(is_meant: fn(CallKind, u8) -> bool, done: fn(&[u8], &mut KeptState)) -> Parts {
    let left: Rc<RefCell<Option<Vec<u8>>>> = Rc::default();
    let found = left.clone();
    let calls = after_each(move |_, state| {
        if let Some(file) = found.borrow_mut().take() {
            done(&file, state);
        }
    });
    Parts {
        call: Box::new(move |parts, call, file, caller, out, tally| {
            let searched = reference::call(parts, call, file, caller, out, tally);
            if is_meant(call.kind(), searched.told.number) {
                *left.borrow_mut() = Some(file.to_vec());
            }
            searched
        }),
        ..with(calls)
    }
}

/// A call for kept pairings of a kind, accepted or refused, is counted at the next call that has a tally.
fn counted(kind: KeptKind, is_accepted: bool, count: fn(&mut Tally)) -> Parts {
    let pending = Rc::new(Cell::new(0));
    let more = pending.clone();
    let calls = after_each(move |after, _| {
        let is_meant = after.kind == kind && (after.number == 0) == is_accepted;
        pending.set(pending.get() + u32::from(is_meant));
    });
    Parts {
        call: Box::new(move |parts, call, file, caller, out, tally| {
            let searched = reference::call(parts, call, file, caller, out, tally);
            (0..more.replace(0)).for_each(|_| count(tally));
            searched
        }),
        ..with(calls)
    }
}

fn stock_in(file: &[u8]) -> Stock {
    stock_trial::read(file).unwrap_or_default()
}

fn of_other_calls() -> Vec<Named> {
    let answered_stock = |kind: CallKind, number: u8| kind == CallKind::Stock && number == 0;
    let mut all = vec![
        named(
            "a stock that is answered is brought",
            leaving(answered_stock, |file, state| {
                *state = KeptState { stock: stock_in(file), ..KeptState::default() };
            }),
        ),
        named("a stock that is answered is the present one", leaving(answered_stock, |file, state| state.stock = stock_in(file))),
        named("a stock that is answered clears the names", leaving(answered_stock, |_, state| state.places.clear())),
        named(
            "the plan of an answer kept under the newest name",
            leaving(answered_stock, |file, state| {
                let plan = reference::plan(&stock_in(file));
                state.places.iter_mut().rev().take(1).for_each(|place| place.1 = plan.clone());
            }),
        ),
        named("any other call clears the names", leaving(|_, _| true, |_, state| state.places.clear())),
        named("a graph clears the names", leaving(|kind, _| kind == CallKind::Graph, |_, state| state.places.clear())),
        named(
            "a graph takes the stock away",
            leaving(|kind, _| kind == CallKind::Graph, |_, state| state.stock = Stock::default()),
        ),
        named(
            "a budget forgets the newest name",
            leaving(|kind, _| kind == CallKind::Budget, |_, state| drop(state.places.pop())),
        ),
        named("a refused call clears the names", leaving(|_, number| number != 0, |_, state| state.places.clear())),
        named("a wrong caller clears the names", leaving(|_, number| number == WRONG_CALLER, |_, state| state.places.clear())),
    ];
    for kind in KEPT_KINDS {
        let as_stock = counted(kind, true, |tally| raise(&mut tally.sets[0].stocks, 1));
        all.push((format!("an accepted {kind:?} counted as a stock answer of caller 0"), as_stock));
        let as_refusal = counted(kind, false, |tally| raise(&mut tally.sets[0].refusals, 1));
        all.push((format!("a refused {kind:?} counted as a refusal of caller 0"), as_refusal));
        let for_all = counted(kind, false, |tally| tally.sets.iter_mut().for_each(|counts| raise(&mut counts.refusals, 1)));
        all.push((format!("a refused {kind:?} counted for every caller"), for_all));
        all.push((format!("all counts cleared by {kind:?}"), counted(kind, true, |tally| *tally = Tally::default())));
    }
    all
}
