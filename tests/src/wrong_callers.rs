//! More engines with one part wrong: in question 17, and in whose counts a call raises (document 02, L7).
//!   engines                each with what is wrong of it
//!   slips, in_one_call     what can be wrong of every call at once, and of one kind of call alone
//!   naming                 the right call in the name of another caller
//!   counting, Made         the right call counted otherwise, by who made it and what it came to
//!   where_refused          the right call, and something done where 17 refuses it
//!   answering              wrong callers answered, and counted nowhere
//!   asked_after            question 17 put after another
//!   after_checks           the right calls, counted otherwise after checks
//!   with_parts             the right call with other parts for some callers
//! First the slips: wrong callers counted or taken, right ones refused, counts raised for others or otherwise, or wrongly at the largest
//! value, 17 told otherwise, and what is remembered. Then single numbers that are taken, 17 elsewhere among the questions, some refusals or
//! answers counted for others, budgets taken for callers, checks that are counted, and answers that are not the same for every caller.

use crate::engine::{AllCounts, Call, CallKind, Counts, Searched, Tally, Told, Verdict, CALLERS, CALL_KINDS, OF_EACH};
use crate::graph_trial::{read_in_order, GRAPH_QUESTIONS, SELF_ARC};
use crate::line_ends::cr_lf;
use crate::reference::{self, AnyCall, Parts};
use crate::stock_trial::Standing;
use crate::truth::{is_caller, questions_of, Count, MOST_SEARCHES, WRONG_CALLER};
use crate::wrong::{named, with_classes, Named};
use crate::wrong_budgets::{is_answer, is_refusal, raise};
use crate::wrong_printouts::put;
use std::cell::{Cell, RefCell};
use std::collections::BTreeMap;
use std::ops::Range;
use std::rc::Rc;

pub fn engines() -> Vec<Named> {
    let mut all: Vec<Named> = slips().into_iter().map(|(what, call)| (what, with_call(call))).collect();
    all.extend(CALL_KINDS.into_iter().flat_map(in_one_call));
    all.extend(single_numbers());
    all.extend(other_orders());
    all.extend(some_counted());
    all.extend(of_budgets());
    all.extend(checks_counted());
    all.extend(other_answers());
    all.into_iter().map(|(what, engine)| (format!("callers: {what}"), engine)).collect()
}

// ---- how a call is put together

type Slip = (String, AnyCall);

fn slip(what: &str, call: AnyCall) -> Slip {
    (what.to_string(), call)
}

fn slips() -> Vec<Slip> {
    let mut all = wrong_ones_counted();
    all.extend(wrong_ones_taken());
    all.extend(right_ones_refused());
    all.extend(for_others());
    all.extend(counted_otherwise());
    all.extend(at_the_largest());
    all.extend(told_otherwise());
    all.extend(with_memory());
    all
}

fn with_call(call: AnyCall) -> Parts {
    Parts { call, ..Parts::right() }
}

/// The calls of other kinds are right.
fn in_one_call(kind: CallKind) -> Vec<Named> {
    let alone = |slip: AnyCall| {
        calling(move |parts, call, file, caller, out, tally| match call.kind() == kind {
            true => slip(parts, call, file, caller, out, tally),
            false => reference::call(parts, call, file, caller, out, tally),
        })
    };
    slips().into_iter().map(|(what, slip)| (format!("{what}, in {kind:?} alone"), with_call(alone(slip)))).collect()
}

fn calling(call: impl Fn(&Parts, Call, &[u8], u32, &mut [u8], &mut Tally) -> Searched + 'static) -> AnyCall {
    Box::new(call)
}

fn naming(name: impl Fn(u32) -> u32 + 'static) -> AnyCall {
    calling(move |parts, call, file, caller, out, tally| reference::call(parts, call, file, name(caller), out, tally))
}

/// A call that 17 does not refuse: who made it, which of its caller's counts is to rise, and its refusal number, 0 for an answer.
struct Made {
    caller: usize,
    count: usize,
    number: u8,
}

impl Made {
    /// Where the count stands as another caller's.
    fn of(&self, caller: usize) -> usize {
        OF_EACH * caller + self.count
    }

    fn own(&self) -> usize {
        self.of(self.caller)
    }

    /// Where the counts of its caller stand.
    fn own_set(&self) -> Range<usize> {
        set_of(self.caller)
    }

    fn next(&self) -> usize {
        (self.caller + 1) % CALLERS
    }

    fn before(&self) -> usize {
        (self.caller + CALLERS - 1) % CALLERS
    }

    fn others(&self) -> impl Iterator<Item = usize> {
        let own = self.caller;
        (0..CALLERS).filter(move |caller| *caller != own)
    }
}

fn set_of(caller: usize) -> Range<usize> {
    OF_EACH * caller..OF_EACH * (caller + 1)
}

/// Which count is to rise is told by the right call on a tally of zeros.
fn counting(count: impl Fn(&Made, &mut AllCounts) + 'static) -> AnyCall {
    calling(move |parts, call, file, caller, out, tally| {
        let mut risen = Tally::default();
        let searched = reference::call(parts, call, file, caller, out, &mut risen);
        if let Some(place) = risen.all().iter().position(|count| *count > 0) {
            let made = Made { caller: place / OF_EACH, count: place % OF_EACH, number: searched.told.number };
            changed(tally, |all| count(&made, all));
        }
        searched
    })
}

fn changed(tally: &mut Tally, change: impl FnOnce(&mut AllCounts)) {
    let mut all = tally.all();
    change(&mut all);
    *tally = Tally::of(all);
}

/// The count of another caller raised.
fn counted_for(other: impl Fn(&Made) -> usize + 'static) -> AnyCall {
    counting(move |made, all| raise(&mut all[made.of(other(made))], 1))
}

/// By who calls: something done to what is told, to the buffer and to the counts.
fn where_refused(done: impl Fn(u32, &mut Searched, &mut [u8], &mut AllCounts) + 'static) -> AnyCall {
    calling(move |parts, call, file, caller, out, tally| {
        let mut searched = reference::call(parts, call, file, caller, out, tally);
        if !is_caller(caller) {
            changed(tally, |all| done(caller, &mut searched, out, all));
        }
        searched
    })
}

// ---- wrong callers counted

/// The place of a caller's refusals.
fn refusals_of(caller: usize) -> usize {
    OF_EACH * caller + OF_EACH - 1
}

fn wrong_ones_counted() -> Vec<Slip> {
    let counted = |count: fn(u32, &mut AllCounts)| where_refused(move |caller, _, _, all| count(caller, all));
    let mut all: Vec<Slip> = (0..CALLERS)
        .map(|own| {
            let call = where_refused(move |_, _, _, all| raise(&mut all[refusals_of(own)], 1));
            (format!("a refusal by 17 counted for caller {own}"), call)
        })
        .collect();
    all.extend([
        slip(
            "a refusal by 17 counted for the caller of its lowest two bits",
            counted(|caller, all| raise(&mut all[refusals_of(caller as usize % CALLERS)], 1)),
        ),
        slip(
            "a refusal by 17 counted for every caller",
            counted(|_, all| (0..CALLERS).for_each(|caller| raise(&mut all[refusals_of(caller)], 1))),
        ),
        slip("a refusal by 17 counted as a path of caller 0", counted(|_, all| raise(&mut all[0], 1))),
        slip("a refusal by 17 counted as a stock answer of caller 3", counted(|_, all| raise(&mut all[14], 1))),
        slip(
            "a refusal by 17 counted at the place of its caller's number",
            counted(|caller, all| raise(&mut all[caller as usize % (CALLERS * OF_EACH)], 1)),
        ),
        slip("a refusal of caller 0 taken back by 17", counted(|_, all| lower(&mut all[refusals_of(0)]))),
        slip("all counts cleared by 17", counted(|_, all| all.fill(0))),
        slip("the counts of caller 3 cleared by 17", counted(|_, all| all[set_of(3)].fill(0))),
        slip("the sets exchanged by 17", counted(|_, all| all.rotate_left(OF_EACH))),
    ]);
    all
}

// ---- wrong callers taken

/// Without question 17, on counts that nobody sees.
fn answering(is_meant: fn(u32) -> bool, count: fn(&mut AllCounts)) -> AnyCall {
    calling(move |parts, call, file, caller, out, tally| {
        if is_caller(caller) || !is_meant(caller) {
            return reference::call(parts, call, file, caller, out, tally);
        }
        changed(tally, count);
        parts.past_17(call, file, out, &mut Counts::default())
    })
}

/// Wrong callers that are meant taken for a right one.
fn taking(right: u32, is_meant: impl Fn(u32) -> bool + 'static) -> AnyCall {
    naming(move |caller| if !is_caller(caller) && is_meant(caller) { right } else { caller })
}

fn wrong_ones_taken() -> Vec<Slip> {
    let mut all: Vec<Slip> = Vec::new();
    all.extend((0..4).map(|right| (format!("wrong callers taken for caller {right}"), taking(right, |_| true))));
    all.extend(
        [2, 3, 4, 5, 6, 7, 8, 16, 24, 31]
            .map(|bits| (format!("callers taken by their lowest {bits} bits"), naming(move |caller| caller % (1 << bits)))),
    );
    all.extend(
        [4, 7, 15, 127, 254, 255, 65_535]
            .map(|last| (format!("callers up to {last} taken for caller 3"), taking(3, move |caller| caller <= last))),
    );
    all.extend([
        slip("callers taken with a sign", taking(0, |caller| caller > i32::MAX as u32)),
        slip("callers above 255 taken for caller 0", taking(0, |caller| caller > 255)),
        slip("caller 255 taken for caller 3", taking(3, |caller| caller == 255)),
        slip("the largest number taken for caller 0", taking(0, |caller| caller == u32::MAX)),
        slip("even callers taken for caller 0", taking(0, |caller| caller % 2 == 0)),
        slip("wrong callers answered, and counted nowhere", answering(|_| true, |_| ())),
        slip("caller 4 answered, and counted nowhere", answering(|caller| caller == 4, |_| ())),
        slip("callers above 255 answered, and counted nowhere", answering(|caller| caller > 255, |_| ())),
        slip(
            "wrong callers answered, and a refusal of caller 0 counted",
            answering(|_| true, |all| raise(&mut all[refusals_of(0)], 1)),
        ),
    ]);
    all
}

// ---- right callers refused

fn refusing(is_meant: impl Fn(u32) -> bool + 'static) -> AnyCall {
    naming(move |caller| if is_meant(caller) { CALLERS as u32 } else { caller })
}

fn right_ones_refused() -> Vec<Slip> {
    let mut all: Vec<Slip> = Vec::new();
    all.extend((0..4).map(|own| (format!("caller {own} refused"), refusing(move |caller| caller == own))));
    all.extend([
        slip("callers 2 and 3 refused", refusing(|caller| caller > 1)),
        slip("odd callers refused", refusing(|caller| caller % 2 == 1)),
        slip("all callers refused but caller 0", refusing(|caller| caller > 0)),
        slip("all callers refused", refusing(|_| true)),
        slip("caller 3 refused, and counted", calling(refused_and_counted)),
    ]);
    all
}

fn refused_and_counted(parts: &Parts, call: Call, file: &[u8], caller: u32, out: &mut [u8], tally: &mut Tally) -> Searched {
    if caller == 3 {
        return Searched { told: parts.refusal(WRONG_CALLER, out, &mut tally.sets[3]), searches: 0 };
    }
    reference::call(parts, call, file, caller, out, tally)
}

// ---- counts of others

fn for_others() -> Vec<Slip> {
    let mut all: Vec<Slip> = Vec::new();
    for one in 0..CALLERS {
        for other in (0..CALLERS).filter(|other| *other != one) {
            let call = counted_for(move |made| if made.caller == one { other } else { made.caller });
            all.push((format!("caller {one} counted for caller {other}"), call));
        }
        for other in one + 1..CALLERS {
            let call = counted_for(move |made| match made.caller {
                caller if caller == one => other,
                caller if caller == other => one,
                caller => caller,
            });
            all.push((format!("callers {one} and {other} counted for each other"), call));
        }
        all.push((format!("every caller counted for caller {one}"), counted_for(move |_| one)));
    }
    all.extend([
        slip("callers counted from the last", counted_for(|made| CALLERS - 1 - made.caller)),
        slip("callers counted for the next one", counted_for(Made::next)),
        slip("callers counted for the one before", counted_for(Made::before)),
        slip("callers counted by their lowest bit", counted_for(|made| made.caller % 2)),
        slip("callers counted by their second bit", counted_for(|made| made.caller / 2)),
        slip("answers counted for caller 0", counted_for(|made| if is_answer(made.number) { 0 } else { made.caller })),
        slip("answers counted for caller 3", counted_for(|made| if is_answer(made.number) { 3 } else { made.caller })),
        slip("refusals counted for caller 0", counted_for(|made| if is_refusal(made.number) { 0 } else { made.caller })),
        slip("refusals counted for caller 3", counted_for(|made| if is_refusal(made.number) { 3 } else { made.caller })),
        slip(
            "refusals counted for the next caller",
            counted_for(|made| if is_refusal(made.number) { made.next() } else { made.caller }),
        ),
    ]);
    all
}

// ---- counted otherwise

/// Another place raised.
fn counted_at(place: fn(&Made) -> usize) -> AnyCall {
    counting(move |made, all| raise(&mut all[place(made)], 1))
}

/// The right count raised, and something done to the others.
fn counted_and(done: impl Fn(&Made, &mut AllCounts) + 'static) -> AnyCall {
    counting(move |made, all| {
        raise(&mut all[made.own()], 1);
        done(made, all);
    })
}

fn counted_otherwise() -> Vec<Slip> {
    let mut all: Vec<Slip> = Vec::new();
    for other in 0..CALLERS {
        let call = counted_and(move |made, all| raise(&mut all[made.of(other)], u32::from(made.caller != other)));
        all.push((format!("counted for caller {other} too"), call));
        let call = counting(move |made, all| raise(&mut all[made.own()], u32::from(made.caller != other)));
        all.push((format!("caller {other} not counted"), call));
    }
    all.extend([
        slip("counts of one kind side by side", counted_at(|made| CALLERS * made.count + made.caller)),
        slip("a set's counts from the last", counted_at(|made| OF_EACH * made.caller + OF_EACH - 1 - made.count)),
        slip("sets and their counts from the last", counted_at(|made| CALLERS * OF_EACH - 1 - made.own())),
        slip("sets of three counts", counted_at(|made| 3 * made.caller + made.count)),
        slip("counts one place further on", counted_at(|made| (made.own() + 1) % (CALLERS * OF_EACH))),
        slip("never counted", counting(|_, _| ())),
        slip("counted twice", counted_and(|made, all| raise(&mut all[made.own()], 1))),
        slip("raised by the caller's number", counting(|made, all| raise(&mut all[made.own()], made.caller as u32))),
        slip(
            "counted for every caller",
            counted_and(|made, all| made.others().for_each(|other| raise(&mut all[made.of(other)], 1))),
        ),
        slip("counted for the next caller too", counted_and(|made, all| raise(&mut all[made.of(made.next())], 1))),
        slip("counted for the caller before too", counted_and(|made, all| raise(&mut all[made.of(made.before())], 1))),
        slip(
            "a refusal counted beside each answer",
            counted_and(|made, all| raise(&mut all[refusals_of(made.caller)], u32::from(is_answer(made.number)))),
        ),
        slip("taken back from the next caller", counted_and(|made, all| lower(&mut all[made.of(made.next())]))),
        slip(
            "the other callers' counts cleared",
            counted_and(|made, all| made.others().for_each(|other| all[set_of(other)].fill(0))),
        ),
        slip(
            "the same counts of other callers cleared",
            counted_and(|made, all| made.others().for_each(|other| all[made.of(other)] = 0)),
        ),
        slip(
            "the same counts of other callers made equal",
            counted_and(|made, all| made.others().for_each(|other| all[made.of(other)] = all[made.own()])),
        ),
        slip(
            "the caller's other counts cleared",
            counting(|made, all| {
                let own = all[made.own()];
                all[made.own_set()].fill(0);
                all[made.own()] = own.saturating_add(1);
            }),
        ),
        slip("the sets exchanged", counted_and(|_, all| all.rotate_left(OF_EACH))),
        slip(
            "the caller's set put in the first one's place",
            counted_and(|made, all| (0..OF_EACH).for_each(|count| all.swap(count, OF_EACH * made.caller + count))),
        ),
    ]);
    all
}

fn lower(count: &mut u32) {
    *count = count.saturating_sub(1);
}

// ---- the largest value

/// Something done in place of raising, where the caller is meant and its count is at the largest value.
fn at_largest(is_meant: impl Fn(usize) -> bool + 'static, done: fn(&Made, &mut AllCounts)) -> AnyCall {
    counting(move |made, all| match all[made.own()] {
        u32::MAX if is_meant(made.caller) => done(made, all),
        _ => raise(&mut all[made.own()], 1),
    })
}

/// Raised unless something holds of all counts.
fn unless(stops: fn(&Made, &AllCounts) -> bool) -> AnyCall {
    counting(move |made, all| {
        let times = u32::from(!stops(made, all));
        raise(&mut all[made.own()], times);
    })
}

fn is_largest(count: &u32) -> bool {
    *count == u32::MAX
}

fn total(counts: &[u32]) -> u64 {
    counts.iter().map(|count| u64::from(*count)).sum()
}

fn at_the_largest() -> Vec<Slip> {
    let mut all: Vec<Slip> = Vec::new();
    for own in 0..CALLERS {
        let wraps = at_largest(move |caller| caller == own, |made, all| all[made.own()] = 0);
        all.push((format!("counts of caller {own} that wrap"), wraps));
        let early = counting(move |made, all| {
            let stops = made.caller == own && all[made.own()] == u32::MAX - 1;
            raise(&mut all[made.own()], u32::from(!stops));
        });
        all.push((format!("counts of caller {own} that stop one early"), early));
    }
    all.extend([
        slip("counts that wrap", at_largest(|_| true, |made, all| all[made.own()] = 0)),
        slip(
            "counts that wrap into the next",
            at_largest(
                |_| true,
                |made, all| {
                    all[made.own()] = 0;
                    raise(&mut all[(made.own() + 1) % (CALLERS * OF_EACH)], 1);
                },
            ),
        ),
        slip(
            "the next count raised at the largest",
            at_largest(|_| true, |made, all| raise(&mut all[(made.own() + 1) % (CALLERS * OF_EACH)], 1)),
        ),
        slip(
            "the next caller's count raised at the largest",
            at_largest(|_| true, |made, all| raise(&mut all[made.of(made.next())], 1)),
        ),
        slip("caller 0's count raised at the largest", at_largest(|_| true, |made, all| raise(&mut all[made.of(0)], 1))),
        slip("the caller's counts cleared at the largest", at_largest(|_| true, |made, all| all[made.own_set()].fill(0))),
        slip("all counts cleared at the largest", at_largest(|_| true, |_, all| all.fill(0))),
        slip(
            "counts stopped by the same of another caller",
            unless(|made, all| made.others().any(|other| is_largest(&all[made.of(other)]))),
        ),
        slip("counts stopped by any other", unless(|_, all| all.iter().any(is_largest))),
        slip("counts stopped by another of the caller's", unless(|made, all| all[made.own_set()].iter().any(is_largest))),
        slip("counts stopped by the one before", unless(|made, all| made.own() > 0 && is_largest(&all[made.own() - 1]))),
        slip("counts stopped by caller 0's refusals", unless(|_, all| is_largest(&all[3]))),
        slip("counts stopped by all together", unless(|_, all| total(all) >= u64::from(u32::MAX))),
        slip("counts stopped by the caller's together", unless(|made, all| total(&all[made.own_set()]) >= u64::from(u32::MAX))),
        slip("counts that stop one early", unless(|made, all| all[made.own()] >= u32::MAX - 1)),
        slip("counts of 31 bits", unless(|made, all| all[made.own()] >= i32::MAX as u32)),
        slip("counts of 16 bits", unless(|made, all| all[made.own()] >= 65_535)),
    ]);
    all
}

// ---- 17 told otherwise

fn told_otherwise() -> Vec<Slip> {
    let telling = |tell: fn(u32, &mut Told, &mut [u8])| {
        where_refused(move |caller, searched, out, _| tell(caller, &mut searched.told, out))
    };
    let mut all: Vec<Slip> = Vec::new();
    all.extend([0, 1, 2, 4, 15, 16, 18, 23, 57].map(|number| {
        (format!("{number} in place of 17"), where_refused(move |_, searched, _, _| searched.told.number = number))
    }));
    all.extend([
        slip("the caller in place of 17", telling(|caller, told, _| told.number = caller as u8)),
        slip("the first byte cleared by 17", telling(|_, _, out| put(out, &[0]))),
        slip("the first byte changed by 17", telling(|_, _, out| out.iter_mut().take(1).for_each(|byte| *byte ^= 1))),
        slip("the last byte changed by 17", telling(|_, _, out| out.iter_mut().rev().take(1).for_each(|byte| *byte ^= 1))),
        slip("the buffer cleared by 17", telling(|_, _, out| out.fill(0))),
        slip("the refusal's line written by 17", telling(|_, _, out| put(out, b"7E11\n"))),
        slip(
            "the refusal's line written by 17, and its size told",
            telling(|_, told, out| {
                put(out, b"7E11\n");
                told.size = out.len().min(5);
            }),
        ),
        slip("a size told by 17", telling(|_, told, _| told.size = 5)),
        slip("the caller written by 17", telling(|caller, _, out| put(out, &caller.to_le_bytes()))),
        slip("an answer written before 17", calling(answered_first)),
    ]);
    all
}

fn answered_first(parts: &Parts, call: Call, file: &[u8], caller: u32, out: &mut [u8], tally: &mut Tally) -> Searched {
    if !is_caller(caller) {
        parts.past_17(call, file, out, &mut Counts::default());
    }
    reference::call(parts, call, file, caller, out, tally)
}

// ---- calls that remember

fn with_memory() -> Vec<Slip> {
    vec![
        slip("counted for the caller before", counted_for(last_caller())),
        slip("counted for the first caller", counted_for(first_caller())),
        slip("counted for the callers in turn", counted_for(in_turn())),
        slip("every tenth call counted for caller 0", counted_for(every_tenth())),
        slip("counted for who sent the file first", first_sender()),
        slip("a wrong caller taken for the one before", naming(kept_caller())),
        slip("a refusal by 17 counted for the caller before", counted_for_last()),
        slip("refused by 17 only once", naming(refused_once())),
        slip("every second wrong caller taken for caller 0", naming(every_second())),
        slip("refused by 17 after a wrong caller", naming(refused_after_wrong())),
        slip("not counted after a wrong caller", after_wrong(|before, _| before)),
        slip(
            "counted for caller 0 after a wrong caller",
            after_wrong(|before, made| {
                let mut tally = before;
                raise(&mut tally.sets[0].refusals, u32::from(made != before));
                tally
            }),
        ),
        slip("a caller's second call in a row not counted", second_uncounted()),
        slip("all counts kept, whatever is lent", counts_kept()),
        slip("the caller's counts kept, whatever is lent", own_counts_kept()),
    ]
}

fn last_caller() -> impl Fn(&Made) -> usize {
    let last = Cell::new(None);
    move |made| last.replace(Some(made.caller)).unwrap_or(made.caller)
}

fn first_caller() -> impl Fn(&Made) -> usize {
    let first = Cell::new(None);
    move |made| {
        first.set(first.get().or(Some(made.caller)));
        first.get().unwrap_or(made.caller)
    }
}

fn in_turn() -> impl Fn(&Made) -> usize {
    let turn = Cell::new(0);
    move |_| turn.replace((turn.get() + 1) % CALLERS)
}

fn every_tenth() -> impl Fn(&Made) -> usize {
    let calls = Cell::new(0);
    move |made| {
        calls.set((calls.get() + 1) % 10);
        if calls.get() == 0 {
            0
        } else {
            made.caller
        }
    }
}

fn first_sender() -> AnyCall {
    let senders: RefCell<BTreeMap<Vec<u8>, u32>> = RefCell::new(BTreeMap::new());
    calling(move |parts, call, file, caller, out, tally| {
        let first = if is_caller(caller) { *senders.borrow_mut().entry(file.to_vec()).or_insert(caller) } else { caller };
        reference::call(parts, call, file, first, out, tally)
    })
}

/// Before any right one, caller 0.
fn kept_caller() -> impl Fn(u32) -> u32 {
    let last = Cell::new(0);
    move |caller| {
        if is_caller(caller) {
            last.set(caller);
        }
        last.get()
    }
}

fn counted_for_last() -> AnyCall {
    let last = kept_caller();
    calling(move |parts, call, file, caller, out, tally| {
        let searched = reference::call(parts, call, file, caller, out, tally);
        let own = last(caller);
        if own != caller {
            raise(&mut tally.sets[own as usize].refusals, 1);
        }
        searched
    })
}

/// Later wrong callers are caller 0.
fn refused_once() -> impl Fn(u32) -> u32 {
    let refused = Cell::new(false);
    move |caller| if !is_caller(caller) && refused.replace(true) { 0 } else { caller }
}

fn every_second() -> impl Fn(u32) -> u32 {
    let refused = Cell::new(false);
    move |caller| if !is_caller(caller) && refused.replace(!refused.get()) { 0 } else { caller }
}

fn refused_after_wrong() -> impl Fn(u32) -> u32 {
    let after_wrong = Cell::new(false);
    move |caller| if after_wrong.replace(!is_caller(caller)) { CALLERS as u32 } else { caller }
}

/// The right call; after one of a wrong caller, another tally, by the one before the call and the right one.
fn after_wrong(left: fn(Tally, Tally) -> Tally) -> AnyCall {
    let is_after = Cell::new(false);
    calling(move |parts, call, file, caller, out, tally| {
        let before = *tally;
        let searched = reference::call(parts, call, file, caller, out, tally);
        if is_after.replace(!is_caller(caller)) {
            *tally = left(before, *tally);
        }
        searched
    })
}

fn second_uncounted() -> AnyCall {
    let last = Cell::new(None);
    counting(move |made, all| {
        let again = last.replace(Some(made.caller)) == Some(made.caller);
        raise(&mut all[made.own()], u32::from(!again));
    })
}

/// From the first call on, the counts that the engine left are written over those that are lent.
fn counts_kept() -> AnyCall {
    let kept: Cell<Option<Tally>> = Cell::new(None);
    calling(move |parts, call, file, caller, out, tally| {
        *tally = kept.get().unwrap_or(*tally);
        let searched = reference::call(parts, call, file, caller, out, tally);
        kept.set(Some(*tally));
        searched
    })
}

fn own_counts_kept() -> AnyCall {
    let kept: [Cell<Option<Counts>>; CALLERS] = Default::default();
    calling(move |parts, call, file, caller, out, tally| {
        if let Some(own) = tally.sets.get_mut(caller as usize) {
            *own = kept[caller as usize].get().unwrap_or(*own);
        }
        let searched = reference::call(parts, call, file, caller, out, tally);
        if let Some(own) = tally.sets.get(caller as usize) {
            kept[caller as usize].set(Some(*own));
        }
        searched
    })
}

// ---- single numbers

fn single_numbers() -> Vec<Named> {
    let numbers = [5, 8, 10, 17, 32, 64, 99, 127, 128, 192, 254, 256, 257, 259, 511, 65_535, 65_536, 1 << 24, 1 << 31];
    let taken =
        |number: u32| (format!("caller {number} taken for caller 0"), with_call(taking(0, move |caller| caller == number)));
    numbers.map(taken).into()
}

// ---- the place among the questions

fn other_orders() -> Vec<Named> {
    let mut all: Vec<Named> = Vec::new();
    for kind in CALL_KINDS {
        let [_, later @ ..] = &questions_of(kind)[..] else {
            continue;
        };
        all.extend(
            later.iter().map(|question| {
                (format!("question 17 put after {question}, in {kind:?}"), with_call(asked_after(kind, *question)))
            }),
        );
    }
    all
}

/// What a right caller would be refused with, if that question or an earlier one does it.
fn asked_after(kind: CallKind, question: u8) -> AnyCall {
    let order = questions_of(kind);
    let place = move |number: u8| order.iter().position(|other| *other == number);
    calling(move |parts, call, file, caller, out, tally| {
        let number = || parts.past_17(call, file, &mut vec![0; out.len()], &mut Counts::default()).told.number;
        let first = if call.kind() == kind && !is_caller(caller) { number() } else { 0 };
        if first != 0 && place(first) <= place(question) {
            return Searched { told: (parts.refuse)(first, out), searches: 0 };
        }
        reference::call(parts, call, file, caller, out, tally)
    })
}

// ---- some calls counted for another

fn some_counted() -> Vec<Named> {
    let mut all: Vec<Named> = Vec::new();
    for number in 1..=16 {
        let call = counted_for(move |made| if made.number == number { 0 } else { made.caller });
        all.push((format!("refusals by {number} counted for caller 0"), with_call(call)));
    }
    for count in [Count::Paths, Count::Barriers, Count::Stocks] {
        for other in [0, 3] {
            let call = counted_for(move |made| if made.count == count as usize { other } else { made.caller });
            all.push((format!("{count:?} counted for caller {other}"), with_call(call)));
        }
    }
    all
}

// ---- budgets

fn of_budgets() -> Vec<Named> {
    let all: [(&str, AnyCall); 5] = [
        ("caller and budget exchanged", calling(exchanged)),
        ("the caller taken for the budget", budgeted(|caller, _| caller)),
        ("the caller added to the budget", budgeted(|caller, most| most.saturating_add(caller))),
        ("one search told by 17", where_refused(|_, searched, _, _| searched.searches = 1)),
        ("the caller told as searches by 17", where_refused(|caller, searched, _, _| searched.searches = u64::from(caller))),
    ];
    all.into_iter().map(|(what, call)| named(what, with_call(call))).collect()
}

fn exchanged(parts: &Parts, call: Call, file: &[u8], caller: u32, out: &mut [u8], tally: &mut Tally) -> Searched {
    match call {
        Call::Budget(most) => reference::call(parts, Call::Budget(caller), file, most, out, tally),
        _ => reference::call(parts, call, file, caller, out, tally),
    }
}

/// Another budget, by the caller and the right one.
fn budgeted(most: fn(u32, u32) -> u32) -> AnyCall {
    calling(move |parts, call, file, caller, out, tally| {
        let call = if let Call::Budget(right) = call { Call::Budget(most(caller, right)) } else { call };
        reference::call(parts, call, file, caller, out, tally)
    })
}

// ---- checks

/// Where a check with such a verdict came before the call: something done to all counts, by who calls and by the tally before.
fn after_checks(is_meant: fn(Verdict) -> bool, done: fn(u32, &Tally, &mut AllCounts)) -> Parts {
    let checked = Rc::new(Cell::new(false));
    let came = checked.clone();
    let check = move |parts: &Parts, graph: &[u8], certificate: &[u8]| {
        let said = reference::check(parts, graph, certificate);
        came.set(came.get() || is_meant(said));
        said
    };
    let call = calling(move |parts, call, file, caller, out, tally| {
        let before = *tally;
        let searched = reference::call(parts, call, file, caller, out, tally);
        if checked.replace(false) {
            changed(tally, |all| done(caller, &before, all));
        }
        searched
    });
    Parts { check: Box::new(check), ..with_call(call) }
}

fn checks_counted() -> Vec<Named> {
    let is_refused = |said: Verdict| matches!(said, Verdict::Refused(_));
    vec![
        named("a check counted as a refusal of caller 0", after_checks(|_| true, |_, _, all| raise(&mut all[refusals_of(0)], 1))),
        named("a check counted as a path of caller 3", after_checks(|_| true, |_, _, all| raise(&mut all[12], 1))),
        named(
            "a refused check counted as a refusal of caller 0",
            after_checks(is_refused, |_, _, all| raise(&mut all[refusals_of(0)], 1)),
        ),
        named(
            "a check that says yes counted as a barrier of caller 0",
            after_checks(|said| said == Verdict::Yes, |_, _, all| raise(&mut all[1], 1)),
        ),
        named(
            "a check that says no counted as a path of caller 0",
            after_checks(|said| said == Verdict::No, |_, _, all| raise(&mut all[0], 1)),
        ),
        named(
            "a check counted for every caller",
            after_checks(|_| true, |_, _, all| all.iter_mut().for_each(|count| raise(count, 1))),
        ),
        named(
            "a check counted for who calls next",
            after_checks(
                |_| true,
                |caller, _, all| {
                    let own = if is_caller(caller) { caller as usize } else { 0 };
                    raise(&mut all[refusals_of(own)], 1);
                },
            ),
        ),
        named("the call after a check not counted", after_checks(|_| true, |_, before, all| *all = before.all())),
        named("all counts cleared by a check", after_checks(|_| true, |_, _, all| all.fill(0))),
    ]
}

// ---- other answers

fn with_parts(own: u32, other: Parts) -> Parts {
    with_call(calling(move |parts, call, file, caller, out, tally| {
        let parts = if caller == own { &other } else { parts };
        reference::call(parts, call, file, caller, out, tally)
    }))
}

/// The right call, and something done after it where its refusal number, 0 for an answer, is one that is meant.
fn after(is_meant: fn(u8) -> bool, done: fn(u32, &mut Told, &mut [u8])) -> Parts {
    with_call(calling(move |parts, call, file, caller, out, tally| {
        let mut searched = reference::call(parts, call, file, caller, out, tally);
        if is_caller(caller) && is_meant(searched.told.number) {
            done(caller, &mut searched.told, out);
        }
        searched
    }))
}

fn other_answers() -> Vec<Named> {
    let right = Parts::right;
    let without_16: Vec<u8> = GRAPH_QUESTIONS.into_iter().filter(|question| *question != SELF_ARC).collect();
    let mut all: Vec<Named> = (0..4)
        .map(|own| (format!("a room of 2,047 granted to caller {own}"), with_parts(own, Parts { least_room: 2_047, ..right() })))
        .collect();
    all.extend([
        named("a room of 2,048 refused to caller 3", with_parts(3, Parts { least_room: 2_049, ..right() })),
        named("the room of caller 2 questioned after the file", with_parts(2, Parts { buffer_first: false, ..right() })),
        named("carriage returns for caller 1", with_parts(1, Parts { ends: |_, answer| cr_lf(&answer), ..right() })),
        named(
            "no classes for caller 2",
            with_parts(2, Parts { answer: |graph| with_classes(graph, |classes| classes.fill(0)), ..right() }),
        ),
        named(
            "one mark for caller 3",
            with_parts(
                3,
                Parts {
                    standing: Box::new(|stock| Standing { marks: vec![2; stock.cameras], ..reference::standing(stock) }),
                    ..right()
                },
            ),
        ),
        named("the lit pairs handed back to caller 0", with_parts(0, Parts { plan: |stock| stock.lit.clone(), ..right() })),
        named(
            "one search more for caller 1",
            with_parts(1, Parts { search: Box::new(|stock, most| reference::search(stock, most + 1)), ..right() }),
        ),
        named(
            "self arcs taken from caller 1",
            with_parts(1, Parts { read_graph: Box::new(move |file| read_in_order(file, &without_16)), ..right() }),
        ),
        named(
            "any budget granted to caller 2",
            with_call(budgeted(|caller, most| if caller == 2 { most.min(MOST_SEARCHES) } else { most })),
        ),
        named("refusals told with the caller added", after(is_refusal, |caller, told, _| told.number += caller as u8)),
        named(
            "the caller written behind the answer",
            after(is_answer, |caller, told, out| put(&mut out[told.size..], &[caller as u8])),
        ),
        named("the caller written in a refusal", after(is_refusal, |caller, _, out| put(out, &[caller as u8]))),
        named("the caller added to the size", after(is_answer, |caller, told, _| told.size += caller as usize)),
    ]);
    all
}
