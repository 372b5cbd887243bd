//! More engines with one part wrong: in the look-up of a pair among fits (document 02, L3), and in question 13, which stands on it.
//!   engines              each with what is wrong of it
//!   looking, by_slices   a look-up of fits; of the slices that they stand in
//!   ending, up_to        a look-up that ends at the first fit of some kind; what it answers where it ends at a place
//!   asking_13, found_by  another question 13; the one that asks for each lit pair by a look-up
//! The look-ups are wrong in the answer that a caller of the look-up gets, and read stocks rightly; the questions the other way round.

use crate::engine::{Fit, Looked};
use crate::fit_lists::{joined, number_of};
use crate::frames::Pair;
use crate::reference::{self, Parts};
use crate::stock_trial::{includes, read_in_order, Stock, STOCK_QUESTIONS};
use crate::wrong::{named, Named};
use std::cell::{Cell, RefCell};
use std::collections::BTreeMap;

pub fn engines() -> Vec<Named> {
    let mut all = other_ends();
    all.extend(other_comparisons());
    all.extend(other_starts());
    all.extend(other_numbers());
    all.extend(other_counts());
    all.extend(other_findings());
    all.extend(other_slices());
    all.extend(with_memory());
    all.extend(lit_fits_refused());
    all.extend(others_accepted());
    all.extend(other_lit_pairs_asked());
    all
}

// ---- how a look-up is put together

fn by_slices(look_up: impl Fn(&[u8], &[u8], Fit) -> Looked + 'static) -> Parts {
    Parts { look_up: Box::new(look_up), ..Parts::right() }
}

fn looking(look_up: impl Fn(&[Fit], Fit) -> Looked + 'static) -> Parts {
    by_slices(move |firsts, seconds, sought| look_up(&joined(firsts, seconds), sought))
}

/// The right answer, changed.
fn changing(change: impl Fn(&[Fit], Fit, Looked) -> Looked + 'static) -> Parts {
    looking(move |fits, sought| change(fits, sought, right(fits, sought)))
}

/// The right answer with another number.
fn counting(number: impl Fn(&[Fit], Looked) -> u64 + 'static) -> Parts {
    changing(move |fits, _, answer| Looked { looked: number(fits, answer), ..answer })
}

/// The right number with something else found: told by the fit at which the look-up ended, if it is equal or larger.
fn finding(found: impl Fn(Option<Fit>, Fit) -> bool + 'static) -> Parts {
    changing(move |fits, sought, answer| Looked { found: found(end(fits, sought).map(|place| fits[place]), sought), ..answer })
}

fn right(fits: &[Fit], sought: Fit) -> Looked {
    up_to(fits, end(fits, sought), sought)
}

/// The place at which a right look-up ends, unless it goes through all.
fn end(fits: &[Fit], sought: Fit) -> Option<usize> {
    fits.iter().position(|fit| *fit >= sought)
}

/// What is answered where the fit at a place is the last looked at; without a place all are.
fn up_to(fits: &[Fit], end: Option<usize>, sought: Fit) -> Looked {
    match end {
        Some(place) => Looked { found: fits[place] == sought, looked: place as u64 + 1 },
        None => Looked { found: false, looked: fits.len() as u64 },
    }
}

/// A look-up that ends at the first fit of some kind.
fn ending(fits: &[Fit], sought: Fit, ends: impl Fn(Fit) -> bool) -> Looked {
    up_to(fits, fits.iter().position(|fit| ends(*fit)), sought)
}

// ---- look-ups that end elsewhere

fn other_ends() -> Vec<Named> {
    vec![
        named("a look-up that ends one fit too late", looking(one_too_late)),
        named("a look-up that ends one fit too early", looking(one_too_early)),
        named("a look-up that goes on to the end", counting(|fits, _| fits.len() as u64)),
        named(
            "a look-up that goes on to the end where the pair is no fit",
            looking(|fits, sought| ending(fits, sought, |fit| fit == sought)),
        ),
        named(
            "a look-up that goes on to the end where the pair is a fit",
            counting(|fits, answer| if answer.found { fits.len() as u64 } else { answer.looked }),
        ),
        named("a look-up that ends at a larger fit only", looking(past_equal)),
        named(
            "a look-up that ends at an equal first camera",
            looking(|fits, sought| ending(fits, sought, |fit| fit.0 >= sought.0)),
        ),
        named("a look-up that ends at a larger first camera only", looking(past_first_camera)),
        named(
            "a look-up that ends at an equal pair or a larger first camera",
            looking(|fits, sought| ending(fits, sought, |fit| fit == sought || fit.0 > sought.0)),
        ),
        named("a look-up that never looks at the last fit", looking(without_last)),
        named("a look-up of the first 255 fits", looking(|fits, sought| right(&fits[..fits.len().min(255)], sought))),
        named("a look-up of the first 256 fits", looking(|fits, sought| right(&fits[..fits.len().min(256)], sought))),
        named("a look-up of the first 3,899 fits", looking(|fits, sought| right(&fits[..fits.len().min(3_899)], sought))),
        named("a look-up of the first 3,900 fits", looking(|fits, sought| right(&fits[..fits.len().min(3_900)], sought))),
    ]
}

fn one_too_late(fits: &[Fit], sought: Fit) -> Looked {
    up_to(fits, end(fits, sought).map(|place| (place + 1).min(fits.len() - 1)), sought)
}

fn one_too_early(fits: &[Fit], sought: Fit) -> Looked {
    up_to(fits, end(fits, sought).map(|place| place.saturating_sub(1)), sought)
}

fn past_equal(fits: &[Fit], sought: Fit) -> Looked {
    Looked { found: fits.contains(&sought), ..ending(fits, sought, |fit| fit > sought) }
}

fn past_first_camera(fits: &[Fit], sought: Fit) -> Looked {
    Looked { found: fits.contains(&sought), ..ending(fits, sought, |fit| fit.0 > sought.0) }
}

fn without_last(fits: &[Fit], sought: Fit) -> Looked {
    right(&fits[..fits.len().saturating_sub(1)], sought)
}

// ---- fits compared otherwise

fn other_comparisons() -> Vec<Named> {
    let comparing = |key: fn(Fit) -> usize| looking(move |fits, sought| ending(fits, sought, |fit| key(fit) >= key(sought)));
    vec![
        named("fits compared by second camera, then by first", comparing(|fit| number_of((fit.1, fit.0)))),
        named("fits compared by first cameras alone", looking(|fits, sought| by_camera(fits, |fit| fit.0, sought))),
        named("fits compared by second cameras alone", looking(|fits, sought| by_camera(fits, |fit| fit.1, sought))),
        named("fits compared by the sum of their cameras", comparing(|fit| fit.0 as usize + fit.1 as usize)),
        named("fits compared by bytes with a sign", comparing(|fit| number_of((fit.0 ^ 0x80, fit.1 ^ 0x80)))),
        named("fits compared by seven bits", comparing(|fit| number_of((fit.0 & 0x7F, fit.1 & 0x7F)))),
        named("fits compared by four bits of the second camera", comparing(|fit| number_of((fit.0, fit.1 & 0xF)))),
        named(
            "a fit larger only where neither camera is smaller",
            looking(|fits, sought| ending(fits, sought, |fit| fit.0 >= sought.0 && fit.1 >= sought.1)),
        ),
        named(
            "a fit larger where one camera is",
            looking(|fits, sought| ending(fits, sought, |fit| fit == sought || fit.0 > sought.0 || fit.1 > sought.1)),
        ),
        named("fits taken to fall", looking(|fits, sought| ending(fits, sought, |fit| fit <= sought))),
        named("the pair put in order before it is looked up", looking(|fits, sought| right(fits, in_pair_order(sought)))),
        named("the pair looked up the other way round", looking(|fits, sought| right(fits, (sought.1, sought.0)))),
        named(
            "the pair found the other way round too",
            finding(|fit, sought| fit == Some(sought) || fit == Some((sought.1, sought.0))),
        ),
        named("a pair with the larger camera first looked at nowhere", looking(unless(|sought| sought.0 > sought.1))),
        named("a camera with itself looked at nowhere", looking(unless(|sought| sought.0 == sought.1))),
    ]
}

/// Equal and larger by one camera alone.
fn by_camera(fits: &[Fit], camera: fn(Fit) -> u8, sought: Fit) -> Looked {
    let answer = ending(fits, sought, |fit| camera(fit) >= camera(sought));
    let last = fits.get((answer.looked as usize).saturating_sub(1));
    Looked { found: last.is_some_and(|fit| camera(*fit) == camera(sought)), ..answer }
}

fn in_pair_order((first, second): Fit) -> Fit {
    (first.min(second), first.max(second))
}

/// No fit is looked at for such a pair.
fn unless(passed: fn(Fit) -> bool) -> impl Fn(&[Fit], Fit) -> Looked {
    move |fits, sought| if passed(sought) { Looked { found: false, looked: 0 } } else { right(fits, sought) }
}

// ---- look-ups that start elsewhere

fn other_starts() -> Vec<Named> {
    vec![
        named("a look-up that passes over the first fit", looking(|fits, sought| right(fits.get(1..).unwrap_or(&[]), sought))),
        named(
            "a look-up that passes over the first fit and counts it",
            looking(|fits, sought| {
                let answer = right(fits.get(1..).unwrap_or(&[]), sought);
                Looked { looked: answer.looked + u64::from(!fits.is_empty()), ..answer }
            }),
        ),
        named("a look-up that starts in the middle", looking(from_the_middle)),
        named("a look-up that starts at the last fit", looking(from_the_last)),
        named("a look-up that starts at the first fit of its first camera", looking(from_first_camera)),
        named("the probes of a binary search", looking(binary_search)),
        named("the number of a look-up by steps of eight", looking(by_steps)),
    ]
}

/// From the middle on where the fit there is not larger.
fn from_the_middle(fits: &[Fit], sought: Fit) -> Looked {
    let middle = fits.len() / 2;
    if fits.get(middle).is_some_and(|fit| *fit <= sought) {
        right(&fits[middle..], sought)
    } else {
        right(fits, sought)
    }
}

/// Backwards to one that is equal or smaller.
fn from_the_last(fits: &[Fit], sought: Fit) -> Looked {
    let back: Vec<Fit> = fits.iter().rev().copied().collect();
    ending(&back, sought, |fit| fit <= sought)
}

fn from_first_camera(fits: &[Fit], sought: Fit) -> Looked {
    let start = fits.iter().position(|fit| fit.0 >= sought.0).unwrap_or(0);
    right(&fits[start..], sought)
}

fn binary_search(fits: &[Fit], sought: Fit) -> Looked {
    let (mut from, mut to, mut looked) = (0, fits.len(), 0);
    while from < to {
        let middle = (from + to) / 2;
        looked += 1;
        if fits[middle] == sought {
            return Looked { found: true, looked };
        }
        if fits[middle] < sought {
            from = middle + 1;
        } else {
            to = middle;
        }
    }
    Looked { found: false, looked }
}

/// Every eighth fit up to one that is equal or larger, then back to the step before and on one by one.
fn by_steps(fits: &[Fit], sought: Fit) -> Looked {
    let steps = (7..fits.len()).step_by(8).take_while(|place| fits[*place] < sought).count();
    let answer = right(&fits[8 * steps..], sought);
    Looked { looked: answer.looked + steps as u64, ..answer }
}

// ---- other numbers

fn other_numbers() -> Vec<Named> {
    vec![
        named("one fit too few counted", counting(|_, answer| answer.looked.saturating_sub(1))),
        named("one fit too many counted", counting(|_, answer| answer.looked + 1)),
        named("one fit too few counted where the pair is a fit", counting(|_, answer| answer.looked - u64::from(answer.found))),
        named("one fit too many counted where the pair is a fit", counting(|_, answer| answer.looked + u64::from(answer.found))),
        named(
            "one fit too many counted where the pair is no fit",
            counting(|_, answer| answer.looked + u64::from(!answer.found)),
        ),
        named("only smaller fits counted", looking(smaller_counted)),
        named("the end not counted where it is larger", looking(larger_uncounted)),
        named("0 counted where the pair is no fit", counting(|_, answer| if answer.found { answer.looked } else { 0 })),
        named("0 counted where the pair is a fit", counting(|_, answer| if answer.found { 0 } else { answer.looked })),
        named("0 counted where no fit is larger", looking(|fits, sought| none_larger(fits, sought, |_| 0))),
        named(
            "all but one counted where no fit is larger",
            looking(|fits, sought| none_larger(fits, sought, |all| all.saturating_sub(1))),
        ),
        named(
            "one more than all counted where no fit is larger",
            looking(|fits, sought| none_larger(fits, sought, |all| all + 1)),
        ),
        named("one counted of no fits", counting(|_, answer| answer.looked.max(1))),
        named("each first camera counted once", looking(cameras_counted)),
        named("the fits left counted", counting(|fits, answer| fits.len() as u64 - answer.looked)),
    ]
}

fn smaller_counted(fits: &[Fit], sought: Fit) -> Looked {
    let answer = right(fits, sought);
    Looked { looked: end(fits, sought).map_or(answer.looked, |place| place as u64), ..answer }
}

fn larger_uncounted(fits: &[Fit], sought: Fit) -> Looked {
    let answer = right(fits, sought);
    if answer.found {
        answer
    } else {
        smaller_counted(fits, sought)
    }
}

fn none_larger(fits: &[Fit], sought: Fit, number: fn(u64) -> u64) -> Looked {
    match end(fits, sought) {
        Some(_) => right(fits, sought),
        None => Looked { found: false, looked: number(fits.len() as u64) },
    }
}

fn cameras_counted(fits: &[Fit], sought: Fit) -> Looked {
    let answer = right(fits, sought);
    let mut firsts: Vec<u8> = fits[..answer.looked as usize].iter().map(|fit| fit.0).collect();
    firsts.dedup();
    Looked { looked: firsts.len() as u64, ..answer }
}

// ---- numbers that do not count far enough

fn other_counts() -> Vec<Named> {
    vec![
        named("at most 255 fits counted", counting(|_, answer| answer.looked.min(255))),
        named("at most 256 fits counted", counting(|_, answer| answer.looked.min(256))),
        named("fits counted in a byte", counting(|_, answer| answer.looked % 256)),
        named("at most 3,899 fits counted", counting(|_, answer| answer.looked.min(3_899))),
        named("at most 3,900 fits counted", counting(|_, answer| answer.looked.min(3_900))),
        named("fits counted in two bytes with a sign", counting(|_, answer| answer.looked.min(32_767))),
        named("fits counted in two bytes", counting(|_, answer| answer.looked % 65_536)),
    ]
}

// ---- other pairs found

fn other_findings() -> Vec<Named> {
    vec![
        named("always found", finding(|_, _| true)),
        named("never found", finding(|_, _| false)),
        named("found where it ended at an equal or larger fit", finding(|fit, _| fit.is_some())),
        named("found where it ended at a larger fit only", finding(|fit, sought| fit.is_some_and(|fit| fit > sought))),
        named("found where no fit is larger", finding(|fit, sought| fit.is_none_or(|fit| fit == sought))),
        named("found by the first camera", finding(|fit, sought| fit.is_some_and(|fit| fit.0 == sought.0))),
        named("found by the second camera", finding(|fit, sought| fit.is_some_and(|fit| fit.1 == sought.1))),
        named("found by one camera", finding(|fit, sought| fit.is_some_and(|fit| fit.0 == sought.0 || fit.1 == sought.1))),
        named(
            "found among all fits, wherever it ended",
            changing(|fits, sought, answer| Looked { found: fits.contains(&sought), ..answer }),
        ),
        named(
            "not found at the first fit",
            changing(|_, _, answer| Looked { found: answer.found && answer.looked > 1, ..answer }),
        ),
        named(
            "not found at the last fit",
            changing(|fits, _, answer| Looked { found: answer.found && answer.looked < fits.len() as u64, ..answer }),
        ),
        named("found among no fits", changing(|fits, _, answer| Looked { found: answer.found || fits.is_empty(), ..answer })),
    ]
}

// ---- slices taken otherwise

fn other_slices() -> Vec<Named> {
    let all_of = |length: fn(&[u8], &[u8]) -> usize| {
        by_slices(move |firsts, seconds, sought| match end(&joined(firsts, seconds), sought) {
            Some(_) => reference::look_up(firsts, seconds, sought),
            None => Looked { found: false, looked: length(firsts, seconds) as u64 },
        })
    };
    let only_alike = |firsts: &[u8], seconds: &[u8], sought: Fit| match firsts.len() == seconds.len() {
        true => reference::look_up(firsts, seconds, sought),
        false => Looked { found: false, looked: 0 },
    };
    vec![
        named("first cameras taken for both", by_slices(|firsts, _, sought| reference::look_up(firsts, firsts, sought))),
        named("second cameras taken for both", by_slices(|_, seconds, sought| reference::look_up(seconds, seconds, sought))),
        named(
            "first and second cameras swapped",
            by_slices(|firsts, seconds, sought| reference::look_up(seconds, firsts, sought)),
        ),
        named("the longer slice counted where no fit is larger", all_of(|firsts, seconds| firsts.len().max(seconds.len()))),
        named("the first cameras counted where no fit is larger", all_of(|firsts, _| firsts.len())),
        named("the second cameras counted where no fit is larger", all_of(|_, seconds| seconds.len())),
        named("no fit in slices of different lengths", by_slices(only_alike)),
        named("missing second cameras taken for 0", by_slices(zeros_added)),
        named(
            "each second camera taken for that of the next fit",
            by_slices(|firsts, seconds, sought| reference::look_up(firsts, seconds.get(1..).unwrap_or(&[]), sought)),
        ),
        named("fits put in order first", looking(|fits, sought| right(&ordered(fits), sought))),
        named("repeated fits looked at once", looking(|fits, sought| right(&without_repeats(fits), sought))),
        named("no fit looked at from one on that does not rise", looking(up_to_fall)),
    ]
}

fn zeros_added(firsts: &[u8], seconds: &[u8], sought: Fit) -> Looked {
    let more = vec![0; firsts.len().saturating_sub(seconds.len())];
    reference::look_up(firsts, &[seconds, &more].concat(), sought)
}

fn ordered(fits: &[Fit]) -> Vec<Fit> {
    let mut fits = fits.to_vec();
    fits.sort_unstable();
    fits
}

fn without_repeats(fits: &[Fit]) -> Vec<Fit> {
    let mut fits = fits.to_vec();
    fits.dedup();
    fits
}

/// Only the fits up to the first that does not rise.
fn up_to_fall(fits: &[Fit], sought: Fit) -> Looked {
    let rising = (1..fits.len()).find(|place| fits[place - 1] >= fits[*place]).unwrap_or(fits.len());
    right(&fits[..rising], sought)
}

// ---- look-ups that remember

fn with_memory() -> Vec<Named> {
    vec![
        named("a look-up that starts where the last one ended", looking(from_last_end())),
        named("a number added to that of the last look-up", counting(adding_up())),
        named("the number left as it was where the pair is no fit", counting(left_as_it_was())),
        named("an answer remembered for the same pair", changing(remembered())),
        named("an answer remembered for the same pair and number of fits", changing(remembered_by_length())),
    ]
}

/// Unless the fit there is larger, or there is none.
fn from_last_end() -> impl Fn(&[Fit], Fit) -> Looked {
    let start = Cell::new(0);
    move |fits, sought| {
        let from = if fits.get(start.get()).is_some_and(|fit| *fit <= sought) { start.get() } else { 0 };
        let answer = right(&fits[from..], sought);
        start.set(from + (answer.looked as usize).saturating_sub(1));
        answer
    }
}

fn adding_up() -> impl Fn(&[Fit], Looked) -> u64 {
    let sum = Cell::new(0);
    move |_, answer| {
        sum.set(sum.get() + answer.looked);
        sum.get()
    }
}

fn left_as_it_was() -> impl Fn(&[Fit], Looked) -> u64 {
    let last = Cell::new(0);
    move |_, answer| {
        if answer.found {
            last.set(answer.looked);
        }
        last.get()
    }
}

fn remembered() -> impl Fn(&[Fit], Fit, Looked) -> Looked {
    let answers = RefCell::new(BTreeMap::new());
    move |_, sought, answer| *answers.borrow_mut().entry(sought).or_insert(answer)
}

fn remembered_by_length() -> impl Fn(&[Fit], Fit, Looked) -> Looked {
    let answers = RefCell::new(BTreeMap::new());
    move |fits, sought, answer| *answers.borrow_mut().entry((fits.len(), sought)).or_insert(answer)
}

// ---- question 13

/// The questions before it as they are, then another in its place, then 14.
fn asking_13(ask: impl Fn(&Stock) -> bool + 'static) -> Parts {
    numbering_13(ask, 13)
}

fn numbering_13(ask: impl Fn(&Stock) -> bool + 'static, refusal: u8) -> Parts {
    let read = move |file: &[u8]| {
        let [before @ .., _, _] = STOCK_QUESTIONS;
        let stock = read_in_order(file, &before)?;
        if !ask(&stock) {
            return Err(refusal);
        }
        read_in_order(file, &[14])
    };
    Parts { read_stock: Box::new(read), ..Parts::right() }
}

/// Each lit pair is asked for by a look-up.
fn found_by(look_up: impl Fn(&[Fit], Fit) -> Looked + 'static) -> Parts {
    asking_13(move |stock| {
        let fits: Vec<Fit> = stock.fits.iter().map(|fit| of_bytes(*fit)).collect();
        stock.lit.iter().all(|pair| look_up(&fits, of_bytes(*pair)).found)
    })
}

fn of_bytes((first, second): Pair) -> Fit {
    (first as u8, second as u8)
}

fn is_fit(stock: &Stock, pair: &Pair) -> bool {
    stock.fits.contains(pair)
}

fn lit_fits_refused() -> Vec<Named> {
    vec![
        named("question 13: by a look-up that ends one fit too late", found_by(one_too_late)),
        named("question 13: by a look-up that ends one fit too early", found_by(one_too_early)),
        named(
            "question 13: by a look-up that passes over the first fit",
            found_by(|fits, sought| right(fits.get(1..).unwrap_or(&[]), sought)),
        ),
        named("question 13: by a look-up that never looks at the last fit", found_by(without_last)),
        named(
            "question 13: by a look-up that ends at an equal first camera",
            found_by(|fits, sought| ending(fits, sought, |fit| fit.0 >= sought.0)),
        ),
        named(
            "question 13: by a look-up that ends where one camera is larger",
            found_by(|fits, sought| ending(fits, sought, |fit| fit == sought || fit.0 > sought.0 || fit.1 > sought.1)),
        ),
        named(
            "question 13: by second camera, then by first",
            found_by(|fits, sought| ending(fits, sought, |fit| (fit.1, fit.0) >= (sought.1, sought.0))),
        ),
        named(
            "question 13: by the sum of cameras",
            found_by(|fits, sought| ending(fits, sought, |fit| fit.0 + fit.1 >= sought.0 + sought.1)),
        ),
        named("question 13: by the first 255 fits", found_by(|fits, sought| right(&fits[..fits.len().min(255)], sought))),
        named("question 13: by the first 256 fits", found_by(|fits, sought| right(&fits[..fits.len().min(256)], sought))),
        named("question 13: by the first 3,899 fits", found_by(|fits, sought| right(&fits[..fits.len().min(3_899)], sought))),
        named("question 13: by the fits up to the end of the first look-up", asking_13(up_to_first_end)),
        named("question 13: by the fits two after the end of the last look-up", asking_13(|stock| after_last_end(stock, 2))),
        named("question 13: by a look-up that starts where any last one ended", found_by(only_forwards())),
        named(
            "question 13: one lit pair at most taken",
            asking_13(|stock| stock.lit.len() < 2 && stock.lit.iter().all(|pair| is_fit(stock, pair))),
        ),
        named("question 13: no lit pair taken", asking_13(|stock| stock.lit.is_empty())),
        named(
            "question 13: a lit pair wanted",
            asking_13(|stock| !stock.lit.is_empty() && stock.lit.iter().all(|pair| is_fit(stock, pair))),
        ),
        named(
            "question 13: a fit that is not lit wanted",
            asking_13(|stock| {
                stock.lit.iter().all(|pair| is_fit(stock, pair)) && (stock.lit.is_empty() || stock.lit.len() < stock.fits.len())
            }),
        ),
    ]
}

fn up_to_first_end(stock: &Stock) -> bool {
    let first = stock.lit.first().and_then(|pair| stock.fits.iter().position(|fit| fit >= pair));
    let looked = first.map_or(stock.fits.len(), |place| place + 1);
    stock.lit.iter().all(|pair| stock.fits[..looked].contains(pair))
}

/// The lit pairs rise, so that each could be sought right after the one before.
fn after_last_end(stock: &Stock, more: usize) -> bool {
    let mut from = 0;
    stock.lit.iter().all(|pair| {
        let place = (from..stock.fits.len()).find(|place| stock.fits[*place] == *pair);
        from = place.map_or(from, |place| place + more);
        place.is_some()
    })
}

/// The next stock's look-ups too.
fn only_forwards() -> impl Fn(&[Fit], Fit) -> Looked {
    let start = Cell::new(0);
    move |fits, sought| {
        let from = start.get().min(fits.len());
        let answer = right(&fits[from..], sought);
        start.set(from + (answer.looked as usize).saturating_sub(1));
        answer
    }
}

fn others_accepted() -> Vec<Named> {
    let taking = |taken: fn(&Stock, Pair) -> bool| {
        asking_13(move |stock| stock.lit.iter().all(|pair| is_fit(stock, pair) || taken(stock, *pair)))
    };
    let at_end = |taken: fn(Pair, Pair) -> bool| {
        asking_13(move |stock| {
            stock
                .lit
                .iter()
                .all(|pair| stock.fits.iter().find(|fit| *fit >= pair).is_some_and(|fit| fit == pair || taken(*fit, *pair)))
        })
    };
    vec![
        named(
            "question 13: a pair before all fits taken",
            taking(|stock, pair| stock.fits.first().is_some_and(|fit| pair < *fit)),
        ),
        named("question 13: a pair after all fits taken", taking(|stock, pair| stock.fits.last().is_some_and(|fit| pair > *fit))),
        named(
            "question 13: a pair between fits taken",
            taking(|stock, pair| stock.fits.iter().any(|fit| pair > *fit) && stock.fits.iter().any(|fit| pair < *fit)),
        ),
        named("question 13: any pair taken where there is no fit", taking(|stock, _| stock.fits.is_empty())),
        named("question 13: any pair taken where there is one fit", taking(|stock, _| stock.fits.len() == 1)),
        named("question 13: a pair taken that ends at a larger fit", at_end(|_, _| true)),
        named("question 13: a pair taken that ends at a fit with its first camera", at_end(|fit, pair| fit.0 == pair.0)),
        named("question 13: a pair taken that ends at a fit with its second camera", at_end(|fit, pair| fit.1 == pair.1)),
        named(
            "question 13: a pair taken that has the first camera of a fit",
            taking(|stock, pair| stock.fits.iter().any(|fit| fit.0 == pair.0)),
        ),
        named(
            "question 13: a pair taken that has the second camera of a fit",
            taking(|stock, pair| stock.fits.iter().any(|fit| fit.1 == pair.1)),
        ),
        named(
            "question 13: a pair taken of cameras that have fits",
            taking(|stock, pair| includes(&stock.fits, pair.0) && includes(&stock.fits, pair.1)),
        ),
        named(
            "question 13: a pair taken of cameras that have none",
            taking(|stock, pair| !includes(&stock.fits, pair.0) && !includes(&stock.fits, pair.1)),
        ),
        named(
            "question 13: a pair taken that is no fit but has fits around a third camera",
            taking(|stock, pair| (0..stock.cameras).any(|third| joins(stock, pair.0, third) && joins(stock, third, pair.1))),
        ),
        named(
            "question 13: any pair taken behind 255 fits",
            taking(|stock, pair| stock.fits.get(254).is_some_and(|fit| pair > *fit)),
        ),
    ]
}

fn joins(stock: &Stock, one: usize, other: usize) -> bool {
    stock.fits.contains(&(one.min(other), one.max(other)))
}

fn other_lit_pairs_asked() -> Vec<Named> {
    let asked = |which: fn(usize, usize) -> bool| {
        asking_13(move |stock| {
            (0..stock.lit.len()).filter(|place| which(*place, stock.lit.len())).all(|place| is_fit(stock, &stock.lit[place]))
        })
    };
    let all = |stock: &Stock| stock.lit.iter().all(|pair| is_fit(stock, pair));
    vec![
        named("question 13: asked of the first lit pair alone", asked(|place, _| place == 0)),
        named("question 13: asked of the last lit pair alone", asked(|place, all| place + 1 == all)),
        named("question 13: asked of all lit pairs but the first", asked(|place, _| place > 0)),
        named("question 13: asked of all lit pairs but the last", asked(|place, all| place + 1 < all)),
        named("question 13: asked of the first and the last lit pair", asked(|place, all| place == 0 || place + 1 == all)),
        named("question 13: asked of every second lit pair", asked(|place, _| place % 2 == 0)),
        named("question 13: asked of the first 63 lit pairs", asked(|place, _| place < 63)),
        named(
            "question 13: asked of some lit pair",
            asking_13(|stock| stock.lit.is_empty() || stock.lit.iter().any(|pair| is_fit(stock, pair))),
        ),
        named("question 13: asked until a lit pair is found", asking_13(until_found)),
        named("question 13: refused with 12", numbering_13(all, 12)),
        named("question 13: refused with 14", numbering_13(all, 14)),
        named("question 13: refused with 11", numbering_13(all, 11)),
    ]
}

fn until_found(stock: &Stock) -> bool {
    stock.lit.iter().take(1).all(|pair| is_fit(stock, pair)) || stock.lit.iter().skip(1).any(|pair| is_fit(stock, pair))
}
