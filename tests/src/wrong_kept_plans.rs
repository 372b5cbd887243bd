//! More engines that keep pairings wrongly (document 02, L8): in the pairs that are kept, and in the questions put to a plan file.
//!   engines               each with what is wrong of it
//!   keeping_pairs, kept_though    the right keep of other pairs; pairs kept though they are refused
//!   reading_plans, asking_plans   plan files read otherwise; some of their questions put, in another order
//!   answering, asking_more        one question answered in another way; one more
//!   changed               a file as it is read, unless it is too long
//!   turned, falling       pairs with the larger camera first, and in the other order

use crate::engine::KeptKind;
use crate::frames::{budget_file, number, plan_file, plan_in, Pair, Text, GREATEST_FILE, PLAN};
use crate::kept_reference::{self, read_plan, read_plan_in_order, Calls};
use crate::kept_trial::{MOST_KEPT, OF_HEADER, PLAN_QUESTIONS};
use crate::reference;
use crate::stock_trial::{includes, no_camera_twice, rises, Stock};
use crate::wrong_kept::{after_each, keeping, right, set, slip, without, Slip, NO_NUMBER};
use crate::wrong_line_ends::{any_return_ends, returns_refused};

pub fn engines() -> Vec<Slip> {
    let mut all = of_keeping();
    all.extend(of_plan_questions());
    all.extend(of_pairs());
    all
}

// ---- keeping

/// The right keep of other pairs, by the stock, what stood there, and the right pairs.
fn keeping_pairs(pairs: impl Fn(&Stock, Option<&[Pair]>, Vec<Pair>) -> Vec<Pair> + 'static) -> Calls {
    keeping(move |calls, state, name, file| {
        let old = state.places.iter().find(|place| place.0 == name).map(|place| place.1.clone());
        let number = kept_reference::keep(calls, state, name, file);
        if number == 0 {
            let stock = state.stock.clone();
            let place = state.places.iter_mut().find(|place| place.0 == name).unwrap();
            place.1 = pairs(&stock, old.as_deref(), place.1.clone());
        }
        number
    })
}

/// The pairs kept though a question that is meant refuses them.
fn kept_though(is_meant: impl Fn(u8) -> bool + 'static) -> Calls {
    keeping(move |calls, state, name, file| {
        let number = kept_reference::keep(calls, state, name, file);
        let lines = Text::of(file).pairs(PLAN.bodies[0]);
        if number != 0 && is_meant(number) && lines.len() < 200 {
            set(&mut state.places, name, lines);
        }
        number
    })
}

pub fn falling(pairs: &[Pair]) -> Vec<Pair> {
    pairs.iter().rev().copied().collect()
}

pub fn turned(pairs: &[Pair]) -> Vec<Pair> {
    pairs.iter().map(|(first, second)| (*second, *first)).collect()
}

fn of_keeping() -> Vec<Slip> {
    let mut all: Vec<Slip> = Vec::new();
    all.extend(
        [7, 9, 12, 13, 14, 19]
            .map(|number| (format!("pairs kept though {number} refuses them"), kept_though(move |told| told == number))),
    );
    all.extend([1, 8, 15, 16, 31, 32, 61, 62].map(|most| {
        (format!("at most {most} pairs kept"), keeping_pairs(move |_, _, pairs| pairs.into_iter().take(most).collect()))
    }));
    all.extend([
        slip("pairs kept though they are refused", kept_though(|_| true)),
        slip(
            "a refused keep forgets the name",
            after_each(|after, state| {
                if after.is_refused(KeptKind::Keep) {
                    without(&mut state.places, after.name);
                }
            }),
        ),
        slip(
            "a refused keep forgets the newest",
            after_each(|after, state| {
                if after.is_refused(KeptKind::Keep) {
                    state.places.pop();
                }
            }),
        ),
        slip(
            "a refused keep forgets all",
            after_each(|after, state| {
                if after.is_refused(KeptKind::Keep) {
                    state.places.clear();
                }
            }),
        ),
        slip(
            "a refused keep makes the pairs none",
            after_each(|after, state| {
                if after.is_refused(KeptKind::Keep) && state.places.iter().any(|place| place.0 == after.name) {
                    set(&mut state.places, after.name, Vec::new());
                }
            }),
        ),
        slip("the pairs first kept remain", keeping_pairs(|_, old, pairs| old.map_or(pairs, <[Pair]>::to_vec))),
        slip(
            "the larger pairing remains",
            keeping_pairs(|_, old, pairs| match old {
                Some(old) if old.len() > pairs.len() => old.to_vec(),
                _ => pairs,
            }),
        ),
        slip(
            "the smaller pairing remains",
            keeping_pairs(|_, old, pairs| match old {
                Some(old) if old.len() < pairs.len() => old.to_vec(),
                _ => pairs,
            }),
        ),
        slip(
            "pairs added to those that were kept",
            keeping_pairs(|_, old, pairs| {
                let mut both = [old.unwrap_or(&[]), &pairs].concat();
                both.sort_unstable();
                both.dedup();
                both
            }),
        ),
        slip(
            "pairs behind those of a longer pairing that was kept",
            keeping_pairs(|_, old, pairs| match old {
                Some(old) if old.len() > pairs.len() => [&pairs, &old[pairs.len()..]].concat(),
                _ => pairs,
            }),
        ),
        slip("the lit pairs kept", keeping_pairs(|stock, _, _| stock.lit.clone())),
        slip(
            "the lit pairs kept where the plan is empty",
            keeping_pairs(|stock, _, pairs| if pairs.is_empty() { stock.lit.clone() } else { pairs }),
        ),
        slip("the stock's plan kept", keeping_pairs(|stock, _, _| reference::plan(stock))),
        slip("pairs made a largest pairing", keeping_pairs(|stock, _, lit| reference::plan(&Stock { lit, ..stock.clone() }))),
        slip("the first pair left out", keeping_pairs(|_, _, pairs| pairs.into_iter().skip(1).collect())),
        slip("the last pair left out", keeping_pairs(|_, _, pairs| pairs[..pairs.len().saturating_sub(1)].to_vec())),
        slip("pairs in falling order", keeping_pairs(|_, _, pairs| falling(&pairs))),
        slip("the larger camera first", keeping_pairs(|_, _, pairs| turned(&pairs))),
        slip(
            "pairs by their second camera",
            keeping_pairs(|_, _, mut pairs| {
                pairs.sort_unstable_by_key(|pair| pair.1);
                pairs
            }),
        ),
        slip(
            "pairs with unlit cameras left out",
            keeping_pairs(|stock, _, mut pairs| {
                pairs.retain(|(u, v)| stock.lit.is_empty() || (includes(&stock.lit, *u) && includes(&stock.lit, *v)));
                pairs
            }),
        ),
        slip(
            "kept under the next name too",
            after_each(|after, state| {
                if after.is(KeptKind::Keep) && state.places.len() < MOST_KEPT {
                    let pairs = state.places.iter().find(|place| place.0 == after.name).unwrap().1.clone();
                    set(&mut state.places, after.name.wrapping_add(1), pairs);
                }
            }),
        ),
        slip(
            "kept under every name in use",
            after_each(|after, state| {
                if after.is(KeptKind::Keep) {
                    let pairs = state.places.iter().find(|place| place.0 == after.name).unwrap().1.clone();
                    state.places.iter_mut().for_each(|place| place.1 = pairs.clone());
                }
            }),
        ),
        slip(
            "an empty plan forgets the name",
            keeping(|calls, state, name, file| {
                let number = kept_reference::keep(calls, state, name, file);
                state.places.retain(|place| place.0 != name || number != 0 || !place.1.is_empty());
                number
            }),
        ),
        slip(
            "an empty plan refused",
            keeping(|calls, state, name, file| match read_plan(&state.stock, file) {
                Ok(pairs) if pairs.is_empty() => 6,
                _ => kept_reference::keep(calls, state, name, file),
            }),
        ),
        slip(
            "kept pairs made the lit ones",
            after_each(|after, state| {
                if after.is(KeptKind::Keep) {
                    state.stock.fits = state.places.iter().find(|place| place.0 == after.name).unwrap().1.clone();
                }
            }),
        ),
        slip("every tenth keep not made", every_so_many(10)),
        slip("every hundredth keep not made", every_so_many(100)),
        slip(
            "the same pairs under two names kept once",
            keeping(|calls, state, name, file| {
                let number = kept_reference::keep(calls, state, name, file);
                if let (0, Ok(pairs)) = (number, read_plan(&state.stock, file)) {
                    state.places.retain(|place| place.0 == name || place.1 != pairs);
                }
                number
            }),
        ),
    ]);
    all
}

fn every_so_many(times: usize) -> Calls {
    after_each(move |after, state| {
        state.beside.number += usize::from(after.is(KeptKind::Keep));
        if after.is(KeptKind::Keep) && state.beside.number.is_multiple_of(times) {
            state.places = after.before.places.clone();
        }
    })
}

// ---- a plan's questions

/// More pairs than this are not given.
const MANY: usize = 200;

fn reading_plans(read: impl Fn(&Stock, &[u8]) -> Result<Vec<Pair>, u8> + 'static) -> Calls {
    let few = move |stock: &Stock, file: &[u8]| {
        read(stock, file).and_then(|pairs| if pairs.len() > MANY { Err(NO_NUMBER) } else { Ok(pairs) })
    };
    Calls { read_plan: Box::new(few), ..right() }
}

fn asking_plans(order: Vec<u8>) -> Calls {
    reading_plans(move |stock, file| read_plan_in_order(stock, file, &order))
}

/// One question answered in another way; the others as they are.
fn answering(question: u8, answer: impl Fn(&Stock, &Text, &[Pair]) -> bool + 'static) -> Calls {
    reading_plans(move |stock, file| {
        let place = PLAN_QUESTIONS.iter().position(|other| *other == question).unwrap();
        let (before, after) = (&PLAN_QUESTIONS[..place], &PLAN_QUESTIONS[place + 1..]);
        read_plan_in_order(stock, file, before)?;
        let text = Text::of(file);
        let pairs = text.pairs(PLAN.bodies[0]);
        if !answer(stock, &text, &pairs) {
            return Err(if question == OF_HEADER { 7 } else { question });
        }
        read_plan_in_order(stock, file, after)
    })
}

/// One question more, put after all others.
fn asking_more(number: u8, answer: impl Fn(&Stock, &[Pair]) -> bool + 'static) -> Calls {
    reading_plans(move |stock, file| {
        read_plan(stock, file).and_then(|pairs| if answer(stock, &pairs) { Ok(pairs) } else { Err(number) })
    })
}

fn of_plan_questions() -> Vec<Slip> {
    let mut all: Vec<Slip> = Vec::new();
    for (place, question) in PLAN_QUESTIONS.iter().enumerate() {
        let left_out = [&PLAN_QUESTIONS[..place], &PLAN_QUESTIONS[place + 1..]].concat();
        all.push((format!("question {question} of a plan not put"), asking_plans(left_out)));
        if place > 0 && (*question, PLAN_QUESTIONS[place - 1]) != (OF_HEADER, 7) {
            let mut order = PLAN_QUESTIONS.to_vec();
            order.swap(place - 1, place);
            all.push((format!("question {question} of a plan put before {}", PLAN_QUESTIONS[place - 1]), asking_plans(order)));
        }
        let told = *question;
        let otherwise = reading_plans(move |stock, file| {
            read_plan(stock, file).map_err(|number| if number == told { number + 40 } else { number })
        });
        if told != OF_HEADER {
            all.push((format!("question {question} of a plan told with 40 added"), otherwise));
        }
    }
    all.extend(
        [59_999, 60_001, 2_048, 453, 32_767, 65_535]
            .map(|most| (format!("plans of up to {most} bytes"), answering(2, move |_, text, _| text.bytes.len() <= most))),
    );
    all.extend([5, 8, 10, 6, 47].map(|number| {
        let other = reading_plans(move |stock, file| {
            let without: Vec<u8> = PLAN_QUESTIONS.into_iter().filter(|question| *question != OF_HEADER).collect();
            match (read_plan(stock, file), read_plan_in_order(stock, file, &without)) {
                (Err(7), Err(7)) => Err(7),
                (Err(7), _) => Err(number),
                (read, _) => read,
            }
        });
        (format!("{number} told for PP"), other)
    }));
    all.extend([
        slip(
            "PP and CCCC compared with each other alone",
            reading_plans(|stock, file| {
                let text = Text::of(file);
                read_plan_in_order(stock, file, &[2, 3, 4, 6])?;
                if number(text.header(), 2, 2) != number(text.end(), 2, 4) {
                    return Err(7);
                }
                read_plan_in_order(stock, file, &[9, 12, 13, 14])
            }),
        ),
        slip(
            "PP compared with the lines by its two digits",
            answering(OF_HEADER, |_, text, pairs| number(text.header(), 2, 2) == pairs.len() % 256),
        ),
        slip(
            "CCCC compared by its last two digits",
            answering(7, |_, text, pairs| number(text.end(), 4, 2) == pairs.len() % 256),
        ),
        slip("CCCC at least the lines", answering(7, |_, text, pairs| number(text.end(), 2, 4) >= pairs.len())),
        slip("CCCC at most the lines", answering(7, |_, text, pairs| number(text.end(), 2, 4) <= pairs.len())),
        slip("PP at least the lines", answering(OF_HEADER, |_, text, pairs| number(text.header(), 2, 2) >= pairs.len())),
        slip("PP at most the lines", answering(OF_HEADER, |_, text, pairs| number(text.header(), 2, 2) <= pairs.len())),
        slip(
            "PP of 00 always taken",
            answering(OF_HEADER, |_, text, pairs| [0, pairs.len()].contains(&number(text.header(), 2, 2))),
        ),
        slip(
            "PP read in base ten",
            answering(OF_HEADER, |_, text, pairs| {
                text.header().get(2..4).is_some_and(|digits| digits == format!("{:02}", pairs.len()).as_bytes())
            }),
        ),
        slip(
            "PP above 63 refused by 5",
            reading_plans(|stock, file| {
                read_plan_in_order(stock, file, &[2, 3, 4])?;
                if number(Text::of(file).header(), 2, 2) > 63 {
                    Err(5)
                } else {
                    read_plan(stock, file)
                }
            }),
        ),
        slip(
            "more than 63 lines refused by 8",
            reading_plans(|stock, file| {
                read_plan_in_order(stock, file, &[2, 3, 4, 6, 7, OF_HEADER])?;
                if Text::of(file).body().len() > 63 {
                    Err(8)
                } else {
                    read_plan(stock, file)
                }
            }),
        ),
        slip("a CR kept in the lines of plans", reading_plans(|stock, file| read_plan(stock, &changed(file, returns_refused)))),
        slip("a CR alone ends a plan's line", reading_plans(|stock, file| read_plan(stock, &changed(file, any_return_ends)))),
        slip("the answer to a budget taken for a plan", reading_plans(|stock, file| read_plan(stock, &budget_as_plan(file)))),
        slip(
            "lit pairs of a stock taken for a plan's",
            reading_plans(|stock, file| read_plan(stock, &lines_as_plan(file, b"13"))),
        ),
        slip(
            "fits of a stock taken for a plan's pairs",
            reading_plans(|stock, file| read_plan(stock, &lines_as_plan(file, b"12"))),
        ),
        slip(
            "what stands behind the end frame passed over",
            reading_plans(|stock, file| match read_plan(stock, file) {
                Err(6) => read_plan(stock, plan_in(file)),
                read => read,
            }),
        ),
    ]);
    all
}

pub fn changed(file: &[u8], change: fn(&[u8]) -> Vec<u8>) -> Vec<u8> {
    if file.len() > GREATEST_FILE {
        file.to_vec()
    } else {
        change(file)
    }
}

/// Its pairs in plan frames; any other file as it is.
fn budget_as_plan(file: &[u8]) -> Vec<u8> {
    let text = Text::of(file);
    let pairs = text.pairs(PLAN.bodies[0]);
    match budget_file(&pairs, number(text.header(), 4, 2), number(text.header(), 6, 2)) == file {
        true => plan_file(&pairs),
        false => file.to_vec(),
    }
}

/// Lines of another kind as pair lines.
fn lines_as_plan(file: &[u8], kind: &[u8]) -> Vec<u8> {
    let lines = file.split_inclusive(|byte| *byte == b'\n');
    lines.flat_map(|line| if line.starts_with(kind) { [b"52", &line[2..]].concat() } else { line.to_vec() }).collect()
}

// ---- pairs

fn is_fit(stock: &Stock, (u, v): &Pair) -> bool {
    stock.fits.contains(&(*u.min(v), *u.max(v)))
}

/// How many of the pairs have a camera in a place that is meant.
fn times(pairs: &[Pair], is_in: impl Fn(&Pair) -> bool) -> usize {
    pairs.iter().filter(|pair| is_in(pair)).count()
}

fn of_cameras() -> Vec<Slip> {
    vec![
        slip("one camera more named", answering(9, |stock, _, pairs| pairs.iter().all(|(u, v)| u.max(v) <= &stock.cameras))),
        slip("cameras up to 127 named", answering(9, |_, _, pairs| pairs.iter().all(|(u, v)| u.max(v) <= &127))),
        slip("9 put to first cameras alone", answering(9, |stock, _, pairs| pairs.iter().all(|pair| pair.0 < stock.cameras))),
        slip("9 put to second cameras alone", answering(9, |stock, _, pairs| pairs.iter().all(|pair| pair.1 < stock.cameras))),
        slip(
            "9 put to the first pair alone",
            answering(9, |stock, _, pairs| pairs.iter().take(1).all(|(u, v)| u.max(v) < &stock.cameras)),
        ),
        slip(
            "9 put to the last pair alone",
            answering(9, |stock, _, pairs| pairs.iter().rev().take(1).all(|(u, v)| u.max(v) < &stock.cameras)),
        ),
        slip(
            "cameras from 128 on taken less 128",
            answering(9, |stock, _, pairs| pairs.iter().all(|(u, v)| u % 128 < stock.cameras && v % 128 < stock.cameras)),
        ),
        slip(
            "the last camera not named",
            answering(9, |stock, _, pairs| pairs.iter().all(|(u, v)| u.max(v) + 1 < stock.cameras)),
        ),
        slip("12 put to first cameras alone", answering(12, |_, _, pairs| pairs.windows(2).all(|two| two[0].0 < two[1].0))),
        slip("12 without the order of pairs", answering(12, |_, _, pairs| pairs.iter().all(|(u, v)| u < v))),
        slip("12 without the order of cameras", answering(12, |_, _, pairs| pairs.windows(2).all(|two| two[0] < two[1]))),
        slip(
            "12 with repeated pairs",
            answering(12, |_, _, pairs| pairs.iter().all(|(u, v)| u < v) && pairs.windows(2).all(|two| two[0] <= two[1])),
        ),
        slip(
            "12 with a camera beside itself",
            answering(12, |_, _, pairs| pairs.iter().all(|(u, v)| u <= v) && pairs.windows(2).all(|two| two[0] < two[1])),
        ),
        slip(
            "12 put to second cameras too",
            answering(12, |_, _, pairs| rises(pairs) && pairs.windows(2).all(|two| two[0].0 < two[1].0 && two[0].1 < two[1].1)),
        ),
        slip("12 put to the first two pairs alone", answering(12, |_, _, pairs| rises(&pairs[..pairs.len().min(2)]))),
        slip(
            "12 put to first cameras that do not fall",
            answering(12, |_, _, pairs| pairs.iter().all(|(u, v)| u < v) && pairs.windows(2).all(|two| two[0].0 <= two[1].0)),
        ),
    ]
}

fn of_fits() -> Vec<Slip> {
    vec![
        slip(
            "13 put to the first pair alone",
            answering(13, |stock, _, pairs| pairs.iter().take(1).all(|pair| is_fit(stock, pair))),
        ),
        slip(
            "13 put to the last pair alone",
            answering(13, |stock, _, pairs| pairs.iter().rev().take(1).all(|pair| is_fit(stock, pair))),
        ),
        slip("13 asks for lit pairs", answering(13, |stock, _, pairs| pairs.iter().all(|pair| stock.lit.contains(pair)))),
        slip(
            "13 asks for lit pairs where there are any",
            answering(13, |stock, _, pairs| {
                pairs.iter().all(|pair| if stock.lit.is_empty() { is_fit(stock, pair) } else { stock.lit.contains(pair) })
            }),
        ),
        slip(
            "13 asks for fits or two unlit cameras",
            answering(13, |stock, _, pairs| {
                pairs.iter().all(|(u, v)| is_fit(stock, &(*u, *v)) || (!includes(&stock.lit, *u) && !includes(&stock.lit, *v)))
            }),
        ),
        slip(
            "13 put to first cameras alone",
            answering(13, |stock, _, pairs| pairs.iter().all(|pair| times(&stock.fits, |fit| fit.0 == pair.0) > 0)),
        ),
        slip(
            "13 put to second cameras alone",
            answering(13, |stock, _, pairs| pairs.iter().all(|pair| times(&stock.fits, |fit| fit.1 == pair.1) > 0)),
        ),
        slip(
            "13 asks for cameras that have a fit",
            answering(13, |stock, _, pairs| pairs.iter().all(|(u, v)| includes(&stock.fits, *u) && includes(&stock.fits, *v))),
        ),
        slip(
            "13 without the first fit",
            answering(13, |stock, _, pairs| pairs.iter().all(|pair| stock.fits.iter().skip(1).any(|fit| fit == pair))),
        ),
        slip(
            "13 without the last fit",
            answering(13, |stock, _, pairs| pairs.iter().all(|pair| stock.fits.iter().rev().skip(1).any(|fit| fit == pair))),
        ),
        slip(
            "13 asks for no lit pair",
            answering(13, |stock, _, pairs| pairs.iter().all(|pair| is_fit(stock, pair) && !stock.lit.contains(pair))),
        ),
        slip(
            "13 by the first 255 fits",
            answering(13, |stock, _, pairs| pairs.iter().all(|pair| stock.fits.iter().take(255).any(|fit| fit == pair))),
        ),
        slip("14 put to first cameras alone", answering(14, |_, _, pairs| pairs.windows(2).all(|two| two[0].0 != two[1].0))),
        slip(
            "14 put to second cameras alone",
            answering(14, |_, _, pairs| (0..256).all(|camera| times(pairs, |pair| pair.1 == camera) < 2)),
        ),
        slip("14 put to neighbours alone", answering(14, |_, _, pairs| pairs.windows(2).all(no_camera_twice))),
        slip(
            "14 put to cameras on the same side alone",
            answering(14, |_, _, pairs| {
                (0..256).all(|camera| times(pairs, |pair| pair.0 == camera) < 2 && times(pairs, |pair| pair.1 == camera) < 2)
            }),
        ),
        slip(
            "14 lets two pairs share",
            answering(14, |_, _, pairs| (0..256).all(|camera| times(pairs, |(u, v)| [*u, *v].contains(&camera)) < 3)),
        ),
        slip(
            "14 put to the first pair and the last",
            answering(14, |_, _, pairs| match pairs {
                [first, .., last] => no_camera_twice(&[*first, *last]),
                _ => true,
            }),
        ),
    ]
}

/// Questions that are not asked.
fn asked_too() -> Vec<Slip> {
    vec![
        slip(
            "lit cameras in other pairs refused by 14",
            asking_more(14, |stock, pairs| {
                pairs
                    .iter()
                    .all(|(u, v)| stock.lit.contains(&(*u, *v)) || !(includes(&stock.lit, *u) || includes(&stock.lit, *v)))
            }),
        ),
        slip(
            "pairings that are not largest refused",
            asking_more(14, |stock, pairs| pairs.len() == reference::plan(stock).len()),
        ),
        slip("pairings smaller than the lit pairs refused", asking_more(13, |stock, pairs| pairs.len() >= stock.lit.len())),
        slip(
            "pairings that leave a lit camera unlit refused",
            asking_more(14, |stock, pairs| stock.lit.iter().all(|(u, v)| includes(pairs, *u) && includes(pairs, *v))),
        ),
        slip(
            "pairings that could have one pair more refused",
            asking_more(14, |stock, pairs| stock.fits.iter().all(|(u, v)| includes(pairs, *u) || includes(pairs, *v))),
        ),
        slip("11 put to pairs", asking_more(11, |_, pairs| pairs.windows(2).all(|two| two[0].1 < two[1].1))),
        slip("more than 62 pairs refused", asking_more(8, |_, pairs| pairs.len() <= 62)),
    ]
}

/// By the fits of the stock before the present one, or by its cameras.
fn by_old_stock(of_old: fn(&Stock, &Stock) -> Stock) -> Calls {
    let remembering = after_each(|after, state| {
        if after.is(KeptKind::Bring) {
            state.beside.stock = after.before.stock.clone();
        }
    });
    let keep = remembering.keep;
    Calls {
        keep: Box::new(move |calls, state, name, file| {
            if state.beside.stock.cameras == 0 {
                return keep(calls, state, name, file);
            }
            let old = of_old(&state.beside.stock, &state.stock);
            let present = std::mem::replace(&mut state.stock, old);
            let number = keep(calls, state, name, file);
            state.stock = present;
            number
        }),
        ..remembering
    }
}

fn of_pairs() -> Vec<Slip> {
    let mut all = of_cameras();
    all.extend(of_fits());
    all.extend(asked_too());
    all.push(slip(
        "13 put by the stock before",
        by_old_stock(|old, present| Stock { fits: old.fits.clone(), ..present.clone() }),
    ));
    all.push(slip("9 put by the stock before", by_old_stock(|old, present| Stock { cameras: old.cameras, ..present.clone() })));
    all
}
