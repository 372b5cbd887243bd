//! More engines that keep pairings wrongly (document 02, L8): in the stock that is brought, and in what comes back.
//!   engines               each with what is wrong of it
//!   once_brought, once_refused    the right calls, and something done after a stock that is accepted, or refused
//!   asking_stocks         some of a stock's questions put, in another order
//!   giving, giving_pairs  other frames of the right pairs; other pairs
//!   told_otherwise        the right answer, and something done to what is told and to the buffer

use crate::engine::{KeptKind, Told};
use crate::frames::{budget_file, file, number, pair_lines, plan_file, printout, Pair, Text, PLAN};
use crate::kept_reference::{self, Calls, KeptState};
use crate::kept_trial::{MOST_KEPT, NOT_KEPT};
use crate::line_ends::cr_lf;
use crate::reference;
use crate::stock_trial::{self, includes, Stock, STOCK_QUESTIONS};
use crate::wrong_kept::{after_each, right, set, slip, without, Slip, NO_NUMBER};
use crate::wrong_kept_plans::{changed, falling, turned};
use crate::wrong_line_ends::returns_refused;
use crate::wrong_printouts::put;

pub fn engines() -> Vec<Slip> {
    let mut all = of_names_left();
    all.extend(of_new_stocks());
    all.extend(of_refused_stocks());
    all.extend(of_stock_questions());
    all.extend(of_rooms());
    all.extend(of_frames());
    all.extend(of_answers());
    all.extend(of_coming_back());
    all.extend(of_buffers());
    all
}

// ---- stocks

fn bringing(bring: impl Fn(&Calls, &mut KeptState, &[u8]) -> u8 + 'static) -> Calls {
    Calls { bring: Box::new(bring), ..right() }
}

/// By what stood before it.
fn once_brought(done: impl Fn(&KeptState, &mut KeptState) + 'static) -> Calls {
    after_each(move |after, state| {
        if after.is(KeptKind::Bring) {
            done(after.before, state);
        }
    })
}

/// By its number.
fn once_refused(done: impl Fn(u8, &mut KeptState) + 'static) -> Calls {
    after_each(move |after, state| {
        if after.is_refused(KeptKind::Bring) {
            done(after.number, state);
        }
    })
}

/// The names left where a new stock is one that is meant, by the old one and the new.
fn names_left(is_meant: fn(&Stock, &Stock) -> bool) -> Calls {
    once_brought(move |before, state| {
        if is_meant(&before.stock, &state.stock) {
            state.places = before.places.clone();
        }
    })
}

/// Some names left by a new stock.
fn some_left(is_left: fn(usize, &[Pair], &Stock) -> bool) -> Calls {
    once_brought(move |before, state| {
        let places = before.places.iter().enumerate();
        let left = places.filter(|(place, (_, pairs))| is_left(*place, pairs, &state.stock));
        state.places = left.map(|(_, place)| place.clone()).collect();
    })
}

fn of_names_left() -> Vec<Slip> {
    vec![
        slip("the names left by a new stock", names_left(|_, _| true)),
        slip("the names left by the same stock", names_left(|old, new| old == new)),
        slip(
            "the names left by a stock of the same fits",
            names_left(|old, new| old.cameras == new.cameras && old.fits == new.fits),
        ),
        slip("the names left by a stock of as many cameras", names_left(|old, new| old.cameras == new.cameras)),
        slip(
            "the names left by a stock that has more fits",
            names_left(|old, new| old.fits.iter().all(|fit| new.fits.contains(fit))),
        ),
        slip("names left by the first stock", names_left(|old, _| old.cameras == 0)),
        slip("names left by a stock without cameras", names_left(|_, new| new.cameras == 0)),
        slip(
            "names left whose pairs are fits of the new stock",
            some_left(|_, pairs, new| pairs.iter().all(|pair| new.fits.contains(pair))),
        ),
        slip("the oldest name left by a new stock", some_left(|place, _, _| place == 0)),
        slip("the eighth name left by a new stock", some_left(|place, _, _| place == 7)),
        slip("empty plans left by a new stock", some_left(|_, pairs, _| pairs.is_empty())),
        slip(
            "names left, but without pairs",
            once_brought(|before, state| {
                state.places = before.places.iter().map(|place| (place.0, Vec::new())).collect();
            }),
        ),
    ]
}

fn of_new_stocks() -> Vec<Slip> {
    vec![
        slip("the old stock left by a new one", once_brought(|before, state| state.stock = before.stock.clone())),
        slip(
            "the first stock left by later ones",
            once_brought(|before, state| {
                if before.stock.cameras > 0 {
                    state.stock = before.stock.clone();
                }
            }),
        ),
        slip(
            "the old stock left by one without cameras",
            once_brought(|before, state| {
                if state.stock.cameras == 0 {
                    state.stock = before.stock.clone();
                }
            }),
        ),
        slip(
            "the old cameras left by a new stock",
            once_brought(|before, state| {
                state.stock.cameras = before.stock.cameras.max(state.stock.cameras);
            }),
        ),
        slip(
            "the old fits left by a new stock",
            once_brought(|before, state| {
                let cameras = state.stock.cameras;
                state.stock.fits.extend(before.stock.fits.iter().filter(|fit| fit.1 < cameras));
                state.stock.fits.sort_unstable();
                state.stock.fits.dedup();
            }),
        ),
        slip(
            "the old fits left behind fewer new ones",
            once_brought(|before, state| {
                let new = state.stock.fits.len();
                state.stock.fits.extend(before.stock.fits.iter().skip(new));
            }),
        ),
        slip(
            "the lit pairs of a new stock kept under name 0",
            once_brought(|_, state| state.places.push((0, state.stock.lit.clone()))),
        ),
        slip(
            "the plan of a new stock kept under name 0",
            once_brought(|_, state| state.places.push((0, reference::plan(&state.stock)))),
        ),
        slip(
            "fits of lit cameras taken away",
            once_brought(|_, state| {
                let Stock { fits, lit, .. } = &mut state.stock;
                fits.retain(|fit| lit.contains(fit) || !(includes(lit, fit.0) || includes(lit, fit.1)));
            }),
        ),
        slip("at most 255 fits of a stock", once_brought(|_, state| state.stock.fits.truncate(255))),
        slip("at most 3,899 fits of a stock", once_brought(|_, state| state.stock.fits.truncate(3_899))),
        slip("at most 126 cameras of a stock", once_brought(|_, state| state.stock.cameras = state.stock.cameras.min(126))),
        slip("the same stock refused", refusing_stocks(19, |state, stock| *stock == state.stock && stock.cameras > 0)),
        slip("a stock refused while eight names are kept", refusing_stocks(19, |state, _| state.places.len() == MOST_KEPT)),
        slip("a stock refused while names are kept", refusing_stocks(18, |state, _| !state.places.is_empty())),
        slip("a stock without cameras refused", refusing_stocks(5, |_, stock| stock.cameras == 0)),
        slip(
            "stocks with a CR refused",
            Calls { read_stock: Box::new(|file| stock_trial::read(&changed(file, returns_refused))), ..right() },
        ),
    ]
}

/// Stocks that are meant refused with a number, by what stands there.
fn refusing_stocks(number: u8, is_meant: fn(&KeptState, &Stock) -> bool) -> Calls {
    bringing(move |calls, state, file| match (calls.read_stock)(file) {
        Ok(stock) if is_meant(state, &stock) => number,
        _ => kept_reference::bring(calls, state, file),
    })
}

fn of_refused_stocks() -> Vec<Slip> {
    let mut all = vec![
        slip("a refused stock forgets all", once_refused(|_, state| state.places.clear())),
        slip("a refused stock forgets the newest", once_refused(|_, state| drop(state.places.pop()))),
        slip("a refused stock takes the stock away", once_refused(|_, state| state.stock = Stock::default())),
        slip("a refused stock takes the cameras away", once_refused(|_, state| state.stock.cameras = 0)),
        slip(
            "a refused stock takes the last fit away",
            once_refused(|_, state| {
                let fewer = state.stock.fits.len().saturating_sub(1);
                state.stock.fits.truncate(fewer);
            }),
        ),
        slip(
            "a refused stock is the present one",
            bringing(|calls, state, file| {
                let number = kept_reference::bring(calls, state, file);
                if let (1.., Ok(stock)) = (number, stock_trial::read_in_order(file, &[4, 6])) {
                    state.stock = stock;
                }
                number
            }),
        ),
        slip(
            "a refused stock's cameras are the present ones",
            bringing(|calls, state, file| {
                let refusal = kept_reference::bring(calls, state, file);
                if refusal > 5 {
                    state.stock.cameras = number(Text::of(file).header(), 2, 2);
                }
                refusal
            }),
        ),
    ];
    for question in STOCK_QUESTIONS {
        let forgetting = once_refused(move |number, state| state.places.retain(|_| number != question));
        all.push((format!("a stock refused by {question} forgets all"), forgetting));
        let taking = once_refused(move |number, state| {
            if number == question {
                state.stock = Stock::default();
            }
        });
        all.push((format!("a stock refused by {question} takes the stock away"), taking));
    }
    all
}

/// Stocks that a left-out question alone would refuse get a number that is none.
fn asking_stocks(order: Vec<u8>) -> Calls {
    let read =
        move |file: &[u8]| stock_trial::read_in_order(file, &order).and_then(|_| stock_trial::read(file).map_err(|_| NO_NUMBER));
    Calls { read_stock: Box::new(read), ..right() }
}

fn of_stock_questions() -> Vec<Slip> {
    let mut all: Vec<Slip> = Vec::new();
    for (place, question) in STOCK_QUESTIONS.iter().enumerate() {
        let left_out = [&STOCK_QUESTIONS[..place], &STOCK_QUESTIONS[place + 1..]].concat();
        all.push((format!("question {question} of a stock not put"), asking_stocks(left_out)));
        if place > 0 {
            let mut order = STOCK_QUESTIONS.to_vec();
            order.swap(place - 1, place);
            all.push((format!("question {question} of a stock put before {}", STOCK_QUESTIONS[place - 1]), asking_stocks(order)));
        }
    }
    all
}

// ---- coming back

fn refused(number: u8) -> Told {
    Told { number, size: 0 }
}

fn coming_back(come_back: impl Fn(&Calls, &mut KeptState, u8, &mut [u8]) -> Told + 'static) -> Calls {
    Calls { come_back: Box::new(come_back), ..right() }
}

/// Another number told, or something else done, where the right call is refused with a number.
fn where_refused(refusal: u8, done: impl Fn(&KeptState, &mut [u8]) -> Told + 'static) -> Calls {
    coming_back(move |calls, state, name, out| match kept_reference::come_back(calls, state, name, out) {
        Told { number, .. } if number == refusal => done(state, out),
        told => told,
    })
}

fn of_rooms() -> Vec<Slip> {
    let mut all = vec![
        slip(
            "1 put after 18",
            coming_back(|calls, state, name, out| match calls.place(state, name) {
                None => refused(NOT_KEPT),
                Some(_) => kept_reference::come_back(calls, state, name, out),
            }),
        ),
        slip(
            "room for the answer alone asked for",
            coming_back(|calls, state, name, out| match calls.place(state, name) {
                Some(place) if out.len() < calls.least_room => {
                    let answer = plan_file(&state.places[place].1);
                    if answer.len() > out.len() {
                        refused(1)
                    } else {
                        reference::write(&answer, out)
                    }
                }
                _ => kept_reference::come_back(calls, state, name, out),
            }),
        ),
        slip(
            "rooms of more than two bytes refused",
            coming_back(|calls, state, name, out| match out.len() {
                65_536.. => refused(1),
                _ => kept_reference::come_back(calls, state, name, out),
            }),
        ),
    ];
    all.extend(
        [453, 1_024, 1_354, 2_000, 2_047, 2_049, 2_050, 4_096]
            .map(|least| (format!("a room of {least} asked for"), Calls { least_room: least, ..right() })),
    );
    all.extend(
        [0, 2, 4, 17, 19, 20].map(|number| {
            (format!("{number} in place of 18, coming back"), where_refused(NOT_KEPT, move |_, _| refused(number)))
        }),
    );
    all.extend([0, 2, 18, 19].map(|number| (format!("{number} in place of 1"), where_refused(1, move |_, _| refused(number)))));
    all
}

fn giving(frames: impl Fn(&[Pair]) -> Vec<u8> + 'static) -> Calls {
    Calls { frames: Box::new(frames), ..right() }
}

/// Frames with another header, other lines or another end.
fn framed(header: fn(usize) -> String, line: fn(&Pair) -> String, end: u8) -> Calls {
    giving(move |pairs| file(&header(pairs.len()), &pairs.iter().map(line).collect::<Vec<String>>(), end))
}

fn of_frames() -> Vec<Slip> {
    let header = |pairs: usize| format!("51{pairs:02X}");
    let line = |(u, v): &Pair| format!("52{u:02X}{v:02X}");
    vec![
        slip("carriage returns", giving(|pairs| cr_lf(&plan_file(pairs)))),
        slip("small letters for digits", giving(|pairs| plan_file(pairs).to_ascii_lowercase())),
        slip("the frames of a budget", giving(|pairs| budget_file(pairs, 0, 0))),
        slip("a printout", giving(|pairs| printout(pairs, pairs.len(), &[]))),
        slip(
            "lines without header and end frame",
            giving(|pairs| (pair_lines(PLAN.bodies[0], pairs).join("\n") + "\n").into_bytes()),
        ),
        slip("frames without a header", giving(|pairs| plan_file(pairs)[5..].to_vec())),
        slip("frames without an end frame", giving(|pairs| plan_file(pairs)[..plan_file(pairs).len() - 7].to_vec())),
        slip("frames without the last line feed", giving(|pairs| plan_file(pairs)[..plan_file(pairs).len() - 1].to_vec())),
        slip("frames twice", giving(|pairs| plan_file(pairs).repeat(2))),
        slip("pair lines of a stock", framed(header, |(u, v)| format!("13{u:02X}{v:02X}"), PLAN.end)),
        slip("cameras in base ten", framed(header, |(u, v)| format!("52{u:02}{v:02}"), PLAN.end)),
        slip("PP of 00", framed(|_| "5100".to_string(), line, PLAN.end)),
        slip("PP in base ten", framed(|pairs| format!("51{pairs:02}"), line, PLAN.end)),
        slip("a header of another kind", framed(|pairs| format!("41{pairs:02X}"), line, PLAN.end)),
        slip("an end frame of another kind", framed(header, line, 0x4F)),
        slip("answers cut at 255 bytes", giving(|pairs| plan_file(pairs).into_iter().take(255).collect())),
        slip("answers cut at 452 bytes", giving(|pairs| plan_file(pairs).into_iter().take(452).collect())),
        slip("no frames for no pairs", giving(|pairs| if pairs.is_empty() { Vec::new() } else { plan_file(pairs) })),
        slip("the ends that were handed in", ends_kept()),
    ]
}

/// Where the last file that was kept had a CR, its name comes back with CR LF.
fn ends_kept() -> Calls {
    Calls {
        keep: Box::new(|calls, state, name, file| {
            let number = kept_reference::keep(calls, state, name, file);
            if number == 0 {
                state.beside.file = if file.contains(&b'\r') { vec![name] } else { Vec::new() };
            }
            number
        }),
        come_back: Box::new(|calls, state, name, out| match kept_reference::come_back(calls, state, name, out) {
            Told { number: 0, size } if state.beside.file == [name] => {
                let text = cr_lf(&out[..size]);
                reference::write(&text, out)
            }
            told => told,
        }),
        ..right()
    }
}

/// Other pairs, by the state and the place that is right.
fn giving_pairs(pairs: impl Fn(&KeptState, usize) -> Vec<Pair> + 'static) -> Calls {
    coming_back(move |calls, state, name, out| {
        let told = kept_reference::come_back(calls, state, name, &mut vec![0; out.len()]);
        match calls.place(state, name) {
            Some(place) if told.number == 0 => reference::write(&plan_file(&pairs(state, place)), out),
            _ => told,
        }
    })
}

fn of_answers() -> Vec<Slip> {
    vec![
        slip("the empty plan where 18 is owed", where_refused(NOT_KEPT, |_, out| reference::write(&plan_file(&[]), out))),
        slip(
            "the lit pairs where 18 is owed",
            where_refused(NOT_KEPT, |state, out| reference::write(&plan_file(&state.stock.lit), out)),
        ),
        slip(
            "the newest pairs where 18 is owed",
            where_refused(NOT_KEPT, |state, out| match state.places.last() {
                Some(place) => reference::write(&plan_file(&place.1), out),
                None => refused(NOT_KEPT),
            }),
        ),
        slip(
            "18 for no pairs",
            coming_back(|calls, state, name, out| match calls.place(state, name) {
                Some(place) if state.places[place].1.is_empty() && out.len() >= calls.least_room => refused(NOT_KEPT),
                _ => kept_reference::come_back(calls, state, name, out),
            }),
        ),
        slip("the lit pairs given", giving_pairs(|state, _| state.stock.lit.clone())),
        slip("the stock's plan given", giving_pairs(|state, _| reference::plan(&state.stock))),
        slip("the oldest pairs given", giving_pairs(|state, _| state.places[0].1.clone())),
        slip("the newest pairs given", giving_pairs(|state, _| state.places[state.places.len() - 1].1.clone())),
        slip(
            "the pairs of the next place given",
            giving_pairs(|state, place| state.places[(place + 1) % state.places.len()].1.clone()),
        ),
        slip("the pairs of the smallest name given", giving_pairs(|state, _| state.places.iter().min().unwrap().1.clone())),
        slip(
            "the largest pairing given",
            giving_pairs(|state, _| state.places.iter().map(|place| place.1.clone()).max_by_key(Vec::len).unwrap()),
        ),
        slip(
            "the pairs of the seventh place given as the eighth's",
            giving_pairs(|state, place| state.places[place.min(6)].1.clone()),
        ),
        slip("given pairs turned", giving_pairs(|state, place| turned(&state.places[place].1))),
        slip("given pairs falling", giving_pairs(|state, place| falling(&state.places[place].1))),
        slip(
            "given pairs that are lit too",
            giving_pairs(|state, place| {
                let KeptState { stock, places, .. } = state;
                places[place].1.iter().copied().filter(|pair| stock.lit.is_empty() || stock.lit.contains(pair)).collect()
            }),
        ),
        slip("the pairs kept before the last", the_one_before()),
        slip("the first answer given again", first_answer()),
    ]
}

/// Those that a keep replaced, until the name is forgotten.
fn the_one_before() -> Calls {
    let remembering = after_each(|after, state| {
        let old = after.before.places.iter().find(|place| place.0 == after.name);
        if let (true, Some(old)) = (after.is(KeptKind::Keep), old) {
            set(&mut state.beside.places, after.name, old.1.clone());
        }
        if after.is(KeptKind::Forget) || after.is(KeptKind::Bring) {
            state.beside.places.clear();
        }
    });
    let before_last = giving_pairs(|state, place| {
        let (name, pairs) = &state.places[place];
        state.beside.places.iter().find(|old| old.0 == *name).map_or(pairs.clone(), |old| old.1.clone())
    });
    Calls { come_back: before_last.come_back, ..remembering }
}

/// Under that name, though other pairs are kept meanwhile.
fn first_answer() -> Calls {
    coming_back(|calls, state, name, out| {
        let told = kept_reference::come_back(calls, state, name, &mut vec![0; out.len()]);
        let Some(place) = calls.place(state, name).filter(|_| told.number == 0) else {
            return told;
        };
        let own = state.places[place].1.clone();
        let given = state.beside.places.iter().find(|given| given.0 == name).map_or(own, |given| given.1.clone());
        set(&mut state.beside.places, name, given.clone());
        reference::write(&plan_file(&given), out)
    })
}

/// The right call, and something done to the state once pairs have come back.
fn once_back(done: fn(u8, &mut KeptState)) -> Calls {
    after_each(move |after, state| {
        if after.is(KeptKind::ComeBack) {
            done(after.name, state);
        }
    })
}

fn of_coming_back() -> Vec<Slip> {
    vec![
        slip("coming back forgets the name", once_back(|name, state| without(&mut state.places, name))),
        slip("coming back forgets all other names", once_back(|name, state| state.places.retain(|place| place.0 == name))),
        slip(
            "coming back forgets what was kept later",
            once_back(|name, state| {
                let place = state.places.iter().position(|place| place.0 == name).unwrap();
                state.places.truncate(place + 1);
            }),
        ),
        slip(
            "coming back leaves no other fits",
            once_back(|name, state| {
                state.stock.fits = state.places.iter().find(|place| place.0 == name).unwrap().1.clone();
            }),
        ),
        slip(
            "a room that is too small forgets the name",
            after_each(|after, state| {
                if after.kind == KeptKind::ComeBack && after.number == 1 {
                    without(&mut state.places, after.name);
                }
            }),
        ),
        slip(
            "18 makes the name one that is kept",
            after_each(|after, state| {
                if after.kind == KeptKind::ComeBack && after.number == NOT_KEPT && state.places.len() < MOST_KEPT {
                    set(&mut state.places, after.name, Vec::new());
                }
            }),
        ),
    ]
}

// ---- the buffer

/// Where its number is one that is meant.
fn told_otherwise(is_meant: fn(u8) -> bool, done: impl Fn(&mut Told, &mut [u8]) + 'static) -> Calls {
    coming_back(move |calls, state, name, out| {
        let mut told = kept_reference::come_back(calls, state, name, out);
        if is_meant(told.number) {
            done(&mut told, out);
        }
        told
    })
}

fn of_buffers() -> Vec<Slip> {
    let answered = |number: u8| number == 0;
    let not_kept = |number: u8| number == NOT_KEPT;
    let too_small = |number: u8| number == 1;
    vec![
        slip("one byte too few told", told_otherwise(answered, |told, _| told.size -= 1)),
        slip("one byte too many told", told_otherwise(answered, |told, _| told.size += 1)),
        slip("no size told", told_otherwise(answered, |told, _| told.size = 0)),
        slip("all of the buffer told", told_otherwise(answered, |told, out| told.size = out.len())),
        slip("a size of one byte", told_otherwise(answered, |told, _| told.size %= 256)),
        slip("the number of lines told", told_otherwise(answered, |told, _| told.size /= 7)),
        slip("the size of the longest told", told_otherwise(answered, |told, _| told.size = 453)),
        slip("the byte behind the answer cleared", told_otherwise(answered, |told, out| out[told.size] = 0)),
        slip("a line feed behind the answer", told_otherwise(answered, |told, out| out[told.size] = b'\n')),
        slip("the rest of the buffer cleared", told_otherwise(answered, |told, out| out[told.size..].fill(0))),
        slip("the rest of 2,048 bytes cleared", told_otherwise(answered, |told, out| out[told.size..2_048].fill(0))),
        slip(
            "the longest answer's room cleared",
            told_otherwise(answered, |told, out| out[told.size..453.max(told.size)].fill(0)),
        ),
        slip("the last byte of the buffer changed", told_otherwise(answered, |_, out| *out.last_mut().unwrap() ^= 1)),
        slip(
            "the answer at the end of the buffer too",
            told_otherwise(answered, |told, out| {
                let room = out.len();
                out.copy_within(..told.size, room - told.size);
            }),
        ),
        slip("the answer one byte further on", told_otherwise(answered, |told, out| out.copy_within(..told.size, 1))),
        slip("a letter behind the answer", told_otherwise(answered, |told, out| put(&mut out[told.size..], b"A"))),
        slip("the first byte cleared by 18", told_otherwise(not_kept, |_, out| put(out, &[0]))),
        slip("the first byte changed by 18", told_otherwise(not_kept, |_, out| out[0] ^= 1)),
        slip("the last byte changed by 18", told_otherwise(not_kept, |_, out| *out.last_mut().unwrap() ^= 1)),
        slip("the buffer cleared by 18", told_otherwise(not_kept, |_, out| out.fill(0))),
        slip("the refusal's line written by 18", told_otherwise(not_kept, |_, out| put(out, b"7E12\n"))),
        slip("an empty plan written by 18", told_otherwise(not_kept, |_, out| put(out, b"5100\n5F0000\n"))),
        slip("a size told by 18", told_otherwise(not_kept, |told, _| told.size = 12)),
        slip(
            "the first byte changed by 1",
            told_otherwise(too_small, |_, out| out.iter_mut().take(1).for_each(|byte| *byte ^= 1)),
        ),
        slip("the buffer cleared by 1", told_otherwise(too_small, |_, out| out.fill(0))),
        slip("the refusal's line written by 1", told_otherwise(too_small, |_, out| put(out, b"7E01\n"))),
        slip("a size told by 1", told_otherwise(too_small, |told, out| told.size = out.len().min(5))),
        slip(
            "the answer written though 1 refuses",
            coming_back(|calls, state, name, out| {
                let told = kept_reference::come_back(calls, state, name, out);
                if let (1, Some(place)) = (told.number, calls.place(state, name)) {
                    put(out, &plan_file(&state.places[place].1));
                }
                told
            }),
        ),
    ]
}
