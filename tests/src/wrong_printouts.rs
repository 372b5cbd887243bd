//! More engines with one part wrong: in what a stock gets, a plan directly followed by its sheet (document 02, L6). The other calls are
//! right.
//!   engines              each with what is wrong of it
//!   joining, printing    the right halves put together otherwise; other frames
//!   without_header ..    parts of a half
//!   placing              the right sheet at another place of the buffer
//!   calling, after, counted    another call; the right call, and something done after it, or counted otherwise
//!   put                  bytes at the front of a buffer
//! First those that put the halves together wrongly, then in frames, places, sizes, the buffer, its room, the tally and refusals, and then
//! those that remember. Those in which the plan or the sheet itself is another are in wrong_halves.rs.

use crate::engine::{Counts, Told};
use crate::frames::{budget_file, file, halves, pair_lines, plan_file, printout, sheet_file, sheet_in, Pair, CR, PLAN, SHEET};
use crate::line_ends::cr_lf;
use crate::reference::{self, Parts};
use crate::stock_trial::{self, Standing, Stock, STOCK_QUESTIONS};
use crate::wrong::{named, Named};
use crate::wrong_budgets::{greatest, is_answer, is_refusal, raise, unlit};
use std::cell::{Cell, RefCell};
use std::collections::BTreeMap;

pub fn engines() -> Vec<Named> {
    let mut all = other_joins();
    all.extend(other_frames());
    all.extend(other_places());
    all.extend(other_sizes());
    all.extend(other_buffers());
    all.extend(other_rooms());
    all.extend(other_counts());
    all.extend(other_refusals());
    all.extend(with_memory());
    all.into_iter().map(|(what, engine)| (format!("printout: {what}"), engine)).collect()
}

// ---- how a call is put together

/// Other frames, of the right plan and the right standing.
pub fn printing(print: impl Fn(&Stock, &[Pair], &Standing) -> Vec<u8> + 'static) -> Parts {
    let printed = move |_: &Parts, stock: &Stock| print(stock, &reference::plan(stock), &reference::standing(stock));
    Parts { printout: Box::new(printed), ..Parts::right() }
}

fn joining(join: fn(&[u8], &[u8]) -> Vec<u8>) -> Parts {
    printing(move |_, plan, standing| join(&plan_file(plan), &sheet_file(standing.greatest, &standing.marks)))
}

fn calling(call: impl Fn(&Parts, &[u8], &mut [u8], &mut Counts) -> Told + 'static) -> Parts {
    Parts { stock: Box::new(call), ..Parts::right() }
}

/// The right call, and something done after it where its refusal number, 0 for an answer, is one that is meant.
fn after(is_meant: fn(u8) -> bool, done: fn(&mut Told, &mut [u8])) -> Parts {
    calling(move |parts, file, out, counts| {
        let mut told = reference::stock(parts, file, out, counts);
        if is_meant(told.number) {
            done(&mut told, out);
        }
        told
    })
}

/// The right call, counted otherwise.
fn counted(is_meant: fn(u8) -> bool, count: fn(&[u8], &mut Counts)) -> Parts {
    calling(move |parts, file, out, counts| {
        let before = *counts;
        let told = reference::stock(parts, file, out, counts);
        if is_meant(told.number) {
            *counts = before;
            count(&out[..told.size], counts);
        }
        told
    })
}

/// The right answer apart from the buffer, or the refusal number.
fn answer_to(parts: &Parts, file: &[u8], room: usize, counts: &mut Counts) -> Result<Vec<u8>, u8> {
    let mut out = vec![0; room];
    match reference::stock(parts, file, &mut out, counts) {
        Told { number: 0, size } => Ok(out[..size].to_vec()),
        Told { number, .. } => Err(number),
    }
}

fn refused(number: u8) -> Told {
    Told { number, size: 0 }
}

// ---- the halves put together otherwise

fn other_joins() -> Vec<Named> {
    vec![
        named("the sheet first and the plan behind it", joining(|plan, sheet| [sheet, plan].concat())),
        named("the plan alone", joining(|plan, _| plan.to_vec())),
        named("the sheet alone", joining(|_, sheet| sheet.to_vec())),
        named("the plan twice", joining(|plan, _| [plan, plan].concat())),
        named("the sheet twice", joining(|_, sheet| [sheet, sheet].concat())),
        named("the plan twice and the sheet behind it", joining(|plan, sheet| [plan, plan, sheet].concat())),
        named("the plan again behind the sheet", joining(|plan, sheet| [plan, sheet, plan].concat())),
        named("the sheet twice behind the plan", joining(|plan, sheet| [plan, sheet, sheet].concat())),
        named("the sheet before and behind the plan", joining(|plan, sheet| [sheet, plan, sheet].concat())),
        named("an empty line between the halves", joining(|plan, sheet| [plan, b"\n", sheet].concat())),
        named("an empty line before the plan", joining(|plan, sheet| [b"\n", plan, sheet].concat())),
        named("an empty line behind the sheet", joining(|plan, sheet| [plan, sheet, b"\n"].concat())),
        named("a carriage return between the halves", joining(|plan, sheet| [plan, b"\r", sheet].concat())),
        named("CR LF between the halves", joining(|plan, sheet| [plan, b"\r\n", sheet].concat())),
        named("a blank between the halves", joining(|plan, sheet| [plan, b" ", sheet].concat())),
        named("a zero byte between the halves", joining(|plan, sheet| [plan, b"\0", sheet].concat())),
        named("seven zero bytes between the halves", joining(|plan, sheet| [plan, &[0; 7], sheet].concat())),
        named("a line 7E00 between the halves", joining(|plan, sheet| [plan, b"7E00\n", sheet].concat())),
        named("no line feed between the halves", joining(|plan, sheet| [&plan[..plan.len() - 1], sheet].concat())),
        named("no line feed behind the sheet", joining(|plan, sheet| [plan, &sheet[..sheet.len() - 1]].concat())),
        named("an empty plan left out", joining(|plan, sheet| [if plan.len() > 12 { plan } else { b"" }, sheet].concat())),
        named(
            "a sheet without cameras left out",
            joining(|plan, sheet| [plan, if sheet.len() > 12 { sheet } else { b"" }].concat()),
        ),
        named("printouts cut at 1,024 bytes", joining(|plan, sheet| first(&[plan, sheet].concat(), 1_024))),
        named("printouts cut at 1,353 bytes", joining(|plan, sheet| first(&[plan, sheet].concat(), 1_353))),
        named("plans cut at 446 bytes", joining(|plan, sheet| [&first(plan, 446), sheet].concat())),
        named("sheets cut at 894 bytes", joining(|plan, sheet| [plan, &first(sheet, 894)].concat())),
    ]
}

fn first(bytes: &[u8], most: usize) -> Vec<u8> {
    bytes[..bytes.len().min(most)].to_vec()
}

// ---- other frames

/// The bytes of a header, and of any other line, with their line feeds.
const HEADER: usize = 5;
const LINE: usize = 7;

pub fn without_end(half: &[u8]) -> &[u8] {
    &half[..half.len() - LINE]
}

pub fn without_header(half: &[u8]) -> &[u8] {
    &half[HEADER..]
}

/// The lines between header and end frame.
fn body(half: &[u8]) -> &[u8] {
    without_end(without_header(half))
}

fn header(half: &[u8]) -> &[u8] {
    &half[..HEADER]
}

fn end(half: &[u8]) -> &[u8] {
    &half[half.len() - LINE..]
}

/// The right lines, with these counts in the end frames.
fn counting(of_plan: fn(usize, usize) -> usize, of_sheet: fn(usize, usize) -> usize) -> Parts {
    printing(move |stock, plan, standing| {
        let (plan, sheet) = (plan_file(plan), sheet_file(standing.greatest, &standing.marks));
        let [in_plan, in_sheet] = [of_plan, of_sheet].map(|count| count(standing.greatest, stock.cameras));
        let ends = [format!("5F{in_plan:04X}\n"), format!("4F{in_sheet:04X}\n")];
        [without_end(&plan), ends[0].as_bytes(), without_end(&sheet), ends[1].as_bytes()].concat()
    })
}

/// Body lines of other kinds.
fn of_kinds(in_plan: u8, in_sheet: u8) -> Parts {
    printing(move |_, plan, standing| {
        let marks: Vec<Pair> = standing.marks.iter().copied().enumerate().collect();
        let greatest = standing.greatest;
        let plan = file(&format!("51{greatest:02X}"), &pair_lines(in_plan, plan), PLAN.end);
        [plan, file(&format!("41{greatest:02X}"), &pair_lines(in_sheet, &marks), SHEET.end)].concat()
    })
}

fn other_frames() -> Vec<Named> {
    vec![
        named("no header of the plan", joining(|plan, sheet| [without_header(plan), sheet].concat())),
        named("no end frame of the plan", joining(|plan, sheet| [without_end(plan), sheet].concat())),
        named("no header of the sheet", joining(|plan, sheet| [plan, without_header(sheet)].concat())),
        named("no end frame of the sheet", joining(|plan, sheet| [plan, without_end(sheet)].concat())),
        named(
            "no frame between the lines of the halves",
            joining(|plan, sheet| [without_end(plan), without_header(sheet)].concat()),
        ),
        named("one end frame that counts all lines", printing(one_end)),
        named("both end frames at the end", joining(|plan, sheet| [without_end(plan), sheet, end(plan)].concat())),
        named(
            "both headers at the front",
            joining(|plan, sheet| [header(plan), header(sheet), &plan[HEADER..], &sheet[HEADER..]].concat()),
        ),
        named(
            "the headers exchanged",
            joining(|plan, sheet| [header(sheet), &plan[HEADER..], header(plan), &sheet[HEADER..]].concat()),
        ),
        named(
            "the end frames exchanged",
            joining(|plan, sheet| [without_end(plan), end(sheet), without_end(sheet), end(plan)].concat()),
        ),
        named(
            "the lines exchanged",
            joining(|plan, sheet| [header(plan), body(sheet), end(plan), header(sheet), body(plan), end(sheet)].concat()),
        ),
        named("cameras counted in the plan's end frame", counting(|_, cameras| cameras, |_, cameras| cameras)),
        named("pairs counted in the sheet's end frame", counting(|pairs, _| pairs, |pairs, _| pairs)),
        named(
            "the lines of both halves counted in the sheet's end frame",
            counting(|pairs, _| pairs, |pairs, cameras| pairs + cameras),
        ),
        named(
            "all lines before it counted in the sheet's end frame",
            counting(|pairs, _| pairs, |pairs, cameras| pairs + cameras + 3),
        ),
        named("headers and end frames counted", counting(|pairs, _| pairs + 2, |_, cameras| cameras + 2)),
        named("the plan in the frames of a budget", printing(in_budget_frames)),
        named("43 in place of 52", of_kinds(SHEET.bodies[0], SHEET.bodies[0])),
        named("52 in place of 43", of_kinds(PLAN.bodies[0], PLAN.bodies[0])),
        named("13 in place of 52", of_kinds(0x13, SHEET.bodies[0])),
        named("carriage returns in the plan", joining(|plan, sheet| [cr_lf(plan), sheet.to_vec()].concat())),
        named("carriage returns in the sheet", joining(|plan, sheet| [plan.to_vec(), cr_lf(sheet)].concat())),
        named("the sheet with the file's line ends", Parts { ends: sheet_as_the_file, ..Parts::right() }),
    ]
}

fn one_end(stock: &Stock, plan: &[Pair], standing: &Standing) -> Vec<u8> {
    let (plan, sheet) = (plan_file(plan), sheet_file(standing.greatest, &standing.marks));
    let count = format!("4F{:04X}\n", standing.greatest + stock.cameras);
    [without_end(&plan), body(&sheet), count.as_bytes()].concat()
}

fn in_budget_frames(stock: &Stock, plan: &[Pair], standing: &Standing) -> Vec<u8> {
    let searches = plan.len() - stock.lit.len() + 1;
    [budget_file(plan, searches, 0), sheet_file(standing.greatest, &standing.marks)].concat()
}

fn sheet_as_the_file(file: &[u8], answer: Vec<u8>) -> Vec<u8> {
    let (before, sheet) = halves(&answer);
    let sheet = if file.contains(&CR) { cr_lf(sheet) } else { sheet.to_vec() };
    [before, &sheet].concat()
}

// ---- the sheet at other places

/// By the stock, and by the bytes of the plan and of the sheet: where the sheet begins, and what is told as the size.
type Place = fn(&Stock, usize, usize) -> (usize, usize);

/// What stands between the halves, or behind the sheet, remains as it was.
fn placing(place: Place) -> Parts {
    calling(move |parts, file, out, counts| match answer_to(parts, file, out.len(), counts) {
        Err(number) => refused(number),
        Ok(answer) => {
            let (plan, sheet) = halves(&answer);
            let stock = stock_trial::read(file).unwrap();
            let (at, size) = place(&stock, plan.len(), sheet.len());
            out[..plan.len()].copy_from_slice(plan);
            out[at..at + sheet.len()].copy_from_slice(sheet);
            Told { number: 0, size }
        }
    })
}

fn other_places() -> Vec<Named> {
    vec![
        named("the sheet over the plan's end frame", placing(|_, plan, sheet| (plan - 7, plan - 7 + sheet))),
        named("the sheet over the plan's end frame, and the whole size", placing(|_, plan, sheet| (plan - 7, plan + sheet))),
        named("the sheet one byte early", placing(|_, plan, sheet| (plan - 1, plan - 1 + sheet))),
        named("the sheet one byte early, and the whole size", placing(|_, plan, sheet| (plan - 1, plan + sheet))),
        named("the sheet five bytes early", placing(|_, plan, sheet| (plan - 5, plan - 5 + sheet))),
        named("the sheet twelve bytes early", placing(|_, plan, sheet| (plan - 12, plan - 12 + sheet))),
        named("the sheet over the whole plan", placing(|_, _, sheet| (0, sheet))),
        named("the sheet over the whole plan, and the whole size", placing(|_, plan, sheet| (0, plan + sheet))),
        named("the sheet one byte late", placing(|_, plan, sheet| (plan + 1, plan + 1 + sheet))),
        named("the sheet one byte late, and the right size", placing(|_, plan, sheet| (plan + 1, plan + sheet))),
        named("the sheet seven bytes late", placing(|_, plan, sheet| (plan + 7, plan + 7 + sheet))),
        named("the sheet behind room for 63 pairs", placing(|_, _, sheet| (453, 453 + sheet))),
        named("the sheet at byte 1,024", placing(|_, _, sheet| (1_024, 1_024 + sheet))),
        named("the sheet at the end of 2,048 bytes", placing(|_, _, sheet| (2_048 - sheet, 2_048))),
        named("the sheet behind room for the lit pairs", placing(|stock, _, sheet| of_pairs(stock.lit.len(), sheet))),
        named("the sheet behind room for half the cameras", placing(|stock, _, sheet| of_pairs(stock.cameras / 2, sheet))),
        named("the sheet behind room for one pair", placing(|_, _, sheet| of_pairs(1, sheet))),
        named("the plan over the front of the sheet", calling(plan_last)),
    ]
}

/// The sheet behind a plan of so many pairs.
fn of_pairs(pairs: usize, sheet: usize) -> (usize, usize) {
    (12 + 7 * pairs, 12 + 7 * pairs + sheet)
}

/// The sheet is put seven bytes early, and the plan after it.
fn plan_last(parts: &Parts, file: &[u8], out: &mut [u8], counts: &mut Counts) -> Told {
    match answer_to(parts, file, out.len(), counts) {
        Err(number) => refused(number),
        Ok(answer) => {
            let (plan, sheet) = halves(&answer);
            let size = answer.len() - LINE;
            out[plan.len() - LINE..size].copy_from_slice(sheet);
            out[..plan.len()].copy_from_slice(plan);
            Told { number: 0, size }
        }
    }
}

// ---- other sizes

fn plan_size(out: &[u8], told: &Told) -> usize {
    halves(&out[..told.size]).0.len()
}

fn lines(text: &[u8]) -> usize {
    text.iter().filter(|byte| **byte == b'\n').count()
}

fn other_sizes() -> Vec<Named> {
    vec![
        named("the size of the plan told", after(is_answer, |told, out| told.size = plan_size(out, told))),
        named("the size of the sheet told", after(is_answer, |told, out| told.size -= plan_size(out, told))),
        named("the size of the plan told twice", after(is_answer, |told, out| told.size += plan_size(out, told))),
        named("one byte too few told", after(is_answer, |told, _| told.size -= 1)),
        named("one byte too many told", after(is_answer, |told, _| told.size += 1)),
        named("one line too many told", after(is_answer, |told, _| told.size += LINE)),
        named("the end frame of the sheet not told", after(is_answer, |told, _| told.size -= LINE)),
        named("the number of lines told", after(is_answer, |told, out| told.size = lines(&out[..told.size]))),
        named("no size told", after(is_answer, |told, _| told.size = 0)),
        named("a size of one byte", after(is_answer, |told, _| told.size %= 256)),
        named("a size of ten bits", after(is_answer, |told, _| told.size %= 1_024)),
        named("at most 1,024 bytes told", after(is_answer, |told, _| told.size = told.size.min(1_024))),
        named("at most 1,353 bytes told", after(is_answer, |told, _| told.size = told.size.min(1_353))),
        named("the size of the longest told", after(is_answer, |told, _| told.size = 1_354)),
        named("all of the buffer told", after(is_answer, |told, out| told.size = out.len())),
        named("a refusal with the size of an empty plan", after(is_refusal, |told, out| told.size = out.len().min(12))),
        named("a refusal with the size of two empty halves", after(is_refusal, |told, out| told.size = out.len().min(24))),
    ]
}

// ---- the buffer

/// Bytes at the front, as far as there is room.
pub fn put(out: &mut [u8], bytes: &[u8]) {
    out.iter_mut().zip(bytes).for_each(|(place, byte)| *place = *byte);
}

fn other_buffers() -> Vec<Named> {
    vec![
        named("the byte behind the sheet cleared", after(is_answer, |told, out| out[told.size] = 0)),
        named("a line feed behind the sheet", after(is_answer, |told, out| out[told.size] = b'\n')),
        named("the rest of the buffer cleared", after(is_answer, |told, out| out[told.size..].fill(0))),
        named("the rest of 1,354 bytes cleared", after(is_answer, |told, out| out[told.size..1_354].fill(0))),
        named("the last byte of the buffer cleared", after(is_answer, |_, out| *out.last_mut().unwrap() = 0)),
        named("byte 2,047 cleared", after(is_answer, |_, out| out[2_047] = 0)),
        named("the plan once more behind the sheet, not told", after(is_answer, copied_behind)),
        named("the sheet drafted behind room for 63 pairs", calling(drafted)),
        named("the printout shifted by one byte", after(is_answer, |told, out| out.copy_within(..told.size, 1))),
        named("refusals that write an empty plan", after(is_refusal, |_, out| put(out, b"5100\n5F0000\n"))),
        named("refusals that write two empty halves", after(is_refusal, |_, out| put(out, b"5100\n5F0000\n4100\n4F0000\n"))),
        named(
            "refusals that write their line",
            after(is_refusal, |told, out| put(out, format!("7E{:02X}\n", told.number).as_bytes())),
        ),
        named("refusals by 1 that write", after(|number| number == 1, |_, out| put(out, b"51"))),
        named(
            "refusals by 12 to 14 that write a header",
            after(|number| (12..15).contains(&number), |_, out| put(out, b"5100\n")),
        ),
        named(
            "refusals that change the last byte",
            after(is_refusal, |_, out| out.iter_mut().rev().take(1).for_each(|byte| *byte ^= 1)),
        ),
        named("refusals by 1 that write as much as there is room for", calling(cut_to_room)),
    ]
}

fn copied_behind(told: &mut Told, out: &mut [u8]) {
    let plan = plan_size(out, told).min(out.len() - told.size);
    out.copy_within(..plan, told.size);
}

/// The sheet is written at byte 453 first, and then where it belongs.
fn drafted(parts: &Parts, file: &[u8], out: &mut [u8], counts: &mut Counts) -> Told {
    match answer_to(parts, file, out.len(), counts) {
        Err(number) => refused(number),
        Ok(answer) => {
            let sheet = sheet_in(&answer);
            out[453..453 + sheet.len()].copy_from_slice(sheet);
            reference::write(&answer, out)
        }
    }
}

fn cut_to_room(parts: &Parts, file: &[u8], out: &mut [u8], counts: &mut Counts) -> Told {
    let told = reference::stock(parts, file, out, counts);
    if let (1, Ok(answer)) = (told.number, answer_to(parts, file, parts.least_room, &mut Counts::default())) {
        put(out, &answer);
    }
    told
}

// ---- its room

/// The right call where question 1 asks for other room.
fn with_room(least_room: usize) -> Parts {
    calling(move |_, file, out, counts| reference::stock(&Parts { least_room, ..Parts::right() }, file, out, counts))
}

fn other_rooms() -> Vec<Named> {
    let mut all = vec![
        named("a room of 2,047 granted", with_room(2_047)),
        named("a room of 1,354 granted", with_room(1_354)),
        named("a room of 2,048 refused", with_room(2_049)),
        named("a room of 2,048 asked for each half", with_room(4_096)),
        named("a room of 2,048 and of the longest printout asked", with_room(3_402)),
        named("a room above 2,048 refused", calling(no_more_than_asked)),
        named("any room granted that has the printout", calling(own_room)),
        named("any room granted that has it, where there is no camera", calling(own_room_without_cameras)),
        named("room for the printout and 1,354 bytes more asked", calling(room_for_more)),
    ];
    all.extend(STOCK_QUESTIONS.map(|question| (format!("question 1 put after {question}"), asked_after(question))));
    all
}

fn no_more_than_asked(parts: &Parts, file: &[u8], out: &mut [u8], counts: &mut Counts) -> Told {
    if out.len() > parts.least_room {
        return parts.refusal(1, out, counts);
    }
    reference::stock(parts, file, out, counts)
}

/// Question 1 asked of the answer's own size.
fn own_room(parts: &Parts, file: &[u8], out: &mut [u8], counts: &mut Counts) -> Told {
    match answer_to(parts, file, parts.least_room, &mut Counts::default()) {
        Ok(answer) if answer.len() <= out.len() => {
            raise(&mut counts.stocks, 1);
            reference::write(&answer, out)
        }
        _ => reference::stock(parts, file, out, counts),
    }
}

fn own_room_without_cameras(parts: &Parts, file: &[u8], out: &mut [u8], counts: &mut Counts) -> Told {
    match stock_trial::read(file) {
        Ok(stock) if stock.cameras == 0 => own_room(parts, file, out, counts),
        _ => reference::stock(parts, file, out, counts),
    }
}

fn room_for_more(parts: &Parts, file: &[u8], out: &mut [u8], counts: &mut Counts) -> Told {
    match answer_to(parts, file, parts.least_room, &mut Counts::default()) {
        Ok(answer) if answer.len() + 1_354 > out.len() => parts.refusal(1, out, counts),
        _ => reference::stock(parts, file, out, counts),
    }
}

fn asked_after(question: u8) -> Parts {
    calling(move |parts, file, out, counts| match stock_trial::read(file) {
        Err(number) if number <= question => parts.refusal(number, out, counts),
        _ => reference::stock(parts, file, out, counts),
    })
}

// ---- the tally

fn other_counts() -> Vec<Named> {
    vec![
        named("two stock answers counted", counted(is_answer, |_, counts| raise(&mut counts.stocks, 2))),
        named("no stock answer counted", counted(is_answer, |_, _| ())),
        named(
            "a stock answer and a refusal counted",
            counted(is_answer, |_, counts| both_raised(&mut counts.stocks, &mut counts.refusals)),
        ),
        named(
            "a stock answer and a path counted",
            counted(is_answer, |_, counts| both_raised(&mut counts.stocks, &mut counts.paths)),
        ),
        named(
            "a stock answer and a barrier counted",
            counted(is_answer, |_, counts| both_raised(&mut counts.stocks, &mut counts.barriers)),
        ),
        named("a path counted", counted(is_answer, |_, counts| raise(&mut counts.paths, 1))),
        named("a barrier counted", counted(is_answer, |_, counts| raise(&mut counts.barriers, 1))),
        named("a refusal counted for an answer", counted(is_answer, |_, counts| raise(&mut counts.refusals, 1))),
        named(
            "a stock answer counted for each half that has lines",
            counted(is_answer, |answer, counts| raise(&mut counts.stocks, filled_halves(answer))),
        ),
        named(
            "printouts without a pair not counted",
            counted(is_answer, |answer, counts| raise(&mut counts.stocks, u32::from(!answer.starts_with(b"5100")))),
        ),
        named(
            "printouts above 1,024 bytes counted twice",
            counted(is_answer, |answer, counts| raise(&mut counts.stocks, 1 + answer.len() as u32 / 1_025)),
        ),
        named(
            "a count of stock answers that wraps",
            counted(is_answer, |_, counts| counts.stocks = counts.stocks.wrapping_add(1)),
        ),
        named(
            "two stock answers counted and one taken back",
            counted(is_answer, |_, counts| counts.stocks = counts.stocks.saturating_add(2) - 1),
        ),
        named(
            "a count of stock answers that stops one early",
            counted(is_answer, |_, counts| counts.stocks = stopping(counts.stocks, u32::MAX - 1)),
        ),
        named(
            "a count of stock answers of 31 bits",
            counted(is_answer, |_, counts| counts.stocks = stopping(counts.stocks, i32::MAX as u32)),
        ),
        named(
            "the other counts cleared",
            counted(is_answer, |_, counts| *counts = Counts { stocks: counts.stocks.saturating_add(1), ..Counts::default() }),
        ),
        named("a refusal counted twice", counted(is_refusal, |_, counts| raise(&mut counts.refusals, 2))),
        named("a refusal not counted", counted(is_refusal, |_, _| ())),
        named("a refusal by 1 not counted", counted(|number| number == 1, |_, _| ())),
        named("a refusal counted as a stock answer", counted(is_refusal, |_, counts| raise(&mut counts.stocks, 1))),
        named(
            "a refusal by 13 or 14 counted as a stock answer too",
            counted(|number| number > 12, |_, counts| both_raised(&mut counts.stocks, &mut counts.refusals)),
        ),
        named(
            "a count of refusals that wraps",
            counted(is_refusal, |_, counts| counts.refusals = counts.refusals.wrapping_add(1)),
        ),
        named(
            "a count of refusals that stops one early",
            counted(is_refusal, |_, counts| counts.refusals = stopping(counts.refusals, u32::MAX - 1)),
        ),
    ]
}

fn both_raised(one: &mut u32, other: &mut u32) {
    raise(one, 1);
    raise(other, 1);
}

/// One more, up to a number; what is above it remains.
fn stopping(count: u32, most: u32) -> u32 {
    if count >= most {
        count
    } else {
        count + 1
    }
}

fn filled_halves(answer: &[u8]) -> u32 {
    let (plan, sheet) = halves(answer);
    [plan, sheet].iter().filter(|half| half.len() > 12).count() as u32
}

// ---- refusals

fn other_refusals() -> Vec<Named> {
    vec![
        named("the sheet alone for stocks that 12, 13 or 14 refuses", calling(sheet_in_place_of_refusal)),
        named("stocks that 12, 13 or 14 refuses answered with no pair lit", reading(|file| lit_forgotten(file, 11))),
        named("stocks that 14 refuses answered with no pair lit", reading(|file| lit_forgotten(file, 13))),
        named(
            "stocks whose printout is above 1,024 bytes refused by 1",
            calling(|parts, file, out, counts| refusing_above(1_024, parts, file, out, counts)),
        ),
        named(
            "stocks whose printout is above 512 bytes refused by 1",
            calling(|parts, file, out, counts| refusing_above(512, parts, file, out, counts)),
        ),
        named("stocks of 127 cameras refused", reading(|file| refusing(file, 5, |stock| stock.cameras == 127))),
        named("stocks without cameras refused", reading(|file| refusing(file, 5, |stock| stock.cameras == 0))),
        named("stocks without a pair refused", reading(|file| refusing(file, 8, |stock| greatest(stock) == 0))),
        named(
            "stocks refused in which nothing can be gained",
            reading(|file| refusing(file, 14, |stock| !stock.lit.is_empty() && greatest(stock) == stock.lit.len())),
        ),
        named("stocks of 63 pairs refused", reading(|file| refusing(file, 8, |stock| greatest(stock) == 63))),
        named("a refusal with 40 added", after(is_refusal, |told, _| told.number += 40)),
        named("an answer with number 1", after(is_answer, |told, _| told.number = 1)),
    ]
}

/// The right call with another reader of stocks, for this call alone.
fn reading(read: fn(&[u8]) -> Result<Stock, u8>) -> Parts {
    calling(move |_, file, out, counts| {
        reference::stock(&Parts { read_stock: Box::new(read), ..Parts::right() }, file, out, counts)
    })
}

fn refusing(file: &[u8], number: u8, is_refused: fn(&Stock) -> bool) -> Result<Stock, u8> {
    stock_trial::read(file).and_then(|stock| if is_refused(&stock) { Err(number) } else { Ok(stock) })
}

/// A stock that a question behind this one refuses, with no pair lit.
fn lit_forgotten(file: &[u8], question: u8) -> Result<Stock, u8> {
    match stock_trial::read(file) {
        Err(number) if number > question => Ok(unlit(&stock_trial::read_in_order(file, &[])?)),
        read => read,
    }
}

fn sheet_in_place_of_refusal(parts: &Parts, file: &[u8], out: &mut [u8], counts: &mut Counts) -> Told {
    match (lit_forgotten(file, 11), stock_trial::read(file)) {
        (Ok(stock), Err(_)) if out.len() >= parts.least_room => {
            raise(&mut counts.stocks, 1);
            let Standing { greatest, marks } = reference::standing(&stock);
            reference::write(&sheet_file(greatest, &marks), out)
        }
        _ => reference::stock(parts, file, out, counts),
    }
}

fn refusing_above(most: usize, parts: &Parts, file: &[u8], out: &mut [u8], counts: &mut Counts) -> Told {
    match answer_to(parts, file, parts.least_room, &mut Counts::default()) {
        Ok(answer) if answer.len() > most => parts.refusal(1, out, counts),
        _ => reference::stock(parts, file, out, counts),
    }
}

// ---- calls that remember

fn with_memory() -> Vec<Named> {
    vec![
        named("the first answer for every stock", remembering(|_| Vec::new())),
        named("the first answer for every stock of as many cameras", remembering(|stock| vec![stock.cameras])),
        named(
            "the first answer for every stock of as many cameras and pairs",
            remembering(|stock| vec![stock.cameras, greatest(stock)]),
        ),
        named("the first answer for every stock of the same fits, whatever is lit", remembering(fits_of)),
        named("the plan remembered for the same fits, whatever is lit", printing(plan_remembered())),
        named("the sheet remembered for as many cameras", printing(sheet_remembered())),
        named("the sheet of the call before", printing(sheet_before())),
        named("the greatest number of all calls in the sheet", printing(never_falling())),
        named("every second printout without its sheet", printing(every_second(|plan, _| plan.to_vec()))),
        named("every second printout without its plan", printing(every_second(|_, sheet| sheet.to_vec()))),
        named("the sheet left out after a refusal", calling(short_after_refusal())),
        named("the size of the printout before told", calling(size_before())),
        named("every second printout not counted", calling(every_second_uncounted())),
        named("question 1 put to the first call alone", calling(first_room_alone())),
        named("the printout behind the one before", calling(behind_the_one_before())),
    ]
}

/// What was printed first for all stocks that are alike in some numbers.
fn remembering(alike: fn(&Stock) -> Vec<usize>) -> Parts {
    let known: RefCell<BTreeMap<Vec<usize>, Vec<u8>>> = RefCell::new(BTreeMap::new());
    printing(move |stock, plan, standing| {
        let right = printout(plan, standing.greatest, &standing.marks);
        known.borrow_mut().entry(alike(stock)).or_insert(right).clone()
    })
}

fn fits_of(stock: &Stock) -> Vec<usize> {
    [stock.cameras].into_iter().chain(stock.fits.iter().flat_map(|(one, other)| [*one, *other])).collect()
}

fn plan_remembered() -> impl Fn(&Stock, &[Pair], &Standing) -> Vec<u8> {
    let known: RefCell<BTreeMap<Vec<usize>, Vec<Pair>>> = RefCell::new(BTreeMap::new());
    move |stock, plan, standing| {
        let mut known = known.borrow_mut();
        printout(known.entry(fits_of(stock)).or_insert(plan.to_vec()), standing.greatest, &standing.marks)
    }
}

fn sheet_remembered() -> impl Fn(&Stock, &[Pair], &Standing) -> Vec<u8> {
    let known: RefCell<BTreeMap<usize, Vec<usize>>> = RefCell::new(BTreeMap::new());
    move |stock, plan, standing| {
        let mut known = known.borrow_mut();
        printout(plan, standing.greatest, known.entry(stock.cameras).or_insert(standing.marks.clone()))
    }
}

/// The first call has its own.
fn sheet_before() -> impl Fn(&Stock, &[Pair], &Standing) -> Vec<u8> {
    let last: RefCell<Option<Vec<u8>>> = RefCell::new(None);
    move |_, plan, standing| {
        let sheet = sheet_file(standing.greatest, &standing.marks);
        let before = last.replace(Some(sheet.clone())).unwrap_or(sheet);
        [plan_file(plan), before].concat()
    }
}

fn never_falling() -> impl Fn(&Stock, &[Pair], &Standing) -> Vec<u8> {
    let most = Cell::new(0);
    move |_, plan, standing| {
        most.set(standing.greatest.max(most.get()));
        printout(plan, most.get(), &standing.marks)
    }
}

/// The halves put together otherwise by every second call.
fn every_second(join: fn(&[u8], &[u8]) -> Vec<u8>) -> impl Fn(&Stock, &[Pair], &Standing) -> Vec<u8> {
    let second = Cell::new(false);
    move |_, plan, standing| {
        let (plan, sheet) = (plan_file(plan), sheet_file(standing.greatest, &standing.marks));
        match second.replace(!second.get()) {
            true => join(&plan, &sheet),
            false => [plan, sheet].concat(),
        }
    }
}

fn short_after_refusal() -> impl Fn(&Parts, &[u8], &mut [u8], &mut Counts) -> Told {
    let refused_before = Cell::new(false);
    move |parts, file, out, counts| match answer_to(parts, file, out.len(), counts) {
        Err(number) => {
            refused_before.set(true);
            refused(number)
        }
        Ok(answer) if refused_before.replace(false) => reference::write(halves(&answer).0, out),
        Ok(answer) => reference::write(&answer, out),
    }
}

fn size_before() -> impl Fn(&Parts, &[u8], &mut [u8], &mut Counts) -> Told {
    let last = Cell::new(None);
    move |parts, file, out, counts| match reference::stock(parts, file, out, counts) {
        Told { number: 0, size } => Told { number: 0, size: last.replace(Some(size)).unwrap_or(size) },
        told => told,
    }
}

fn every_second_uncounted() -> impl Fn(&Parts, &[u8], &mut [u8], &mut Counts) -> Told {
    let second = Cell::new(false);
    move |parts, file, out, counts| {
        let before = *counts;
        let told = reference::stock(parts, file, out, counts);
        if told.number == 0 && second.replace(!second.get()) {
            *counts = before;
        }
        told
    }
}

/// Once a room was large enough, a smaller one is taken where it has the answer.
fn first_room_alone() -> impl Fn(&Parts, &[u8], &mut [u8], &mut Counts) -> Told {
    let asked = Cell::new(false);
    move |parts, file, out, counts| {
        if asked.get() {
            return own_room(parts, file, out, counts);
        }
        asked.set(out.len() >= parts.least_room);
        reference::stock(parts, file, out, counts)
    }
}

/// The first one is where it belongs.
fn behind_the_one_before() -> impl Fn(&Parts, &[u8], &mut [u8], &mut Counts) -> Told {
    let next = Cell::new(0);
    move |parts, file, out, counts| match answer_to(parts, file, out.len(), counts) {
        Err(number) => refused(number),
        Ok(answer) => {
            let start = if next.get() + answer.len() > out.len() { 0 } else { next.get() };
            next.set(start + answer.len());
            out[start..start + answer.len()].copy_from_slice(&answer);
            Told { number: 0, size: answer.len() }
        }
    }
}
