//! More engines with one part wrong: in the call that stops after so many searches (document 02, L4). The other calls are right.
//!   engines                each with what is wrong of it
//!   searching, reaching    another search; the right one, and what it reached changed
//!   writing                what was reached written in other frames
//!   calling, granting      another call; the right one with another number of searches
//!   after, telling, counted    the right call, and something done after it, or another number of searches told, or counted otherwise
//!   asking, asked_after    question 15 asked otherwise, or put after one of the stock's
//!   is_answer, is_refusal  what a refusal number, 0 for an answer, tells
//!   greatest, unlit        the greatest number of pairs; a stock without its lit pairs
//!   raise                  a count raised that many times
//! First those that count searches wrongly, then in missing lanes, in where the searches end, in pairs, in frames, in question 15, in the
//! tally and in the buffer.

use crate::blossom::{augment, enlarge, neighbours, pairs, partners, size, Partners};
use crate::engine::{Counts, Searched, Told};
use crate::frames::{budget_file, file, pair_lines, plan_file, Pair, BUDGET, PLAN};
use crate::line_ends::cr_lf;
use crate::reference::{self, Parts, Reached};
use crate::stock_trial::{self, all_pairings, includes, Stock, STOCK_QUESTIONS};
use crate::truth::{MOST_SEARCHES, OVER_BUDGET};
use crate::wrong::{improve_in_tree, named, Named};
use std::cell::{Cell, RefCell};
use std::collections::BTreeMap;

pub fn engines() -> Vec<Named> {
    let mut all = other_searches();
    all.extend(other_fields());
    all.extend(other_missing());
    all.extend(other_ends());
    all.extend(other_starts());
    all.extend(other_pairs());
    all.extend(other_frames());
    all.extend(other_budgets());
    all.extend(other_orders());
    all.extend(other_counts());
    all.extend(other_buffers());
    all.extend(with_memory());
    all.into_iter().map(|(what, engine)| (format!("budget: {what}"), engine)).collect()
}

// ---- how a call is put together

fn searching(search: impl Fn(&Stock, u32) -> Reached + 'static) -> Parts {
    Parts { search: Box::new(search), ..Parts::right() }
}

/// What is rightly reached, changed.
fn reaching(change: impl Fn(&Stock, u32, Reached) -> Reached + 'static) -> Parts {
    searching(move |stock, most| change(stock, most, reference::search(stock, most)))
}

fn writing(text: fn(&Reached) -> Vec<u8>) -> Parts {
    Parts { reached_file: text, ..Parts::right() }
}

fn calling(call: impl Fn(&Parts, &[u8], u32, &mut [u8], &mut Counts) -> Searched + 'static) -> Parts {
    Parts { budget: Box::new(call), ..Parts::right() }
}

/// The right call with another number of searches.
fn granting(granted: fn(u32) -> u32) -> Parts {
    calling(move |parts, file, most, out, counts| reference::budget(parts, file, granted(most), out, counts))
}

/// The right call, and something done after it where its refusal number, 0 for an answer, is one that is meant.
fn after(is_meant: fn(u8) -> bool, done: fn(&mut Searched, &mut [u8])) -> Parts {
    calling(move |parts, file, most, out, counts| {
        let mut searched = reference::budget(parts, file, most, out, counts);
        if is_meant(searched.told.number) {
            done(&mut searched, out);
        }
        searched
    })
}

pub fn is_answer(number: u8) -> bool {
    number == 0
}

pub fn is_refusal(number: u8) -> bool {
    number != 0
}

fn is_over(number: u8) -> bool {
    number == OVER_BUDGET
}

pub fn greatest(stock: &Stock) -> usize {
    reference::plan(stock).len()
}

fn gain(stock: &Stock) -> usize {
    greatest(stock) - stock.lit.len()
}

fn found_none(stock: &Stock, reached: &Reached) -> bool {
    reached.pairs.len() < stock.lit.len() + reached.searches
}

fn left_over(stock: &Stock, pairs: &[Pair]) -> usize {
    stock.cameras - 2 * pairs.len()
}

// ---- searches counted otherwise

/// The right answer with another number of searches, in the header and in the result.
fn numbering(number: impl Fn(&Stock, u32, &Reached) -> usize + 'static) -> Parts {
    reaching(move |stock, most, reached| Reached { searches: number(stock, most, &reached), ..reached })
}

/// The same where one search found none.
fn numbering_at_end(number: fn(&Stock, &Reached) -> usize) -> Parts {
    numbering(move |stock, _, reached| match found_none(stock, reached) {
        true => number(stock, reached),
        false => reached.searches,
    })
}

fn other_searches() -> Vec<Named> {
    vec![
        named("only searches counted that light a lane", numbering(|stock, _, reached| reached.pairs.len() - stock.lit.len())),
        named("one search too many counted", numbering(|_, _, reached| reached.searches + 1)),
        named("one search too few counted", numbering(|_, _, reached| reached.searches.saturating_sub(1))),
        named("as many searches counted as are granted", numbering(|_, most, _| most as usize)),
        named("gain and one more counted, whatever is granted", numbering(|stock, _, _| gain(stock) + 1)),
        named("gain counted, whatever is granted", numbering(|stock, _, _| gain(stock))),
        named("pairs counted as searches", numbering(|_, _, reached| reached.pairs.len())),
        named("one search counted at no budget", numbering(|_, _, reached| reached.searches.max(1))),
        named("the search that finds none counted twice", numbering_at_end(|_, reached| reached.searches + 1)),
        named(
            "the search that finds none not counted where nothing is gained",
            numbering_at_end(|_, reached| if reached.searches == 1 { 0 } else { reached.searches }),
        ),
        named(
            "the search that finds none not counted where something is gained",
            numbering_at_end(|_, reached| if reached.searches == 1 { 1 } else { reached.searches - 1 }),
        ),
        named(
            "no search counted where every camera is lit",
            numbering_at_end(|stock, reached| if 2 * stock.lit.len() == stock.cameras { 0 } else { reached.searches }),
        ),
        named(
            "no search counted where there is no camera",
            numbering_at_end(|stock, reached| if stock.cameras == 0 { 0 } else { reached.searches }),
        ),
        named(
            "no last search counted where one camera is left over",
            numbering_at_end(|stock, reached| reached.searches - usize::from(left_over(stock, &reached.pairs) < 2)),
        ),
        named("each camera searched from counted", numbering(|stock, most, _| cameras_searched_from(stock, most))),
        named("at most 63 searches counted", numbering(|_, _, reached| reached.searches.min(63))),
    ]
}

fn cameras_searched_from(stock: &Stock, most: u32) -> usize {
    let lists = neighbours(stock.cameras, &stock.fits);
    let mut partner = partners(stock.cameras, &stock.lit);
    let (mut from, mut lit) = (0, 0);
    for root in 0..stock.cameras {
        if lit < most && partner[root].is_none() {
            from += 1;
            lit += u32::from(augment(&lists, &mut partner, root).is_ok());
        }
    }
    from
}

// ---- another number of searches in the result than in the header

/// The right call with another number of searches in its result, by the number that is granted.
fn telling(is_meant: fn(u8) -> bool, number: fn(u32, &Searched) -> u64) -> Parts {
    calling(move |parts, file, most, out, counts| {
        let searched = reference::budget(parts, file, most, out, counts);
        let searches = if is_meant(searched.told.number) { number(most, &searched) } else { searched.searches };
        Searched { searches, ..searched }
    })
}

fn other_fields() -> Vec<Named> {
    vec![
        named("no searches in the result", telling(is_answer, |_, _| 0)),
        named("the budget in the result", telling(is_answer, |most, _| u64::from(most))),
        named("one search too many in the result", telling(is_answer, |_, searched| searched.searches + 1)),
        named("the size in place of the searches in the result", telling(is_answer, |_, searched| searched.told.size as u64)),
        named("no searches in the header", writing(|reached| budget_file(&reached.pairs, 0, reached.missing))),
        named(
            "the pairs in place of the searches in the header",
            writing(|reached| budget_file(&reached.pairs, reached.pairs.len(), reached.missing)),
        ),
        named("one search in a refusal", telling(is_refusal, |_, _| 1)),
        named("the budget in a refusal", telling(is_refusal, |most, _| u64::from(most))),
        named("the budget in a refusal by 15", telling(is_over, |most, _| u64::from(most))),
    ]
}

// ---- other lanes missing

/// The right answer with another number of missing lanes.
fn missing(number: impl Fn(&Stock, u32, &Reached) -> usize + 'static) -> Parts {
    reaching(move |stock, most, reached| Reached { missing: number(stock, most, &reached), ..reached })
}

/// The same where no search found none.
fn missing_before_end(number: fn(&Stock, &Reached) -> usize) -> Parts {
    missing(move |stock, _, reached| if found_none(stock, reached) { 0 } else { number(stock, reached) })
}

fn other_missing() -> Vec<Named> {
    vec![
        named("lanes missing after a search that found none", missing(|stock, _, reached| left_over(stock, &reached.pairs) / 2)),
        named(
            "lanes missing after a search that found none, where something was gained",
            missing(|stock, _, reached| if gain(stock) > 0 { left_over(stock, &reached.pairs) / 2 } else { reached.missing }),
        ),
        named(
            "lanes missing after a search that found none, where nothing was gained",
            missing(|stock, _, reached| {
                if reached.searches == 1 && gain(stock) == 0 {
                    left_over(stock, &reached.pairs) / 2
                } else {
                    reached.missing
                }
            }),
        ),
        named(
            "lanes missing after a last search that found none",
            missing(
                |stock, most, reached| if reached.searches == most as usize { left_over(stock, &reached.pairs) / 2 } else { 0 },
            ),
        ),
        named(
            "no lanes missing where the pairing is largest",
            missing(|stock, _, reached| if reached.pairs.len() == greatest(stock) { 0 } else { reached.missing }),
        ),
        named("missing lanes rounded up", missing_before_end(|stock, reached| left_over(stock, &reached.pairs).div_ceil(2))),
        named(
            "cameras left over in place of missing lanes",
            missing_before_end(|stock, reached| left_over(stock, &reached.pairs)),
        ),
        named("missing lanes by the cameras unlit before", missing_before_end(|stock, _| left_over(stock, &stock.lit) / 2)),
        named("missing lanes by the lit cameras", missing_before_end(|_, reached| reached.pairs.len())),
        named("missing lanes exact", missing(|stock, _, reached| greatest(stock) - reached.pairs.len())),
        named("never a lane missing", missing(|_, _, _| 0)),
        named("no lane missing at no budget", missing(|_, most, reached| if most == 0 { 0 } else { reached.missing })),
        named("missing lanes by the cameras left over that have a fit", missing_before_end(left_over_with_a_fit)),
        named("at most 62 lanes missing", missing(|_, _, reached| reached.missing.min(62))),
        named("one lane less missing", missing(|_, _, reached| reached.missing.saturating_sub(1))),
        named("pairs and missing lanes together", missing_before_end(|stock, _| stock.cameras / 2)),
    ]
}

fn left_over_with_a_fit(stock: &Stock, reached: &Reached) -> usize {
    let is_one = |camera: &usize| !includes(&reached.pairs, *camera) && includes(&stock.fits, *camera);
    (0..stock.cameras).filter(is_one).count() / 2
}

// ---- searches that end elsewhere

fn other_ends() -> Vec<Named> {
    vec![
        named("one search too many run", searching(|stock, most| reference::search(stock, most + 1))),
        named("one search too many run, and not counted", searching(one_too_many)),
        named("one search too few run", searching(|stock, most| reference::search(stock, most.saturating_sub(1)))),
        named("one search too few run, and counted", searching(one_too_few)),
        named("the plan for every budget", reaching(|stock, _, reached| Reached { pairs: reference::plan(stock), ..reached })),
        named("the plan for every budget, and its numbers", searching(|stock, _| reference::search(stock, MOST_SEARCHES))),
        named(
            "the plan for every budget but 0",
            searching(|stock, most| reference::search(stock, if most == 0 { 0 } else { MOST_SEARCHES })),
        ),
        named("the lit pairs for every budget", reaching(|stock, _, reached| Reached { pairs: stock.lit.clone(), ..reached })),
        named(
            "no budget taken for no bound",
            searching(|stock, most| reference::search(stock, if most == 0 { MOST_SEARCHES } else { most })),
        ),
        named("no budget taken for one search", searching(|stock, most| reference::search(stock, most.max(1)))),
        named("64 searches taken for none", searching(|stock, most| reference::search(stock, most % 64))),
        named("one search at most", searching(|stock, most| reference::search(stock, most.min(1)))),
        named("32 searches at most", searching(|stock, most| reference::search(stock, most.min(32)))),
        named("62 searches at most", searching(|stock, most| reference::search(stock, most.min(62)))),
        named("63 searches at most", searching(|stock, most| reference::search(stock, most.min(63)))),
        named("a search that goes on after one that found none", searching(searches_go_on)),
        named(
            "a budget of lit pairs, those before among them",
            searching(|stock, most| reference::search(stock, most.saturating_sub(stock.lit.len() as u32))),
        ),
    ]
}

fn one_too_many(stock: &Stock, most: u32) -> Reached {
    Reached { pairs: reference::search(stock, most + 1).pairs, ..reference::search(stock, most) }
}

fn one_too_few(stock: &Stock, most: u32) -> Reached {
    Reached { pairs: reference::search(stock, most.saturating_sub(1)).pairs, ..reference::search(stock, most) }
}

/// Searches that find none are run, and counted, up to the budget.
fn searches_go_on(stock: &Stock, most: u32) -> Reached {
    let reached = reference::search(stock, most);
    Reached { searches: if found_none(stock, &reached) { most as usize } else { reached.searches }, ..reached }
}

// ---- searches that start elsewhere, or search otherwise

/// Searches one by one, each by a function that tells whether it lit one more.
fn one_by_one(stock: &Stock, most: u32, mut lights: impl FnMut(&[Vec<usize>], &mut Partners) -> bool) -> Reached {
    let lists = neighbours(stock.cameras, &stock.fits);
    let mut partner = partners(stock.cameras, &stock.lit);
    let (mut searches, mut found) = (0, true);
    while found && searches < most as usize {
        searches += 1;
        found = lights(&lists, &mut partner);
    }
    let pairs = pairs(&partner);
    let missing = if found { left_over(stock, &pairs) / 2 } else { 0 };
    Reached { pairs, searches, missing }
}

fn other_starts() -> Vec<Named> {
    vec![
        named("a search from the first unlit camera alone", searching(from_first)),
        named("a search from the last unlit camera alone", searching(from_last)),
        named("a search from each unlit camera in turn", searching(from_each)),
        named("a search that never comes back to a camera visited", searching(without_blossoms)),
        named("a search for two unlit cameras that fit", searching(without_swaps)),
        named("a search that lights all it can", searching(all_at_once)),
        named("a search that starts with no pair lit", searching(|stock, most| reference::search(&unlit(stock), most))),
        named("a search that starts with no pair lit, as far as the budget and the lit pairs go", searching(from_none)),
        named("a search that starts with all fits lit that leave each other free", searching(from_greedy)),
    ]
}

fn is_lit_from(lists: &[Vec<usize>], partner: &mut Partners, root: Option<usize>) -> bool {
    root.is_some_and(|root| augment(lists, partner, root).is_ok())
}

fn from_first(stock: &Stock, most: u32) -> Reached {
    one_by_one(stock, most, |lists, partner| is_lit_from(lists, partner, partner.iter().position(Option::is_none)))
}

fn from_last(stock: &Stock, most: u32) -> Reached {
    one_by_one(stock, most, |lists, partner| is_lit_from(lists, partner, partner.iter().rposition(Option::is_none)))
}

/// A camera from which no path leads ends the searches only where it is the last.
fn from_each(stock: &Stock, most: u32) -> Reached {
    let mut next = 0;
    one_by_one(stock, most, move |lists, partner| {
        let root = (next..partner.len()).find(|camera| partner[*camera].is_none());
        next = root.map_or(partner.len(), |root| root + 1);
        let _ = is_lit_from(lists, partner, root);
        root.is_some()
    })
}

fn without_blossoms(stock: &Stock, most: u32) -> Reached {
    one_by_one(stock, most, |lists, partner| {
        let before = size(partner);
        for root in 0..partner.len() {
            if size(partner) == before && partner[root].is_none() {
                improve_in_tree(lists, partner, root);
            }
        }
        size(partner) > before
    })
}

/// Lit pairs are never swapped for others.
fn without_swaps(stock: &Stock, most: u32) -> Reached {
    one_by_one(stock, most, |_, partner| {
        let free = stock.fits.iter().find(|fit| partner[fit.0].is_none() && partner[fit.1].is_none());
        if let Some((one, other)) = free {
            partner[*one] = Some(*other);
            partner[*other] = Some(*one);
        }
        free.is_some()
    })
}

fn all_at_once(stock: &Stock, most: u32) -> Reached {
    one_by_one(stock, most, |lists, partner| {
        let before = size(partner);
        enlarge(lists, partner);
        size(partner) > before
    })
}

pub fn unlit(stock: &Stock) -> Stock {
    Stock { lit: Vec::new(), ..stock.clone() }
}

/// As many pairs as are owed, of which lit cameras may be left over.
fn from_none(stock: &Stock, most: u32) -> Reached {
    let reached = reference::search(stock, most);
    Reached { pairs: reference::search(&unlit(stock), reached.pairs.len() as u32).pairs, ..reached }
}

fn from_greedy(stock: &Stock, most: u32) -> Reached {
    let mut lit = stock.lit.clone();
    for (one, other) in &stock.fits {
        if !includes(&lit, *one) && !includes(&lit, *other) {
            lit.push((*one, *other));
        }
    }
    reference::search(&Stock { lit, ..stock.clone() }, most)
}

// ---- other pairs

/// The right answer with other pairs.
fn pairing(change: impl Fn(&Stock, u32, Vec<Pair>) -> Vec<Pair> + 'static) -> Parts {
    reaching(move |stock, most, reached| Reached { pairs: change(stock, most, reached.pairs), ..reached })
}

fn other_pairs() -> Vec<Named> {
    vec![
        named("the lit pairs lost at no budget", pairing(|_, most, pairs| if most == 0 { Vec::new() } else { pairs })),
        named(
            "another pairing at no budget",
            pairing(|stock, most, pairs| if most == 0 { other_pairing(stock, pairs) } else { pairs }),
        ),
        named(
            "another pairing where nothing is gained",
            pairing(|stock, _, pairs| if pairs == stock.lit { other_pairing(stock, pairs) } else { pairs }),
        ),
        named(
            "another largest pairing where nothing is to be gained",
            pairing(|stock, most, pairs| if most > 0 && gain(stock) == 0 { other_pairing(stock, pairs) } else { pairs }),
        ),
        named("a lit camera left over", pairing(lit_camera_left_over)),
        named("pairs in falling order", pairing(|_, _, pairs| pairs.into_iter().rev().collect())),
        named("pairs by their second cameras", pairing(|_, _, pairs| by_second(pairs))),
        named("the larger camera first", pairing(|_, _, pairs| pairs.iter().map(|(one, other)| (*other, *one)).collect())),
        named("the pairs gained behind those that were lit", pairing(|stock, _, pairs| gained_last(stock, pairs))),
        named(
            "the pairs gained alone",
            pairing(|stock, _, pairs| pairs.into_iter().filter(|pair| !stock.lit.contains(pair)).collect()),
        ),
        named("the last pair left out", pairing(|_, _, pairs| pairs.split_last().map_or(Vec::new(), |(_, rest)| rest.to_vec()))),
        named("the last pair written twice", pairing(|_, _, pairs| pairs.iter().chain(pairs.last()).copied().collect())),
        named("a pair that is no fit", pairing(|stock, _, pairs| unfit_added(stock, pairs))),
        named("a pair more where two cameras are left over", pairing(left_over_paired)),
        named("a camera in two pairs", pairing(|stock, _, pairs| camera_twice(stock, pairs))),
        named("at most 62 pairs", pairing(|_, _, pairs| pairs.into_iter().take(62).collect())),
    ]
}

/// Where there is one: the same number of pairs, every lit camera in one, and other pairs.
fn other_pairing(stock: &Stock, pairs: Vec<Pair>) -> Vec<Pair> {
    if stock.cameras > 8 {
        return pairs;
    }
    let is_one = |other: &Vec<Pair>| *other != pairs && other.len() == pairs.len() && keeps_lit(stock, other);
    all_pairings(stock.cameras, &stock.fits).into_iter().find(is_one).unwrap_or(pairs)
}

fn keeps_lit(stock: &Stock, pairs: &[Pair]) -> bool {
    stock.lit.iter().all(|(one, other)| includes(pairs, *one) && includes(pairs, *other))
}

/// Where there is one: as many pairs, and more than the lit ones, but not every lit camera in one.
fn lit_camera_left_over(stock: &Stock, _: u32, pairs: Vec<Pair>) -> Vec<Pair> {
    if stock.cameras > 8 || pairs == stock.lit {
        return pairs;
    }
    let is_one = |other: &Vec<Pair>| other.len() == pairs.len() && !keeps_lit(stock, other);
    all_pairings(stock.cameras, &stock.fits).into_iter().find(is_one).unwrap_or(pairs)
}

fn by_second(mut pairs: Vec<Pair>) -> Vec<Pair> {
    pairs.sort_unstable_by_key(|(one, other)| (*other, *one));
    pairs
}

fn gained_last(stock: &Stock, pairs: Vec<Pair>) -> Vec<Pair> {
    let (kept, gained): (Vec<Pair>, Vec<Pair>) = pairs.into_iter().partition(|pair| stock.lit.contains(pair));
    [kept, gained].concat()
}

/// Another second camera for the last pair, where the two do not fit.
fn unfit_added(stock: &Stock, mut pairs: Vec<Pair>) -> Vec<Pair> {
    let free = (0..stock.cameras).rev().find(|camera| !includes(&pairs, *camera));
    if let (Some(last), Some(free)) = (pairs.last_mut(), free) {
        if free > last.0 && !stock.fits.contains(&(last.0, free)) {
            last.1 = free;
        }
    }
    pairs
}

/// Two cameras that no pair has, whether they fit or not, in the place of no search.
fn left_over_paired(stock: &Stock, most: u32, pairs: Vec<Pair>) -> Vec<Pair> {
    let free: Vec<usize> = (0..stock.cameras).filter(|camera| !includes(&pairs, *camera)).collect();
    match free[..] {
        [one, other, ..] if most > 0 => {
            let mut more = [&pairs[..], &[(one, other)]].concat();
            more.sort_unstable();
            more
        }
        _ => pairs,
    }
}

/// A fit of a camera that is in the pair before, in the place of the last pair.
fn camera_twice(stock: &Stock, mut pairs: Vec<Pair>) -> Vec<Pair> {
    if let [.., before, last] = &mut pairs[..] {
        let again = stock.fits.iter().find(|fit| *fit > before && (fit.0 == before.0 || fit.0 == before.1));
        *last = *again.unwrap_or(last);
    }
    pairs
}

// ---- other frames

fn other_frames() -> Vec<Named> {
    vec![
        named("51 in place of 61", writing(|reached| with_header(reached, "51"))),
        named("5F in place of 6F", writing(|reached| framed(reached, "61", 0x52, PLAN.end))),
        named("the plan's frames", writing(|reached| plan_file(&reached.pairs))),
        named("41 in place of 61", writing(|reached| with_header(reached, "41"))),
        named("62 in place of 52", writing(|reached| framed(reached, "61", 0x62, BUDGET.end))),
        named("12 in place of 52", writing(|reached| framed(reached, "61", 0x12, BUDGET.end))),
        named(
            "searches and missing lanes swapped",
            writing(|reached| budget_file(&reached.pairs, reached.missing, reached.searches)),
        ),
        named(
            "searches before pairs",
            writing(|reached| {
                lines(reached, format!("61{:02X}{:02X}{:02X}", reached.searches, reached.pairs.len(), reached.missing))
            }),
        ),
        named(
            "no missing lanes in the header",
            writing(|reached| lines(reached, format!("61{:02X}{:02X}", reached.pairs.len(), reached.searches))),
        ),
        named(
            "header in base ten",
            writing(|reached| {
                lines(reached, format!("61{:02}{:02}{:02}", reached.pairs.len(), reached.searches, reached.missing))
            }),
        ),
        named(
            "header in small digits",
            writing(|reached| {
                lines(reached, format!("61{:02x}{:02x}{:02x}", reached.pairs.len(), reached.searches, reached.missing))
            }),
        ),
        named("end frame in base ten", writing(|reached| counting(reached, format!("{:04}", reached.pairs.len())))),
        named(
            "every line counted in the end frame",
            writing(|reached| counting(reached, format!("{:04X}", reached.pairs.len() + 2))),
        ),
        named(
            "one pair too few counted in the end frame",
            writing(|reached| counting(reached, format!("{:04X}", reached.pairs.len().saturating_sub(1)))),
        ),
        named("searches counted in the end frame", writing(|reached| counting(reached, format!("{:04X}", reached.searches)))),
        named("no count in the end frame", writing(|reached| counting(reached, "0000".to_string()))),
        named("two digits in the end frame", writing(|reached| counting(reached, format!("{:02X}", reached.pairs.len())))),
        named("no end frame", writing(without_end)),
        named("the plan's number in the header, with fewer lines", Parts { budget: Box::new(plan_numbered), ..Parts::right() }),
    ]
}

/// The frames with another header.
fn lines(reached: &Reached, header: String) -> Vec<u8> {
    file(&header, &pair_lines(BUDGET.bodies[0], &reached.pairs), BUDGET.end)
}

fn numbers(reached: &Reached) -> String {
    format!("{:02X}{:02X}{:02X}", reached.pairs.len(), reached.searches, reached.missing)
}

fn framed(reached: &Reached, kind: &str, body: u8, end: u8) -> Vec<u8> {
    file(&format!("{kind}{}", numbers(reached)), &pair_lines(body, &reached.pairs), end)
}

fn with_header(reached: &Reached, kind: &str) -> Vec<u8> {
    framed(reached, kind, BUDGET.bodies[0], BUDGET.end)
}

/// The bytes of an end frame with its line feed.
const END_BYTES: usize = 7;

fn without_end(reached: &Reached) -> Vec<u8> {
    let text = with_header(reached, "61");
    text[..text.len() - END_BYTES].to_vec()
}

fn counting(reached: &Reached, count: String) -> Vec<u8> {
    [without_end(reached), format!("{:02X}{count}\n", BUDGET.end).into_bytes()].concat()
}

fn plan_numbered(parts: &Parts, file: &[u8], most: u32, out: &mut [u8], counts: &mut Counts) -> Searched {
    let searched = reference::budget(parts, file, most, out, counts);
    if let (0, Ok(stock)) = (searched.told.number, stock_trial::read(file)) {
        out[2..4].copy_from_slice(format!("{:02X}", greatest(&stock)).as_bytes());
    }
    searched
}

// ---- question 15

fn other_budgets() -> Vec<Named> {
    vec![
        named("64 searches refused", asking(|most| most < 64)),
        named("63 searches refused", asking(|most| most < 63)),
        named("no search refused", asking(|most| most > 0)),
        named("65 searches granted", asking(|most| most <= 65)),
        named("127 searches granted", asking(|most| most <= 127)),
        named("255 searches granted", asking(|most| most <= 255)),
        named("any budget granted", asking(|_| true)),
        named("a budget above 64 taken for 64", granting(|most| most.min(MOST_SEARCHES))),
        named("a budget taken by its lowest byte", granting(|most| most % 256)),
        named("a budget taken by its lowest two bytes", granting(|most| most % 65_536)),
        named("a budget taken by its lowest seven bits", granting(|most| most % 128)),
        named("a budget taken with a sign", granting(|most| if most > i32::MAX as u32 { 0 } else { most })),
        named("a budget of four full bytes taken for none", granting(|most| most.wrapping_add(1).saturating_sub(1))),
        named("14 in place of 15", renumbered(14)),
        named("16 in place of 15", renumbered(16)),
        named("2 in place of 15", renumbered(2)),
        named("21 in place of 15", renumbered(0x15)),
    ]
}

/// Question 15 asked otherwise.
fn asking(granted: fn(u32) -> bool) -> Parts {
    calling(move |parts, file, most, out, counts| {
        if out.len() >= parts.least_room && !granted(most) {
            return refused(parts, OVER_BUDGET, out, counts);
        }
        reference::budget(parts, file, most.min(MOST_SEARCHES), out, counts)
    })
}

fn refused(parts: &Parts, number: u8, out: &mut [u8], counts: &mut Counts) -> Searched {
    Searched { told: parts.refusal(number, out, counts), searches: 0 }
}

fn renumbered(number: u8) -> Parts {
    calling(move |parts, file, most, out, counts| {
        let searched = reference::budget(parts, file, most, out, counts);
        match searched.told.number {
            OVER_BUDGET => Searched { told: Told { number, ..searched.told }, ..searched },
            _ => searched,
        }
    })
}

/// Question 15 put before 1, or after one of the stock's.
fn other_orders() -> Vec<Named> {
    let mut all = vec![named("question 15 put before 1", calling(asked_first))];
    all.extend(STOCK_QUESTIONS.map(|question| (format!("question 15 put after {question}"), asked_after(question))));
    all
}

fn asked_first(parts: &Parts, file: &[u8], most: u32, out: &mut [u8], counts: &mut Counts) -> Searched {
    if most > MOST_SEARCHES {
        return refused(parts, OVER_BUDGET, out, counts);
    }
    reference::budget(parts, file, most, out, counts)
}

fn asked_after(question: u8) -> Parts {
    calling(move |parts, file, most, out, counts| match stock_trial::read(file) {
        Err(number) if number <= question && out.len() >= parts.least_room => refused(parts, number, out, counts),
        _ => reference::budget(parts, file, most, out, counts),
    })
}

// ---- the tally

pub fn raise(count: &mut u32, times: u32) {
    *count = count.saturating_add(times);
}

/// The right call, counted otherwise where its refusal number, 0 for an answer, is one that is meant.
fn counted(is_meant: fn(u8) -> bool, count: fn(&Searched, &mut Counts)) -> Parts {
    calling(move |parts, file, most, out, counts| {
        let before = *counts;
        let searched = reference::budget(parts, file, most, out, counts);
        if is_meant(searched.told.number) {
            *counts = before;
            count(&searched, counts);
        }
        searched
    })
}

fn other_counts() -> Vec<Named> {
    vec![
        named("refusals by 15 not counted", counted(is_over, |_, _| ())),
        named("refusals by 15 counted as stocks", counted(is_over, |_, counts| raise(&mut counts.stocks, 1))),
        named("refusals by 15 counted twice", counted(is_over, |_, counts| raise(&mut counts.refusals, 2))),
        named("refusals by 1 not counted", counted(|number| number == 1, |_, _| ())),
        named("refusals of budgets not counted", counted(is_refusal, |_, _| ())),
        named("answers not counted", counted(is_answer, |_, _| ())),
        named("answers counted twice", counted(is_answer, |_, counts| raise(&mut counts.stocks, 2))),
        named("answers counted as paths", counted(is_answer, |_, counts| raise(&mut counts.paths, 1))),
        named("answers counted as barriers", counted(is_answer, |_, counts| raise(&mut counts.barriers, 1))),
        named("answers counted as refusals", counted(is_answer, |_, counts| raise(&mut counts.refusals, 1))),
        named(
            "each search counted as a stock answer",
            counted(is_answer, |searched, counts| raise(&mut counts.stocks, searched.searches as u32)),
        ),
        named(
            "answers without a search not counted",
            counted(is_answer, |searched, counts| raise(&mut counts.stocks, searched.searches.min(1) as u32)),
        ),
        named("a count of answers that wraps", counted(is_answer, |_, counts| counts.stocks = counts.stocks.wrapping_add(1))),
        named(
            "a count of refusals that wraps",
            counted(is_refusal, |_, counts| counts.refusals = counts.refusals.wrapping_add(1)),
        ),
    ]
}

// ---- the buffer

fn other_buffers() -> Vec<Named> {
    vec![
        named("refusals by 15 that write their line", after(is_over, |_, out| out[..5].copy_from_slice(b"7E0F\n"))),
        named(
            "refusals that clear the first byte",
            after(is_refusal, |_, out| out.iter_mut().take(1).for_each(|byte| *byte = 0)),
        ),
        named("refusals by 15 with a size", after(is_over, |searched, _| searched.told.size = 5)),
        named("the byte behind the answer cleared", after(is_answer, |searched, out| out[searched.told.size] = 0)),
        named("the rest of the buffer cleared", after(is_answer, |searched, out| out[searched.told.size..].fill(0))),
        named("the answer one byte further on", after(is_answer, |searched, out| out.copy_within(..searched.told.size, 1))),
        named("the answer without its last line feed", after(is_answer, |searched, _| searched.told.size -= 1)),
        named("answers with CR LF", writing(|reached| cr_lf(&with_header(reached, "61")))),
        named("a room of 2,047 granted", with_room(2_047)),
        named("a room of 512 granted", with_room(512)),
        named("a room of 2,048 refused", with_room(2_049)),
    ]
}

/// The right call where question 1 asks for other room.
fn with_room(least_room: usize) -> Parts {
    calling(move |_, file, most, out, counts| reference::budget(&Parts { least_room, ..Parts::right() }, file, most, out, counts))
}

// ---- calls that remember

fn with_memory() -> Vec<Named> {
    vec![
        named("searches counted on from the last call", numbering(counted_on())),
        named("what was reached remembered for the same stock", reaching(remembered())),
        named("a pairing carried on from the last call with the same fits", searching(carried_on())),
    ]
}

fn counted_on() -> impl Fn(&Stock, u32, &Reached) -> usize {
    let before = Cell::new(0);
    move |_, _, reached| {
        let sum = (before.get() + reached.searches) % 256;
        before.set(sum);
        sum
    }
}

fn remembered() -> impl Fn(&Stock, u32, Reached) -> Reached {
    let known: RefCell<BTreeMap<Vec<u8>, u32>> = RefCell::new(BTreeMap::new());
    move |stock, most, _| {
        let first = *known.borrow_mut().entry(stock.file()).or_insert(most);
        reference::search(stock, first)
    }
}

/// Where it has every lit camera and as many pairs as are lit, it is where the searches start.
fn carried_on() -> impl Fn(&Stock, u32) -> Reached {
    let last: RefCell<Stock> = RefCell::new(Stock { cameras: 0, fits: Vec::new(), lit: Vec::new() });
    move |stock, most| {
        let before = last.borrow().clone();
        let goes_on = before.cameras == stock.cameras && before.fits == stock.fits && keeps_lit(stock, &before.lit);
        let start = if goes_on { before } else { stock.clone() };
        let reached = reference::search(&start, most);
        *last.borrow_mut() = Stock { lit: reached.pairs.clone(), ..stock.clone() };
        reached
    }
}
