//! The trial against itself; no engine is called.
//!   lines_agree              lines cut at line feeds and bytes read one by one, on every short text
//!   look_ups_agree           a look-up by the places of fits that are equal or larger, and by the number of smaller ones, where fits rise
//!   pairings_agree           all pairings and the blossom algorithm, on small stocks
//!   marks_by_paths_agree     marks by alternating paths from any largest pairing are those by all pairings, on small stocks
//!   printouts_agree          what is taken for a right printout, and every plan and the sheet by all pairings, on small stocks
//!   budgets_agree            document 02's formulas for a budget, and searches run one by one, on small stocks and middling ones; the
//!                            bound of pairs and missing lanes
//!   kept_agree               what is kept by going back through the calls, and the reference engine's list of names; a plan's questions, too
//!   marks_agree              document 01's marks, but 03 for the cameras that no largest pairing has, which are those without a fit
//!   bounds_are_met           on larger stocks: a pairing of the greatest number, and the bound of Tutte and Berge that no pairing exceeds
//!   paths_agree              all regular paths and matchings of arcs, on small graphs
//!   paths_are_found          on larger graphs: a regular path to each reachable node; without one to the source's mate, a barrier
//!   barriers_exclude_paths   a path, or else the canonical barrier

use crate::arc_matching;
use crate::blossom;
use crate::engine::{Fit, KeptCall, Looked, Told};
use crate::exhaustive::texts;
use crate::faults::{failing_plan, stock_for_plans};
use crate::fit_lists::{every_place, long_list, number_of, parted, rises, short_list, sought_in};
use crate::frames::{halves, printout, Pair, Text, CR, GRAPH, LF};
use crate::generate::{
    doubled_table, ear_fits, middling_graph, middling_stock, shuffled_graph, small_graph, small_stock, stock_of,
    stock_with_isolated,
};
use crate::graph_trial::{self, canonical, is_barrier, least_of_parts, mate, regular_end, Graph};
use crate::judge::{shown, shown_fits, Judge, Trial, LEAST_ROOM};
use crate::kept_reference::{read_plan, Calls, Held};
use crate::kept_trial::{self, Past, PLAN_QUESTIONS};
use crate::kept_trials::some_row;
use crate::random::Random;
use crate::reference::{self, Reached};
use crate::stock_trial::{self, all_pairings, includes, is_plan, is_rising_pairing, Stock, ISOLATED};
use crate::truth::{look_up_owed, numbers_within, stock_owed, stock_truth, Numbers, MOST_SEARCHES};

fn compare(judge: &mut Judge, agree: bool, what: &str, file: &[u8]) -> Trial {
    judge.seen.compared += 1;
    if agree {
        Ok(())
    } else {
        Err(format!("{what}\n{}", shown(file)))
    }
}

/// Question 3 by the digits of the line so far, and whether a CR came after them.
fn is_whole(text: &[u8]) -> bool {
    let (mut digits, mut after_return) = (0, false);
    for byte in text {
        match (*byte, after_return) {
            (LF, _) if digits > 0 && digits % 2 == 0 => (digits, after_return) = (0, false),
            (CR, false) => after_return = true,
            (b'0'..=b'9' | b'A'..=b'F', false) => digits += 1,
            _ => return false,
        }
    }
    digits == 0 && !after_return
}

pub fn lines_agree(judge: &mut Judge) -> Trial {
    texts(&[b"0", b"G", b"\r", b"\n"], 8).iter().try_for_each(|text| {
        let agree = Text::of(text).answers(&GRAPH, 3) == is_whole(text);
        compare(judge, agree, "lines cut and bytes read one by one differ", text)
    })
}

/// Where fits rise, the smaller ones stand first: they are looked at, and one more where there is one.
fn by_smaller_fits(fits: &[Fit], sought: Fit) -> Looked {
    let smaller = fits.iter().filter(|fit| number_of(**fit) < number_of(sought)).count();
    Looked { found: fits.contains(&sought), looked: fits.len().min(smaller + 1) as u64 }
}

pub fn look_ups_agree(judge: &mut Judge, files: usize) -> Trial {
    (0..files).try_for_each(|number| {
        let random = &mut judge.random;
        let fits = if number % 50 == 0 { long_list(random) } else { short_list(random) };
        let few = &fits[..fits.len().min(60)];
        let pairs = [sought_in(random, &fits), every_place(few)].concat();
        let agree = rises(&fits) && pairs.iter().all(|sought| look_up_owed(&fits, *sought) == by_smaller_fits(&fits, *sought));
        let (firsts, seconds) = parted(&fits);
        let shown = shown_fits(&firsts, &seconds);
        compare(judge, agree, "places and the number of smaller fits differ", shown.as_bytes())
    })
}

pub fn pairings_agree(judge: &mut Judge, files: usize) -> Trial {
    (0..files).try_for_each(|number| {
        let random = &mut judge.random;
        let stock = if number % 3 == 0 { stock_with_isolated(random) } else { small_stock(random) };
        let agree = blossom::standing(stock.cameras, &stock.fits) == stock_trial::standing(stock.cameras, &stock.fits);
        compare(judge, agree, "all pairings and the blossom algorithm differ", &stock.file())
    })
}

pub fn marks_by_paths_agree(judge: &mut Judge, files: usize) -> Trial {
    (0..files).try_for_each(|number| {
        let random = &mut judge.random;
        let stock = if number % 3 == 0 { stock_with_isolated(random) } else { small_stock(random) };
        let marks = stock_trial::standing(stock.cameras, &stock.fits).marks;
        let agree = largest_pairings(&stock).iter().all(|pairs| blossom::marks_from(stock.cameras, &stock.fits, pairs) == marks);
        compare(judge, agree, "all pairings and alternating paths from a largest one differ", &stock.file())
    })
}

/// Every printout that is right: each largest pairing that keeps the lit cameras, or the lit pairs alone where they are one.
fn right_printouts(stock: &Stock) -> Vec<Vec<u8>> {
    let largest = largest_pairings(stock);
    let marks = stock_trial::standing(stock.cameras, &stock.fits).marks;
    let lit_cameras = |pairs: &[Pair]| stock.lit.iter().all(|(u, v)| includes(pairs, *u) && includes(pairs, *v));
    let is_allowed = |pairs: &&Vec<Pair>| if largest.contains(&stock.lit) { **pairs == stock.lit } else { lit_cameras(pairs) };
    largest.iter().filter(is_allowed).map(|pairs| printout(pairs, pairs.len(), &marks)).collect()
}

/// A printout with one byte changed, left out or put in, with a line left out, repeated or exchanged, and with its halves put together
/// otherwise; and as it is.
fn nearly_right(random: &mut Random, answer: &[u8]) -> Vec<Vec<u8>> {
    let (place, byte) = (random.below(answer.len()), *random.choose(b"0123456789ABCDEF\n\r\0"));
    let (before, after) = (&answer[..place], &answer[place + 1..]);
    let lines: Vec<&[u8]> = answer.split_inclusive(|byte| *byte == LF).collect();
    let (one, other) = (random.below(lines.len()), random.below(lines.len()));
    let mut exchanged = lines.clone();
    exchanged.swap(one, other);
    let (plan, sheet) = halves(answer);
    vec![
        [before, &[byte], after].concat(),
        [before, after].concat(),
        [before, &[byte], &answer[place..]].concat(),
        [&lines[..one], &lines[one + 1..]].concat().concat(),
        [&lines[..one], &lines[one..=one], &lines[one..]].concat().concat(),
        exchanged.concat(),
        [sheet, plan].concat(),
        plan.to_vec(),
        sheet.to_vec(),
        [plan, b"\n", sheet].concat(),
        [plan, sheet, sheet].concat(),
        answer.to_vec(),
    ]
}

pub fn printouts_agree(judge: &mut Judge, files: usize) -> Trial {
    (0..files).try_for_each(|number| {
        let random = &mut judge.random;
        let stock = if number % 3 == 0 { stock_with_isolated(random) } else { small_stock(random) };
        let right = right_printouts(&stock);
        let unlit = right_printouts(&Stock { lit: Vec::new(), ..stock.clone() });
        let others: Vec<Vec<u8>> = right.iter().take(3).flat_map(|answer| nearly_right(random, answer)).collect();
        let file = stock.file();
        let truth = stock_truth(&file);
        let owed = stock_owed(&truth);
        let mut all = right.iter().chain(&unlit).chain(&others);
        let agree = !right.is_empty() && all.all(|answer| (owed.is_right)(answer) == right.contains(answer));
        compare(judge, agree, "a printout is taken that no pairing gives, or one is not taken", &file)
    })
}

/// Each call of a row by both; and a plan file that fails two questions, beside its stock.
pub fn kept_agree(judge: &mut Judge, files: usize) -> Trial {
    let calls = Calls::right();
    (0..files).try_for_each(|number| {
        let random = &mut judge.random;
        let row = some_row(random, 40);
        let (mut past, mut held) = (Past::default(), Held::at_power_on(&calls));
        for call in &row {
            let due = past.due(call);
            let mut out = [0; LEAST_ROOM];
            let room = if let KeptCall::ComeBack(_, room) = call { *room.min(&LEAST_ROOM) } else { 0 };
            let Told { number, size } = call.by(&mut held, call.file(), &mut out[..room]);
            let agree = (number, &out[..size]) == (due.number, &due.answer[..]);
            compare(judge, agree, "going back through the calls and a list of names differ", format!("{call:?}").as_bytes())?;
            past.changes.extend(due.change);
        }
        let first = number % PLAN_QUESTIONS.len();
        let later = judge.random.between(first, PLAN_QUESTIONS.len() - 1);
        let plan = failing_plan(&mut judge.random, &[PLAN_QUESTIONS[first], PLAN_QUESTIONS[later]])?;
        let stock = stock_for_plans();
        let agree = kept_trial::read(&stock, &plan) == read_plan(&stock, &plan);
        compare(judge, agree, "a plan's questions, and those of lit pairs, differ", &plan)
    })
}

pub fn budgets_agree(judge: &mut Judge, files: usize) -> Trial {
    (0..files).try_for_each(|number| {
        let random = &mut judge.random;
        let stock = match number % 6 {
            0 | 3 => stock_with_isolated(random),
            1 => middling_stock(random),
            _ => small_stock(random),
        };
        let greatest = greatest_of(&stock);
        let agree = (0..=MOST_SEARCHES).all(|most| {
            let Reached { pairs, searches, missing } = reference::search(&stock, most);
            let bounded = greatest <= pairs.len() + missing && is_rising_pairing(&stock, &pairs);
            bounded && numbers_within(&stock, greatest, most) == Numbers { pairs: pairs.len(), searches, missing }
        });
        compare(judge, agree, "formulas and searches one by one differ", &stock.file())
    })
}

/// The most cameras of which all pairings are gone through for a budget.
const FEW_CAMERAS: usize = 12;

/// By all pairings, or else by the bound of Tutte and Berge, which no pairing exceeds: one that reaches it is a largest.
fn greatest_of(stock: &Stock) -> usize {
    if stock.cameras <= FEW_CAMERAS {
        return stock_trial::standing(stock.cameras, &stock.fits).greatest;
    }
    let marks = blossom::standing(stock.cameras, &stock.fits).marks;
    bound_without(stock, |camera| marks[camera] == 1)
}

/// Every largest pairing.
fn largest_pairings(stock: &Stock) -> Vec<Vec<Pair>> {
    let mut all = all_pairings(stock.cameras, &stock.fits);
    let greatest = all.iter().map(Vec::len).max().unwrap_or(0);
    all.retain(|pairs| pairs.len() == greatest);
    all
}

/// Document 01's marks, from before L2: 00 for every camera that some largest pairing leaves over.
fn marks_before(stock: &Stock, largest: &[Vec<Pair>]) -> Vec<usize> {
    let left_over = |camera: usize| largest.iter().any(|pairs| !includes(pairs, camera));
    let fits = |one: usize, other: usize| stock.fits.contains(&(one.min(other), one.max(other)));
    let mark = |camera: usize| match left_over(camera) {
        true => 0,
        false if (0..stock.cameras).any(|other| fits(camera, other) && left_over(other)) => 1,
        false => 2,
    };
    (0..stock.cameras).map(mark).collect()
}

pub fn marks_agree(judge: &mut Judge, files: usize) -> Trial {
    (0..files).try_for_each(|number| {
        let random = &mut judge.random;
        let stock = if number % 2 == 0 { stock_with_isolated(random) } else { small_stock(random) };
        let largest = largest_pairings(&stock);
        let marks = stock_trial::standing(stock.cameras, &stock.fits).marks;
        let before = marks_before(&stock, &largest);
        let agree = (0..stock.cameras).all(|camera| match largest.iter().any(|pairs| includes(pairs, camera)) {
            true => marks[camera] == before[camera] && includes(&stock.fits, camera),
            false => marks[camera] == ISOLATED && before[camera] == 0 && !includes(&stock.fits, camera),
        });
        compare(judge, agree, "the marks are not document 01's, or an isolated camera is told otherwise", &stock.file())
    })
}

/// No pairing has more pairs than half of: cameras, plus some cameras, less the odd parts of the stock without those.
fn bound_without(stock: &Stock, taken: impl Fn(usize) -> bool) -> usize {
    let left: Vec<Pair> = stock.fits.iter().copied().filter(|(u, v)| !taken(*u) && !taken(*v)).collect();
    let least = least_of_parts(stock.cameras, &left);
    let mut sizes = vec![0; stock.cameras];
    (0..stock.cameras).filter(|camera| !taken(*camera)).for_each(|camera| sizes[least[camera]] += 1);
    let odd = sizes.iter().filter(|size| **size % 2 == 1).count();
    let number_taken = (0..stock.cameras).filter(|camera| taken(*camera)).count();
    (stock.cameras + number_taken - odd) / 2
}

pub fn bounds_are_met(judge: &mut Judge, files: usize) -> Trial {
    (0..files).try_for_each(|number| {
        let random = &mut judge.random;
        let stock = if number % 10 == 0 { stock_of(127, &ear_fits(random, 127), &[]) } else { middling_stock(random) };
        let standing = blossom::standing(stock.cameras, &stock.fits);
        let found = is_plan(&stock, standing.greatest, &reference::plan(&stock));
        let agree = found && bound_without(&stock, |camera| standing.marks[camera] == 1) == standing.greatest;
        compare(judge, agree, "the greatest number is not reached, or not bounded", &stock.file())
    })
}

pub fn paths_agree(judge: &mut Judge, files: usize) -> Trial {
    (0..files).try_for_each(|_| {
        let graph = small_graph(&mut judge.random);
        let reached = graph_trial::reachable(&graph);
        let agree = arc_matching::reachable(&graph) == reached && paths_lead_to(&graph, &reached);
        compare(judge, agree, "all regular paths and matchings of arcs differ", &graph.file())
    })
}

/// A regular path is found to each node reached, and to no other.
fn paths_lead_to(graph: &Graph, reached: &[bool]) -> bool {
    let others = (0..graph.nodes()).filter(|node| *node != graph.source);
    others.into_iter().all(|node| match arc_matching::path_to(graph, node) {
        Some(arcs) => reached[node] && regular_end(graph, &arcs) == Some(node),
        None => !reached[node],
    })
}

pub fn paths_are_found(judge: &mut Judge, files: usize) -> Trial {
    (0..files).try_for_each(|number| {
        let random = &mut judge.random;
        let graph = if number % 2 == 0 {
            middling_graph(random)
        } else {
            let table = doubled_table(&middling_stock(random));
            shuffled_graph(random, &table)
        };
        let reached = arc_matching::reachable(&graph);
        let barred = is_barrier(&graph, &canonical(&graph, &reached));
        let agree = paths_lead_to(&graph, &reached) && barred != reached[mate(graph.source)];
        compare(judge, agree, "a node reached without a path, or neither path nor barrier", &graph.file())
    })
}

pub fn barriers_exclude_paths(judge: &mut Judge, files: usize) -> Trial {
    (0..files).try_for_each(|_| {
        let graph = small_graph(&mut judge.random);
        let reached = graph_trial::reachable(&graph);
        let barred = is_barrier(&graph, &canonical(&graph, &reached));
        compare(judge, barred != reached[mate(graph.source)], "a path and a barrier, or neither", &graph.file())
    })
}
