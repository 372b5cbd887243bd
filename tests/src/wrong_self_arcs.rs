//! More engines with one part wrong: in question 16, which refuses self arcs: arcs from a node to itself (document 02, L5).
//!   engines                each with what is wrong of it
//!   reading, refusing      another reader of graphs; the right one with another question in the place of 16
//!   at_places, at_nodes    self arcs refused where they stand at a place, or at a node, that is meant
//!   numbered, ordered      the question with another number, or put elsewhere
//!   calling, checking      another graph call, another check
//! First those that ask other arcs, or for other arcs, then those that tell it otherwise or put it elsewhere, then those that answer, then
//! those in one of the calls alone, in the tally, in the buffer, in line ends, those that remember, and those in other files.

use crate::engine::{Counts, Told, Verdict};
use crate::frames::{Pair, Text, CR, LF};
use crate::graph_trial::{
    self, is_self_arc, mate, mate_of, read_certificate, read_in_order, Certificate, Graph, GRAPH_QUESTIONS, SELF_ARC,
};
use crate::line_ends::{ends_of, Ends};
use crate::reference::{self, GraphAnswer, Parts};
use crate::stock_trial::{self, any_twice, Stock};
use crate::wrong::{named, Named};
use crate::wrong_budgets::raise;
use std::cell::Cell;

pub fn engines() -> Vec<Named> {
    let mut all = other_places();
    all.extend(other_numbers_of_them());
    all.extend(other_mates());
    all.extend(other_nodes());
    all.extend(other_arcs());
    all.extend(other_numbers());
    all.extend(other_orders());
    all.extend(answered());
    all.extend(in_one_call());
    all.extend(in_the_check());
    all.extend(other_counts());
    all.extend(other_buffers());
    all.extend(other_line_ends());
    all.extend(with_memory());
    all.extend(of_other_files());
    all.into_iter().map(|(what, engine)| (format!("self arcs: {what}"), engine)).collect()
}

// ---- how a reader is put together

type Read = Result<Graph, u8>;

fn reading(read: impl Fn(&[u8]) -> Read + 'static) -> Parts {
    Parts { read_graph: Box::new(read), ..Parts::right() }
}

/// The questions before 16 as they are, then another in its place, which may have another number, then 10.
fn read_asking(file: &[u8], number: u8, refuses: impl Fn(&Graph) -> bool) -> Read {
    let [before @ .., _, _] = GRAPH_QUESTIONS;
    let graph = read_in_order(file, &before)?;
    if refuses(&graph) {
        return Err(number);
    }
    read_in_order(file, &[10])
}

fn refusing(refuses: impl Fn(&Graph) -> bool + 'static) -> Parts {
    reading(move |file| read_asking(file, SELF_ARC, &refuses))
}

fn unasked(file: &[u8]) -> Read {
    read_asking(file, SELF_ARC, |_| false)
}

fn any(graph: &Graph, test: impl Fn(&Pair) -> bool) -> bool {
    graph.arcs.iter().any(test)
}

/// The places of self arcs.
fn places(graph: &Graph) -> Vec<usize> {
    (0..graph.arcs.len()).filter(|place| is_self_arc(&graph.arcs[*place])).collect()
}

// ---- other arcs asked

/// Told by the place of an arc, and the number of arcs.
fn at_places(is_meant: fn(usize, usize) -> bool) -> Parts {
    refusing(move |graph| places(graph).iter().any(|place| is_meant(*place, graph.arcs.len())))
}

fn other_places() -> Vec<Named> {
    vec![
        named("never refused", reading(unasked)),
        named("only even-numbered arcs asked", at_places(|place, _| place % 2 == 0)),
        named("only odd-numbered arcs asked", at_places(|place, _| place % 2 == 1)),
        named("only the first arc asked", at_places(|place, _| place == 0)),
        named("only the last arc asked", at_places(|place, all| place + 1 == all)),
        named("only the first two arcs asked", at_places(|place, _| place < 2)),
        named("only the last two arcs asked", at_places(|place, all| place + 2 >= all)),
        named("all arcs asked but the first", at_places(|place, _| place > 0)),
        named("all arcs asked but the last", at_places(|place, all| place + 1 < all)),
        named("all arcs asked but the first two", at_places(|place, _| place > 1)),
        named("all arcs asked but the last two", at_places(|place, all| place + 2 < all)),
        named("only the first and the last arc asked", at_places(|place, all| place == 0 || place + 1 == all)),
        named("only the first 255 arcs asked", at_places(|place, _| place < 255)),
        named("only the first 256 arcs asked", at_places(|place, _| place < 256)),
        named("only the first 4,096 arcs asked", at_places(|place, _| place < 4_096)),
        named("all arcs asked but the first 4,096", at_places(|place, all| place >= 4_096 || all <= 4_096)),
        named("only the first 8,190 arcs asked", at_places(|place, _| place < 8_190)),
        named("only the first half of the arcs asked", at_places(|place, all| 2 * place < all)),
    ]
}

/// Told by the number of self arcs, and of arcs.
fn of_number(is_meant: fn(usize, usize) -> bool) -> Parts {
    refusing(move |graph| graph.has_self_arcs() && is_meant(places(graph).len(), graph.arcs.len()))
}

fn other_numbers_of_them() -> Vec<Named> {
    vec![
        named("one alone taken", of_number(|number, _| number > 1)),
        named("two taken", of_number(|number, _| number != 2)),
        named("more than two taken", of_number(|number, _| number <= 2)),
        named("an even number of them taken", of_number(|number, _| number % 2 == 1)),
        named("taken where every arc is one", of_number(|number, all| number < all)),
        named("refused only where every arc is one", of_number(|number, all| number == all)),
        named("not asked of two arcs", of_number(|_, all| all > 2)),
        named("asked of two arcs alone", of_number(|_, all| all == 2)),
    ]
}

// ---- the mate's line

/// Told by the self arc, and the other line of the same two.
fn by_mate(is_meant: fn(usize, Pair, Pair) -> bool) -> Parts {
    refusing(move |graph| places(graph).iter().any(|place| is_meant(*place, graph.arcs[*place], graph.arcs[mate(*place)])))
}

fn other_mates() -> Vec<Named> {
    vec![
        named("refused only with their mates", by_mate(|_, own, other| other == mate_of(own))),
        named("refused only without their mates", by_mate(|_, own, other| other != mate_of(own))),
        named("refused only where both lines are one", by_mate(|_, _, other| is_self_arc(&other))),
        named("refused only where one line alone is one", by_mate(|_, _, other| !is_self_arc(&other))),
        named("refused only before their mates", by_mate(|place, own, other| place % 2 == 0 && other == mate_of(own))),
        named("refused only behind their mates", by_mate(|place, own, other| place % 2 == 1 && other == mate_of(own))),
        named("the same line twice taken", by_mate(|_, own, other| other != own)),
    ]
}

// ---- nodes

/// Told by the node that a self arc has.
fn at_nodes(is_meant: fn(&Graph, usize) -> bool) -> Parts {
    refusing(move |graph| places(graph).iter().any(|place| is_meant(graph, graph.arcs[*place].0)))
}

fn is_source(graph: &Graph, node: usize) -> bool {
    node == graph.source
}

fn is_source_mate(graph: &Graph, node: usize) -> bool {
    node == mate(graph.source)
}

/// Another arc has the node.
fn is_in_another(graph: &Graph, node: usize) -> bool {
    any(graph, |arc| !is_self_arc(arc) && (arc.0 == node || arc.1 == node))
}

fn other_nodes() -> Vec<Named> {
    vec![
        named("refused only at the source", at_nodes(is_source)),
        named("taken at the source", at_nodes(|graph, node| !is_source(graph, node))),
        named("refused only at the source's mate", at_nodes(is_source_mate)),
        named("taken at the source's mate", at_nodes(|graph, node| !is_source_mate(graph, node))),
        named("refused only at the source and its mate", at_nodes(|graph, node| node / 2 == graph.source / 2)),
        named("taken at the source and its mate", at_nodes(|graph, node| node / 2 != graph.source / 2)),
        named("refused only at node 0", at_nodes(|_, node| node == 0)),
        named("taken at node 0", at_nodes(|_, node| node > 0)),
        named("refused only at even nodes", at_nodes(|_, node| node % 2 == 0)),
        named("refused only at odd nodes", at_nodes(|_, node| node % 2 == 1)),
        named("refused only below node 16", at_nodes(|_, node| node < 16)),
        named("refused only below node 128", at_nodes(|_, node| node < 128)),
        named("refused only from node 128 on", at_nodes(|_, node| node >= 128)),
        named("taken at node 255", at_nodes(|_, node| node < 255)),
        named("taken at the last node", at_nodes(|graph, node| node + 1 < graph.nodes())),
        named("refused only at the last node", at_nodes(|graph, node| node + 1 == graph.nodes())),
        named("taken at the last two nodes", at_nodes(|graph, node| node + 2 < graph.nodes())),
        named("refused only at nodes of other arcs", at_nodes(is_in_another)),
        named("refused only at nodes of no other arc", at_nodes(|graph, node| !is_in_another(graph, node))),
    ]
}

// ---- arcs that are none

/// Self arcs refused, and graphs with something else.
fn refusing_too(refuses: fn(&Graph) -> bool) -> Parts {
    refusing(move |graph| graph.has_self_arcs() || refuses(graph))
}

/// Ends compared otherwise.
fn comparing(alike: fn(usize, usize) -> bool) -> Parts {
    refusing(move |graph| any(graph, |(tail, head)| alike(*tail, *head)))
}

fn other_arcs() -> Vec<Named> {
    vec![
        named("an arc from a node to its mate refused too", comparing(|tail, head| tail / 2 == head / 2)),
        named("an arc from a node to its mate refused in their place", comparing(|tail, head| tail == mate(head))),
        named(
            "an arc from an even node to its mate refused too",
            refusing_too(|graph| any(graph, |arc| arc.0 + 1 == arc.1 && arc.0 % 2 == 0)),
        ),
        named(
            "an arc from the source to its mate refused too",
            refusing_too(|graph| graph.arcs.contains(&(graph.source, mate(graph.source)))),
        ),
        named(
            "an arc from the source's mate to the source refused too",
            refusing_too(|graph| graph.arcs.contains(&(mate(graph.source), graph.source))),
        ),
        named("ends compared by their last digit", comparing(|tail, head| tail % 16 == head % 16)),
        named(
            "ends compared by their first digit where it is not 0",
            comparing(|tail, head| tail == head || (tail > 15 && tail / 16 == head / 16)),
        ),
        named("ends compared by seven bits", comparing(|tail, head| tail % 128 == head % 128)),
        named(
            "ends compared with their digits in any order",
            comparing(|tail, head| tail == head || tail == 16 * (head % 16) + head / 16),
        ),
        named("parallel arcs refused too", refusing_too(|graph| any_twice(graph.arcs.iter().step_by(2)))),
        named("arcs there and back refused too", refusing_too(|graph| any(graph, |arc| graph.arcs.contains(&(arc.1, arc.0))))),
        named(
            "an arc that starts where the line before ends refused too",
            refusing_too(|graph| graph.arcs.windows(2).any(|two| two[0].1 == two[1].0)),
        ),
        named(
            "an arc's tail compared with its mate's head",
            refusing(|graph| graph.arcs.chunks_exact(2).any(|two| two[0].0 == two[1].1)),
        ),
        named("a header of two like numbers refused too", refusing_too(|graph| graph.pairs == graph.source)),
        named(
            "an end frame of two like numbers refused too",
            refusing_too(|graph| graph.arcs.len() / 256 == graph.arcs.len() % 256),
        ),
        named("an arc into the source refused too", refusing_too(|graph| any(graph, |arc| arc.1 == graph.source))),
    ]
}

// ---- another number

fn numbered(number: u8) -> Parts {
    reading(move |file| read_asking(file, number, Graph::has_self_arcs))
}

/// One refusal told as another.
fn told_as(number: u8, other: u8) -> Parts {
    reading(move |file| graph_trial::read(file).map_err(|told| if told == number { other } else { told }))
}

fn other_numbers() -> Vec<Named> {
    let mut all: Vec<Named> =
        [1, 6, 8, 9, 10, 11, 15, 17, 22, 56].map(|number| (format!("{number} in place of 16"), numbered(number))).into();
    all.extend([9, 10].map(|number| (format!("16 in place of {number}"), told_as(number, SELF_ARC))));
    all
}

// ---- another place among the questions

/// Question 16 put before one that comes earlier.
fn ordered(question: u8) -> Parts {
    let mut order: Vec<u8> = GRAPH_QUESTIONS.into_iter().filter(|other| *other != SELF_ARC).collect();
    let place = order.iter().position(|other| *other == question).unwrap_or(0);
    order.insert(place, SELF_ARC);
    reading(move |file| read_in_order(file, &order))
}

fn other_orders() -> Vec<Named> {
    let mut all: Vec<Named> =
        [2, 3, 4, 5, 6, 7, 8].map(|question| (format!("question 16 put before {question}"), ordered(question))).into();
    all.extend([
        named("question 16 put before 1", calling(asked_before_room)),
        named("questions 9 and 16 put arc by arc", reading(|file| line_by_line(file, 1, &[9, SELF_ARC], &[10]))),
        named("questions 16 and 10 put two arcs by two", reading(|file| line_by_line(file, 2, &[SELF_ARC, 10], &[]))),
        named("questions 9, 16 and 10 put two arcs by two", reading(|file| line_by_line(file, 2, &[9, SELF_ARC, 10], &[]))),
        named("questions 10 and 16 put two arcs by two", reading(|file| line_by_line(file, 2, &[10, SELF_ARC], &[]))),
    ]);
    all
}

fn asked_before_room(parts: &Parts, file: &[u8], out: &mut [u8], counts: &mut Counts) -> Told {
    match graph_trial::read(file) {
        Err(SELF_ARC) => parts.refusal(SELF_ARC, out, counts),
        _ => reference::answer_graph(parts, file, out, counts),
    }
}

/// Some questions put to the first arcs of the file, as many at a time, then to the next, and then others to all of it.
fn line_by_line(file: &[u8], at_a_time: usize, together: &[u8], then: &[u8]) -> Read {
    let before: Vec<u8> =
        GRAPH_QUESTIONS.into_iter().filter(|question| !together.contains(question) && !then.contains(question)).collect();
    let graph = read_in_order(file, &before)?;
    for arcs in graph.arcs.chunks(at_a_time) {
        read_in_order(&Graph { arcs: arcs.to_vec(), ..graph.clone() }.file(), together)?;
    }
    read_in_order(file, then)
}

// ---- graphs with self arcs answered

/// What is left of a graph is answered, unless its mates do not agree.
fn leaving(left: fn(&Graph) -> Vec<Pair>) -> Parts {
    reading(move |file| {
        let [before @ .., _, _] = GRAPH_QUESTIONS;
        let graph = read_in_order(file, &before)?;
        let arcs = left(&graph);
        if arcs.len() % 2 == 1 {
            return Err(10);
        }
        read_in_order(&Graph { arcs, ..graph }.file(), &[10])
    })
}

fn answered() -> Vec<Named> {
    vec![
        named("dropped before the answer", leaving(|graph| graph.arcs.iter().copied().filter(|arc| !is_self_arc(arc)).collect())),
        named("dropped with the other line of the same two", leaving(|graph| before_and_after(graph, |_| true))),
        named("all arcs behind one dropped", leaving(|graph| before_and_after(graph, |place| place < places(graph)[0]))),
        named("all arcs dropped", leaving(|graph| if graph.has_self_arcs() { Vec::new() } else { graph.arcs.clone() })),
        named("taken for arcs to the mate", leaving(|graph| graph.arcs.iter().map(|arc| to_mate(*arc)).collect())),
        named("a graph with a path refused alone", reading(|file| refused_by_answer(file, true))),
        named("a graph with a barrier refused alone", reading(|file| refused_by_answer(file, false))),
    ]
}

/// Two arcs at a time, without those of which one is a self arc; of the others, where there is one, those at places that are meant.
fn before_and_after(graph: &Graph, is_meant: impl Fn(usize) -> bool) -> Vec<Pair> {
    let all = !graph.has_self_arcs();
    let kept = (0..graph.arcs.len()).filter(|place| {
        let two = [*place, mate(*place)].map(|place| graph.arcs[place]);
        all || (is_meant(*place) && !two.iter().any(is_self_arc))
    });
    kept.map(|place| graph.arcs[place]).collect()
}

/// The line of a self arc at an even node leads to the mate, and its mate's line is the same.
fn to_mate(arc: Pair) -> Pair {
    let even = arc.0 - arc.0 % 2;
    if is_self_arc(&arc) {
        (even, even + 1)
    } else {
        arc
    }
}

/// Refused only where the graph would get a path, or only where it would get none.
fn refused_by_answer(file: &[u8], with_path: bool) -> Read {
    match (graph_trial::read(file), unasked(file)) {
        (Err(SELF_ARC), Ok(graph)) if matches!(reference::answer(&graph), GraphAnswer::Path(_)) != with_path => Ok(graph),
        (read, _) => read,
    }
}

// ---- one of the two calls

fn calling(call: fn(&Parts, &[u8], &mut [u8], &mut Counts) -> Told) -> Parts {
    Parts { answer_graph: Box::new(call), ..Parts::right() }
}

/// The right check, and another verdict where 16 refuses.
fn checking(verdict: fn(&[u8], &[u8]) -> Verdict) -> Parts {
    let check = move |parts: &Parts, graph: &[u8], certificate: &[u8]| match reference::check(parts, graph, certificate) {
        Verdict::Refused(SELF_ARC) => verdict(graph, certificate),
        said => said,
    };
    Parts { check: Box::new(check), ..Parts::right() }
}

fn in_one_call() -> Vec<Named> {
    vec![
        named("not asked by the check", checking(check_unasked)),
        named("not asked by the graph call", calling(call_unasked)),
        named("10 in place of 16 by the check", checking(|_, _| Verdict::Refused(10))),
        named("10 in place of 16 by the graph call", calling(call_telling_10)),
        named("not asked by the graph call where the source has no arc", calling(call_unasked_without_entry)),
    ]
}

fn check_unasked(graph: &[u8], certificate: &[u8]) -> Verdict {
    reference::check(&reading(unasked), graph, certificate)
}

fn call_unasked(_: &Parts, file: &[u8], out: &mut [u8], counts: &mut Counts) -> Told {
    reference::answer_graph(&reading(unasked), file, out, counts)
}

fn call_telling_10(_: &Parts, file: &[u8], out: &mut [u8], counts: &mut Counts) -> Told {
    reference::answer_graph(&numbered(10), file, out, counts)
}

fn call_unasked_without_entry(parts: &Parts, file: &[u8], out: &mut [u8], counts: &mut Counts) -> Told {
    match unasked(file) {
        Ok(graph) if !any(&graph, |arc| arc.0 == graph.source) => call_unasked(parts, file, out, counts),
        _ => reference::answer_graph(parts, file, out, counts),
    }
}

fn in_the_check() -> Vec<Named> {
    vec![
        named("40 added by the check", checking(|_, _| Verdict::Refused(40 + SELF_ARC))),
        named("no said by the check", checking(|_, _| Verdict::No)),
        named("yes said by the check", checking(|_, _| Verdict::Yes)),
        named("the certificate questioned first", checking(certificate_first)),
        named("the certificate questioned and checked first", checking(certificate_checked_first)),
        named("an empty certificate refused first", checking(empty_first)),
        named("not asked beside a path", checking(|graph, certificate| unasked_beside(graph, certificate, true))),
        named("not asked beside a barrier", checking(|graph, certificate| unasked_beside(graph, certificate, false))),
        named("only arcs of the certificate's path asked by the check", checking(of_path_alone)),
    ]
}

fn certificate_first(graph: &[u8], certificate: &[u8]) -> Verdict {
    match check_unasked(graph, certificate) {
        Verdict::Refused(number) if number > 40 => Verdict::Refused(number),
        _ => Verdict::Refused(SELF_ARC),
    }
}

/// Only what would get yes is refused.
fn certificate_checked_first(graph: &[u8], certificate: &[u8]) -> Verdict {
    match check_unasked(graph, certificate) {
        Verdict::No => Verdict::No,
        _ => Verdict::Refused(SELF_ARC),
    }
}

fn empty_first(_: &[u8], certificate: &[u8]) -> Verdict {
    Verdict::Refused(if certificate.is_empty() { 44 } else { SELF_ARC })
}

fn unasked_beside(graph: &[u8], certificate: &[u8], path: bool) -> Verdict {
    if certificate.starts_with(if path { b"21" } else { b"31" }) {
        check_unasked(graph, certificate)
    } else {
        Verdict::Refused(SELF_ARC)
    }
}

fn of_path_alone(file: &[u8], certificate: &[u8]) -> Verdict {
    let Ok(graph) = unasked(file) else {
        return Verdict::Refused(SELF_ARC);
    };
    match read_certificate(&graph, certificate) {
        Ok(Certificate::Path(arcs)) if arcs.iter().any(|arc| is_self_arc(&graph.arcs[*arc])) => Verdict::Refused(SELF_ARC),
        _ => check_unasked(file, certificate),
    }
}

// ---- the tally

/// The right call, counted otherwise where 16 refuses.
fn counted(count: fn(&mut Counts)) -> Parts {
    let call = move |parts: &Parts, file: &[u8], out: &mut [u8], counts: &mut Counts| {
        let before = *counts;
        let told = reference::answer_graph(parts, file, out, counts);
        if told.number == SELF_ARC {
            *counts = before;
            count(counts);
        }
        told
    };
    Parts { answer_graph: Box::new(call), ..Parts::right() }
}

fn other_counts() -> Vec<Named> {
    vec![
        named("refusals not counted", counted(|_| ())),
        named("refusals counted twice", counted(|counts| raise(&mut counts.refusals, 2))),
        named("refusals counted as paths", counted(|counts| raise(&mut counts.paths, 1))),
        named("refusals counted as barriers", counted(|counts| raise(&mut counts.barriers, 1))),
        named("refusals counted as stock answers", counted(|counts| raise(&mut counts.stocks, 1))),
        named(
            "refusals counted, and a barrier",
            counted(|counts| {
                raise(&mut counts.refusals, 1);
                raise(&mut counts.barriers, 1);
            }),
        ),
        named("a count of refusals that wraps", counted(|counts| counts.refusals = counts.refusals.wrapping_add(1))),
    ]
}

// ---- the buffer

/// The right refusal, and something done to the buffer where it is by 16; the size that is told.
fn written(write: fn(&mut [u8]) -> usize) -> Parts {
    let call = move |parts: &Parts, file: &[u8], out: &mut [u8], counts: &mut Counts| {
        let told = reference::answer_graph(parts, file, out, counts);
        match told.number {
            SELF_ARC => Told { size: write(out), ..told },
            _ => told,
        }
    };
    Parts { answer_graph: Box::new(call), ..Parts::right() }
}

fn other_buffers() -> Vec<Named> {
    vec![
        named("the first byte cleared", written(|out| put(out, 0, &[0]))),
        named("the last byte of the buffer cleared", written(|out| put(out, out.len() - 1, &[0]))),
        named("the refusal's line written", written(|out| put(out, 0, b"7E10\n"))),
        named("the refusal's line written, and its size told", written(|out| put(out, 0, b"7E10\n") + 5)),
        named("a size told", written(|_| 5)),
        named("a barrier's first line written", written(|out| put(out, 0, b"31\n"))),
        named(
            "the buffer cleared",
            written(|out| {
                out.fill(0);
                0
            }),
        ),
        named("an answer written before the refusal", calling(answered_first)),
    ]
}

/// Bytes put at a place; no size.
fn put(out: &mut [u8], place: usize, bytes: &[u8]) -> usize {
    out[place..place + bytes.len()].copy_from_slice(bytes);
    0
}

fn answered_first(parts: &Parts, file: &[u8], out: &mut [u8], counts: &mut Counts) -> Told {
    let told = reference::answer_graph(parts, file, out, counts);
    if let (SELF_ARC, Ok(graph)) = (told.number, unasked(file)) {
        reference::write(&reference::answer(&graph).file(), out);
    }
    told
}

// ---- line ends

fn unasked_with(ends: Ends) -> Parts {
    reading(move |file| if ends_of(file) == Some(ends) { unasked(file) } else { graph_trial::read(file) })
}

/// Self arcs refused where one of their lines, with its end, is meant.
fn by_line(is_meant: fn(&[u8]) -> bool) -> Parts {
    reading(move |file| {
        let is_one = |line: &[u8]| line.starts_with(b"02") && line[2..4] == line[4..6];
        let lines = || file.split_inclusive(|byte| *byte == LF);
        read_asking(file, SELF_ARC, |_| lines().any(|line| is_one(line) && is_meant(line)))
    })
}

fn other_line_ends() -> Vec<Named> {
    vec![
        named("not asked where all lines end with CR LF", unasked_with(Ends::CrLf)),
        named("not asked where all lines end with LF", unasked_with(Ends::Lf)),
        named("not asked where both ends are there", unasked_with(Ends::Mixed)),
        named("taken in a line that ends with CR LF", by_line(|line| !line.contains(&CR))),
        named("taken in a line that ends with LF alone", by_line(|line| line.contains(&CR))),
    ]
}

// ---- readers that remember

fn with_memory() -> Vec<Named> {
    vec![
        named("refused only once", reading(once())),
        named("every second one taken", reading(every_second())),
        named("the next graph refused too", reading(next_too())),
        named("the same graph refused once alone", reading(not_again())),
    ]
}

fn once() -> impl Fn(&[u8]) -> Read {
    let refused = Cell::new(false);
    move |file| match graph_trial::read(file) {
        Err(SELF_ARC) if refused.replace(true) => unasked(file),
        read => read,
    }
}

fn every_second() -> impl Fn(&[u8]) -> Read {
    let refused = Cell::new(false);
    move |file| match graph_trial::read(file) {
        Err(SELF_ARC) if refused.replace(!refused.get()) => unasked(file),
        read => read,
    }
}

fn next_too() -> impl Fn(&[u8]) -> Read {
    let refused = Cell::new(false);
    move |file| {
        let read = graph_trial::read(file);
        if refused.replace(matches!(read, Err(SELF_ARC))) && read.is_ok() {
            return Err(SELF_ARC);
        }
        read
    }
}

fn not_again() -> impl Fn(&[u8]) -> Read {
    let last = Cell::new(Vec::new());
    move |file| {
        let again = last.replace(file.to_vec()) == file;
        if again {
            unasked(file)
        } else {
            graph_trial::read(file)
        }
    }
}

// ---- other files

fn of_other_files() -> Vec<Named> {
    let right = Parts::right;
    vec![
        named("a fit of a camera with itself refused with 16", stocks(11, |stock| stock.fits.iter().any(is_self_arc))),
        named("a lit pair of a camera with itself refused with 16", stocks(12, |stock| stock.lit.iter().any(is_self_arc))),
        named(
            "asked of a barrier's lines too",
            Parts { read_certificate: Box::new(|graph, file| of_lines(graph, file, 0x32)), ..right() },
        ),
        named(
            "asked of a path's lines too",
            Parts { read_certificate: Box::new(|graph, file| of_lines(graph, file, 0x22)), ..right() },
        ),
    ]
}

/// Another number for stocks that a question refuses, where there is something.
fn stocks(question: u8, is_meant: fn(&Stock) -> bool) -> Parts {
    let read = move |file: &[u8]| match (stock_trial::read(file), stock_trial::read_in_order(file, &[])) {
        (Err(number), Ok(stock)) if number == question && is_meant(&stock) => Err(SELF_ARC),
        (read, _) => read,
    };
    Parts { read_stock: Box::new(read), ..Parts::right() }
}

fn of_lines(graph: &Graph, file: &[u8], kind: u8) -> Result<Certificate, u8> {
    let read = read_certificate(graph, file)?;
    if Text::of(file).pairs(kind).iter().any(is_self_arc) {
        return Err(SELF_ARC);
    }
    Ok(read)
}
