//! More engines with one part wrong: slips of the buffer, the tally, the marks, the check, and the order of questions.
//!   of_calls       in what a call writes and counts
//!   of_check       in the check
//!   of_questions   a question not put, put before the one that stands before it, or put in part

use crate::engine::{Counts, Told};
use crate::frames::{Pair, LF};
use crate::graph_trial::{self, is_barrier, Certificate, Graph, CERTIFICATE_QUESTIONS, GRAPH_QUESTIONS};
use crate::reference::{self, GraphAnswer, Parts};
use crate::stock_trial::{self, Standing, Stock, STOCK_QUESTIONS};
use crate::wrong::{named, with_classes, Named};
use std::mem::swap;

// ---- calls

pub fn of_calls() -> Vec<Named> {
    let right = Parts::right;
    vec![
        named("a byte written past the answer", Parts { write: past_the_answer, ..right() }),
        named(
            "an answer without its last line feed",
            Parts { write: |answer, out| reference::write(&answer[..answer.len() - 1], out), ..right() },
        ),
        named("a refusal that changes a byte", Parts { refuse: changing_a_byte, ..right() }),
        named("a refusal with a size", Parts { refuse: |number, _| Told { number, size: 5 }, ..right() }),
        named("a buffer of 2,047 taken", Parts { least_room: 2_047, ..right() }),
        named("a buffer of 2,048 refused", Parts { least_room: 2_049, ..right() }),
        named("the buffer questioned after the file", Parts { buffer_first: false, ..right() }),
        named("a tally that wraps", Parts { raise: |count| count.wrapping_add(1), ..right() }),
        named("a tally that never counts", Parts { raise: |count| count, ..right() }),
        named(
            "a tally that stops one early",
            Parts { raise: |count| if count >= u32::MAX - 1 { count } else { count + 1 }, ..right() },
        ),
        named("paths and barriers counted for each other", Parts { answer_graph: Box::new(counts_exchanged), ..right() }),
        named("a plan that drops lit cameras", Parts { plan: lit_forgotten, ..right() }),
        named("a plan in falling order", Parts { plan: |stock| reference::plan(stock).into_iter().rev().collect(), ..right() }),
        named(
            "a plan with the larger camera first",
            Parts { plan: |stock| reference::plan(stock).iter().map(|(u, v)| (*v, *u)).collect(), ..right() },
        ),
        named("mark 01 given before mark 00", Parts { standing: Box::new(mark_01_first), ..right() }),
        named("mark 02 never given", Parts { standing: Box::new(mark_02_never), ..right() }),
        named("parts numbered from the last", Parts { answer: parts_from_last, ..right() }),
        named("the last arc left out of the path", Parts { answer: path_too_short, ..right() }),
    ]
}

fn past_the_answer(answer: &[u8], out: &mut [u8]) -> Told {
    if let Some(byte) = out.get_mut(answer.len()) {
        *byte = 0;
    }
    reference::write(answer, out)
}

fn changing_a_byte(number: u8, out: &mut [u8]) -> Told {
    if let Some(byte) = out.first_mut() {
        *byte = b'7';
    }
    Told { number, size: 0 }
}

fn counts_exchanged(parts: &Parts, file: &[u8], out: &mut [u8], counts: &mut Counts) -> Told {
    swap(&mut counts.paths, &mut counts.barriers);
    let told = reference::answer_graph(parts, file, out, counts);
    swap(&mut counts.paths, &mut counts.barriers);
    told
}

fn lit_forgotten(stock: &Stock) -> Vec<Pair> {
    reference::plan(&Stock { lit: Vec::new(), ..stock.clone() })
}

fn mark_01_first(stock: &Stock) -> Standing {
    let mut standing = reference::standing(stock);
    let before = standing.marks.clone();
    for (u, v) in &stock.fits {
        if before[*u] == 0 && before[*v] == 0 {
            standing.marks[*u] = 1;
        }
    }
    standing
}

fn mark_02_never(stock: &Stock) -> Standing {
    let standing = reference::standing(stock);
    Standing { marks: standing.marks.iter().map(|mark| if *mark == 2 { 1 } else { *mark }).collect(), ..standing }
}

fn parts_from_last(graph: &Graph) -> GraphAnswer {
    with_classes(graph, |classes| {
        let highest = classes.iter().copied().max().unwrap();
        for class in classes.iter_mut().filter(|class| **class >= 3) {
            *class = highest + 3 - *class;
        }
    })
}

fn path_too_short(graph: &Graph) -> GraphAnswer {
    match reference::answer(graph) {
        GraphAnswer::Path(arcs) => GraphAnswer::Path(arcs[..arcs.len() - 1].to_vec()),
        barrier => barrier,
    }
}

// ---- the check

pub fn of_check() -> Vec<Named> {
    let right = Parts::right;
    vec![
        named("a skipped class taken for none", Parts { holds: skipped_class_taken, ..right() }),
        named("parallel entries counted once", Parts { holds: entries_by_ends, ..right() }),
        named("a path taken that ends anywhere", Parts { holds: any_end, ..right() }),
        named("every run of arcs taken for a path", Parts { holds: any_arcs, ..right() }),
        named("64 added for 40", Parts { added_for_certificates: 64, ..right() }),
        named("class 82 read in base ten", Parts { read_certificate: Box::new(class_82_in_base_ten), ..right() }),
    ]
}

/// Parts without an entry are numbered away first.
fn skipped_class_taken(graph: &Graph, certificate: &Certificate) -> bool {
    let Certificate::Barrier(classes) = certificate else {
        return graph_trial::certificate_holds(graph, certificate);
    };
    let mut used: Vec<usize> = classes.iter().copied().filter(|class| *class >= 3).collect();
    used.sort_unstable();
    used.dedup();
    let closed = |class: &usize| used.iter().position(|other| other == class).map_or(*class, |place| 3 + place);
    is_barrier(graph, &classes.iter().map(closed).collect::<Vec<usize>>())
}

fn entries_by_ends(graph: &Graph, certificate: &Certificate) -> bool {
    let Certificate::Barrier(classes) = certificate else {
        return graph_trial::certificate_holds(graph, certificate);
    };
    let mut arcs = graph.arcs.clone();
    arcs.sort_unstable();
    arcs.dedup();
    is_barrier(&Graph { arcs, ..graph.clone() }, classes)
}

fn any_end(graph: &Graph, certificate: &Certificate) -> bool {
    match certificate {
        Certificate::Path(arcs) => {
            arcs.iter().zip(arcs.iter().skip(1)).all(|(one, next)| graph.arcs[*one].1 == graph.arcs[*next].0)
        }
        _ => graph_trial::certificate_holds(graph, certificate),
    }
}

fn any_arcs(graph: &Graph, certificate: &Certificate) -> bool {
    matches!(certificate, Certificate::Path(_)) || graph_trial::certificate_holds(graph, certificate)
}

fn class_82_in_base_ten(graph: &Graph, file: &[u8]) -> Result<Certificate, u8> {
    match graph_trial::read_certificate(graph, file) {
        Ok(Certificate::Barrier(classes)) if classes.iter().any(|class| *class > 82) => Err(9),
        read => read,
    }
}

// ---- the questions in another order, or one of them not put, or put in part

pub fn of_questions() -> Vec<Named> {
    let any_order = Parts { read_stock: Box::new(kinds_in_any_order), ..Parts::right() };
    let mut all = vec![named("stock: fits taken behind lit pairs", any_order)];
    for (kind, questions) in
        [("graph", &GRAPH_QUESTIONS[..]), ("stock", &STOCK_QUESTIONS[..]), ("certificate", &CERTIFICATE_QUESTIONS[..])]
    {
        for place in 0..questions.len() {
            let mut order = questions.to_vec();
            order.remove(place);
            all.push((format!("{kind}: question {} not put", questions[place]), asking(kind, order)));
        }
        for place in 1..questions.len() {
            let mut order = questions.to_vec();
            order.swap(place - 1, place);
            let what = format!("{kind}: question {} put before {}", questions[place], questions[place - 1]);
            all.push((what, asking(kind, order)));
        }
    }
    all
}

/// Question 6 without the order of body lines.
fn kinds_in_any_order(file: &[u8]) -> Result<Stock, u8> {
    let mut lines: Vec<&[u8]> = file.split_inclusive(|byte| *byte == LF).collect();
    if let [_, body @ .., _] = &mut lines[..] {
        body.sort_by_key(|line| line.starts_with(b"13"));
    }
    match stock_trial::read(file) {
        Err(6) => stock_trial::read(&lines.concat()),
        read => read,
    }
}

/// Files that a left-out question alone would refuse get a number that is none.
const NO_NUMBER: u8 = 99;

fn asking(kind: &str, order: Vec<u8>) -> Parts {
    let right = Parts::right();
    match kind {
        "graph" => Parts {
            read_graph: Box::new(move |file| {
                graph_trial::read_in_order(file, &order).and_then(|_| graph_trial::read(file).map_err(|_| NO_NUMBER))
            }),
            ..right
        },
        "stock" => Parts {
            read_stock: Box::new(move |file| {
                stock_trial::read_in_order(file, &order).and_then(|_| stock_trial::read(file).map_err(|_| NO_NUMBER))
            }),
            ..right
        },
        _ => Parts {
            read_certificate: Box::new(move |graph, file| {
                let read = graph_trial::read_certificate_in_order(graph, file, &order);
                read.and_then(|_| graph_trial::read_certificate(graph, file).map_err(|_| NO_NUMBER))
            }),
            ..right
        },
    }
}
