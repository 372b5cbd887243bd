//! Engines with one part wrong. The tests must fail on each of them.
//!   engines     every wrong engine with what is wrong of it
//!   Named       what is wrong, and the engine
//!   without_blossoms, improve_in_tree    a plan by searches without blossoms; one such search
//! First those that document 01 shuts out, then its traps, then slips of other kinds (slips.rs), then those in line ends
//! (wrong_line_ends.rs), in the marks of cameras without a fit (wrong_isolated.rs), in look-ups and question 13 (wrong_look_ups.rs), in
//! the call that stops after so many searches (wrong_budgets.rs), in question 16 (wrong_self_arcs.rs), in what a stock gets, a plan
//! and its sheet in one (wrong_printouts.rs), or in either half of it (wrong_halves.rs), and in callers and their counts (wrong_callers.rs).

use crate::blossom::{augment, neighbours, pairs, partners, Partners};
use crate::frames::Pair;
use crate::graph_trial::{canonical, is_barrier, is_wanted, mate, mate_of, Certificate, Graph};
use crate::reference::{self, GraphAnswer, Parts};
use crate::slips;
use crate::stock_trial::{self, Standing, Stock};
use crate::{
    wrong_budgets, wrong_callers, wrong_halves, wrong_isolated, wrong_line_ends, wrong_look_ups, wrong_printouts, wrong_self_arcs,
};
use std::collections::VecDeque;

pub type Named = (String, Parts);

pub fn engines() -> Vec<Named> {
    let mut all = shut_out();
    all.extend(traps());
    all.extend(slips::of_calls());
    all.extend(slips::of_check());
    all.extend(slips::of_questions());
    all.extend(wrong_line_ends::engines());
    all.extend(wrong_isolated::engines());
    all.extend(wrong_look_ups::engines());
    all.extend(wrong_budgets::engines());
    all.extend(wrong_self_arcs::engines());
    all.extend(wrong_printouts::engines());
    all.extend(wrong_halves::engines());
    all.extend(wrong_callers::engines());
    all
}

pub fn named(what: &str, parts: Parts) -> Named {
    (what.to_string(), parts)
}

// ---- shut out by document 01

fn shut_out() -> Vec<Named> {
    let right = Parts::right;
    vec![
        named("a plan that improves once and then copies", Parts { plan: improved_once, ..right() }),
        named("the lit pairs handed back", Parts { plan: |stock| stock.lit.clone(), ..right() }),
        named("a barrier stated without searching", Parts { answer: unsearched, ..right() }),
        named("a check that always says yes", Parts { holds: |_, _| true, ..right() }),
        named("an invented pair number", Parts { standing: Box::new(invented_number), ..right() }),
        named("one mark for all cameras", Parts { standing: Box::new(one_mark), ..right() }),
        named(
            "a refusal for every file",
            Parts { read_graph: Box::new(|_| Err(3)), read_stock: Box::new(|_| Err(3)), ..right() },
        ),
    ]
}

fn improved_once(stock: &Stock) -> Vec<Pair> {
    let lists = neighbours(stock.cameras, &stock.fits);
    let mut partner = partners(stock.cameras, &stock.lit);
    for root in 0..stock.cameras {
        if partner[root].is_none() && augment(&lists, &mut partner, root).is_ok() {
            break;
        }
    }
    pairs(&partner)
}

fn unsearched(graph: &Graph) -> GraphAnswer {
    let mut classes = vec![0; graph.nodes()];
    classes[graph.source] = 1;
    classes[mate(graph.source)] = 2;
    GraphAnswer::Barrier(classes)
}

fn invented_number(stock: &Stock) -> Standing {
    Standing { greatest: stock.cameras / 2, ..reference::standing(stock) }
}

fn one_mark(stock: &Stock) -> Standing {
    Standing { marks: vec![2; stock.cameras], ..reference::standing(stock) }
}

// ---- document 01's traps

fn traps() -> Vec<Named> {
    let right = Parts::right;
    vec![
        named("a camera visited and never come back to", Parts { plan: without_blossoms, ..right() }),
        named("a node visited and its mate never come back to", Parts { answer: one_of_two_mates, ..right() }),
        named("mates told by their ends, in the check", Parts { holds: mates_by_ends, ..right() }),
        named("mates told by their ends, in the search", Parts { answer: without_parallels, ..right() }),
        named("each bud given its own class", Parts { answer: buds_apart, ..right() }),
        named("left over read as unlit in the plan at hand", Parts { standing: Box::new(left_over_in_plan), ..right() }),
    ]
}

/// Alternating breadth-first search that gives each camera one place in the tree.
pub fn without_blossoms(stock: &Stock) -> Vec<Pair> {
    let lists = neighbours(stock.cameras, &stock.fits);
    let mut partner = partners(stock.cameras, &stock.lit);
    for root in 0..stock.cameras {
        if partner[root].is_none() {
            improve_in_tree(&lists, &mut partner, root);
        }
    }
    pairs(&partner)
}

pub fn improve_in_tree(lists: &[Vec<usize>], partner: &mut Partners, root: usize) {
    let mut before = vec![None; lists.len()];
    let mut visited = vec![false; lists.len()];
    visited[root] = true;
    let mut queue = VecDeque::from([(root, true)]);
    while let Some((camera, even)) = queue.pop_front() {
        let next: Vec<usize> = if even { lists[camera].clone() } else { partner[camera].into_iter().collect() };
        for other in next.into_iter().filter(|other| !std::mem::replace(&mut visited[*other], true)) {
            if even {
                before[other] = Some(camera);
            }
            if even && partner[other].is_none() {
                return swap_along(&before, partner, other);
            }
            queue.push_back((other, !even));
        }
    }
}

fn swap_along(before: &[Option<usize>], partner: &mut Partners, end: usize) {
    let mut odd = Some(end);
    while let Some(vertex) = odd {
        let even = before[vertex].unwrap();
        odd = partner[even];
        partner[vertex] = Some(even);
        partner[even] = Some(vertex);
    }
}

/// Breadth first over the nodes, of two mates only the first.
fn one_of_two_mates(graph: &Graph) -> GraphAnswer {
    let mut reached = vec![false; graph.nodes()];
    reached[graph.source] = true;
    let mut queue = VecDeque::from([graph.source]);
    while let Some(node) = queue.pop_front() {
        for (_, head) in graph.arcs.iter().filter(|arc| arc.0 == node) {
            if !reached[*head] && !reached[mate(*head)] {
                reached[*head] = true;
                queue.push_back(*head);
            }
        }
    }
    GraphAnswer::Barrier(canonical(graph, &reached))
}

fn mates_by_ends(graph: &Graph, certificate: &Certificate) -> bool {
    let by_ends = |arcs: &Vec<usize>| {
        arcs.iter().any(|one| arcs.iter().any(|other| one != other && graph.arcs[*one] == mate_of(graph.arcs[*other])))
    };
    match certificate {
        Certificate::Path(arcs) => is_wanted(graph, arcs) && !by_ends(arcs),
        Certificate::Barrier(classes) => is_barrier(graph, classes),
    }
}

/// Of parallel arcs only the first pair is looked at.
fn without_parallels(graph: &Graph) -> GraphAnswer {
    let mut arcs: Vec<Pair> = Vec::new();
    for two in graph.arcs.chunks_exact(2) {
        if !arcs.contains(&two[0]) {
            arcs.extend(two);
        }
    }
    let fewer = Graph { arcs, ..graph.clone() };
    match reference::answer(&fewer) {
        GraphAnswer::Path(_) => reference::answer(graph),
        barrier => barrier,
    }
}

pub fn with_classes(graph: &Graph, change: impl Fn(&mut [usize])) -> GraphAnswer {
    match reference::answer(graph) {
        GraphAnswer::Barrier(mut classes) => {
            change(&mut classes);
            GraphAnswer::Barrier(classes)
        }
        path => path,
    }
}

fn buds_apart(graph: &Graph) -> GraphAnswer {
    with_classes(graph, |classes| {
        let buds = classes.chunks_exact_mut(2).filter(|pair| pair[0] >= 3);
        buds.zip(3..).for_each(|(bud, class)| bud.fill(class));
    })
}

fn left_over_in_plan(stock: &Stock) -> Standing {
    let plan = reference::plan(stock);
    let unlit = |camera: usize| plan.iter().all(|pair| pair.0 != camera && pair.1 != camera);
    let left_over: Vec<bool> = (0..stock.cameras).map(unlit).collect();
    Standing { greatest: plan.len(), marks: stock_trial::marks_by(&left_over, &stock.fits) }
}
