//! What is tried with random files.
//!   small_graphs .. middling_stocks    random graphs and stocks
//!   certificates                       right, wrong and random certificates
//!   single_faults, pairs_of_faults     every question as the first failing one, alone and with each later one; 1 and 17 before them
//!   faults_in_both_files               the check: graph first, then certificate
//! Where there is a choice, the number of files to try is given. Each file is tried with all line ends.

use crate::faults::{failing, graph_for_certificates, questions, Kind, KINDS};
use crate::frames::{barrier_file, path_file};
use crate::generate::{doubled_table, middling_graph, middling_stock, shuffled_graph, small_graph, small_stock};
use crate::graph_trial::{self, canonical, mate, Graph};
use crate::judge::{Judge, Trial};
use crate::line_ends::all_ways;
use crate::random::Random;
use crate::reference::answer;

// ---- random graphs and stocks

pub fn small_graphs(judge: &mut Judge, files: usize) -> Trial {
    (0..files).try_for_each(|_| {
        let graph = small_graph(&mut judge.random);
        judge.made_graph(&graph)
    })
}

pub fn middling_graphs(judge: &mut Judge, files: usize) -> Trial {
    (0..files).try_for_each(|_| {
        let graph = middling_graph(&mut judge.random);
        judge.made_graph(&graph)
    })
}

/// Doubled tables of small and of larger stocks, under other numbers.
pub fn doubled_tables(judge: &mut Judge, files: usize) -> Trial {
    (0..files).try_for_each(|number| {
        let random = &mut judge.random;
        let stock = if number % 4 == 0 { middling_stock(random) } else { small_stock(random) };
        let graph = shuffled_graph(random, &doubled_table(&stock));
        judge.made_graph(&graph)
    })
}

pub fn small_stocks(judge: &mut Judge, files: usize) -> Trial {
    (0..files).try_for_each(|_| {
        let stock = small_stock(&mut judge.random);
        judge.made_stock(&stock)
    })
}

pub fn middling_stocks(judge: &mut Judge, files: usize) -> Trial {
    (0..files).try_for_each(|_| {
        let stock = middling_stock(&mut judge.random);
        judge.made_stock(&stock)
    })
}

// ---- certificates

/// A run of arcs that each start where the one before ended, from the source; regular or not.
fn random_walk(random: &mut Random, graph: &Graph) -> Vec<usize> {
    let mut arcs = Vec::new();
    let mut at = graph.source;
    for _ in 0..random.below(8) {
        let leaving: Vec<usize> = (0..graph.arcs.len()).filter(|arc| graph.arcs[*arc].0 == at).collect();
        if leaving.is_empty() || (at == mate(graph.source) && random.chance(70)) {
            break;
        }
        let arc = *random.choose(&leaving);
        arcs.push(arc);
        at = graph.arcs[arc].1;
    }
    arcs
}

/// The canonical classes, right or with one mate pair's classes changed.
fn random_classes(random: &mut Random, graph: &Graph) -> Vec<usize> {
    let mut classes = canonical(graph, &graph_trial::reachable(graph));
    if random.chance(60) {
        let node = random.below(graph.nodes());
        let class = random.below(5);
        classes[node] = class;
        let other = match class {
            1 => 2,
            2 => 1,
            same => same,
        };
        classes[mate(node)] = if random.chance(90) { other } else { class };
    }
    classes
}

/// The parts of a barrier numbered the other way round.
fn renumbered(classes: &[usize]) -> Vec<usize> {
    let highest = classes.iter().copied().max().unwrap_or(0);
    classes.iter().map(|class| if *class >= 3 { highest + 3 - class } else { *class }).collect()
}

pub fn certificates(judge: &mut Judge, files: usize) -> Trial {
    (0..files).try_for_each(|number| {
        let random = &mut judge.random;
        let graph = small_graph(random);
        let certificate = match number % 4 {
            0 => path_file(&random_walk(random, &graph)),
            1 => barrier_file(&renumbered(&random_classes(random, &graph))),
            2 => answer(&graph).file(),
            _ => barrier_file(&random_classes(random, &graph)),
        };
        judge.certificate_all_ways(&graph.file(), &certificate)
    })
}

// ---- faults

fn judge_faulty(judge: &mut Judge, kind: Kind, faults: &[u8]) -> Trial {
    let file = failing(&mut judge.random, kind, faults)?;
    judge.short_buffers(&file)?;
    judge.wrong_callers(&file)?;
    match kind {
        Kind::Graph => {
            judge.graph_all_ways(&file)?;
            all_ways(&mut judge.random, &file).iter().try_for_each(|file| judge.check(file, b""))
        }
        Kind::Stock => judge.stock_all_ways(&file),
        Kind::Path | Kind::Barrier => judge.certificate_all_ways(&graph_for_certificates().file(), &file),
    }
}

pub fn single_faults(judge: &mut Judge, files: usize) -> Trial {
    let all: usize = KINDS.iter().map(|kind| questions(*kind).len()).sum();
    for _ in 0..files.div_ceil(all) {
        for kind in KINDS {
            questions(kind).iter().try_for_each(|fault| judge_faulty(judge, kind, &[*fault]))?;
        }
    }
    Ok(())
}

pub fn pairs_of_faults(judge: &mut Judge, files: usize) -> Trial {
    let pairs_of = |number: usize| number * (number - 1) / 2;
    let all: usize = KINDS.iter().map(|kind| pairs_of(questions(*kind).len())).sum();
    for _ in 0..files.div_ceil(all) {
        for kind in KINDS {
            for (place, first) in questions(kind).iter().enumerate() {
                let later = &questions(kind)[place + 1..];
                later.iter().try_for_each(|second| judge_faulty(judge, kind, &[*first, *second]))?;
            }
        }
    }
    Ok(())
}

pub fn faults_in_both_files(judge: &mut Judge) -> Trial {
    for first in questions(Kind::Graph) {
        for second in questions(Kind::Path) {
            let graph = failing(&mut judge.random, Kind::Graph, &[*first])?;
            let kind = if judge.random.chance(50) { Kind::Path } else { Kind::Barrier };
            let certificate = failing(&mut judge.random, kind, &[*second])?;
            judge.certificate_all_ways(&graph, &certificate)?;
        }
    }
    Ok(())
}
