//! Everything of a size.
//!   all_graphs      every graph of one or two mate pairs and up to three pairs of arcs, from every source, those with self arcs too
//!   all_stocks      every stock of up to five cameras, with every pairing lit
//!   every_fits      every set of fits among some cameras
//!   all_classes     every table of classes up to 04 for random graphs of one or two mate pairs; of three those that agree with mates
//!   all_runs        every run of up to three arcs, for random small graphs
//!   all_texts       every text of up to six digits, frame kinds and bytes of line ends
//!   texts           every text of up to a number of pieces

use crate::cases::verdict;
use crate::engine::Verdict;
use crate::faults::graph_for_certificates;
use crate::frames::{barrier_file, path_file, Pair};
use crate::generate::{all_fits, random_graph};
use crate::graph_trial::{self, is_barrier, mate, mate_of, Graph, SELF_ARC};
use crate::judge::{shown, Judge, Trial};
use crate::stock_trial::{all_pairings, Stock};

pub fn all_graphs(judge: &mut Judge) -> Trial {
    let sources = [1, 2].into_iter().flat_map(|pairs| (0..2 * pairs).map(move |source| (pairs, source)));
    let mut met = [0, 0];
    for (pairs, source) in sources {
        for arc_pairs in 0..=3 {
            try_graphs(judge, &mut Graph { pairs, source, arcs: Vec::new() }, arc_pairs, &mut met)?;
        }
    }
    // of n nodes, n(n-1) of n*n arcs are no self arcs: 2(1 + 2 + 4 + 8) + 4(1 + 12 + 144 + 1,728), of 2(1 + 4 + ..) + 4(1 + 16 + ..)
    if met != [7_570, 10_076] {
        return Err(format!("{} graphs without self arcs, {} with them", met[0], met[1]));
    }
    Ok(())
}

/// The graph with that many more pairs of arcs, in every way. Those without self arcs and those with them are counted.
fn try_graphs(judge: &mut Judge, graph: &mut Graph, more: usize, met: &mut [usize; 2]) -> Trial {
    if more == 0 {
        met[usize::from(graph.has_self_arcs())] += 1;
        return if graph.has_self_arcs() { try_refused(judge, &graph.file()) } else { judge.made_graph(graph) };
    }
    let nodes = graph.nodes();
    (0..nodes * nodes).try_for_each(|number| {
        let arc = (number / nodes, number % nodes);
        graph.arcs.extend([arc, mate_of(arc)]);
        let outcome = try_graphs(judge, graph, more - 1, met);
        graph.arcs.truncate(graph.arcs.len() - 2);
        outcome
    })
}

fn try_refused(judge: &mut Judge, file: &[u8]) -> Trial {
    verdict(judge, file, &path_file(&[]), Verdict::Refused(SELF_ARC))?;
    judge.graph_all_ways(file)
}

/// Every set of fits among some cameras, in the file's order.
pub fn every_fits(cameras: usize) -> impl Iterator<Item = Vec<Pair>> {
    let every = all_fits(cameras);
    (0..1_usize << every.len())
        .map(move |set| (0..every.len()).filter(|place| set >> place & 1 == 1).map(|place| every[place]).collect())
}

pub fn all_stocks(judge: &mut Judge) -> Trial {
    for cameras in 0..=5 {
        for fits in every_fits(cameras) {
            for lit in all_pairings(cameras, &fits) {
                judge.made_stock(&Stock { cameras, fits: fits.clone(), lit })?;
            }
        }
    }
    Ok(())
}

fn some_graph(judge: &mut Judge) -> Graph {
    let pairs = judge.random.between(1, 3);
    let arc_pairs = judge.random.below(4);
    random_graph(&mut judge.random, pairs, arc_pairs)
}

pub fn all_classes(judge: &mut Judge, files: usize) -> Trial {
    let last = judge.seen.files + files;
    while judge.seen.files < last {
        let graph = some_graph(judge);
        let open = graph_trial::reachable(&graph)[mate(graph.source)];
        for classes in tables(graph.pairs) {
            judge.certificate(&graph.file(), &barrier_file(&classes))?;
            if open && is_barrier(&graph, &classes) {
                return Err(format!("the trial has a path and a barrier\n{}", shown(&graph.file())));
            }
        }
    }
    Ok(())
}

/// Every table of classes 00 to 04 for the nodes of one or two mate pairs; of three those that agree with mates.
fn tables(pairs: usize) -> Vec<Vec<usize>> {
    let agreeing = [[0, 0], [1, 2], [2, 1], [3, 3], [4, 4]];
    let every: Vec<[usize; 2]> = (0..25).map(|number| [number / 5, number % 5]).collect();
    let of_pair = if pairs <= 2 { &every[..] } else { &agreeing };
    (0..pairs).fold(vec![Vec::new()], |tables, _| {
        tables.iter().flat_map(|table| of_pair.iter().map(|two| [&table[..], two].concat())).collect()
    })
}

pub fn all_runs(judge: &mut Judge, files: usize) -> Trial {
    let last = judge.seen.files + files;
    while judge.seen.files < last {
        let graph = some_graph(judge);
        for length in 0..=3 {
            try_runs(judge, &graph, &mut Vec::new(), length)?;
        }
    }
    Ok(())
}

/// The run with that many more arcs, in every way.
fn try_runs(judge: &mut Judge, graph: &Graph, run: &mut Vec<usize>, more: usize) -> Trial {
    if more == 0 {
        return judge.certificate(&graph.file(), &path_file(run));
    }
    (0..graph.arcs.len()).try_for_each(|arc| {
        run.push(arc);
        let outcome = try_runs(judge, graph, run, more - 1);
        run.pop();
        outcome
    })
}

pub fn all_texts(judge: &mut Judge) -> Trial {
    let graph = graph_for_certificates().file();
    texts(&[b"0", b"31", b"\r", b"\n"], 6).iter().try_for_each(|text| judge.all_calls(&graph, text))
}

pub fn texts(pieces: &[&[u8]], most: usize) -> Vec<Vec<u8>> {
    let mut all = vec![Vec::new()];
    let mut shorter = 0;
    for _ in 0..most {
        let longer: Vec<Vec<u8>> =
            all[shorter..].iter().flat_map(|text| pieces.iter().map(|piece| [text, *piece].concat())).collect();
        shorter = all.len();
        all.extend(longer);
    }
    all
}
