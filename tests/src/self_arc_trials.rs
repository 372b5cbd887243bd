//! What is tried with question 16, which refuses self arcs: arcs from a node to itself (document 02, L5).
//!   known                  graphs with their refusals written out, those without self arcs among them, with all line ends and rooms; stocks
//!                          with a fit of a camera with itself, which are refused as before
//!   beside_certificates    self arcs in the check beside right, wrong and refused certificates
//!   put_in_and_taken_out   random graphs with self arcs put in anywhere, and taken out again: the answer is what it was
//!   in_each_arc            random graphs with each arc in turn a self arc, with its mate or alone, at the nodes that stand out
//!   with_other_faults      question 16 first, alone and with 10, and each earlier question before it
//!   every_two_arcs         every two arcs among few nodes and one that is none, alone and behind others
//!   among_most_arcs        one self arc among 8,192 arcs, and among as many with CR LF as 60,000 bytes hold
//! A graph that has a self arc is handed to the graph call and to the check alike, in beside_certificates to the check alone.

use crate::cases::{by_trial, stock_refusal, verdict};
use crate::engine::Verdict;
use crate::faults::{failing, questions, Kind};
use crate::frames::{barrier_file, path_file, stock_file, Pair, GREATEST_FILE};
use crate::generate::{doubled_table, middling_graph, middling_stock, small_graph};
use crate::graph_trial::{self, is_self_arc, mate, mate_of, Graph, GRAPH_QUESTIONS, SELF_ARC};
use crate::judge::{shown, Judge, Trial, LEAST_ROOM};
use crate::known::{graph, graphs, KnownGraph, G3, G4, G5};
use crate::line_ends::{all_ways, cr_lf, to_length};
use crate::random::Random;

/// The trial and both calls say so of a graph, with all line ends; 0 for an answer.
fn gets(judge: &mut Judge, graph: &Graph, right: u8) -> Trial {
    let file = graph.file();
    by_trial(&file, graph_trial::read(&file).err().unwrap_or(0), right)?;
    if graph.has_self_arcs() {
        return refused(judge, &file, &path_file(&[]), &[None]);
    }
    judge.graph_all_ways(&file)
}

/// Rooms that are large enough, and one that is not.
const BOTH_ROOMS: [Option<usize>; 2] = [None, Some(LEAST_ROOM - 1)];

/// A file with self arcs, with all line ends, in rooms and beside a certificate.
fn refused(judge: &mut Judge, file: &[u8], certificate: &[u8], rooms: &[Option<usize>]) -> Trial {
    all_ways(&mut judge.random, file)
        .iter()
        .try_for_each(|file| rooms.iter().try_for_each(|short| judge.self_arcs(file, *short, certificate)))
}

// ---- known graphs

/// Mate pairs, source, arcs, and the refusal.
type Known = (usize, usize, &'static [Pair], u8);

/// Of one mate pair.
const SMALLEST: [Known; 25] = [
    (1, 0, &[(0, 0), (1, 1)], 16),
    (1, 1, &[(0, 0), (1, 1)], 16),
    (1, 0, &[(1, 1), (0, 0)], 16),
    // from a node to its mate
    (1, 0, &[(0, 1), (0, 1)], 0),
    (1, 1, &[(0, 1), (0, 1)], 0),
    (1, 0, &[(1, 0), (1, 0)], 0),
    // the line of its mate is wrong
    (1, 0, &[(0, 0), (0, 0)], 16),
    (1, 0, &[(1, 1), (1, 1)], 16),
    (1, 1, &[(0, 0), (0, 1)], 16),
    (1, 0, &[(1, 1), (0, 1)], 16),
    (1, 0, &[(0, 1), (0, 0)], 16),
    (1, 0, &[(0, 1), (1, 1)], 16),
    (1, 1, &[(1, 0), (1, 1)], 16),
    (1, 0, &[(0, 1), (1, 0)], 10),
    // an odd number of arcs
    (1, 0, &[(0, 0)], 8),
    (1, 0, &[(0, 0), (1, 1), (0, 0)], 8),
    (1, 0, &[(0, 1), (0, 1), (0, 0)], 8),
    // no such node
    (1, 0, &[(2, 2), (3, 3)], 9),
    (1, 0, &[(2, 2), (0, 1)], 9),
    (1, 0, &[(0, 1), (2, 2)], 9),
    (1, 0, &[(0, 0), (3, 3)], 9),
    (1, 0, &[(0, 0), (1, 1), (0, 2), (3, 1)], 9),
    (1, 0, &[(0, 2), (3, 1), (0, 0), (1, 1)], 9),
    // two pairs of mates
    (1, 0, &[(0, 0), (1, 1), (1, 1), (0, 0)], 16),
    (1, 1, &[(0, 1), (0, 1), (1, 0), (1, 0)], 0),
];

/// Of two mate pairs.
const SMALL: [Known; 25] = [
    (2, 0, &[(2, 2), (3, 3), (0, 2), (3, 1)], 16),
    (2, 0, &[(0, 2), (3, 1), (2, 2), (3, 3)], 16),
    (2, 0, &[(0, 2), (3, 1), (3, 3), (2, 2), (2, 3), (2, 3)], 16),
    (2, 2, &[(0, 2), (3, 1), (3, 3), (2, 2)], 16),
    (2, 3, &[(0, 2), (3, 1), (2, 2), (3, 3)], 16),
    (2, 0, &[(0, 0), (1, 1), (0, 2), (3, 1)], 16),
    (2, 0, &[(0, 2), (3, 1), (1, 1), (0, 0)], 16),
    (2, 1, &[(0, 0), (1, 1), (0, 2), (3, 1)], 16),
    (2, 0, &[(2, 2), (3, 3), (2, 2), (3, 3)], 16),
    (2, 0, &[(0, 0), (1, 1), (2, 2), (3, 3)], 16),
    // two other arcs are no mates
    (2, 0, &[(0, 2), (0, 2), (2, 2), (3, 3)], 16),
    (2, 0, &[(2, 2), (3, 3), (0, 2), (1, 3)], 16),
    (2, 0, &[(0, 2), (1, 3)], 10),
    // one of two lines alone
    (2, 0, &[(0, 2), (2, 2), (0, 2), (3, 1)], 16),
    (2, 0, &[(0, 2), (3, 1), (2, 3), (3, 3)], 16),
    (2, 0, &[(0, 2), (3, 1), (3, 3), (2, 3)], 16),
    (2, 0, &[(1, 1), (3, 1), (0, 2), (3, 1)], 16),
    (2, 0, &[(0, 2), (3, 1), (0, 2), (3, 3), (0, 2), (3, 1)], 16),
    (2, 0, &[(0, 2), (3, 1), (2, 2), (3, 1), (0, 2), (3, 1)], 16),
    // the same at a node that does not exist
    (2, 0, &[(0, 2), (3, 1), (4, 4), (5, 5)], 9),
    (2, 0, &[(2, 2), (3, 3), (0, 4), (5, 1)], 9),
    // parallel arcs, arcs there and back, and arcs from a node to its mate
    (2, 0, &[(0, 2), (3, 1), (0, 2), (3, 1)], 0),
    (2, 2, &[(0, 2), (3, 1), (2, 0), (1, 3)], 0),
    (2, 1, &[(0, 1), (0, 1), (1, 0), (1, 0), (2, 3), (2, 3), (3, 2), (3, 2)], 0),
    (2, 3, &G5, 0),
];

/// Of larger nodes: with one digit alike, with the same two digits, and from 128 on.
const LARGER: [Known; 22] = [
    (9, 0, &[(0, 16), (17, 1)], 0),
    (9, 0, &[(1, 16), (17, 0)], 0),
    (9, 0, &[(16, 16), (17, 17)], 16),
    (9, 0, &[(0, 2), (17, 17)], 16),
    (8, 0, &[(16, 16), (17, 17)], 9),
    (65, 0, &[(0, 128), (129, 1)], 0),
    (65, 0, &[(127, 127), (126, 126)], 16),
    (65, 0, &[(128, 128), (129, 129)], 16),
    (65, 0, &[(129, 129), (0, 2)], 16),
    (64, 0, &[(127, 127), (126, 126)], 16),
    (64, 0, &[(127, 127), (0, 2)], 16),
    (64, 0, &[(128, 128), (129, 129)], 9),
    (128, 0, &[(255, 255), (254, 254)], 16),
    (128, 255, &[(254, 254), (255, 255)], 16),
    (128, 0, &[(255, 255), (0, 2)], 16),
    (128, 0, &[(0, 2), (254, 254)], 16),
    (128, 0, &[(0, 0), (255, 255)], 16),
    (128, 128, &[(127, 127), (128, 128)], 16),
    (128, 0, &[(0, 254), (255, 1)], 0),
    (128, 0, &[(15, 240), (241, 14)], 0),
    (128, 255, &[(255, 254), (255, 254)], 0),
    (127, 0, &[(254, 254), (255, 255)], 9),
];

pub fn known(judge: &mut Judge) -> Trial {
    for (pairs, source, arcs, right) in SMALLEST.into_iter().chain(SMALL).chain(LARGER) {
        gets(judge, &Graph { pairs, source, arcs: arcs.to_vec() }, right)?;
    }
    refused(judge, &graph(2, &[(0, 2), (3, 1), (2, 2), (3, 3)]).file(), b"", &BOTH_ROOMS)?;
    // a camera with itself
    stock_refusal(judge, &stock_file(3, &[(1, 1)], &[]), 11)?;
    stock_refusal(judge, &stock_file(3, &[(0, 1), (2, 2)], &[(0, 1)]), 11)?;
    stock_refusal(judge, &stock_file(3, &[(3, 3)], &[]), 9)?;
    stock_refusal(judge, &stock_file(3, &[(0, 1)], &[(0, 0)]), 12)
}

// ---- the check

/// The graph with a self arc and its mate as the last two, so that the arcs before keep their numbers.
fn with_last(graph: &Graph, node: usize) -> Graph {
    put_in(graph, graph.arcs.len() / 2, node)
}

/// The graph with a self arc and its mate before that one of its pairs of arcs.
fn put_in(graph: &Graph, place: usize, node: usize) -> Graph {
    let mut arcs = graph.arcs.clone();
    arcs.splice(2 * place..2 * place, [(node, node), mate_of((node, node))]);
    Graph { arcs, ..graph.clone() }
}

pub fn beside_certificates(judge: &mut Judge) -> Trial {
    for KnownGraph { graph, answers, .. } in graphs() {
        let mut certificates = answers.clone();
        // two that get no, and two that are refused
        certificates.extend([path_file(&[]), barrier_file(&vec![0; graph.nodes()])]);
        certificates.extend([path_file(&[graph.arcs.len() + 2]), Vec::new()]);
        for certificate in &certificates[..answers.len()] {
            verdict(judge, &graph.file(), certificate, Verdict::Yes)?;
        }
        let node = judge.random.below(graph.nodes());
        let file = with_last(&graph, node).file();
        certificates.iter().try_for_each(|certificate| in_check(judge, &file, certificate))?;
    }
    let g5 = with_last(&graphs()[4].graph, 2).file();
    // certificates that each question refuses
    for kind in [Kind::Path, Kind::Barrier] {
        for question in questions(kind) {
            let certificate = failing(&mut judge.random, kind, &[*question])?;
            in_check(judge, &g5, &certificate)?;
        }
    }
    // a self arc among the arcs that a path goes along
    [&[6][..], &[0, 6, 2, 5], &[0, 7]].into_iter().try_for_each(|arcs| in_check(judge, &g5, &path_file(arcs)))
}

/// Whatever the certificate, with all line ends in both.
fn in_check(judge: &mut Judge, graph: &[u8], certificate: &[u8]) -> Trial {
    by_trial(certificate, graph_trial::check(graph, certificate), Verdict::Refused(SELF_ARC))?;
    judge.certificate_all_ways(graph, certificate)
}

// ---- random graphs

fn some_graph(random: &mut Random) -> Graph {
    match random.below(4) {
        0 => middling_graph(random),
        1 => doubled_table(&middling_stock(random)),
        _ => small_graph(random),
    }
}

fn without_self_arcs(graph: &Graph) -> Graph {
    let kept = graph.arcs.chunks_exact(2).filter(|two| !is_self_arc(&two[0]) && !is_self_arc(&two[1]));
    Graph { arcs: kept.flatten().copied().collect(), ..graph.clone() }
}

pub fn put_in_and_taken_out(judge: &mut Judge, files: usize) -> Trial {
    (0..files).try_for_each(|_| {
        let graph = some_graph(&mut judge.random);
        let before = judge.graph_answer(&graph.file())?;
        let mut with = graph.clone();
        for _ in 0..judge.random.between(1, 3) {
            let (place, node) = (judge.random.below(with.arcs.len() / 2 + 1), judge.random.below(graph.nodes()));
            with = put_in(&with, place, node);
            by_trial(&with.file(), graph_trial::read(&with.file()).err(), Some(SELF_ARC))?;
            refused(judge, &with.file(), &before, &[None])?;
        }
        let after = judge.graph_answer(&without_self_arcs(&with).file())?;
        if after != before {
            let answers = format!("{}and\n{}", shown(&before), shown(&after));
            return Err(format!(
                "the same graph after one with self arcs is answered otherwise:\n{answers}to:\n{}",
                shown(&graph.file())
            ));
        }
        Ok(())
    })
}

/// The source, its mate, the first or the last node, or any.
fn some_node(random: &mut Random, graph: &Graph) -> usize {
    let any = random.below(graph.nodes());
    *random.choose(&[graph.source, mate(graph.source), 0, graph.nodes() - 1, any])
}

pub fn in_each_arc(judge: &mut Judge, files: usize) -> Trial {
    (0..files).try_for_each(|_| {
        let graph = small_graph(&mut judge.random);
        for arc in 0..graph.arcs.len() {
            let node = some_node(&mut judge.random, &graph);
            let with = |own: Pair, other: Pair| {
                let mut with = graph.clone();
                (with.arcs[arc], with.arcs[mate(arc)]) = (own, other);
                with
            };
            gets(judge, &with((node, node), graph.arcs[mate(arc)]), SELF_ARC)?;
            gets(judge, &with((node, node), mate_of((node, node))), SELF_ARC)?;
            gets(judge, &with((node, mate(node)), (node, mate(node))), 0)?;
        }
        Ok(())
    })
}

// ---- other faults

pub fn with_other_faults(judge: &mut Judge) -> Trial {
    let g4_answer = graphs()[3].answers[0].clone();
    for certificate in [&g4_answer[..], b""] {
        refused_by(judge, &[SELF_ARC], certificate)?;
        for question in GRAPH_QUESTIONS.into_iter().filter(|question| *question != SELF_ARC) {
            let both = if question == 10 { [SELF_ARC, question] } else { [question, SELF_ARC] };
            refused_by(judge, &both, certificate)?;
        }
    }
    Ok(())
}

/// A file that fails these questions.
fn refused_by(judge: &mut Judge, faults: &[u8], certificate: &[u8]) -> Trial {
    let file = failing(&mut judge.random, Kind::Graph, faults)?;
    by_trial(&file, graph_trial::read(&file).err(), Some(faults[0]))?;
    refused(judge, &file, certificate, &BOTH_ROOMS)
}

// ---- every graph of a size

pub fn every_two_arcs(judge: &mut Judge) -> Trial {
    for pairs in [1_usize, 2] {
        // one node more than there are
        let numbers = 2 * pairs + 1;
        for number in 0..numbers.pow(4) {
            let [tail, head, other_tail, other_head] = [0, 1, 2, 3].map(|digit| number / numbers.pow(digit) % numbers);
            let two = [(tail, head), (other_tail, other_head)];
            let right = match two {
                _ if [tail, head, other_tail, other_head].contains(&(2 * pairs)) => 9,
                _ if tail == head || other_tail == other_head => 16,
                _ if (other_tail, other_head) != (mate(head), mate(tail)) => 10,
                _ => 0,
            };
            let source = judge.random.below(2 * pairs);
            every_way(judge, &Graph { pairs, source, arcs: two.to_vec() }, right)?;
            if pairs == 2 {
                every_way(judge, &Graph { pairs, source, arcs: [&G4[..], &two].concat() }, right)?;
            }
        }
    }
    Ok(())
}

/// By both calls, as it is.
fn every_way(judge: &mut Judge, graph: &Graph, right: u8) -> Trial {
    let file = graph.file();
    by_trial(&file, graph_trial::read(&file).err().unwrap_or(0), right)?;
    judge.graph(&file)?;
    judge.check(&file, b"")
}

// ---- the largest graphs

/// Parallel arcs, of which one is a self arc, with its mate or alone.
fn one_among(random: &mut Random, arcs: usize, place: usize) -> Graph {
    let mut graph = Graph { pairs: 128, source: 0, arcs: G3.into_iter().cycle().take(arcs).collect() };
    let node = some_node(random, &graph);
    graph.arcs[place] = (node, node);
    if random.chance(50) {
        graph.arcs[mate(place)] = mate_of((node, node));
    }
    graph
}

pub fn among_most_arcs(judge: &mut Judge) -> Trial {
    let any = judge.random.below(8_192);
    for place in [1, 4_095, 4_096, 7_192, 8_189, 8_190, 8_191, any] {
        let file = one_among(&mut judge.random, 8_192, place).file();
        let bytes = *judge.random.choose(&[file.len(), GREATEST_FILE]);
        refused_as_it_is(judge, &to_length(&file, bytes))?;
    }
    for place in [any % 7_498, 7_497] {
        let file = one_among(&mut judge.random, 7_498, place).file();
        refused_as_it_is(judge, &cr_lf(&file))?;
    }
    Ok(())
}

fn refused_as_it_is(judge: &mut Judge, file: &[u8]) -> Trial {
    by_trial(file, graph_trial::read(file).err(), Some(SELF_ARC))?;
    judge.self_arcs(file, None, b"")
}
