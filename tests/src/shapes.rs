//! Graphs and stocks made to measure, whose answers are plain from how they are made.
//!   Known                    what a graph is known to get
//!   with_mates               a graph from source 0, each arc with its mate
//!   chain, turns, entries    arcs 0 to 2 to 4 and so on; from nodes to their mates; from the source to all others
//!   path_graph               every regular path from the source to its mate has a given number of arcs, from 1 to 255
//!   barred_chain             a chain to one part, and mate pairs that nothing reaches
//!   parts                    as many parts as there are mate pairs besides the source's
//!   of_every_size            graphs with answers of every number of lines
//!   spoiled                  an answer changed at its end, so that it is none
//!   row                      cameras in a row, each fitting the next, one pair short of the greatest number
//!   rows_of_every_size       rows of every number of cameras, and of every number of pairs among 127
//!   triangles_in_a_row       triangles, each joined to the next

use crate::engine::Verdict;
use crate::frames::{barrier_file, kind_of, path_file, Form, Pair, Text, BARRIER, PATH};
use crate::generate::stock_of;
use crate::graph_trial::{check, mate, mate_of, read_certificate, Certificate, Graph, A, A_MATES, FIRST_X, M};
use crate::judge::shown;
use crate::stock_trial::{Standing, Stock, ISOLATED};

/// What a graph is known to get, from how it is made.
pub enum Known {
    /// a path or a barrier
    Either,
    Path,
    /// a path of that many arcs
    Arcs(usize),
    Barrier,
    /// the barrier of these classes
    Classes(Vec<usize>),
}

impl Known {
    pub fn allows(&self, answer: &[u8]) -> bool {
        let text = Text::of(answer);
        let opens_as = |form: &Form| kind_of(text.header()) == form.header as usize;
        match self {
            Known::Either => opens_as(&PATH) || opens_as(&BARRIER),
            Known::Path => opens_as(&PATH),
            Known::Arcs(number) => opens_as(&PATH) && text.body().len() == *number,
            Known::Barrier => opens_as(&BARRIER),
            Known::Classes(classes) => answer == barrier_file(classes),
        }
    }
}

// ---- graphs

pub fn with_mates(pairs: usize, single: &[&[Pair]]) -> Graph {
    let arcs = single.concat().into_iter().flat_map(|arc| [arc, mate_of(arc)]).collect();
    Graph { pairs, source: 0, arcs }
}

/// 0, 2, 4 and so on through that many mate pairs.
pub fn chain(pairs: usize) -> Vec<Pair> {
    (1..pairs).map(|pair| (2 * pair - 2, 2 * pair)).collect()
}

/// From each of 2, 4 and so on to its mate.
pub fn turns(pairs: usize) -> Vec<Pair> {
    (1..pairs).map(|pair| (2 * pair, 2 * pair + 1)).collect()
}

/// Down a chain, over to the mate of its end, and back by the mates of a second chain beside it. For an even length, over by one more node.
pub fn path_graph(length: usize) -> Graph {
    let down = (length - 1) / 2;
    let (end, beside) = (2 * down, 2 * down + 2);
    let over = if length % 2 == 1 { vec![(end, mate(end))] } else { vec![(end, beside), (beside, mate(end))] };
    with_mates(down + over.len(), &[&chain(down + 1), &chain(down + 1), &over])
}

/// The graph and its classes. The first mate pairs are a chain, its last node with an arc to its mate; nothing leads to the others.
pub fn barred_chain(pairs: usize, in_chain: usize) -> (Graph, Vec<usize>) {
    let others: Vec<Pair> = (in_chain + 1..pairs).map(|pair| (2 * pair, 2 * pair - 2)).collect();
    let end = turns(in_chain).pop().into_iter().collect::<Vec<Pair>>();
    let class = |node: usize| match node / 2 + 1 {
        pair if pair > in_chain => M,
        pair if pair == in_chain && pair > 1 => FIRST_X,
        _ => [A, A_MATES][node % 2],
    };
    (with_mates(pairs, &[&chain(in_chain), &end, &others]), (0..2 * pairs).map(class).collect())
}

/// An arc from the source to each other mate pair.
pub fn entries(pairs: usize) -> Vec<Pair> {
    (1..pairs).map(|pair| (0, 2 * pair)).collect()
}

/// The graph and its classes.
pub fn parts(pairs: usize) -> (Graph, Vec<usize>) {
    let class = |node: usize| if node < 2 { [A, A_MATES][node] } else { FIRST_X + node / 2 - 1 };
    (with_mates(pairs, &[&entries(pairs), &turns(pairs)]), (0..2 * pairs).map(class).collect())
}

/// Paths of 255 arcs to 1, then barriers on 128 mate pairs to 1: of each size one with as many parts as there can be, and one with few.
pub fn of_every_size() -> impl Iterator<Item = (Graph, Known)> {
    let open = (1..=255).rev().map(|length| (path_graph(length), Known::Arcs(length)));
    let barred = (1..=128).rev().flat_map(|pairs| [parts(pairs), barred_chain(pairs, pairs - pairs / 4)]);
    open.chain(barred.map(|(graph, classes)| (graph, Known::Classes(classes))))
}

/// An answer that is no answer any more, by its last line or two.
pub fn spoiled(graph: &Graph, answer: &[u8]) -> Result<Vec<u8>, String> {
    let spoiled = match read_certificate(graph, answer) {
        Ok(Certificate::Path(arcs)) => path_file(&spoiled_path(&arcs)),
        Ok(Certificate::Barrier(classes)) => barrier_file(&spoiled_classes(&classes)),
        Err(refusal) => return Err(format!("refusal {refusal} of an answer\n{}", shown(answer))),
    };
    match check(&graph.file(), &spoiled) {
        Verdict::No => Ok(spoiled),
        verdict => Err(format!("{verdict:?} of an answer that was spoiled\n{}", shown(&spoiled))),
    }
}

/// The last arc is the mate of the first; where there is only one, it is left out.
fn spoiled_path(arcs: &[usize]) -> Vec<usize> {
    let mut spoiled = arcs[..arcs.len() - 1].to_vec();
    spoiled.extend(spoiled.first().map(|first| mate(*first)));
    spoiled
}

/// The last mate pair has the class after the highest: one is skipped, or no arc enters it.
fn spoiled_classes(classes: &[usize]) -> Vec<usize> {
    let highest = classes.iter().copied().max().unwrap().max(FIRST_X - 1);
    let before = &classes[..classes.len() - 2];
    [before, &[highest + 1; 2]].concat()
}

// ---- stocks

/// The stock and its standing. The first cameras are the row; all its pairs but one are lit, in its middle, so that a plan swaps every one.
pub fn row(cameras: usize, in_row: usize) -> (Stock, Standing) {
    let fits: Vec<Pair> = (1..in_row).map(|camera| (camera - 1, camera)).collect();
    let greatest = in_row / 2;
    let lit: Vec<Pair> = (1..greatest).map(|pair| (2 * pair - 1, 2 * pair)).collect();
    // of an odd row, any camera other than the second, the fourth and so on may be left over; a row of one is no row
    let mark = |camera: usize| match (camera < in_row, in_row) {
        (false, _) | (_, 1) => ISOLATED,
        (true, number) if number % 2 == 0 => 2,
        (true, _) => camera % 2,
    };
    (stock_of(cameras, &fits, &lit), Standing { greatest, marks: (0..cameras).map(mark).collect() })
}

/// Rows of 127 cameras to none; then 63 pairs to none among 127 cameras, the others alone.
pub fn rows_of_every_size() -> impl Iterator<Item = (Stock, Standing)> {
    let whole = (0..=127).rev().map(|cameras| row(cameras, cameras));
    whole.chain((0..=63).rev().map(|pairs| row(127, 2 * pairs)))
}

/// 42 triangles, each joined to the next by a fit between a camera of each. The pairs of those cameras are lit, but for the first few.
pub fn triangles_in_a_row(fewer: usize) -> Stock {
    let mut fits = Vec::new();
    for first in (0..126).step_by(3) {
        fits.extend([(first, first + 1), (first, first + 2), (first + 1, first + 2)]);
        if first > 0 {
            fits.push((first - 1, first));
        }
    }
    let lit: Vec<Pair> = (0..42).map(|triangle| (3 * triangle, 3 * triangle + 2)).skip(fewer).collect();
    stock_of(126, &fits, &lit)
}
