//! The largest files: graphs of 128 mate pairs and up to 8,192 arcs, stocks of 127 cameras and up to 3,900 fits.
//!   many_parts                      127 parts, two of them joined
//!   nested_buds                     buds inside buds, as deep as the nodes allow
//!   dense_graphs, sparse_graphs     random arcs; with one arc from the source there is no path
//!   largest_tables                  doubled tables of large stocks
//!   dense_stocks, triangles, odd_rings, ears
//!   known_answer                    the answer to a graph that is known to get something
//!   try_graph, try_stock            a file that is known to get something, and the same under other numbers
//!   dense_graph                     128 mate pairs and 8,192 arcs
//! Where the answer is plain from how the file is made, the trial is held to it too.

use crate::blossom;
use crate::frames::Pair;
use crate::generate::{
    doubled_table, ear_fits, nearly_largest_lit, random_graph, shuffled_graph, shuffled_stock, some_fits, some_lit, stock_of,
};
use crate::graph_trial::Graph;
use crate::judge::{shown, Judge, Trial};
use crate::random::Random;
use crate::shapes::{chain, entries, parts, row, triangles_in_a_row, turns, with_mates, Known};
use crate::stock_trial::{Standing, Stock, ISOLATED};

// ---- graphs

/// The answer to a graph, judged, and held to what is known.
pub fn known_answer(judge: &mut Judge, graph: &Graph, known: &Known) -> Result<Vec<u8>, String> {
    let file = graph.file();
    let answer = judge.graph_answer(&file)?;
    if known.allows(&answer) {
        Ok(answer)
    } else {
        Err(format!("the trial takes another answer than is known:\n{}to:\n{}", shown(&answer), shown(&file)))
    }
}

pub fn try_graph(judge: &mut Judge, graph: &Graph, known: &Known) -> Trial {
    known_answer(judge, graph, known)?;
    let other = shuffled_graph(&mut judge.random, graph);
    judge.made_graph(&other)
}

/// An arc between two of 127 parts makes a path; if only one of them has an entry, they are one part.
pub fn many_parts(judge: &mut Judge) -> Trial {
    let (entries, turns) = (entries(128), turns(128));
    try_graph(judge, &with_mates(128, &[&entries, &turns, &[(2, 4)]]), &Known::Path)?;
    let joined = parts(128).1.iter().map(|class| if *class == 129 { 3 } else { *class }).collect();
    try_graph(judge, &with_mates(128, &[&entries[..126], &turns, &[(2, 254)]]), &Known::Classes(joined))
}

/// One arc into a chain on which many nodes have an arc to the mate side: the buds lie inside one another.
pub fn nested_buds(judge: &mut Judge) -> Trial {
    let back: Vec<Pair> = (2..128).map(|pair| (2 * pair, 2 * pair - 1)).collect();
    let across: Vec<Pair> = (1..64).map(|pair| (2 * (128 - pair), 2 * pair + 1)).collect();
    let chain = chain(128);
    for more in [turns(128), back, across] {
        let classes = (0..256).map(|node| if node < 2 { 1 + node } else { 3 }).collect();
        try_graph(judge, &with_mates(128, &[&chain, &more]), &Known::Classes(classes))?;
        // a second arc from the source
        try_graph(judge, &with_mates(128, &[&more, &chain, &chain[..1]]), &Known::Path)?;
    }
    Ok(())
}

/// 8,192 arcs, that many of them from the source.
pub fn dense_graph(random: &mut Random, entries: usize) -> Graph {
    let entry: Vec<Pair> = (0..entries).map(|_| (0, random.between(2, 255))).collect();
    let mut inner = || {
        let tail = random.between(2, 255);
        (tail, random.another(2, 255, tail))
    };
    let elsewhere: Vec<Pair> = (entries..4_096).map(|_| inner()).collect();
    with_mates(128, &[&entry, &elsewhere])
}

pub fn dense_graphs(judge: &mut Judge) -> Trial {
    for (entries, known) in [(1, Known::Barrier), (2, Known::Either)] {
        let graph = dense_graph(&mut judge.random, entries);
        try_graph(judge, &graph, &known)?;
    }
    let graph = random_graph(&mut judge.random, 128, 4_096);
    try_graph(judge, &graph, &Known::Either)
}

pub fn sparse_graphs(judge: &mut Judge, files: usize) -> Trial {
    (0..files).try_for_each(|_| {
        let arc_pairs = judge.random.between(60, 260);
        let graph = random_graph(&mut judge.random, 128, arc_pairs);
        judge.made_graph(&graph)
    })
}

/// A path exactly where the lit pairs are not largest.
pub fn largest_tables(judge: &mut Judge) -> Trial {
    for fewer in [0, 1] {
        let random = &mut judge.random;
        for fits in [some_fits(random, 127, 3_900), ear_fits(random, 127)] {
            let lit = nearly_largest_lit(127, &fits, fewer);
            let known = if fewer == 0 { Known::Barrier } else { Known::Path };
            try_graph(judge, &doubled_table(&stock_of(127, &fits, &lit)), &known)?;
        }
    }
    try_graph(judge, &doubled_table(&row(126, 126).0), &Known::Path)?;
    try_graph(judge, &doubled_table(&triangles_in_a_row(0)), &Known::Path)
}

// ---- stocks

pub fn try_stock(judge: &mut Judge, stock: &Stock, known: Option<Standing>) -> Trial {
    if known.is_some_and(|known| known != blossom::standing(stock.cameras, &stock.fits)) {
        return Err(format!("the trial gives another standing than is known\n{}", shown(&stock.file())));
    }
    judge.made_stock(stock)?;
    let other = shuffled_stock(&mut judge.random, stock);
    judge.made_stock(&other)
}

pub fn dense_stocks(judge: &mut Judge) -> Trial {
    for percent in [0, 50, 100] {
        let random = &mut judge.random;
        let fits = some_fits(random, 127, 3_900);
        let lit = some_lit(random, &fits, percent);
        try_stock(judge, &stock_of(127, &fits, &lit), None)?;
    }
    // 30 cameras that fit each of the 97 others, which fit none among themselves
    let fits: Vec<Pair> = (0..30).flat_map(|u| (30..127).map(move |v| (u, v))).collect();
    let lit: Vec<Pair> = (0..29).map(|u| (u, 30 + u)).collect();
    let marks = (0..127).map(|camera| usize::from(camera < 30)).collect();
    try_stock(judge, &stock_of(127, &fits, &lit), Some(Standing { greatest: 30, marks }))?;
    try_stock(judge, &stock_of(127, &[], &[]), Some(Standing { greatest: 0, marks: vec![ISOLATED; 127] }))
}

pub fn triangles(judge: &mut Judge) -> Trial {
    [0, 1, 2, 42].into_iter().try_for_each(|fewer| {
        let known = Standing { greatest: 63, marks: vec![2; 126] };
        try_stock(judge, &triangles_in_a_row(fewer), Some(known))
    })
}

pub fn odd_rings(judge: &mut Judge) -> Trial {
    for (rings, size) in [(1, 127), (3, 41), (9, 13), (25, 5), (42, 3)] {
        let ring = |first: usize| (0..size).map(move |step| (first + step, first + (step + 1) % size));
        let fits: Vec<Pair> = (0..rings).flat_map(|number| ring(number * size)).collect();
        let lit = some_lit(&mut judge.random, &fits, 100);
        let known = Standing { greatest: rings * (size / 2), marks: vec![0; rings * size] };
        try_stock(judge, &stock_of(rings * size, &fits, &lit), Some(known))?;
    }
    Ok(())
}

/// Ears make every camera one that may be left over where the cameras are odd in number.
pub fn ears(judge: &mut Judge, files: usize) -> Trial {
    (0..files).try_for_each(|number| {
        let random = &mut judge.random;
        let cameras = 2 * random.between(45, 63) + 1;
        let fits = ear_fits(random, cameras);
        let lit = if number % 2 == 0 { some_lit(random, &fits, 100) } else { nearly_largest_lit(cameras, &fits, 1) };
        let known = Standing { greatest: cameras / 2, marks: vec![0; cameras] };
        try_stock(judge, &stock_of(cameras, &fits, &lit), Some(known))
    })
}
