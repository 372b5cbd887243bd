//! Random graphs and stocks.
//!   small_graph          few nodes; parallel arcs and arcs from a node to its mate among its arcs
//!   middling_graph       up to 40 nodes
//!   random_graph         a graph of given size
//!   doubled_table        document 01's doubled table of a stock, as a graph
//!   shuffled_graph       the same graph under other numbers
//!   small_stock          up to eight cameras, any fits, any pairing lit
//!   middling_stock       up to 40 cameras
//!   stock_with_isolated  up to twelve cameras, one to four of them put in without a fit
//!   places_among, placed     a stock's cameras among more, which have no fit and stand before, between or after its own
//!   stock_of             cameras, fits and lit pairs put in the file's order
//!   shuffled_stock       the same stock under other numbers
//!   ear_fits             fits that grow by odd ears from one camera: blossoms inside blossoms
//!   some_lit             a random pairing

use crate::blossom;
use crate::frames::Pair;
use crate::graph_trial::{mate, mate_of, Graph};
use crate::random::Random;
use crate::stock_trial::Stock;

// ---- graphs

pub fn random_graph(random: &mut Random, pairs: usize, arc_pairs: usize) -> Graph {
    let nodes = 2 * pairs;
    let source = random.below(nodes);
    let mut arcs: Vec<Pair> = Vec::with_capacity(2 * arc_pairs);
    for _ in 0..arc_pairs {
        let tail = if random.chance(15) { source } else { random.below(nodes) };
        let (tail, head) = match random.below(100) {
            0..=10 => (tail, mate(tail)),
            11..=25 if !arcs.is_empty() => *random.choose(&arcs),
            _ => (tail, random.another(0, nodes - 1, tail)),
        };
        arcs.extend([(tail, head), mate_of((tail, head))]);
    }
    Graph { pairs, source, arcs }
}

pub fn small_graph(random: &mut Random) -> Graph {
    let pairs = random.between(1, 6);
    let arc_pairs = random.below(2 * pairs + 1);
    random_graph(random, pairs, arc_pairs)
}

pub fn middling_graph(random: &mut Random) -> Graph {
    let pairs = random.between(6, 20);
    let arc_pairs = random.between(pairs / 2, 2 * pairs);
    random_graph(random, pairs, arc_pairs)
}

pub fn doubled_table(stock: &Stock) -> Graph {
    let source = 2 * stock.cameras;
    let is_lit = |camera: usize| stock.lit.iter().any(|pair| pair.0 == camera || pair.1 == camera);
    let mut single: Vec<Pair> = (0..stock.cameras).filter(|camera| !is_lit(*camera)).map(|camera| (source, 2 * camera)).collect();
    for (u, v) in &stock.fits {
        let lit = stock.lit.contains(&(*u, *v));
        single.push(if lit { (2 * u + 1, 2 * v) } else { (2 * u, 2 * v + 1) });
    }
    let arcs = single.into_iter().flat_map(|arc| [arc, mate_of(arc)]).collect();
    Graph { pairs: stock.cameras + 1, source, arcs }
}

/// Mate pairs of nodes in another order, some turned round; pairs of arcs likewise.
pub fn shuffled_graph(random: &mut Random, graph: &Graph) -> Graph {
    let mut order: Vec<usize> = (0..graph.pairs).collect();
    random.shuffle(&mut order);
    let turned: Vec<usize> = (0..graph.pairs).map(|_| random.below(2)).collect();
    let renamed = |node: usize| 2 * order[node / 2] + ((node % 2) ^ turned[node / 2]);
    let mut arc_pairs: Vec<[Pair; 2]> = graph.arcs.chunks_exact(2).map(|two| [two[0], two[1]]).collect();
    random.shuffle(&mut arc_pairs);
    let mut arcs = Vec::new();
    for [one, other] in arc_pairs {
        let two = if random.chance(50) { [one, other] } else { [other, one] };
        arcs.extend(two.map(|(tail, head)| (renamed(tail), renamed(head))));
    }
    Graph { pairs: graph.pairs, source: renamed(graph.source), arcs }
}

// ---- stocks

/// The smaller camera first, rising, each fit once.
pub fn in_order(pairs: &[Pair]) -> Vec<Pair> {
    let mut ordered: Vec<Pair> = pairs.iter().map(|(u, v)| (*u.min(v), *u.max(v))).collect();
    ordered.sort_unstable();
    ordered.dedup();
    ordered
}

pub fn stock_of(cameras: usize, fits: &[Pair], lit: &[Pair]) -> Stock {
    Stock { cameras, fits: in_order(fits), lit: in_order(lit) }
}

pub fn all_fits(cameras: usize) -> Vec<Pair> {
    (0..cameras).flat_map(|u| (u + 1..cameras).map(move |v| (u, v))).collect()
}

pub fn some_fits(random: &mut Random, cameras: usize, number: usize) -> Vec<Pair> {
    let mut fits = all_fits(cameras);
    random.shuffle(&mut fits);
    fits.truncate(number);
    fits
}

/// Fits taken in a random order wherever both cameras are still free, each with a chance.
pub fn some_lit(random: &mut Random, fits: &[Pair], percent: usize) -> Vec<Pair> {
    let mut order = fits.to_vec();
    random.shuffle(&mut order);
    let mut lit: Vec<Pair> = Vec::new();
    for (u, v) in order {
        let free = lit.iter().all(|pair| pair.0 != u && pair.1 != u && pair.0 != v && pair.1 != v);
        if free && random.chance(percent) {
            lit.push((u, v));
        }
    }
    lit
}

/// A largest pairing less a few of its pairs.
pub fn nearly_largest_lit(cameras: usize, fits: &[Pair], fewer: usize) -> Vec<Pair> {
    let mut partner = vec![None; cameras];
    blossom::enlarge(&blossom::neighbours(cameras, fits), &mut partner);
    blossom::pairs(&partner).into_iter().skip(fewer).collect()
}

pub fn shuffled_stock(random: &mut Random, stock: &Stock) -> Stock {
    let mut order: Vec<usize> = (0..stock.cameras).collect();
    random.shuffle(&mut order);
    let renamed = |pairs: &[Pair]| -> Vec<Pair> { pairs.iter().map(|(u, v)| (order[*u], order[*v])).collect() };
    stock_of(stock.cameras, &renamed(&stock.fits), &renamed(&stock.lit))
}

fn with_some_lit(random: &mut Random, cameras: usize, fits: &[Pair]) -> Stock {
    let percent = *random.choose(&[0, 30, 60, 100, 100]);
    let lit = some_lit(random, fits, percent);
    stock_of(cameras, fits, &lit)
}

pub fn small_stock(random: &mut Random) -> Stock {
    let cameras = random.below(9);
    let most = all_fits(cameras).len();
    let number = if random.chance(50) { random.below(most + 1) } else { random.below(cameras + 2) };
    let fits = some_fits(random, cameras, number);
    with_some_lit(random, cameras, &fits)
}

pub fn middling_stock(random: &mut Random) -> Stock {
    let cameras = random.between(9, 40);
    let fits = if random.chance(40) {
        ear_fits(random, cameras)
    } else {
        let number = random.between(cameras / 2, 2 * cameras);
        some_fits(random, cameras, number)
    };
    let stock = with_some_lit(random, cameras, &fits);
    shuffled_stock(random, &stock)
}

/// Among the other cameras are some with one fit, and pairs that fit nobody else; or none of them has a fit.
pub fn stock_with_isolated(random: &mut Random) -> Stock {
    let own = random.below(9);
    let fits: Vec<Pair> = match random.below(10) {
        0 => Vec::new(),
        1..=3 => (1..own).step_by(2).map(|camera| (camera - 1, camera)).collect(),
        4..=6 => (1..own).map(|camera| (random.below(camera), camera)).collect(),
        _ => some_fits(random, own, 1 + own),
    };
    let stock = with_some_lit(random, own, &fits);
    let more = random.between(1, 4);
    let places = places_among(random, own, more);
    placed(&shuffled_stock(random, &stock), own + more, &places)
}

/// The numbers of a stock's own cameras where more stand in one place, at the front, the end or between, or anywhere; rising.
pub fn places_among(random: &mut Random, own: usize, more: usize) -> Vec<usize> {
    let before = match random.below(4) {
        0 => 0,
        1 => own,
        _ => random.below(own + 1),
    };
    let mut places: Vec<usize> = (0..before).chain(before + more..own + more).collect();
    if random.chance(40) {
        places = (0..own + more).collect();
        random.shuffle(&mut places);
        places.truncate(own);
        places.sort_unstable();
    }
    places
}

/// The stock with its cameras under these numbers, which rise.
pub fn placed(stock: &Stock, cameras: usize, places: &[usize]) -> Stock {
    let renamed = |pairs: &[Pair]| -> Vec<Pair> { pairs.iter().map(|(u, v)| (places[*u], places[*v])).collect() };
    Stock { cameras, fits: renamed(&stock.fits), lit: renamed(&stock.lit) }
}

/// Ears of an odd number of fits, each between two cameras that are there already, until all cameras are; a last one may stay alone.
pub fn ear_fits(random: &mut Random, cameras: usize) -> Vec<Pair> {
    let mut fits = Vec::new();
    let mut there = 1;
    while there + 2 <= cameras {
        let new = 2 * random.between(1, 2.min((cameras - there) / 2));
        let (start, end) = (random.below(there), random.below(there));
        let mut at = start;
        for camera in there..there + new {
            fits.push((at, camera));
            at = camera;
        }
        fits.push((at, end));
        there += new;
    }
    fits
}
