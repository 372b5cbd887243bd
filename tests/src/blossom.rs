//! Maximum matchings of large graphs by Edmonds' blossom algorithm, to know what the trial of all pairings cannot reach.
//!   neighbours              adjacency lists of a list of edges
//!   Search                  one search for an augmenting path from an unmatched vertex
//!   augment                 makes a matching one larger by a path from a root, or tells the vertices that even alternating paths reach
//!   enlarge                 a maximum matching that covers all that a given matching covers
//!   marks_from              marks by even alternating paths from the cameras that a pairing leaves over
//!   standing                greatest number of pairs and marks: a camera that fits another is marked 00 if the maximum stays without it
//! A search keeps, for each vertex, the base of the blossom it lies in; blossoms are contracted by giving all their vertices one base.

use crate::frames::Pair;
use crate::stock_trial::{Standing, ISOLATED};
use std::collections::VecDeque;

pub type Partners = Vec<Option<usize>>;

pub fn neighbours(vertices: usize, edges: &[Pair]) -> Vec<Vec<usize>> {
    let mut lists = vec![Vec::new(); vertices];
    for (one, other) in edges {
        lists[*one].push(*other);
        lists[*other].push(*one);
    }
    lists
}

struct Search<'a> {
    lists: &'a [Vec<usize>],
    partner: &'a [Option<usize>],
    root: usize,
    base: Vec<usize>,
    /// the vertex before an odd one on its alternating path from the root
    before: Vec<Option<usize>>,
    even: Vec<bool>,
    queue: VecDeque<usize>,
}

impl Search<'_> {
    fn new<'a>(lists: &'a [Vec<usize>], partner: &'a [Option<usize>], root: usize) -> Search<'a> {
        let vertices = lists.len();
        let mut even = vec![false; vertices];
        even[root] = true;
        let base = (0..vertices).collect();
        Search { lists, partner, root, base, before: vec![None; vertices], even, queue: VecDeque::from([root]) }
    }

    /// An unmatched vertex at the end of an augmenting path, if there is one.
    fn run(&mut self) -> Option<usize> {
        while let Some(vertex) = self.queue.pop_front() {
            for place in 0..self.lists[vertex].len() {
                let next = self.lists[vertex][place];
                if self.base[vertex] == self.base[next] || self.partner[vertex] == Some(next) {
                    continue;
                }
                if self.is_even(next) {
                    self.contract(vertex, next);
                } else if self.before[next].is_none() {
                    self.before[next] = Some(vertex);
                    match self.partner[next] {
                        None => return Some(next),
                        Some(after) => self.reach(after),
                    }
                }
            }
        }
        None
    }

    fn is_even(&self, vertex: usize) -> bool {
        vertex == self.root || self.partner[vertex].is_some_and(|other| self.before[other].is_some())
    }

    fn reach(&mut self, vertex: usize) {
        if !self.even[vertex] {
            self.even[vertex] = true;
            self.queue.push_back(vertex);
        }
    }

    /// The base that the paths of two even vertices share nearest to them.
    fn shared_base(&self, one: usize, other: usize) -> usize {
        let mut on_path = vec![false; self.lists.len()];
        let mut at = self.base[one];
        on_path[at] = true;
        while at != self.root {
            at = self.base_above(at);
            on_path[at] = true;
        }
        at = self.base[other];
        while !on_path[at] {
            at = self.base_above(at);
        }
        at
    }

    fn base_above(&self, base: usize) -> usize {
        let odd = self.partner[base].unwrap();
        self.base[self.before[odd].unwrap()]
    }

    /// Two even vertices joined by an edge: their paths down to the shared base become one blossom.
    fn contract(&mut self, one: usize, other: usize) {
        let shared = self.shared_base(one, other);
        let mut inside = vec![false; self.lists.len()];
        self.mark_down(one, shared, other, &mut inside);
        self.mark_down(other, shared, one, &mut inside);
        for vertex in 0..self.lists.len() {
            if inside[self.base[vertex]] {
                self.base[vertex] = shared;
                self.reach(vertex);
            }
        }
    }

    fn mark_down(&mut self, from: usize, shared: usize, across: usize, inside: &mut [bool]) {
        let (mut at, mut child) = (from, across);
        while self.base[at] != shared {
            let odd = self.partner[at].unwrap();
            inside[self.base[at]] = true;
            inside[self.base[odd]] = true;
            self.before[at] = Some(child);
            child = odd;
            at = self.before[odd].unwrap();
        }
    }
}

/// Ok where the matching has grown by one along a path from the root, which becomes matched;
/// otherwise the vertices to which an alternating path of even length leads from the root.
pub fn augment(lists: &[Vec<usize>], partner: &mut Partners, root: usize) -> Result<(), Vec<bool>> {
    let mut search = Search::new(lists, partner, root);
    let Some(end) = search.run() else {
        return Err(search.even);
    };
    let before = search.before;
    let mut odd = Some(end);
    while let Some(vertex) = odd {
        let even = before[vertex].unwrap();
        odd = partner[even];
        partner[vertex] = Some(even);
        partner[even] = Some(vertex);
    }
    Ok(())
}

/// A maximum matching; every vertex that was matched stays so.
pub fn enlarge(lists: &[Vec<usize>], partner: &mut Partners) {
    for root in 0..lists.len() {
        if partner[root].is_none() {
            let _ = augment(lists, partner, root);
        }
    }
}

pub fn size(partner: &Partners) -> usize {
    partner.iter().filter(|other| other.is_some()).count() / 2
}

pub fn partners(vertices: usize, pairs: &[Pair]) -> Partners {
    let mut partner = vec![None; vertices];
    for (one, other) in pairs {
        partner[*one] = Some(*other);
        partner[*other] = Some(*one);
    }
    partner
}

/// The pairs of a matching, smaller first, rising.
pub fn pairs(partner: &Partners) -> Vec<Pair> {
    let both = partner.iter().enumerate().filter_map(|(one, other)| other.map(|other| (one, other)));
    both.filter(|(one, other)| one < other).collect()
}

/// For a stock of any size: the maximum, and for each camera the maximum without it.
pub fn standing(cameras: usize, fits: &[Pair]) -> Standing {
    let lists = neighbours(cameras, fits);
    let mut largest = vec![None; cameras];
    enlarge(&lists, &mut largest);
    let stays_without = |camera: usize| {
        let others: Vec<Pair> = fits.iter().copied().filter(|fit| fit.0 != camera && fit.1 != camera).collect();
        let mut partner = largest.clone();
        if let Some(freed) = partner[camera].take() {
            partner[freed] = None;
        }
        enlarge(&neighbours(cameras, &others), &mut partner);
        size(&partner) == size(&largest)
    };
    let left_over: Vec<bool> = (0..cameras).map(stays_without).collect();
    Standing { greatest: size(&largest), marks: marks(&lists, &left_over) }
}

/// Whether a path of even length leads to each vertex from one that the matching leaves over, its edges by turns outside and inside of
/// it, or the vertex is such a one. Otherwise its partner is the end of a path that is one edge shorter and goes around the vertex.
fn evenly_reached(lists: &[Vec<usize>], partner: &Partners) -> Vec<bool> {
    let is_reached = |vertex: usize| {
        let Some(other) = partner[vertex] else {
            return true;
        };
        let mut freed = partner.clone();
        (freed[vertex], freed[other]) = (None, None);
        let mut search = Search::new(lists, &freed, other);
        // taken for one that was met before, the vertex is not entered
        search.before[vertex] = Some(vertex);
        search.run().is_some()
    };
    (0..lists.len()).map(is_reached).collect()
}

/// Where the pairs are largest, these are a stock's marks.
pub fn marks_from(cameras: usize, fits: &[Pair], pairs: &[Pair]) -> Vec<usize> {
    let lists = neighbours(cameras, fits);
    marks(&lists, &evenly_reached(&lists, &partners(cameras, pairs)))
}

/// By the cameras that each one fits.
fn marks(lists: &[Vec<usize>], left_over: &[bool]) -> Vec<usize> {
    let mark = |camera: usize| match &lists[camera][..] {
        [] => ISOLATED,
        _ if left_over[camera] => 0,
        others if others.iter().any(|other| left_over[*other]) => 1,
        _ => 2,
    };
    (0..lists.len()).map(mark).collect()
}
