//! Regular paths of large graphs by matchings, to know what the trial of all regular paths cannot reach.
//!   reachable      the nodes where some regular path from the source ends
//!   path_to        a regular path from the source to another node
//!   wanted_path    a regular path from the source to its mate
//! An undirected graph with a vertex for each arc, matched with the vertex of its mate: vertex i stands for having gone along arc i.
//! Going on along arc j joins vertex i to the vertex of j's mate, by an edge outside the matching. So alternating paths of even length
//! from a root that is joined to what leaves the source are walks that hold no arc twice and none with its mate. What such a walk
//! does between two visits of a node can be left out; the rest is a regular path.

use crate::blossom::{augment, Partners};
use crate::graph_trial::{mate, Graph};

struct Arcs {
    into: Vec<Vec<usize>>,
    from: Vec<Vec<usize>>,
}

fn arcs_at_nodes(graph: &Graph) -> Arcs {
    let mut arcs = Arcs { into: vec![Vec::new(); graph.nodes()], from: vec![Vec::new(); graph.nodes()] };
    for (arc, (tail, head)) in graph.arcs.iter().enumerate() {
        arcs.from[*tail].push(arc);
        arcs.into[*head].push(arc);
    }
    arcs
}

/// Adjacency lists: the arcs, then the root.
fn lists_with_root(graph: &Graph, arcs: &Arcs) -> Vec<Vec<usize>> {
    let root = graph.arcs.len();
    let mut lists = vec![Vec::new(); root + 1];
    for node in 0..graph.nodes() {
        for arc in &arcs.into[node] {
            let others = arcs.from[node].iter().filter(|next| *next != arc);
            lists[*arc].extend(others.map(|next| mate(*next)));
        }
    }
    for arc in &arcs.from[graph.source] {
        lists[root].push(mate(*arc));
        lists[mate(*arc)].push(root);
    }
    lists
}

fn mates_matched(graph: &Graph) -> Partners {
    (0..graph.arcs.len()).map(|arc| Some(mate(arc))).collect()
}

pub fn reachable(graph: &Graph) -> Vec<bool> {
    let lists = lists_with_root(graph, &arcs_at_nodes(graph));
    let root = graph.arcs.len();
    let mut partner = mates_matched(graph);
    partner.push(None);
    let even = augment(&lists, &mut partner, root).expect_err("only the root is unmatched");
    let mut reached = vec![false; graph.nodes()];
    reached[graph.source] = true;
    for (arc, (_, head)) in graph.arcs.iter().enumerate() {
        reached[*head] = reached[*head] || even[arc];
    }
    reached
}

/// A regular path from the source to another node.
pub fn path_to(graph: &Graph, node: usize) -> Option<Vec<usize>> {
    let arcs = arcs_at_nodes(graph);
    let (root, goal) = (graph.arcs.len(), graph.arcs.len() + 1);
    let mut lists = lists_with_root(graph, &arcs);
    lists.push(arcs.into[node].clone());
    for arc in &arcs.into[node] {
        lists[*arc].push(goal);
    }
    let mut partner = mates_matched(graph);
    partner.extend([None, None]);
    augment(&lists, &mut partner, root).ok()?;
    let mut walk = Vec::new();
    let mut at = partner[root].unwrap();
    while at != goal {
        walk.push(mate(at));
        at = partner[mate(at)].unwrap();
    }
    Some(without_rounds(graph, &walk))
}

pub fn wanted_path(graph: &Graph) -> Option<Vec<usize>> {
    path_to(graph, mate(graph.source))
}

/// A walk from the source, without what it does between two visits of a node.
fn without_rounds(graph: &Graph, walk: &[usize]) -> Vec<usize> {
    let mut nodes = vec![graph.source];
    let mut path = Vec::new();
    for arc in walk {
        let head = graph.arcs[*arc].1;
        match nodes.iter().position(|node| *node == head) {
            Some(visited) => {
                nodes.truncate(visited + 1);
                path.truncate(visited);
            }
            None => {
                nodes.push(head);
                path.push(*arc);
            }
        }
    }
    path
}
