//! Graphs and certificates by trial (document 01, "The graph", "The barrier", "Questions put to a call"; document 02, L5).
//!   Graph                 mate pairs of nodes, source, arcs in file order; whether it has self arcs, from a node to itself
//!   mate_of, is_self_arc  the mate of an arc, by its ends; whether an arc is a self arc
//!   ask, read             one question put to a graph file; all in order
//!   failed                every question that a graph file fails
//!   SELF_ARC, MOST_ARCS   the question that refuses self arcs; as many arcs as a graph may have
//!   reachable             the nodes where some regular path from the source ends: every regular path is gone along
//!   least_of_parts        connected parts, each named by its least node
//!   canonical             the canonical barrier's classes, of the reachable nodes
//!   regular_end           where arcs end that are a regular path from the source
//!   is_wanted             arcs are a regular path from the source to its mate
//!   is_barrier            classes are a barrier
//!   Certificate           a path or a barrier; ask_certificate and read_certificate as for graphs
//!   check                 what the check says of two files

use crate::engine::Verdict;
use crate::frames::{first_no, kind_of, number, Pair, Text, BARRIER, GRAPH, PATH};

#[derive(Clone, Debug, PartialEq)]
pub struct Graph {
    pub pairs: usize,
    pub source: usize,
    pub arcs: Vec<Pair>,
}

impl Graph {
    pub fn nodes(&self) -> usize {
        2 * self.pairs
    }

    pub fn has_self_arcs(&self) -> bool {
        self.arcs.iter().any(is_self_arc)
    }

    pub fn file(&self) -> Vec<u8> {
        crate::frames::graph_file(self.pairs, self.source, &self.arcs)
    }
}

/// The mate of a node or of an arc: its number with the lowest bit flipped.
pub fn mate(number: usize) -> usize {
    number ^ 1
}

/// The mate of an arc by its ends, wherever it stands.
pub fn mate_of((tail, head): Pair) -> Pair {
    (mate(head), mate(tail))
}

pub fn is_self_arc((tail, head): &Pair) -> bool {
    tail == head
}

// ---- graph files

/// Is no arc one from a node to itself?
pub const SELF_ARC: u8 = 16;

pub const MOST_ARCS: usize = 8_192;

/// In the order of documents 01 and 02.
pub const GRAPH_QUESTIONS: [u8; 10] = [2, 3, 4, 5, 6, 7, 8, 9, SELF_ARC, 10];

fn graph_in(text: &Text) -> Graph {
    let header = text.header();
    Graph { pairs: number(header, 2, 2), source: number(header, 4, 2), arcs: text.pairs(0x02) }
}

pub fn ask(text: &Text, question: u8) -> bool {
    ask_of(text, &graph_in(text), question)
}

/// A question put to a file, and to the graph that stands in it.
fn ask_of(text: &Text, graph: &Graph, question: u8) -> bool {
    let named = |node: usize| node < graph.nodes();
    match question {
        5 => (0x01..=0x80).contains(&graph.pairs) && named(graph.source),
        8 => graph.arcs.len().is_multiple_of(2) && graph.arcs.len() <= MOST_ARCS,
        9 => graph.arcs.iter().all(|(tail, head)| named(*tail) && named(*head)),
        SELF_ARC => !graph.has_self_arcs(),
        10 => graph.arcs.chunks_exact(2).all(|two| two[1] == mate_of(two[0])),
        _ => text.answers(&GRAPH, question),
    }
}

/// The graph of a file, or the number of the first question answered no.
pub fn read(file: &[u8]) -> Result<Graph, u8> {
    read_in_order(file, &GRAPH_QUESTIONS)
}

pub fn read_in_order(file: &[u8], order: &[u8]) -> Result<Graph, u8> {
    let text = Text::of(file);
    let graph = graph_in(&text);
    match first_no(order, |question| ask_of(&text, &graph, question)) {
        0 => Ok(graph),
        refusal => Err(refusal),
    }
}

pub fn failed(file: &[u8]) -> Vec<u8> {
    let text = Text::of(file);
    let graph = graph_in(&text);
    GRAPH_QUESTIONS.into_iter().filter(|question| !ask_of(&text, &graph, *question)).collect()
}

// ---- regular paths

/// A regular path that is being made longer, and all nodes that it or one before it came to.
struct Walk<'a> {
    graph: &'a Graph,
    leaving: Vec<Vec<usize>>,
    visited: Vec<bool>,
    holds: Vec<bool>,
    reached: Vec<bool>,
}

impl Walk<'_> {
    fn go_on_from(&mut self, node: usize) {
        self.reached[node] = true;
        for place in 0..self.leaving[node].len() {
            let arc = self.leaving[node][place];
            let head = self.graph.arcs[arc].1;
            if !self.visited[head] && !self.holds[mate(arc)] {
                self.visited[head] = true;
                self.holds[arc] = true;
                self.go_on_from(head);
                self.visited[head] = false;
                self.holds[arc] = false;
            }
        }
    }
}

/// For each node, whether a regular path from the source ends there. For small graphs: goes along every regular path.
pub fn reachable(graph: &Graph) -> Vec<bool> {
    let mut leaving = vec![Vec::new(); graph.nodes()];
    for (arc, (tail, _)) in graph.arcs.iter().enumerate() {
        leaving[*tail].push(arc);
    }
    let nowhere = vec![false; graph.nodes()];
    let holds = vec![false; graph.arcs.len()];
    let mut walk = Walk { graph, leaving, visited: nowhere.clone(), holds, reached: nowhere };
    walk.visited[graph.source] = true;
    walk.go_on_from(graph.source);
    walk.reached
}

/// Where the arcs, by number, end as a regular path from the source; none where they are no such path.
pub fn regular_end(graph: &Graph, arcs: &[usize]) -> Option<usize> {
    let mut visited = vec![graph.source];
    for arc in arcs {
        let (tail, head) = graph.arcs[*arc];
        if tail != visited[visited.len() - 1] || visited.contains(&head) {
            return None;
        }
        visited.push(head);
    }
    let with_mate = arcs.iter().any(|arc| arcs.contains(&mate(*arc)));
    (!with_mate).then_some(visited[visited.len() - 1])
}

/// The arcs are a regular path from the source to its mate.
pub fn is_wanted(graph: &Graph, arcs: &[usize]) -> bool {
    regular_end(graph, arcs) == Some(mate(graph.source))
}

// ---- barriers

pub const M: usize = 0;
pub const A: usize = 1;
pub const A_MATES: usize = 2;
pub const FIRST_X: usize = 3;

/// The least node of each node's connected part, arcs taken without direction: the smaller spreads until nothing changes.
pub fn least_of_parts(nodes: usize, arcs: &[Pair]) -> Vec<usize> {
    let mut least: Vec<usize> = (0..nodes).collect();
    let mut changed = true;
    while changed {
        changed = false;
        for (tail, head) in arcs {
            let smaller = least[*tail].min(least[*head]);
            changed = changed || least[*tail] != smaller || least[*head] != smaller;
            least[*tail] = smaller;
            least[*head] = smaller;
        }
    }
    least
}

/// One class for each node, by the reachable nodes.
pub fn canonical(graph: &Graph, reached: &[bool]) -> Vec<usize> {
    let in_x = |node: usize| reached[node] && reached[mate(node)];
    let within: Vec<Pair> = graph.arcs.iter().copied().filter(|(tail, head)| in_x(*tail) && in_x(*head)).collect();
    let least = least_of_parts(graph.nodes(), &within);
    let firsts: Vec<usize> = (0..graph.nodes()).filter(|node| in_x(*node) && least[*node] == *node).collect();
    let class = |node: usize| match (reached[node], reached[mate(node)]) {
        (true, true) => FIRST_X + firsts.iter().position(|first| *first == least[node]).unwrap(),
        (true, false) => A,
        (false, true) => A_MATES,
        (false, false) => M,
    };
    (0..graph.nodes()).map(class).collect()
}

/// The classes, one for each node, are a barrier.
pub fn is_barrier(graph: &Graph, classes: &[usize]) -> bool {
    let is_x = |class: usize| class >= FIRST_X;
    let mate_class = |class: usize| match class {
        A => A_MATES,
        A_MATES => A,
        other => other,
    };
    let mates_agree = (0..graph.nodes()).all(|node| classes[mate(node)] == mate_class(classes[node]));
    let mut entries = vec![0; classes.iter().max().unwrap() + 1];
    for (tail, head) in &graph.arcs {
        let (from, to) = (classes[*tail], classes[*head]);
        let between_parts = is_x(from) && is_x(to) && from != to;
        let part_and_rest = (is_x(from) && to == M) || (from == M && is_x(to));
        if between_parts || part_and_rest || (from == A && (to == A_MATES || to == M)) {
            return false;
        }
        if from == A && is_x(to) {
            entries[to] += 1;
        }
    }
    classes[graph.source] == A && mates_agree && entries.iter().skip(FIRST_X).all(|count| *count == 1)
}

// ---- certificates

#[derive(Clone, Debug, PartialEq)]
pub enum Certificate {
    Path(Vec<usize>),
    Barrier(Vec<usize>),
}

pub const CERTIFICATE_QUESTIONS: [u8; 7] = [2, 3, 4, 6, 7, 8, 9];

fn is_path(text: &Text) -> bool {
    kind_of(text.header()) == PATH.header as usize
}

fn path_arcs(text: &Text) -> Vec<usize> {
    text.body().iter().map(|line| number(line, 2, 4)).collect()
}

pub fn ask_certificate(graph: &Graph, text: &Text, question: u8) -> bool {
    let lines = text.body().len();
    match (question, is_path(text)) {
        (8, true) => lines <= 255,
        (8, false) => lines == graph.nodes(),
        (9, true) => path_arcs(text).iter().all(|arc| *arc < graph.arcs.len()),
        (9, false) => {
            let named = text.pairs(0x32);
            named.iter().enumerate().all(|(line, (node, class))| *node == line && *class <= 0x82)
        }
        (_, true) => text.answers(&PATH, question),
        (_, false) => text.answers(&BARRIER, question),
    }
}

/// The certificate in a file, or the number of the first question answered no, without the 40 added.
pub fn read_certificate(graph: &Graph, file: &[u8]) -> Result<Certificate, u8> {
    read_certificate_in_order(graph, file, &CERTIFICATE_QUESTIONS)
}

pub fn read_certificate_in_order(graph: &Graph, file: &[u8], order: &[u8]) -> Result<Certificate, u8> {
    let text = Text::of(file);
    match first_no(order, |question| ask_certificate(graph, &text, question)) {
        0 if is_path(&text) => Ok(Certificate::Path(path_arcs(&text))),
        0 => Ok(Certificate::Barrier(text.pairs(0x32).iter().map(|pair| pair.1).collect())),
        refusal => Err(refusal),
    }
}

pub fn certificate_holds(graph: &Graph, certificate: &Certificate) -> bool {
    match certificate {
        Certificate::Path(arcs) => is_wanted(graph, arcs),
        Certificate::Barrier(classes) => is_barrier(graph, classes),
    }
}

pub fn check(graph_file: &[u8], certificate_file: &[u8]) -> Verdict {
    let graph = match read(graph_file) {
        Ok(graph) => graph,
        Err(refusal) => return Verdict::Refused(refusal),
    };
    match read_certificate(&graph, certificate_file) {
        Err(refusal) => Verdict::Refused(40 + refusal),
        Ok(certificate) if certificate_holds(&graph, &certificate) => Verdict::Yes,
        Ok(_) => Verdict::No,
    }
}
