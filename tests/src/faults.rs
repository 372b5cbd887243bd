//! Files made to fail chosen questions, for each kind of file.
//!   Kind                  graph, stock, path, barrier
//!   questions             the questions put to a kind, in the order of documents 01 and 02
//!   failing               a file of which the first question answered no is the first given, and the others given are answered no too
//!   failing_plan          a plan file likewise, which is handed in to be kept (document 02, L8)
//!   graph_for_certificates, stock_for_plans    the graph beside which faulty certificates are made, and the stock of faulty plans
//! The faults in numbers are made first, then those in lines, then those in bytes; what comes out is asked, and made again until it fits.

use crate::frames::{first_no, pair_lines, Form, Pair, Text, BARRIER, CR, GRAPH, GREATEST_FILE, LF, PATH, PLAN, STOCK};
use crate::generate::{all_fits, random_graph};
use crate::graph_trial::{self, mate, mate_of, Graph, CERTIFICATE_QUESTIONS, GRAPH_QUESTIONS, SELF_ARC};
use crate::kept_trial::{self, OF_HEADER, PLAN_QUESTIONS};
use crate::random::Random;
use crate::stock_trial::{self, Stock, STOCK_QUESTIONS};

#[derive(Clone, Copy, Debug, PartialEq)]
pub enum Kind {
    Graph,
    Stock,
    Path,
    Barrier,
}

pub const KINDS: [Kind; 4] = [Kind::Graph, Kind::Stock, Kind::Path, Kind::Barrier];

pub fn questions(kind: Kind) -> &'static [u8] {
    match kind {
        Kind::Graph => &GRAPH_QUESTIONS,
        Kind::Stock => &STOCK_QUESTIONS,
        Kind::Path | Kind::Barrier => &CERTIFICATE_QUESTIONS,
    }
}

/// G5 of document 01 with two more mate pairs of nodes.
pub fn graph_for_certificates() -> Graph {
    Graph { pairs: 4, source: 0, arcs: vec![(0, 2), (3, 1), (2, 3), (2, 3), (0, 2), (3, 1), (4, 6), (7, 5)] }
}

/// All fits among the first seven of ten cameras but 3-6 and 4-5.
pub fn stock_for_plans() -> Stock {
    Stock { cameras: 10, fits: fits_of_seven(), lit: vec![(0, 2), (3, 5)] }
}

fn fits_of_seven() -> Vec<Pair> {
    all_fits(7).into_iter().filter(|fit| *fit != (3, 6) && *fit != (4, 5)).collect()
}

pub fn failing(random: &mut Random, kind: Kind, faults: &[u8]) -> Result<Vec<u8>, String> {
    let beside = graph_for_certificates();
    let made = made_to_fail(
        questions(kind),
        faults,
        || match kind {
            Kind::Graph => graph_with(random, faults),
            Kind::Stock => stock_with(random, faults),
            Kind::Path => path_with(random, faults),
            Kind::Barrier => barrier_with(random, faults),
        },
        |text, question| match kind {
            Kind::Graph => graph_trial::ask(text, question),
            Kind::Stock => stock_trial::ask(text, question),
            Kind::Path | Kind::Barrier => graph_trial::ask_certificate(&beside, text, question),
        },
    );
    made.ok_or(format!("no file of kind {kind:?} was found that fails {faults:?}"))
}

pub fn failing_plan(random: &mut Random, faults: &[u8]) -> Result<Vec<u8>, String> {
    let beside = stock_for_plans();
    let ask = |text: &Text, question: u8| kept_trial::ask(&beside, text, question);
    let made = made_to_fail(&PLAN_QUESTIONS, faults, || plan_with(random, faults), ask);
    made.ok_or(format!("no plan was found that fails {faults:?}"))
}

/// The first file made that fails as it should.
fn made_to_fail(
    order: &[u8],
    faults: &[u8],
    mut make: impl FnMut() -> Vec<u8>,
    ask: impl Fn(&Text, u8) -> bool,
) -> Option<Vec<u8>> {
    let fails = |file: &Vec<u8>| {
        let text = Text::of(file);
        first_no(order, |question| ask(&text, question)) == faults[0] && faults.iter().all(|fault| !ask(&text, *fault))
    };
    (0..1_000).map(|_| make()).find(fails)
}

// ---- faults in numbers

fn graph_with(random: &mut Random, faults: &[u8]) -> Vec<u8> {
    let has = |fault: u8| faults.contains(&fault);
    let (pairs, arc_pairs) = (random.between(2, 6), random.between(2, 6));
    let mut graph = random_graph(random, pairs, arc_pairs);
    if has(10) {
        let odd = 2 * random.below(arc_pairs) + 1;
        let other = (random.below(graph.nodes()), random.below(graph.nodes()));
        graph.arcs[odd] = *random.choose(&[graph.arcs[odd - 1], (graph.arcs[odd].1, graph.arcs[odd].0), other]);
    }
    if has(SELF_ARC) {
        let (arc, node) = (random.below(graph.arcs.len()), random.below(graph.nodes()));
        graph.arcs[arc] = (node, node);
        if !has(10) {
            graph.arcs[mate(arc)] = mate_of((node, node));
        }
    }
    if has(9) {
        let even = 2 * random.below(arc_pairs);
        let stranger = random.between(graph.nodes(), 255);
        if random.chance(50) {
            graph.arcs[even] = (stranger, graph.arcs[even].1);
            graph.arcs[even + 1].1 = mate(stranger);
        } else {
            graph.arcs[even + 1].0 = stranger;
        }
    }
    if has(8) {
        if random.chance(70) {
            graph.arcs.pop();
        } else {
            let two = [graph.arcs[0], graph.arcs[1]];
            let wanted = random.between(8_193, 8_200);
            graph.arcs = graph.arcs.iter().copied().chain(two.into_iter().cycle()).take(wanted).collect();
        }
    }
    let (mut named_pairs, mut source) = (graph.pairs, graph.source);
    if has(5) {
        match random.below(3) {
            0 => named_pairs = 0,
            1 => named_pairs = random.between(0x81, 0xFF),
            _ => source = random.between(graph.nodes(), 255),
        }
    }
    let header = format!("{named_pairs:02X}{source:02X}");
    Draft::new(&GRAPH, &header, pair_lines(0x02, &graph.arcs)).with(random, faults)
}

fn stock_with(random: &mut Random, faults: &[u8]) -> Vec<u8> {
    let has = |fault: u8| faults.contains(&fault);
    let mut cameras = random.between(8, 12);
    let mut fits = fits_of_seven();
    let mut lit: Vec<Pair> = vec![(0, 1), (2, 3)];
    if has(14) {
        let again = *random.choose(&[(2, 4), (2, 6), (3, 4)]);
        lit.push(again);
    }
    if has(13) {
        lit.push((4, 5));
        lit.sort_unstable();
    }
    if has(12) {
        disorder(random, &mut lit);
    }
    if has(11) {
        disorder(random, &mut fits);
    }
    if has(9) {
        let list = if random.chance(50) { &mut fits } else { &mut lit };
        let last = list.len() - 1;
        let stranger = if has(8) { random.between(127, 255) } else { random.between(cameras, 255) };
        list[last].1 = stranger;
    }
    if has(8) {
        cameras = 127;
        let wanted = random.between(3_901, 3_950);
        let more = all_fits(127).into_iter().filter(|fit| fit.0 > 6);
        fits = fits.into_iter().chain(more).take(wanted).collect();
    }
    if has(5) {
        cameras = random.between(0x80, 0xFF);
    }
    let body = [pair_lines(0x12, &fits), pair_lines(0x13, &lit)].concat();
    Draft::new(&STOCK, &format!("{cameras:02X}"), body).with(random, faults)
}

/// Makes a rising list of pairs rise no more.
fn disorder(random: &mut Random, pairs: &mut Vec<Pair>) {
    let place = random.below(pairs.len());
    let (u, v) = pairs[place];
    match random.below(4) {
        0 => pairs[place] = (v, u),
        1 => pairs[place] = (u, u),
        2 => pairs.insert(place, (u, v)),
        _ => {
            let other = random.below(pairs.len());
            pairs.swap(place, other);
        }
    }
}

fn plan_with(random: &mut Random, faults: &[u8]) -> Vec<u8> {
    let has = |fault: u8| faults.contains(&fault);
    let mut pairs: Vec<Pair> = vec![(0, 1), (2, 3)];
    if has(14) {
        let again = *random.choose(&[(2, 4), (2, 6), (3, 4)]);
        pairs.push(again);
    }
    if has(13) {
        pairs.push(*random.choose(&[(4, 5), (7, 8), (5, 9)]));
        pairs.sort_unstable();
    }
    if has(12) {
        disorder(random, &mut pairs);
    }
    if has(9) {
        let last = pairs.len() - 1;
        pairs[last].1 = if random.chance(50) { 10 } else { random.between(10, 255) };
    }
    Draft::new(&PLAN, "00", pair_lines(0x52, &pairs)).with(random, faults)
}

fn path_with(random: &mut Random, faults: &[u8]) -> Vec<u8> {
    let has = |fault: u8| faults.contains(&fault);
    let known = graph_for_certificates().arcs.len();
    let mut arcs: Vec<usize> = (0..random.between(1, 5)).map(|_| random.below(known)).collect();
    if has(9) {
        let place = random.below(arcs.len());
        arcs[place] = if random.chance(50) { known } else { random.between(known, 0xFFFF) };
    }
    if has(8) {
        arcs = arcs.iter().copied().cycle().take(random.between(256, 300)).collect();
    }
    let body = arcs.iter().map(|arc| format!("22{arc:04X}")).collect();
    Draft::new(&PATH, "", body).with(random, faults)
}

fn barrier_with(random: &mut Random, faults: &[u8]) -> Vec<u8> {
    let has = |fault: u8| faults.contains(&fault);
    let nodes = graph_for_certificates().nodes();
    let mut lines: Vec<Pair> = (0..nodes).map(|node| (node, random.below(6))).collect();
    if has(9) {
        let place = random.below(nodes);
        if random.chance(50) {
            lines[place].1 = random.between(0x83, 0xFF);
        } else {
            lines[place].0 = random.below(256);
        }
    }
    if has(8) {
        if random.chance(50) {
            lines.pop();
        } else {
            lines.push((nodes, 0));
        }
    }
    Draft::new(&BARRIER, "", pair_lines(0x32, &lines)).with(random, faults)
}

// ---- faults in lines and bytes

struct Draft<'a> {
    form: &'a Form,
    header: Option<String>,
    body: Vec<String>,
    end: Option<String>,
    after_end: Option<String>,
}

impl Draft<'_> {
    fn new<'a>(form: &'a Form, after_kind: &str, body: Vec<String>) -> Draft<'a> {
        Draft { form, header: Some(format!("{:02X}{after_kind}", form.header)), body, end: None, after_end: None }
    }

    fn with(mut self, random: &mut Random, faults: &[u8]) -> Vec<u8> {
        let has = |fault: u8| faults.contains(&fault);
        if has(2) {
            let lines = GREATEST_FILE / 7 + random.between(1, 3);
            let repeated: Vec<String> = self.body.iter().rev().take(2).rev().cloned().collect();
            let more = lines.saturating_sub(self.body.len());
            self.body.extend(repeated.into_iter().cycle().take(more));
        }
        let count = self.body.len();
        let told = match (has(7), random.below(3)) {
            (false, _) => count,
            (true, 0) => count + 1,
            (true, 1) => count - 1,
            (true, _) => random.below(0x10000),
        };
        self.end = Some(format!("{:02X}{told:04X}", self.form.end));
        if self.form.header == PLAN.header {
            self.header = Some(format!("{:02X}{:02X}", self.form.header, told_in_header(random, count, told, has(OF_HEADER))));
        }
        if has(6) {
            self.break_lines(random);
        }
        if has(4) {
            self.break_header(random);
        }
        let mut bytes = self.bytes();
        if has(3) {
            break_bytes(random, &mut bytes);
        }
        bytes
    }

    fn bytes(&self) -> Vec<u8> {
        let lines = self.header.iter().chain(&self.body).chain(&self.end).chain(&self.after_end);
        lines.flat_map(|line| format!("{line}\n").into_bytes()).collect()
    }

    /// Question 6: a line of the wrong kind or length, or in the wrong place.
    fn break_lines(&mut self, random: &mut Random) {
        let place = random.below(self.body.len());
        match random.below(9) {
            0 => self.body[place].replace_range(..2, &format!("{:02X}", random.below(256))),
            1 => self.body[place].push_str("00"),
            2 => self.body[place].truncate(4),
            3 => self.end = None,
            4 => self.end = self.end.take().map(|end| format!("{:02X}{}", random.below(256), &end[2..])),
            5 => self.end = self.end.take().map(|end| if random.chance(50) { end + "00" } else { end[..4].to_string() }),
            6 => self.after_end = if random.chance(50) { self.end.clone() } else { Some(self.body[place].clone()) },
            7 => self.body[place] = self.header.clone().unwrap(),
            _ => {
                let other = random.below(self.body.len());
                self.body.swap(place, other);
            }
        }
    }

    /// Question 4: a header of the wrong kind or length, or none.
    fn break_header(&mut self, random: &mut Random) {
        let header = self.header.take().unwrap();
        self.header = match random.below(5) {
            0 => Some(format!("{:02X}{}", random.below(256), &header[2..])),
            1 => Some(header + "00"),
            2 => Some(header[..2].to_string()),
            3 => Some(format!("{}{}", random.choose(&["01", "11", "21", "31", "41", "51"]), &header[2..])),
            _ => None,
        };
    }
}

/// The number of pairs that a plan's header tells, by that of its lines and the one that its end frame tells; of more than two digits can
/// tell, the largest that they can.
fn told_in_header(random: &mut Random, count: usize, in_end: usize, wrongly: bool) -> usize {
    let told = match (wrongly, random.below(4)) {
        (false, _) => count,
        (true, 0) => count + 1,
        (true, 1) => count - 1,
        (true, 2) => in_end,
        (true, _) => random.below(256),
    };
    told.min(255)
}

/// Question 3: a byte that is no digit, a line of an odd number of digits or of none, or a last line without its end.
fn break_bytes(random: &mut Random, bytes: &mut Vec<u8>) {
    let place = random.below(bytes.len());
    match random.below(8) {
        0 => drop(bytes.pop()),
        1 => bytes[place] = *random.choose(b"agG \r:/@\0\xFF"),
        2 => drop(bytes.remove(place)),
        3 => bytes.insert(place, b'0'),
        4 => bytes.push(LF),
        5 => bytes.push(CR),
        6 => bytes.insert(place, CR),
        _ => bytes.insert(place, LF),
    }
}
