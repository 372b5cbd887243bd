//! Files that are no longer, or never were, what they should be.
//!   BYTES                      those that are put in, DIGITS of them digits
//!   damages                    a file with one byte changed, left out or put in, at every place
//!   damaged_certificates       the known graphs' answers so, handed to the check
//!   damaged_files              the known graphs and stocks so
//!   damaged_random_answers     answers to random graphs, damaged at one place
//!   truncated_files            every beginning of every known file and answer
//!   random_bytes               bytes, digits and frames in any order
//!   random_frames              frames in the table's order with small numbers, rightly counted, with all line ends

use crate::faults::graph_for_certificates;
use crate::frames::{file, Form, BARRIER, GRAPH, PATH, STOCK};
use crate::generate::small_graph;
use crate::judge::{Judge, Trial};
use crate::known::{graph_files, graphs, stock_files};
use crate::line_ends::{all_ways, mixed};
use crate::random::Random;
use crate::reference::answer;

/// All digits, line feed and carriage return, and bytes beside the digits in the table of characters and elsewhere.
pub const BYTES: &[u8] = b"0123456789ABCDEF\n\r/:@Gagf \0\x7F\x80\xFF";
/// How many of them are digits; line feed and carriage return come after those.
pub const DIGITS: usize = 16;

/// A digit, a line feed or a carriage return.
fn digit_or_end(random: &mut Random) -> u8 {
    *random.choose(&BYTES[..DIGITS + 2])
}

/// A line end, most often a right one.
fn some_end(random: &mut Random) -> &'static [u8] {
    let ends: &[&[u8]] = if random.chance(98) { &[b"\n", b"\r\n"] } else { &[b"\r", b"\r\r\n", b"\n\r"] };
    ends[random.below(ends.len())]
}

fn damages(file: &[u8]) -> Vec<Vec<u8>> {
    let mut all = Vec::new();
    for place in 0..file.len() {
        let (before, after) = (&file[..place], &file[place + 1..]);
        all.push([before, after].concat());
        all.extend([b"0", b"\n"].map(|more| [before, more, &file[place..]].concat()));
        let others = BYTES.iter().filter(|byte| **byte != file[place]);
        all.extend(others.map(|byte| [before, &[*byte], after].concat()));
    }
    all
}

pub fn damaged_certificates(judge: &mut Judge) -> Trial {
    graphs().iter().try_for_each(|known| {
        let graph = known.graph.file();
        damages(&known.answers[0]).iter().try_for_each(|certificate| judge.certificate(&graph, certificate))
    })
}

pub fn damaged_files(judge: &mut Judge) -> Trial {
    graph_files().iter().try_for_each(|file| damages(file).iter().try_for_each(|file| judge.graph(file)))?;
    stock_files().iter().try_for_each(|file| damages(file).iter().try_for_each(|file| judge.stock(file)))
}

pub fn damaged_random_answers(judge: &mut Judge, files: usize) -> Trial {
    (0..files).try_for_each(|_| {
        let graph = small_graph(&mut judge.random);
        let mut certificate = mixed(&mut judge.random, &answer(&graph).file());
        let place = judge.random.below(certificate.len());
        certificate[place] = digit_or_end(&mut judge.random);
        judge.certificate(&graph.file(), &certificate)
    })
}

pub fn truncated_files(judge: &mut Judge) -> Trial {
    for file in graph_files() {
        (0..=file.len()).try_for_each(|length| judge.graph(&file[..length]))?;
    }
    for file in stock_files() {
        (0..=file.len()).try_for_each(|length| judge.stock(&file[..length]))?;
    }
    for known in graphs() {
        let (file, answer) = (known.graph.file(), &known.answers[0]);
        (0..=answer.len()).try_for_each(|length| judge.certificate(&file, &answer[..length]))?;
        (0..file.len()).try_for_each(|length| judge.certificate(&file[..length], answer))?;
    }
    Ok(())
}

pub fn random_bytes(judge: &mut Judge, files: usize) -> Trial {
    let graph = graph_for_certificates().file();
    let frames: [&[u8]; 8] = [b"010201", b"1104", b"21", b"31", b"020002", b"120001", b"0F0000", b"1F0001"];
    (0..files).try_for_each(|number| {
        let random = &mut judge.random;
        let length = if random.chance(90) { random.below(60) } else { random.below(3_000) };
        let mut bytes = Vec::new();
        while bytes.len() < length {
            match number % 3 {
                0 => bytes.push(random.byte()),
                1 => bytes.push(digit_or_end(random)),
                _ => bytes.extend([*random.choose(&frames), some_end(random)].concat()),
            }
        }
        judge.all_calls(&graph, &bytes)
    })
}

/// Of a barrier, about as many lines as there are nodes, most of them in node order.
fn some_frames(random: &mut Random, form: &Form, nodes: usize) -> Vec<u8> {
    let numbers = random.below(4);
    let after_kind = ["", "03", "0302"][form.header_digits / 2];
    let is_barrier = form.header == BARRIER.header;
    let lines = if is_barrier { nodes - 1 + random.below(3) } else { random.below(5) };
    let mut kinds: Vec<u8> = (0..lines).map(|_| *random.choose(form.bodies)).collect();
    kinds.sort_unstable();
    let mut body: Vec<String> = Vec::new();
    for (line, kind) in kinds.into_iter().enumerate() {
        let first = if is_barrier && random.chance(98) { line } else { random.below(numbers + 1) };
        body.push(format!("{kind:02X}{first:02X}{:02X}", random.below(4 + numbers)));
    }
    file(&format!("{:02X}{after_kind}", form.header), &body, form.end)
}

pub fn random_frames(judge: &mut Judge, files: usize) -> Trial {
    let beside = graph_for_certificates();
    let graph = beside.file();
    (0..files).try_for_each(|number| {
        let form = [&GRAPH, &STOCK, &STOCK, &PATH, &BARRIER][number % 5];
        let bytes = some_frames(&mut judge.random, form, beside.nodes());
        all_ways(&mut judge.random, &bytes).iter().try_for_each(|file| judge.all_calls(&graph, file))
    })
}
