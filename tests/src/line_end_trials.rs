//! What is tried with line ends alone (document 02, L1); elsewhere they are tried beside other things.
//!   known_files             document 01's examples with every choice of ends
//!   ends_of_two_lines       every end, right or wrong, of the first and of the last line, in each kind of file
//!   certificate_headers     the first lines of certificates
//!   damaged                 each kind of file with each kind of ends, damaged at every byte and cut off anywhere
//!   lengths                 60,000 bytes and one more, and as many arcs and fits as they hold
//!   largest_certificates    the longest path and the largest barrier, longer with CR LF than any answer
//! What each file gets is told here too, where it is plain, and the trial is held to it.

use crate::cases::{by_trial, graph_of_arcs, graph_refusal, one_of, stock_answer, stock_refusal, verdict};
use crate::engine::Verdict;
use crate::frames::{file, path_file, stock_file, GREATEST_FILE};
use crate::generate::{all_fits, nearly_largest_lit, random_graph, some_fits, stock_of};
use crate::graph_trial::Graph;
use crate::judge::{Judge, Trial};
use crate::known::{graph, graphs, stock_files, stocks, G4, G5};
use crate::line_ends::{all_ways, cr_lf, damages, every_choice, to_length};
use crate::shapes::{parts, path_graph, spoiled};

// ---- known files

pub fn known_files(judge: &mut Judge) -> Trial {
    for known in graphs() {
        let file = known.graph.file();
        for ended in every_choice(&file) {
            one_of(known.name, &judge.graph_answer(&ended)?, &known.answers)?;
        }
        known.answers.iter().try_for_each(|answer| verdict_of_all(judge, &file, answer, Verdict::Yes))?;
    }
    for known in stocks() {
        for ended in every_choice(&known.stock.file()) {
            judge.stock(&ended)?;
            one_of(known.name, &stock_answer(judge, &ended)?, &known.answers())?;
        }
    }
    verdict_of_all(judge, &graph(2, &G4).file(), &path_file(&[0, 2, 1]), Verdict::No)?;
    verdict_of_all(judge, &graph(2, &G5).file(), &path_file(&[]), Verdict::No)
}

/// Every choice of the certificate's ends beside the graph with all ends.
fn verdict_of_all(judge: &mut Judge, graph: &[u8], certificate: &[u8], right: Verdict) -> Trial {
    all_ways(&mut judge.random, graph)
        .iter()
        .try_for_each(|graph| every_choice(certificate).try_for_each(|certificate| verdict(judge, graph, &certificate, right)))
}

// ---- single ends

const ENDS: [&[u8]; 11] = [b"\n", b"\r\n", b"\r", b"\r\r\n", b"\n\r", b"", b"\n\n", b"\r\n\r\n", b"\r\n\n", b"\n\r\n", b"\r\n\r"];
/// How many of them end a line.
const RIGHT: usize = 2;

/// A file of which the first and the last line have these ends, and what it gets: without the first, the first two lines are one.
fn with_two_ends(lines: &[&str], first: usize, last: usize) -> (Vec<u8>, u8) {
    let inner = lines[1..].join("\n");
    let bytes = [lines[0].as_bytes(), ENDS[first], inner.as_bytes(), ENDS[last]].concat();
    let one_line = ENDS[first].is_empty();
    let number = match (first < RIGHT || one_line, last < RIGHT) {
        (true, true) if one_line => 4,
        (true, true) => 0,
        _ => 3,
    };
    (bytes, number)
}

pub fn ends_of_two_lines(judge: &mut Judge) -> Trial {
    let g1 = graph(1, &[]).file();
    for first in 0..ENDS.len() {
        for last in 0..ENDS.len() {
            let (graph, number) = with_two_ends(&["010100", "0F0000"], first, last);
            graph_refusal(judge, &graph, number)?;
            verdict(judge, &graph, &graphs()[0].answers[0], if number == 0 { Verdict::Yes } else { Verdict::Refused(number) })?;
            let (stock, number) = with_two_ends(&["1102", "120001", "130001", "1F0002"], first, last);
            stock_refusal(judge, &stock, number)?;
            let of_path = with_two_ends(&["21", "2F0000"], first, last);
            let of_barrier = with_two_ends(&["31", "320001", "320102", "3F0002"], first, last);
            for ((certificate, number), right) in [(of_path, Verdict::No), (of_barrier, Verdict::Yes)] {
                verdict(judge, &g1, &certificate, if number == 0 { right } else { Verdict::Refused(40 + number) })?;
            }
        }
    }
    Ok(())
}

pub fn certificate_headers(judge: &mut Judge) -> Trial {
    let g1 = graph(1, &[]).file();
    for (certificate, right) in [
        (&b"31\r\n320001\r\n320102\r\n3F0002\r\n"[..], Verdict::Yes),
        (b"31\r\n320001\n320102\n3F0002\n", Verdict::Yes),
        (b"31\n320001\r\n320102\r\n3F0002\r\n", Verdict::Yes),
        (b"31\r\n320001\r\n320103\r\n3F0002\r\n", Verdict::No),
        (b"21\r\n2F0000\r\n", Verdict::No),
        (b"21\r\n2F0000\n", Verdict::No),
        (b"21\n2F0000\r\n", Verdict::No),
        (b"31\r", Verdict::Refused(43)),
        (b"21\r", Verdict::Refused(43)),
        (b"3\r\n1\r\n", Verdict::Refused(43)),
        (b"3\r1\n320001\n320102\n3F0002\n", Verdict::Refused(43)),
        (b"\r31\n320001\n320102\n3F0002\n", Verdict::Refused(43)),
        (b"31\r\n", Verdict::Refused(46)),
        (b"21\r\n", Verdict::Refused(46)),
        (b"3100\r\n320001\r\n320102\r\n3F0002\r\n", Verdict::Refused(44)),
        (b"2100\r\n2F0000\r\n", Verdict::Refused(44)),
        (b"41\r\n320001\r\n320102\r\n3F0002\r\n", Verdict::Refused(44)),
        (b"3F0000\r\n", Verdict::Refused(44)),
        (b"31\r\n220000\r\n2F0001\r\n", Verdict::Refused(46)),
        (b"21\r\n320001\r\n320102\r\n3F0002\r\n", Verdict::Refused(46)),
        (b"31\r\n320001\r\n320102\r\n3F0003\r\n", Verdict::Refused(47)),
        (b"31\r\n320001\r\n3F0001\r\n", Verdict::Refused(48)),
        (b"31\r\n320001\r\n320183\r\n3F0002\r\n", Verdict::Refused(49)),
        (b"21\r\n220000\r\n2F0001\r\n", Verdict::Refused(49)),
    ] {
        all_ways(&mut judge.random, &g1).iter().try_for_each(|graph| verdict(judge, graph, certificate, right))?;
    }
    Ok(())
}

// ---- damage

pub fn damaged(judge: &mut Judge) -> Trial {
    for known in &graphs()[3..] {
        let (graph, answer) = (known.graph.file(), &known.answers[0]);
        for ended in all_ways(&mut judge.random, &graph) {
            damages(&ended).iter().try_for_each(|file| judge.graph(file))?;
            damages(&ended).iter().try_for_each(|file| judge.certificate(file, answer))?;
        }
        for ended in all_ways(&mut judge.random, answer) {
            damages(&ended).iter().try_for_each(|file| judge.certificate(&graph, file))?;
        }
    }
    for stock in &stock_files()[3..5] {
        for ended in all_ways(&mut judge.random, stock) {
            damages(&ended).iter().try_for_each(|file| judge.stock(file))?;
        }
    }
    Ok(())
}

// ---- lengths

/// A graph of 7,498 arcs, 8 bytes each with CR LF, has 60,000 bytes; lines of both ends leave room for more.
pub fn lengths(judge: &mut Judge) -> Trial {
    let fullest = cr_lf(&graph_of_arcs(2, 7_498));
    by_trial(&fullest, fullest.len(), GREATEST_FILE)?;
    graph_refusal(judge, &fullest, 0)?;
    graph_refusal(judge, &[&fullest[..], b"\r"].concat(), 2)?;
    graph_refusal(judge, &[&fullest[..GREATEST_FILE - 2], b"\r\r"].concat(), 3)?;
    graph_refusal(judge, &cr_lf(&graph_of_arcs(2, 7_497)), 8)?;
    graph_refusal(judge, &cr_lf(&graph_of_arcs(2, 7_500)), 2)?;
    for (arcs, number) in [(7_500, 0), (8_192, 0), (8_193, 8), (8_194, 8), (8_569, 8)] {
        let graph = graph_of_arcs(2, arcs);
        graph_refusal(judge, &to_length(&graph, GREATEST_FILE), number)?;
        graph_refusal(judge, &to_length(&graph, GREATEST_FILE + 1), 2)?;
    }
    let random = random_graph(&mut judge.random, 128, 3_749).file();
    graph_refusal(judge, &cr_lf(&random), 0)?;
    stock_lengths(judge)?;
    certificate_lengths(judge, &fullest)
}

/// All fits that a stock may have are read with CR LF throughout. Lit pairs that are none fill a file.
fn stock_lengths(judge: &mut Judge) -> Trial {
    let fits = all_fits(127);
    stock_refusal(judge, &cr_lf(&stock_file(127, &fits[..3_900], &[])), 0)?;
    stock_refusal(judge, &cr_lf(&stock_file(127, &fits[..3_901], &[])), 8)?;
    let some = some_fits(&mut judge.random, 127, 3_900);
    let lit = nearly_largest_lit(127, &some, 0);
    stock_refusal(judge, &cr_lf(&stock_of(127, &some, &lit).file()), 0)?;
    stock_refusal(judge, &cr_lf(&stock_file(127, &fits[..3_900], &fits[..3_598])), 14)?;
    stock_refusal(judge, &cr_lf(&stock_file(127, &fits[..3_900], &fits[..3_599])), 2)?;
    let full = stock_file(127, &fits[..3_900], &fits[..3_600]);
    stock_refusal(judge, &to_length(&full, GREATEST_FILE), 14)?;
    stock_refusal(judge, &to_length(&full, GREATEST_FILE + 1), 2)
}

fn certificate_lengths(judge: &mut Judge, fullest: &[u8]) -> Trial {
    let barrier = &graphs()[2].answers[0];
    verdict(judge, fullest, barrier, Verdict::Yes)?;
    verdict(judge, fullest, &cr_lf(barrier), Verdict::Yes)?;
    verdict(judge, &cr_lf(&graph_of_arcs(2, 7_500)), barrier, Verdict::Refused(2))?;
    for (header, line, end) in [("21", "220000", 0x2F), ("31", "320001", 0x3F)] {
        let long = file(header, &vec![line.to_string(); 7_499], end);
        verdict(judge, fullest, &to_length(&long, GREATEST_FILE), Verdict::Refused(48))?;
        verdict(judge, fullest, &to_length(&long, GREATEST_FILE + 1), Verdict::Refused(42))?;
        verdict(judge, fullest, &cr_lf(&long), Verdict::Refused(42))?;
    }
    Ok(())
}

pub fn largest_certificates(judge: &mut Judge) -> Trial {
    let mut both = |graph: &Graph| -> Trial {
        let file = graph.file();
        let answer = judge.graph_answer(&file)?;
        verdict(judge, &file, &cr_lf(&answer), Verdict::Yes)?;
        judge.certificate_all_ways(&file, &answer)?;
        judge.certificate_all_ways(&file, &spoiled(graph, &answer)?)
    };
    both(&path_graph(255))?;
    both(&parts(128).0)
}
