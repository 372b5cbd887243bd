//! More engines with one part wrong: in what ends a line (document 02, L1).
//!   engines     each with what is wrong of it
//!   reading     every file changed before it is read
//!   answering, refusing    one question answered in another way, or answered no for one more reason
//!   any_return_ends, returns_refused    a file changed as it is read where CR alone is an end, or where none is
//! Most of them read, once question 2 is answered, a file that was changed first: what they take for an end is made LF, what they do not
//! take is made a byte that is no digit.

use crate::frames::{is_digit, number, Text, CR, GREATEST_FILE, LF};
use crate::graph_trial::{self, Certificate, Graph, CERTIFICATE_QUESTIONS, GRAPH_QUESTIONS};
use crate::line_ends::{cr_lf, replaced, CR_LF};
use crate::reference::{CertificateReader, Parts, Reader};
use crate::stock_trial::{self, Stock, STOCK_QUESTIONS};
use crate::wrong::{named, Named};

pub fn engines() -> Vec<Named> {
    let right = Parts::right;
    vec![
        named("a CR alone ends a line", reading(any_return_ends)),
        named("only CR LF ends a line", reading(bare_refused)),
        named("a CR kept in the line", reading(returns_refused)),
        named("a CR kept in the lines of graphs", Parts { read_graph: graphs(returns_refused), ..right() }),
        named("a CR kept in the lines of stocks", Parts { read_stock: stocks(returns_refused), ..right() }),
        named("a CR kept in the lines of certificates", Parts { read_certificate: certificates(returns_refused), ..right() }),
        named("a CR kept in the first line", reading(first_refused)),
        named("a CR kept in the last line", reading(last_refused)),
        named("every CR passed over", reading(|file| replaced(file, b"\r", b""))),
        named("CR CR LF taken for one end", reading(|file| replaced(file, b"\r\r\n", b"\n"))),
        named("LF CR taken for one end", reading(|file| replaced(file, b"\n\r", b"\n"))),
        named("a CR at the end of the file taken for an end", reading(last_return_ends)),
        named("the first end taken for all lines", reading(first_for_all)),
        named(
            "an empty line with CR LF passed over",
            reading(|file| by_lines(file, |line| if line == CR_LF { b"" } else { line })),
        ),
        named("an empty line with CR LF let past question 3", reading(|file| by_lines(file, empty_filled))),
        named("an odd number of digits before CR LF let past question 3", reading(|file| by_lines(file, odd_cut))),
        named(
            "a barrier known by 31 LF alone",
            Parts { read_certificate: certificates(|file| unknown(file, b"31\r\n")), ..right() },
        ),
        named(
            "a barrier known by 31 CR LF alone",
            Parts { read_certificate: certificates(|file| unknown(file, b"31\n")), ..right() },
        ),
        named(
            "a path known by 21 LF alone",
            Parts { read_certificate: certificates(|file| unknown(file, b"21\r\n")), ..right() },
        ),
        named("CRs not counted by question 2", answering(2, |file| replaced(file, b"\r", b"").len() <= GREATEST_FILE)),
        named("every end counted as two bytes by question 2", refusing(2, |file| cr_lf(file).len() <= GREATEST_FILE)),
        named("the body taken from a fixed place after the header", refusing(6, |file| !first_line(file).ends_with(CR_LF))),
        named("the end frame looked for 7 bytes before the end", refusing(6, |file| !file.ends_with(CR_LF))),
        named("lines counted by bytes", answering(7, agrees_by_bytes)),
        named("more than 7,498 arcs refused beside a CR", Parts { read_graph: Box::new(fewer_arcs), ..right() }),
        named("certificates of more than 2,048 bytes refused", Parts { read_certificate: Box::new(short_only), ..right() }),
        named("answers ended as the file is", Parts { ends: as_the_file, ..right() }),
    ]
}

// ---- what is read in a file's place

type Change = fn(&[u8]) -> Vec<u8>;

/// Question 2 is put to the file itself: one that is too long is not changed.
fn changed(file: &[u8], change: Change) -> Vec<u8> {
    if file.len() > GREATEST_FILE {
        file.to_vec()
    } else {
        change(file)
    }
}

fn graphs(change: Change) -> Reader<Graph> {
    Box::new(move |file| graph_trial::read(&changed(file, change)))
}

fn stocks(change: Change) -> Reader<Stock> {
    Box::new(move |file| stock_trial::read(&changed(file, change)))
}

fn certificates(change: Change) -> CertificateReader {
    Box::new(move |graph, file| graph_trial::read_certificate(graph, &changed(file, change)))
}

fn reading(change: Change) -> Parts {
    Parts { read_graph: graphs(change), read_stock: stocks(change), read_certificate: certificates(change), ..Parts::right() }
}

// ---- ends taken and refused

const NO_DIGIT: u8 = b'.';

pub fn any_return_ends(file: &[u8]) -> Vec<u8> {
    replaced(&replaced(file, CR_LF, b"\n"), b"\r", b"\n")
}

pub fn returns_refused(file: &[u8]) -> Vec<u8> {
    replaced(file, b"\r", &[NO_DIGIT])
}

fn bare_refused(file: &[u8]) -> Vec<u8> {
    by_lines(file, |line| if line.ends_with(CR_LF) { line } else { &[NO_DIGIT] })
}

/// With its end.
fn first_line(file: &[u8]) -> &[u8] {
    file.split_inclusive(|byte| *byte == LF).next().unwrap_or(&[])
}

fn first_for_all(file: &[u8]) -> Vec<u8> {
    if first_line(file).ends_with(CR_LF) {
        bare_refused(file)
    } else {
        returns_refused(file)
    }
}

fn first_refused(file: &[u8]) -> Vec<u8> {
    let first = first_line(file);
    [&returns_refused(first), &file[first.len()..]].concat()
}

fn last_refused(file: &[u8]) -> Vec<u8> {
    match file.strip_suffix(CR_LF) {
        Some(before) => [before, &[NO_DIGIT, LF]].concat(),
        None => file.to_vec(),
    }
}

fn last_return_ends(file: &[u8]) -> Vec<u8> {
    match file.strip_suffix(&[CR]) {
        Some(before) => [before, &[LF]].concat(),
        None => file.to_vec(),
    }
}

/// A first line that is none of a certificate's.
fn unknown(file: &[u8], first: &[u8]) -> Vec<u8> {
    match file.strip_prefix(first) {
        Some(after) => [b"00\n", after].concat(),
        None => file.to_vec(),
    }
}

/// Each line, with its end, changed.
fn by_lines(file: &[u8], change: fn(&[u8]) -> &[u8]) -> Vec<u8> {
    file.split_inclusive(|byte| *byte == LF).flat_map(change).copied().collect()
}

/// A line of digits that is no frame.
const NO_FRAME: &[u8] = b"00000000\n";

fn empty_filled(line: &[u8]) -> &[u8] {
    if line == CR_LF {
        NO_FRAME
    } else {
        line
    }
}

fn odd_cut(line: &[u8]) -> &[u8] {
    match line.strip_suffix(CR_LF) {
        Some(digits) if digits.len() % 2 == 1 && digits.iter().all(|byte| is_digit(*byte)) => NO_FRAME,
        _ => line,
    }
}

// ---- one question

type Answer = fn(&[u8]) -> bool;

/// A question answered in another way.
fn answering(question: u8, answer: Answer) -> Parts {
    asking(Some(question), question, answer)
}

/// A question answered no for one more reason.
fn refusing(question: u8, answer: Answer) -> Parts {
    asking(None, question, answer)
}

/// The questions without one, and an answer of its own in a question's place.
fn asking(without: Option<u8>, question: u8, answer: Answer) -> Parts {
    let put = |questions: &[u8]| -> Vec<u8> { questions.iter().copied().filter(|other| Some(*other) != without).collect() };
    let [of_graph, of_stock, of_certificate] = [&GRAPH_QUESTIONS[..], &STOCK_QUESTIONS, &CERTIFICATE_QUESTIONS].map(put);
    Parts {
        read_graph: Box::new(move |file| asked(graph_trial::read_in_order(file, &of_graph), question, || answer(file))),
        read_stock: Box::new(move |file| asked(stock_trial::read_in_order(file, &of_stock), question, || answer(file))),
        read_certificate: Box::new(move |graph, file| {
            asked(graph_trial::read_certificate_in_order(graph, file, &of_certificate), question, || answer(file))
        }),
        ..Parts::right()
    }
}

/// The answer counts where no earlier question refused.
fn asked<T>(read: Result<T, u8>, question: u8, answer: impl Fn() -> bool) -> Result<T, u8> {
    match read {
        Err(earlier) if earlier < question => Err(earlier),
        _ if !answer() => Err(question),
        read => read,
    }
}

/// 7 bytes to each line after the header.
fn agrees_by_bytes(file: &[u8]) -> bool {
    let text = Text::of(file);
    (file.len() - text.header().len() - 1) / 7 == number(text.end(), 2, 4) + 1
}

fn fewer_arcs(file: &[u8]) -> Result<Graph, u8> {
    match graph_trial::read(file) {
        Ok(graph) if graph.arcs.len() > 7_498 && file.contains(&CR) => Err(8),
        read => read,
    }
}

fn short_only(graph: &Graph, file: &[u8]) -> Result<Certificate, u8> {
    match graph_trial::read_certificate(graph, file) {
        Ok(_) if file.len() > 2_048 => Err(2),
        read => read,
    }
}

// ---- answers

fn as_the_file(file: &[u8], answer: Vec<u8>) -> Vec<u8> {
    if file.contains(&CR) {
        cr_lf(&answer)
    } else {
        answer
    }
}
