//! Files of hexadecimal frames (document 01, "Frames"), written for the tests and read by the trial.
//!   LF, CR                line feed and carriage return
//!   Form                  a kind of file: its header's kind and digits, its body kinds in order, its end's kind
//!   Text                  a file cut into lines, each ended by LF or by CR LF (document 02, L1)
//!   Text::answers         questions 2, 3, 4, 6 and 7, which every kind of file is asked
//!   first_no              the number of the first question answered no
//!   number                digits of a line as a number
//!   file                  header, body lines and the end frame that counts them
//!   graph_file ..         one function for each row of document 01's table, and one for the answer to a budget (document 02, L4)
//!   printout              what a stock gets: the plan, directly followed by the sheet (document 02, L6)
//!   plan_bytes, sheet_bytes    how long its halves are
//!   halves, plan_in, sheet_in  an answer to a stock cut behind the plan; either half
//! Each question is asked of any bytes whatever, so that a test can tell which of them a file fails beside the first.

pub type Pair = (usize, usize);

pub struct Form {
    pub header: u8,
    pub header_digits: usize,
    pub bodies: &'static [u8],
    pub end: u8,
}

pub const GRAPH: Form = Form { header: 0x01, header_digits: 4, bodies: &[0x02], end: 0x0F };
pub const STOCK: Form = Form { header: 0x11, header_digits: 2, bodies: &[0x12, 0x13], end: 0x1F };
pub const PATH: Form = Form { header: 0x21, header_digits: 0, bodies: &[0x22], end: 0x2F };
pub const BARRIER: Form = Form { header: 0x31, header_digits: 0, bodies: &[0x32], end: 0x3F };
pub const PLAN: Form = Form { header: 0x51, header_digits: 2, bodies: &[0x52], end: 0x5F };
pub const SHEET: Form = Form { header: 0x41, header_digits: 2, bodies: &[0x43], end: 0x4F };
/// After the kind: pairs, searches, and lanes at most still missing.
pub const BUDGET: Form = Form { header: 0x61, header_digits: 6, bodies: &[0x52], end: 0x6F };

/// The digits after the kind in every body line and in every end frame.
const BODY_DIGITS: usize = 4;

pub const GREATEST_FILE: usize = 60_000;

pub const LF: u8 = b'\n';
pub const CR: u8 = b'\r';

/// Lines without their ends; `ended` is whether the last one had its own.
pub struct Text<'a> {
    pub bytes: &'a [u8],
    pub lines: Vec<&'a [u8]>,
    pub ended: bool,
}

impl<'a> Text<'a> {
    /// A CR belongs to a line's end only right before the LF; any other is a byte of its line.
    pub fn of(bytes: &'a [u8]) -> Text<'a> {
        let mut lines: Vec<&[u8]> = bytes.split(|byte| *byte == LF).collect();
        let rest = lines.pop().unwrap_or(&[]);
        for line in &mut lines {
            *line = line.strip_suffix(&[CR]).unwrap_or(line);
        }
        let ended = rest.is_empty();
        if !ended {
            lines.push(rest);
        }
        Text { bytes, lines, ended }
    }

    /// The first line, empty where there is none.
    pub fn header(&self) -> &'a [u8] {
        self.lines.first().copied().unwrap_or(&[])
    }

    /// The last line other than the header, empty where there is none.
    pub fn end(&self) -> &'a [u8] {
        if self.lines.len() < 2 {
            return &[];
        }
        self.lines[self.lines.len() - 1]
    }

    /// The lines between header and last line.
    pub fn body(&self) -> &[&'a [u8]] {
        if self.lines.len() < 2 {
            return &[];
        }
        &self.lines[1..self.lines.len() - 1]
    }

    /// The two numbers of each body line of a kind.
    pub fn pairs(&self, kind: u8) -> Vec<Pair> {
        let of_kind = self.body().iter().filter(|line| kind_of(line) == kind as usize);
        of_kind.map(|line| (number(line, 2, 2), number(line, 4, 2))).collect()
    }

    pub fn answers(&self, form: &Form, question: u8) -> bool {
        match question {
            2 => self.bytes.len() <= GREATEST_FILE,
            3 => self.ended && self.lines.iter().all(|line| is_even_digits(line)),
            4 => is_frame(self.header(), form.header, form.header_digits),
            6 => self.lines.len() >= 2 && is_frame(self.end(), form.end, BODY_DIGITS) && self.body_in_order(form),
            7 => self.lines.len() >= 2 && number(self.end(), 2, 4) == self.body().len(),
            _ => panic!("question {question} is not asked of every kind of file"),
        }
    }

    /// Each line of the body is a body frame, and their kinds stand in the table's order.
    fn body_in_order(&self, form: &Form) -> bool {
        let place = |line: &&[u8]| form.bodies.iter().position(|kind| is_frame(line, *kind, BODY_DIGITS));
        let places: Vec<Option<usize>> = self.body().iter().map(place).collect();
        places.iter().all(|found| found.is_some()) && places.windows(2).all(|two| two[0] <= two[1])
    }
}

/// The number of the first question answered no, 0 where there is none.
pub fn first_no(order: &[u8], ask: impl Fn(u8) -> bool) -> u8 {
    order.iter().copied().find(|question| !ask(*question)).unwrap_or(0)
}

pub fn is_digit(byte: u8) -> bool {
    byte.is_ascii_digit() || (b'A'..=b'F').contains(&byte)
}

fn is_even_digits(line: &[u8]) -> bool {
    !line.is_empty() && line.len().is_multiple_of(2) && line.iter().all(|byte| is_digit(*byte))
}

fn is_frame(line: &[u8], kind: u8, digits: usize) -> bool {
    line.len() == 2 + digits && kind_of(line) == kind as usize
}

pub fn kind_of(line: &[u8]) -> usize {
    number(line, 0, 2)
}

/// The number that some digits of a line give; what is no digit counts as 0, and digits past the line's end as none.
pub fn number(line: &[u8], from: usize, digits: usize) -> usize {
    let value = |byte: &u8| (*byte as char).to_digit(16).unwrap_or(0) as usize;
    line.iter().skip(from).take(digits).fold(0, |sum, byte| 16 * sum + value(byte))
}

/// Header, body lines and end frame, each ended by a line feed.
pub fn file(header: &str, body: &[String], end: u8) -> Vec<u8> {
    let mut text = format!("{header}\n");
    for line in body {
        text.push_str(line);
        text.push('\n');
    }
    text.push_str(&format!("{end:02X}{:04X}\n", body.len()));
    text.into_bytes()
}

pub fn pair_lines(kind: u8, pairs: &[Pair]) -> Vec<String> {
    pairs.iter().map(|(first, second)| format!("{kind:02X}{first:02X}{second:02X}")).collect()
}

pub fn graph_file(pairs: usize, source: usize, arcs: &[Pair]) -> Vec<u8> {
    file(&format!("01{pairs:02X}{source:02X}"), &pair_lines(0x02, arcs), GRAPH.end)
}

pub fn stock_file(cameras: usize, fits: &[Pair], lit: &[Pair]) -> Vec<u8> {
    let body = [pair_lines(0x12, fits), pair_lines(0x13, lit)].concat();
    file(&format!("11{cameras:02X}"), &body, STOCK.end)
}

pub fn path_file(arcs: &[usize]) -> Vec<u8> {
    let body: Vec<String> = arcs.iter().map(|arc| format!("22{arc:04X}")).collect();
    file("21", &body, PATH.end)
}

pub fn barrier_file(classes: &[usize]) -> Vec<u8> {
    let numbered: Vec<Pair> = classes.iter().copied().enumerate().collect();
    file("31", &pair_lines(0x32, &numbered), BARRIER.end)
}

pub fn plan_file(pairs: &[Pair]) -> Vec<u8> {
    file(&format!("51{:02X}", pairs.len()), &pair_lines(0x52, pairs), PLAN.end)
}

pub fn budget_file(pairs: &[Pair], searches: usize, missing: usize) -> Vec<u8> {
    let header = format!("61{:02X}{searches:02X}{missing:02X}", pairs.len());
    file(&header, &pair_lines(0x52, pairs), BUDGET.end)
}

pub fn sheet_file(greatest: usize, marks: &[usize]) -> Vec<u8> {
    let numbered: Vec<Pair> = marks.iter().copied().enumerate().collect();
    file(&format!("41{greatest:02X}"), &pair_lines(0x43, &numbered), SHEET.end)
}

pub fn printout(pairs: &[Pair], greatest: usize, marks: &[usize]) -> Vec<u8> {
    [plan_file(pairs), sheet_file(greatest, marks)].concat()
}

/// The bytes of a header of four digits, and of every other line, with their line feeds.
const HEADER_BYTES: usize = 5;
const LINE_BYTES: usize = 7;

pub const fn plan_bytes(pairs: usize) -> usize {
    HEADER_BYTES + LINE_BYTES * pairs + LINE_BYTES
}

pub const fn sheet_bytes(cameras: usize) -> usize {
    HEADER_BYTES + LINE_BYTES * cameras + LINE_BYTES
}

/// Cut behind the first end frame of a plan; where there is none, nothing is behind it.
pub fn halves(answer: &[u8]) -> (&[u8], &[u8]) {
    let mut behind = 0;
    for line in answer.split_inclusive(|byte| *byte == LF) {
        behind += line.len();
        if kind_of(line) == PLAN.end as usize {
            break;
        }
    }
    answer.split_at(behind)
}

pub fn plan_in(answer: &[u8]) -> &[u8] {
    halves(answer).0
}

pub fn sheet_in(answer: &[u8]) -> &[u8] {
    halves(answer).1
}
