//! What the programs print (document 01, "Programs"; document 02, L4 and L6).
//!   GRAPH_PROGRAM ..               the names of the programs
//!   program_of                     the one that prints what a call answers
//!   refusal_line, verdict_line     7E and a number; 7A01 for yes, 7A00 for no
//!   Print, prints_of               which program printed, the kind that its first line opens with, and a number: that of the line where
//!                                  it is the only one, otherwise the number of body lines; of a plan and a sheet behind it, both
//!   every_print                    all that the programs can come to: each refusal, each verdict, each size of answer

use crate::engine::{Call, Verdict};
use crate::frames::{halves, kind_of, number, Text, BARRIER, BUDGET, PATH, PLAN, SHEET};
use crate::graph_trial::{CERTIFICATE_QUESTIONS, GRAPH_QUESTIONS};
use crate::stock_trial::STOCK_QUESTIONS;
use crate::truth::OVER_BUDGET;

pub const GRAPH_PROGRAM: &str = "lanes_graph";
pub const STOCK_PROGRAM: &str = "lanes_stock";
pub const BUDGET_PROGRAM: &str = "lanes_budget";
pub const CHECK_PROGRAM: &str = "lanes_check";

pub fn program_of(call: Call) -> &'static str {
    match call {
        Call::Graph => GRAPH_PROGRAM,
        Call::Stock => STOCK_PROGRAM,
        Call::Budget(_) => BUDGET_PROGRAM,
    }
}

const REFUSAL: u8 = 0x7E;
const VERDICT: u8 = 0x7A;

pub fn refusal_line(number: u8) -> Vec<u8> {
    format!("{REFUSAL:02X}{number:02X}\n").into_bytes()
}

pub fn verdict_line(verdict: Verdict) -> Vec<u8> {
    match verdict {
        Verdict::Yes => b"7A01\n".to_vec(),
        Verdict::No => b"7A00\n".to_vec(),
        Verdict::Refused(number) => refusal_line(number),
    }
}

pub type Print = (&'static str, usize, usize);

pub fn prints_of(program: &'static str, printed: &[u8]) -> Vec<Print> {
    let (first, behind) = halves(printed);
    [first, behind].into_iter().filter(|half| !half.is_empty()).map(|half| print_of(program, half)).collect()
}

fn print_of(program: &'static str, printed: &[u8]) -> Print {
    let text = Text::of(printed);
    let only_line = text.lines.len() == 1;
    (program, kind_of(text.header()), if only_line { number(text.header(), 2, 2) } else { text.body().len() })
}

pub fn every_print() -> Vec<Print> {
    let refusals = |questions: &[u8], added: usize| questions.iter().map(|number| *number as usize + added).collect();
    let of_stock: Vec<usize> = refusals(&STOCK_QUESTIONS, 0);
    let numbers: [(&str, u8, Vec<usize>); 11] = [
        (GRAPH_PROGRAM, PATH.header, (1..=255).collect()),
        (GRAPH_PROGRAM, BARRIER.header, (1..=128).map(|pairs| 2 * pairs).collect()),
        (GRAPH_PROGRAM, REFUSAL, refusals(&GRAPH_QUESTIONS, 0)),
        (STOCK_PROGRAM, PLAN.header, (0..=63).collect()),
        (STOCK_PROGRAM, SHEET.header, (0..=127).collect()),
        (STOCK_PROGRAM, REFUSAL, of_stock),
        (BUDGET_PROGRAM, BUDGET.header, (0..=63).collect()),
        (BUDGET_PROGRAM, REFUSAL, refusals(&[&[OVER_BUDGET], &STOCK_QUESTIONS[..]].concat(), 0)),
        (CHECK_PROGRAM, VERDICT, vec![0, 1]),
        (CHECK_PROGRAM, REFUSAL, refusals(&GRAPH_QUESTIONS, 0)),
        (CHECK_PROGRAM, REFUSAL, refusals(&CERTIFICATE_QUESTIONS, 40)),
    ];
    let all =
        numbers.into_iter().flat_map(|(program, kind, numbers)| numbers.into_iter().map(move |number| (program, kind, number)));
    all.map(|(program, kind, number)| (program, kind as usize, number)).collect()
}
