//! This binary in a program's place, by an engine.
//!   Manner              how a program goes about it: which files, what it reads of them, what it prints
//!   Manner::right       as document 01 says
//!   printed             what a program prints of its words and its input: standard input, or graph.hex and cert.hex
//!   granted             the number of searches that its words come to
//!   answered            what a call that answers a file comes to

use crate::engine::{Call, Engine, Tally, Told, Verdict};
use crate::judge::LEAST_ROOM;
use crate::prints::{refusal_line, verdict_line, BUDGET_PROGRAM, CHECK_PROGRAM, GRAPH_PROGRAM, STOCK_PROGRAM};
use std::fs::File;
use std::io::{Read, Result as Done};

pub const STANDARD_INPUT: &str = "standard input";
pub const GRAPH_FILE: &str = "graph.hex";
pub const CERTIFICATE_FILE: &str = "cert.hex";

/// The exit status of a program that is wrong in its status alone.
pub const WRONG_STATUS: u8 = 1;

/// The answer of a call to a file, or the number of its refusal.
pub type Answering = fn(&dyn Engine, Call, &[u8]) -> Result<Vec<u8>, u8>;

pub struct Manner {
    /// what is read of a file or of standard input, told by name
    pub read: fn(&str, &mut dyn Read) -> Done<Vec<u8>>,
    /// the check's files, the graph first
    pub names: [&'static str; 2],
    /// what a file that can't be opened counts as
    pub unopened: fn() -> Vec<u8>,
    /// the number of searches that the program's words come to
    pub granted: fn(&[Vec<u8>]) -> u32,
    pub answered: Answering,
    pub refusal: fn(u8) -> Vec<u8>,
    /// what is printed of what should be
    pub print: fn(Vec<u8>) -> Vec<u8>,
    /// the exit status
    pub status: u8,
}

impl Manner {
    pub fn right() -> Manner {
        Manner {
            read: |_, input| read_all(input),
            names: [GRAPH_FILE, CERTIFICATE_FILE],
            unopened: Vec::new,
            granted,
            answered,
            refusal: refusal_line,
            print: |text| text,
            status: 0,
        }
    }

    fn of_file(&self, name: &str) -> Done<Vec<u8>> {
        match File::open(name) {
            Ok(mut file) => (self.read)(name, &mut file),
            Err(_) => Ok((self.unopened)()),
        }
    }
}

pub fn read_all(input: &mut dyn Read) -> Done<Vec<u8>> {
    let mut bytes = Vec::new();
    input.read_to_end(&mut bytes)?;
    Ok(bytes)
}

pub fn printed(engine: &dyn Engine, program: &str, words: &[Vec<u8>], manner: &Manner) -> Done<Vec<u8>> {
    let call = match program {
        CHECK_PROGRAM => return Ok((manner.print)(checked(engine, manner)?)),
        GRAPH_PROGRAM => Call::Graph,
        STOCK_PROGRAM => Call::Stock,
        BUDGET_PROGRAM => Call::Budget((manner.granted)(words)),
        _ => panic!("there is no program {program}"),
    };
    let file = (manner.read)(STANDARD_INPUT, &mut std::io::stdin())?;
    let text = (manner.answered)(engine, call, &file).unwrap_or_else(manner.refusal);
    Ok((manner.print)(text))
}

/// One word of one to nine digits; anything else is more than is granted.
pub fn granted(words: &[Vec<u8>]) -> u32 {
    match words {
        [word] if (1..=9).contains(&word.len()) => number_in(word),
        _ => u32::MAX,
    }
}

/// The number that a word of digits gives, if it is one of 32 bits; otherwise the largest.
pub fn number_in(word: &[u8]) -> u32 {
    let digits = String::from_utf8_lossy(word);
    if digits.bytes().all(|byte| byte.is_ascii_digit()) {
        digits.parse().unwrap_or(u32::MAX)
    } else {
        u32::MAX
    }
}

fn checked(engine: &dyn Engine, manner: &Manner) -> Done<Vec<u8>> {
    let [graph, certificate] = manner.names.map(|name| manner.of_file(name));
    Ok(match engine.check(&graph?, &certificate?) {
        Verdict::Refused(number) => (manner.refusal)(number),
        verdict => verdict_line(verdict),
    })
}

/// As service, which cannot be seen.
pub fn answered(engine: &dyn Engine, call: Call, file: &[u8]) -> Result<Vec<u8>, u8> {
    let mut out = [0; LEAST_ROOM];
    match call.by(engine, file, 2, &mut out, &mut Tally::default()).told {
        Told { number: 0, size } => Ok(out[..size].to_vec()),
        Told { number, .. } => Err(number),
    }
}
