//! The words of a run.
//!   USAGE       them
//!   Options     what they come to
//!   read        the options of this process

use crate::random::Random;
use std::ffi::OsString;
use std::os::unix::ffi::OsStringExt;
use std::path::PathBuf;
use std::time::{SystemTime, UNIX_EPOCH};

pub const USAGE: &str = "outside-tests [--seed N] [--files N] [--long] [--only TEXT] [--programs FOLDER] [--valgrind] [--proved]
  --seed N            this seed alone; without it seed 1 and, for all that is drawn at random, a fresh one besides, which is printed
  --files N           about that many random files with each seed
  --long              twenty times as many
  --only TEXT         only what has TEXT in its name; a failure where nothing has
  --programs FOLDER   the programs lanes_graph, lanes_stock, lanes_budget and lanes_check of a folder; without it this binary
                      stands in
  --valgrind          the programs under valgrind, on document 01's examples alone
  --proved            a failure at once where the engine is not the linked library, or where no folder of programs is given
outside-tests --as NAME [--wrongly WHAT] [-- WORD ..]
  stands in for a program, or for one of which something is wrong, as the lines 'wrong program' have it; the program's own words last";

pub struct Options {
    /// the first for all that is tried, the others for what is drawn
    pub seeds: Vec<u64>,
    pub files: usize,
    pub only: String,
    pub programs: Option<PathBuf>,
    pub valgrind: bool,
    pub proved: bool,
    pub stand_in: Option<String>,
    pub wrongly: Option<String>,
    /// those of the program that this binary stands in for
    pub words: Vec<Vec<u8>>,
}

/// A seed other than 1, by the clock and the number of this process; short enough to be typed.
fn fresh_seed() -> u64 {
    let clock = SystemTime::now().duration_since(UNIX_EPOCH).map_or(0, |since| since.as_nanos() as u64);
    let mixed = Random::new(clock ^ (u64::from(std::process::id()) << 32)).number();
    2 + mixed % 999_999_998
}

/// A word of this binary's own.
fn text(word: OsString) -> String {
    word.to_string_lossy().into_owned()
}

pub fn read() -> Result<Options, String> {
    let mut options = Options {
        seeds: vec![1, fresh_seed()],
        files: 24_000,
        only: String::new(),
        programs: None,
        valgrind: false,
        proved: false,
        stand_in: None,
        wrongly: None,
        words: Vec::new(),
    };
    let mut words = std::env::args_os().skip(1);
    while let Some(word) = words.next().map(text) {
        let mut value = || words.next().map(text).ok_or(format!("{word} wants a value\n{USAGE}"));
        let number = |text: String| text.parse::<u64>().map_err(|_| format!("{text} is no number\n{USAGE}"));
        match word.as_str() {
            "--seed" => options.seeds = vec![number(value()?)?],
            "--files" => options.files = number(value()?)? as usize,
            "--long" => options.files *= 20,
            "--only" => options.only = value()?,
            "--programs" => options.programs = Some(PathBuf::from(value()?)),
            "--valgrind" => options.valgrind = true,
            "--proved" => options.proved = true,
            "--as" => options.stand_in = Some(value()?),
            "--wrongly" => options.wrongly = Some(value()?),
            "--" => options.words = words.by_ref().map(OsString::into_vec).collect(),
            _ => return Err(format!("what is {word}?\n{USAGE}")),
        }
    }
    Ok(options)
}
