//! The four programs, run as a technician runs them (document 01, "Programs"; document 02, L4 and L6), each print judged whole.
//!   Place               where they are: in a folder, or this binary standing in for them, rightly or wrongly
//!   Programs            a place, and what starts them, as valgrind
//!   graph, stock        a file handed in on standard input; what is printed, for a stock by its two programs, with 64 searches
//!   budget              a stock, and words for the number of searches; what is printed
//!   graph_in_pieces, stock_in_pieces    the same, each piece after the one before was read
//!   check, check_given  graph.hex and cert.hex, each a file, nothing, or a link that leads nowhere (Given)
//!   runs, never_printed     how often programs were run; what of all that they can come to was not met

use crate::engine::Call;
use crate::graph_trial;
use crate::judge::{shown, Trial};
use crate::prints::{every_print, prints_of, program_of, refusal_line, verdict_line, Print, CHECK_PROGRAM};
use crate::reference::Parts;
use crate::stand_in::{answered, WRONG_STATUS};
use crate::truth::{budget_owed, graph_owed, graph_truth, stock_owed, stock_truth, Owed};
use std::cell::{Cell, RefCell};
use std::collections::BTreeSet;
use std::ffi::{OsStr, OsString};
use std::fs;
use std::io::Write;
use std::os::fd::AsRawFd;
use std::os::raw::{c_int, c_ulong};
use std::os::unix::ffi::OsStrExt;
use std::os::unix::fs::symlink;
use std::path::PathBuf;
use std::process::{Child, ChildStdin, Command, Stdio};
use std::sync::atomic::{AtomicUsize, Ordering};
use std::time::Duration;

/// What a program prints where it is right.
pub type Printed = Result<Vec<u8>, String>;

/// Where the programs are.
pub enum Place {
    Folder(PathBuf),
    /// this binary stands in for them
    Here,
    /// likewise, and one of them is wrong; the others are not run, as all is known of them
    HereWrongly {
        program: &'static str,
        what: &'static str,
    },
}

pub struct Programs {
    place: Place,
    /// the words before each program
    starter: Vec<String>,
    /// a folder to run in, for graph.hex and cert.hex
    work: PathBuf,
    runs: Cell<usize>,
    met: RefCell<BTreeSet<Print>>,
}

/// What stands under the name of a file that the check reads.
#[derive(Clone, Copy)]
pub enum Given<'a> {
    File(&'a [u8]),
    Nothing,
    Link,
}

impl<'a> Given<'a> {
    /// What it counts as: a file that can't be opened is empty.
    fn bytes(&self) -> &'a [u8] {
        match self {
            Given::File(bytes) => bytes,
            Given::Nothing | Given::Link => b"",
        }
    }
}

/// How a message begins where a program was not started, or where this binary could not stand in for it.
pub const NOT_RUN: &str = "not run: ";

/// A number for each folder to run in.
static FOLDERS: AtomicUsize = AtomicUsize::new(0);

/// Between two pieces of input: how often, and after which rest, it is asked whether the first was read.
const WAIT_STEPS: usize = 10_000;
const WAIT_STEP: Duration = Duration::from_millis(1);

impl Programs {
    pub fn new(place: Place, starter: Vec<String>) -> Result<Programs, String> {
        let own = format!("outside-tests-{}-{}", std::process::id(), FOLDERS.fetch_add(1, Ordering::Relaxed));
        let work = std::env::temp_dir().join(own);
        fs::create_dir_all(&work).map_err(|error| format!("{}: {error}", work.display()))?;
        let place = match place {
            Place::Folder(folder) => {
                Place::Folder(fs::canonicalize(&folder).map_err(|error| format!("{}: {error}", folder.display()))?)
            }
            here => here,
        };
        Ok(Programs { place, starter, work, runs: Cell::new(0), met: RefCell::new(BTreeSet::new()) })
    }

    pub fn runs(&self) -> usize {
        self.runs.get()
    }

    pub fn never_printed(&self) -> Vec<Print> {
        let met = self.met.borrow();
        every_print().into_iter().filter(|print| !met.contains(print)).collect()
    }

    pub fn graph(&self, file: &[u8]) -> Printed {
        self.graph_in_pieces(&[file])
    }

    /// The plan and the sheet in one, and what 64 searches come to.
    pub fn stock(&self, file: &[u8]) -> Result<[Vec<u8>; 2], String> {
        self.stock_in_pieces(&[file])
    }

    pub fn budget(&self, words: &[&[u8]], file: &[u8]) -> Printed {
        self.budget_in_pieces(words, &[file])
    }

    pub fn graph_in_pieces(&self, pieces: &[&[u8]]) -> Printed {
        let file = pieces.concat();
        self.answer(Call::Graph, &[], pieces, || graph_truth(&file), graph_owed)
    }

    pub fn stock_in_pieces(&self, pieces: &[&[u8]]) -> Result<[Vec<u8>; 2], String> {
        let file = pieces.concat();
        let printout = self.answer(Call::Stock, &[], pieces, || stock_truth(&file), stock_owed)?;
        Ok([printout, self.budget_in_pieces(&[b"64"], pieces)?])
    }

    fn budget_in_pieces(&self, words: &[&[u8]], pieces: &[&[u8]]) -> Printed {
        let file = pieces.concat();
        let most = granted_by(words);
        self.answer(Call::Budget(most), words, pieces, || stock_truth(&file), |truth| budget_owed(truth, most))
    }

    /// Two files that are there.
    pub fn check(&self, graph: &[u8], certificate: &[u8]) -> Printed {
        self.check_given(Given::File(graph), Given::File(certificate))
    }

    pub fn check_given(&self, graph: Given, certificate: Given) -> Printed {
        self.put("graph.hex", graph)?;
        self.put("cert.hex", certificate)?;
        let owed = verdict_line(graph_trial::check(graph.bytes(), certificate.bytes()));
        if !self.is_run(CHECK_PROGRAM) {
            return Ok(owed);
        }
        let printed = self.printed(CHECK_PROGRAM, &[], &[])?;
        if printed == owed {
            return Ok(printed);
        }
        let files = format!("{}and\n{}", shown(graph.bytes()), shown(certificate.bytes()));
        Err(format!("{CHECK_PROGRAM} prints\n{}where owed is\n{}given\n{files}", shown(&printed), shown(&owed)))
    }

    fn put(&self, name: &str, given: Given) -> Trial {
        let path = self.work.join(name);
        let failed = |error: std::io::Error| format!("{}: {error}", path.display());
        if fs::symlink_metadata(&path).is_ok() {
            fs::remove_file(&path).map_err(failed)?;
        }
        match given {
            Given::File(bytes) => fs::write(&path, bytes).map_err(failed),
            Given::Nothing => Ok(()),
            Given::Link => symlink(self.work.join("nowhere"), &path).map_err(failed),
        }
    }

    /// What the program of a call prints, given words and standard input.
    fn answer<T>(
        &self,
        call: Call,
        words: &[&[u8]],
        pieces: &[&[u8]],
        truth: impl Fn() -> T,
        owed: impl Fn(&T) -> Owed,
    ) -> Printed {
        let name = program_of(call);
        if !self.is_run(name) {
            return Ok(answered(&Parts::right(), call, &pieces.concat()).unwrap_or_else(refusal_line));
        }
        let printed = self.printed(name, words, pieces)?;
        let truth = truth();
        let owed = owed(&truth);
        let right = if owed.number == 0 { (owed.is_right)(&printed) } else { printed == refusal_line(owed.number) };
        if right {
            return Ok(printed);
        }
        let owed = if owed.number == 0 { "an answer".to_string() } else { format!("refusal {}", owed.number) };
        let words: Vec<String> = words.iter().map(|word| format!(" '{}'", String::from_utf8_lossy(word))).collect();
        let started = format!("{name}{}", words.concat());
        Err(format!("{started} prints\n{}where {owed} is owed, given\n{}", shown(&printed), shown(&pieces.concat())))
    }

    /// What a program prints, of its own words and of what it is given on standard input.
    fn printed(&self, name: &'static str, own: &[&[u8]], pieces: &[&[u8]]) -> Printed {
        let words = self.words(name, own)?;
        let told = words.iter().map(|word| word.to_string_lossy()).collect::<Vec<_>>().join(" ");
        let failed = |error: std::io::Error| format!("{NOT_RUN}{told}: {error}");
        let mut command = Command::new(&words[0]);
        command.args(&words[1..]).current_dir(&self.work).stdin(Stdio::piped()).stdout(Stdio::piped());
        let mut running = command.spawn().map_err(failed)?;
        hand_in(&mut running, pieces);
        let ended = running.wait_with_output().map_err(failed)?;
        self.runs.set(self.runs.get() + 1);
        if !ended.status.success() {
            let stood_in = !matches!(self.place, Place::Folder(_)) && ended.status.code() != Some(WRONG_STATUS.into());
            let not_run = if stood_in { NOT_RUN } else { "" };
            return Err(format!("{not_run}{told} ended with {}, given\n{}", ended.status, shown(&pieces.concat())));
        }
        self.met.borrow_mut().extend(prints_of(name, &ended.stdout));
        Ok(ended.stdout)
    }

    fn is_run(&self, name: &str) -> bool {
        !matches!(self.place, Place::HereWrongly { program, .. } if program != name)
    }

    /// What starts a program, and its own words.
    fn words(&self, name: &str, own: &[&[u8]]) -> Result<Vec<OsString>, String> {
        let mut words: Vec<OsString> = self.starter.iter().map(OsString::from).collect();
        if let Place::Folder(folder) = &self.place {
            words.push(folder.join(name).into());
        } else {
            words.push(std::env::current_exe().map_err(|error| error.to_string())?.into());
            words.extend(["--as", name].map(OsString::from));
            if let Place::HereWrongly { what, .. } = self.place {
                words.extend(["--wrongly", what].map(OsString::from));
            }
            words.push("--".into());
        }
        words.extend(own.iter().map(|word| OsStr::from_bytes(word).to_owned()));
        Ok(words)
    }
}

/// The number of searches that words grant: the one word, of one to nine digits. Other words count as a number that is not granted.
fn granted_by(words: &[&[u8]]) -> u32 {
    let digit = |byte: &u8| byte.is_ascii_digit().then(|| u32::from(byte - b'0'));
    match words {
        [word] if !word.is_empty() && word.len() <= 9 => {
            word.iter().try_fold(0, |sum, byte| Some(10 * sum + digit(byte)?)).unwrap_or(u32::MAX)
        }
        _ => u32::MAX,
    }
}

impl Drop for Programs {
    fn drop(&mut self) {
        let _ = fs::remove_dir_all(&self.work);
    }
}

/// Standard input, then its end. A program may end before it has read all of a long file.
fn hand_in(running: &mut Child, pieces: &[&[u8]]) {
    let mut input = running.stdin.take().unwrap();
    for (place, piece) in pieces.iter().enumerate() {
        if place > 0 {
            wait_until_read(&input, running);
        }
        let _ = input.write_all(piece);
    }
}

/// Until the program has read all that was written, or has ended; not for ever.
fn wait_until_read(input: &ChildStdin, running: &mut Child) {
    let goes_on = |running: &mut Child| matches!(running.try_wait(), Ok(None));
    for _ in 0..WAIT_STEPS {
        if unread(input) == 0 || !goes_on(running) {
            return;
        }
        std::thread::sleep(WAIT_STEP);
    }
}

extern "C" {
    fn ioctl(file: c_int, request: c_ulong, ...) -> c_int;
}

/// Linux's request for the number of bytes that stand in a pipe.
const FIONREAD: c_ulong = 0x541B;

/// How many bytes of a pipe are not read yet; 0 where the system does not tell.
fn unread(pipe: &ChildStdin) -> c_int {
    let mut bytes: c_int = 0;
    // SAFETY: the request writes one int, and `bytes` is one
    let answered = unsafe { ioctl(pipe.as_raw_fd(), FIONREAD, &mut bytes) } == 0;
    if answered {
        bytes
    } else {
        0
    }
}
