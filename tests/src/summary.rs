//! A run, told line by line.
//!   Summary     what was tried so far; one function for each kind of thing that is tried
//!   Right       the groups that a right engine or right programs pass; each wrong one must fail one of them
//!   try_all     everything: the trial against itself, the engine, the programs, and what is wrong, which must fail

use crate::engine::{Engine, CALL_KINDS};
use crate::groups::{of_engine, of_kept, of_programs, of_trial, run, run_programs, EngineGroup, PANIC};
use crate::judge::Trial;
use crate::options::Options;
use crate::programs::{Place, Programs, NOT_RUN};
use crate::reference::Parts;
use crate::seen::Seen;
use crate::wrong::{self, Named};
use crate::wrong_kept;
use crate::wrong_programs::{self, WrongProgram};
use std::process::ExitCode;

/// Random files that a wrong engine is tried on.
const WRONG_FILES: usize = 4_000;

struct Summary<'a> {
    options: &'a Options,
    passed: usize,
    failed: usize,
    seen: Seen,
}

impl Summary<'_> {
    fn is_wanted(&self, name: &str) -> bool {
        name.contains(&self.options.only)
    }

    fn tell(&mut self, name: &str, outcome: Result<String, String>) {
        match outcome {
            Ok(note) => {
                self.passed += 1;
                println!("ok      {name}{note}");
            }
            Err(fault) => {
                self.failed += 1;
                println!("FAILED  {name}\n{fault}");
            }
        }
    }

    fn try_groups(&mut self, groups: &[EngineGroup], engine: &dyn Engine) {
        let Options { seeds, files, only, .. } = self.options;
        for group in groups.iter().filter(|group| group.name.contains(only)) {
            for seed in group.seeds(seeds) {
                let (seen, outcome) = run(group, engine, *seed, *files);
                let note = match (seen.compared, seen.look_ups) {
                    (0, 0) => format!(" ({} files, {} calls)", seen.files, seen.calls),
                    (0, look_ups) => format!(" ({look_ups} look-ups)"),
                    (compared, _) => format!(" ({compared} compared)"),
                };
                self.tell(&format!("{}, seed {seed}", group.name), outcome.map(|_| note));
                self.seen.add(&seen);
            }
        }
    }

    /// Every kind of answer and every refusal was met, in files with CR LF too; isolated cameras, lit pairs, self arcs and look-ups in every
    /// place; every kind and size of a printout; every outcome of a budget; every refusal of a graph, a stock and a budget; every count of
    /// every caller; wrong callers; question 16 by both calls with all line ends; and what can be met with kept pairings.
    fn try_coverage(&mut self) {
        let kinds = ["every kind of answer and every refusal was met", "the same on files with CR LF"];
        for (name, missing) in kinds.into_iter().zip(self.seen.never_met()) {
            self.tell(name, none_missing(&missing, "never met"));
        }
        self.tell("isolated cameras were met in every place, and often", none_missing(&self.seen.too_rare(), "too rare"));
        self.tell(
            "lit pairs were met in every place, fits and such as are none",
            none_missing(&self.seen.too_few_lit_pairs(), "too few"),
        );
        self.tell(
            "pairs were looked up in every place and in every kind of list",
            none_missing(&self.seen.too_few_look_ups(), "too few"),
        );
        self.tell("printouts of every kind were met", none_missing(&self.seen.too_few_printouts(), "too few"));
        self.tell(
            "printouts of every number of pairs with every number of cameras were met",
            none_missing(&self.seen.never_sized(), "never met (pairs, cameras)"),
        );
        self.tell("budgets ended the searches in every way", none_missing(&self.seen.too_few_budgets(), "too few"));
        for (kind, what) in CALL_KINDS.into_iter().zip(["graphs", "stocks", "budgets"]) {
            self.tell(
                &format!("{what} were refused by every question, alone and with each later one"),
                none_missing(&self.seen.never_refused(kind), "never met (first, later)"),
            );
        }
        self.tell(
            "each count of each caller rose from every level, by every call that raises it",
            none_missing(&self.seen.too_few_raised(), "too few (call, caller, count, level)"),
        );
        self.tell(
            "each count rose beside each other one at its largest",
            none_missing(&self.seen.too_few_beside(), "too few (places of the two)"),
        );
        self.tell(
            "wrong callers of every number made every call",
            none_missing(&self.seen.never_called(), "never met (call, caller)"),
        );
        self.tell("self arcs were met in every place", none_missing(&self.seen.too_few_self_arcs(), "too few"));
        self.tell(
            "question 16 refused both calls, alone, with 10 and after each earlier one, with all line ends",
            none_missing(&self.seen.never_refused_self_arcs(), "never met (call, ends, first, later)"),
        );
        self.try_kept_coverage();
    }

    fn try_kept_coverage(&mut self) {
        self.tell("kept: every kind of calls in a row was met", none_missing(&self.seen.kept.too_few_met(), "too few"));
        self.tell(
            "kept: every call was refused by every question, alone and with each later one",
            none_missing(&self.seen.kept.never_refused(), "never met (call, first, later)"),
        );
        self.tell(
            "kept: every name was used by every call",
            none_missing(&self.seen.kept.never_named(), "never met (call, name)"),
        );
        self.tell("kept: every number of pairs came back", none_missing(&self.seen.kept.never_sized(), "never met"));
        self.tell("kept: each of eight places was used in every way", none_missing(&self.seen.kept.never_placed(), "never met"));
    }

    fn try_wrong_engines(&mut self, groups: &[EngineGroup], engines: Vec<Named>) {
        let seed = self.options.seeds[0];
        let right = Parts::right();
        let mut right_one = Right::new(groups.len(), |place: usize| run(&groups[place], &right, seed, WRONG_FILES).1);
        for (what, engine) in engines {
            let name = format!("wrong engine: {what}");
            if self.is_wanted(&name) {
                let outcome = right_one.caught(|place| run(&groups[place], &engine, seed, WRONG_FILES).1);
                self.tell(&name, outcome.map(|place| format!(" (fails: {})", groups[place].name)));
            }
        }
    }

    // ---- programs

    fn try_programs(&mut self) -> Trial {
        let place = self.options.programs.clone().map_or(Place::Here, Place::Folder);
        let valgrind: &[&str] = if self.options.valgrind { &["valgrind", "--quiet", "--error-exitcode=99"] } else { &[] };
        let programs = Programs::new(place, valgrind.iter().map(|word| word.to_string()).collect())?;
        let number = if self.options.valgrind { 1 } else { usize::MAX };
        let Options { seeds, only, .. } = self.options;
        for group in of_programs().iter().take(number).filter(|group| group.name.contains(only)) {
            for seed in group.seeds(seeds) {
                let before = programs.runs();
                let outcome = run_programs(group, &programs, *seed);
                let outcome = outcome.and_then(|_| match programs.runs() - before {
                    0 => Err("nothing was run".to_string()),
                    runs => Ok(format!(" ({runs} runs)")),
                });
                self.tell(&format!("{}, seed {seed}", group.name), outcome);
            }
        }
        if self.options.only.is_empty() && !self.options.valgrind {
            let missing = programs.never_printed();
            let outcome = if missing.is_empty() {
                Ok(String::new())
            } else {
                Err(format!("never printed (program, kind, number or lines): {missing:X?}"))
            };
            self.tell("programs: every refusal and every size of answer was printed", outcome);
        }
        Ok(())
    }

    fn try_wrong_programs(&mut self) -> Trial {
        let groups = of_programs();
        let seed = self.options.seeds[0];
        let right = Programs::new(Place::Here, Vec::new())?;
        let mut right_one = Right::new(groups.len(), |place: usize| run_programs(&groups[place], &right, seed));
        for WrongProgram { program, what, .. } in wrong_programs::all() {
            let name = format!("wrong program: {program} {what}");
            if self.is_wanted(&name) {
                let wrong = Programs::new(Place::HereWrongly { program, what }, Vec::new())?;
                let outcome = right_one.caught(|place| run_programs(&groups[place], &wrong, seed));
                self.tell(&name, outcome.map(|place| format!(" (fails: {})", groups[place].name)));
            }
        }
        Ok(())
    }
}

fn none_missing<K: std::fmt::Debug>(missing: &[K], what: &str) -> Result<String, String> {
    if missing.is_empty() {
        return Ok(String::new());
    }
    Err(format!("{what}: {missing:?}"))
}

/// A right engine or right programs, and which groups they pass, as far as that was asked.
struct Right<F: Fn(usize) -> Trial> {
    tried: F,
    passes: Vec<Option<Trial>>,
}

impl<F: Fn(usize) -> Trial> Right<F> {
    fn new(groups: usize, tried: F) -> Right<F> {
        Right { tried, passes: vec![None; groups] }
    }

    /// The first group that a wrong one fails, by its place; the right one must pass it.
    /// A panic, or what could not be run, is no such failure.
    fn caught(&mut self, wrong: impl Fn(usize) -> Trial) -> Result<usize, String> {
        for place in 0..self.passes.len() {
            match wrong(place) {
                Ok(()) => (),
                Err(fault) if fault.starts_with(NOT_RUN) || fault == PANIC => return Err(fault),
                Err(_) => {
                    return self.passes(place).map(|_| place).map_err(|fault| format!("the right one fails this too\n{fault}"))
                }
            }
        }
        Err("was not caught".to_string())
    }

    fn passes(&mut self, place: usize) -> Trial {
        self.passes[place].get_or_insert_with(|| (self.tried)(place)).clone()
    }
}

pub fn try_all(options: &Options, engine: &dyn Engine) -> ExitCode {
    let mut summary = Summary { options, passed: 0, failed: 0, seen: Seen::default() };
    summary.try_groups(&of_trial(), engine);
    summary.try_groups(&of_engine(), engine);
    summary.try_groups(&of_kept(), engine);
    if options.only.is_empty() {
        summary.try_coverage();
    }
    let tried = summary.try_programs().and_then(|_| {
        summary.try_wrong_engines(&of_engine(), wrong::engines());
        summary.try_wrong_engines(&of_kept(), wrong_kept::engines());
        summary.try_wrong_programs()
    });
    if let Err(fault) = tried {
        summary.tell("programs", Err(fault));
    }
    if summary.passed + summary.failed == 0 {
        summary.tell(
            &format!("--only {}", options.only),
            Err("nothing that can be tried alone has this text in its name".to_string()),
        );
    }
    println!("{}", summary.seen);
    println!("{} passed, {} failed", summary.passed, summary.failed);
    if summary.failed == 0 {
        ExitCode::SUCCESS
    } else {
        ExitCode::FAILURE
    }
}
