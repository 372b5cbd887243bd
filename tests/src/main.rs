//! Runs everything: the trial against itself, the engine, the programs, and the wrong engines and programs, which must fail.
//! The last line is 'N passed, M failed'; the exit status is 0 where none failed. The words are told in options.rs.

use outside_tests::engine::{linked, Engine};
use outside_tests::options::{self, Options};
use outside_tests::reference::Parts;
use outside_tests::{stand_in, summary, wrong_programs};
use std::io::Write;
use std::path::PathBuf;
use std::process::ExitCode;

/// The exit status where nothing was run.
const NOT_RUN: u8 = 2;

/// Prints what a program would; the exit status that it would end with.
fn stand_in_for(engine: &dyn Engine, program: &str, options: &Options) -> Result<ExitCode, String> {
    let manner = wrong_programs::manner(program, options.wrongly.as_deref())?;
    let written = stand_in::printed(engine, program, &options.words, &manner).and_then(|text| std::io::stdout().write_all(&text));
    written.map_err(|error| error.to_string())?;
    Ok(ExitCode::from(manner.status))
}

/// With --proved, neither engine nor programs may be the tests' own.
fn all_is_proved(library: Option<&str>, programs: Option<&PathBuf>) -> Result<(), String> {
    match (library, programs) {
        (None, _) => {
            Err("--proved, but the engine is the reference engine: LANES_LIBRARY=FOLDER links the proved one".to_string())
        }
        (_, None) => Err("--proved, but no folder of programs is given: --programs FOLDER".to_string()),
        _ => Ok(()),
    }
}

fn run() -> Result<ExitCode, String> {
    let options = options::read()?;
    let (engine, library) = match linked() {
        Some((engine, library)) => (engine, Some(library)),
        None => (Box::new(Parts::right()) as Box<dyn Engine>, None),
    };
    if let Some(program) = &options.stand_in {
        return stand_in_for(engine.as_ref(), program, &options);
    }
    if options.proved {
        all_is_proved(library, options.programs.as_ref())?;
    }
    let seeds: Vec<String> = options.seeds.iter().map(u64::to_string).collect();
    println!("seed {}, about {} random files each", seeds.join(" and "), options.files);
    let programs = options.programs.as_ref().map_or("this binary".to_string(), |folder| folder.display().to_string());
    println!("engine: {}; programs: {programs}", library.unwrap_or("reference"));
    Ok(summary::try_all(&options, engine.as_ref()))
}

fn main() -> ExitCode {
    run().unwrap_or_else(|fault| {
        eprintln!("{fault}");
        ExitCode::from(NOT_RUN)
    })
}
