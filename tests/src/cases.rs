//! Document 01's examples, edges and traps, each with what the document says of it, and the points that it leaves to the reader.
//!   graph_examples, stock_examples    G1 to G5, S1 to S7
//!   examples_folder                   the files of examples/ are these and those of known.rs with isolated cameras or budgets, no others,
//!                                     and their answers are right
//!   tallies                           calls in a row by every caller, with counts at and near 4,294,967,295
//!   edges                             sizes at which a question changes its answer, and the buffer's; a fit behind a lit pair
//!   FIT_BEHIND_LIT                    stocks with one
//!   traps                             document 01's traps
//!   one_of                            an answer is among those that the document allows
//!   stock_answer                      what a stock gets, judged
//!   by_trial, graph_refusal, stock_refusal, verdict    the trial and the engine held to what is plain beforehand; 0 for an answer
//!   graph_of_arcs                     a graph of a number of arcs
//!   points_left_to_the_reader         what is decided where document 01 can be read in two ways

use crate::engine::{Call, Counts, Tally, Verdict};
use crate::frames::{barrier_file, file, graph_file, pair_lines, path_file, printout, stock_file, Pair};
use crate::generate::all_fits;
use crate::graph_trial;
use crate::judge::{by_all_callers, shown, Judge, Trial, LEAST_ROOM};
use crate::known::{graph, graphs, isolated_examples, stock, stocks, KnownGraph, G3, G4, G5, S5_BUDGETS, S7};
use crate::line_ends::cr_lf;
use crate::prints::verdict_line;
use crate::stock_trial;
use crate::truth::{budget_owed, graph_owed, graph_truth, stock_owed, stock_truth, Count};
use std::fs;

/// What the trial itself says, against the documents.
pub fn by_trial<T: PartialEq + std::fmt::Debug>(file: &[u8], found: T, right: T) -> Trial {
    if found == right {
        Ok(())
    } else {
        Err(format!("the trial says {found:?}, the documents {right:?}\n{}", shown(file)))
    }
}

pub fn one_of(name: &str, answer: &[u8], right: &[Vec<u8>]) -> Trial {
    if right.iter().any(|text| text == answer) {
        Ok(())
    } else {
        Err(format!("{name}: document 01 does not allow\n{}", shown(answer)))
    }
}

fn graph_answer(judge: &mut Judge, file: &[u8]) -> Result<Vec<u8>, String> {
    judge.lend(Call::Graph, file, LEAST_ROOM, &graph_owed(&graph_truth(file)))
}

pub fn stock_answer(judge: &mut Judge, file: &[u8]) -> Result<Vec<u8>, String> {
    judge.lend(Call::Stock, file, LEAST_ROOM, &stock_owed(&stock_truth(file)))
}

pub fn graph_examples(judge: &mut Judge) -> Trial {
    for known in graphs() {
        let file = known.graph.file();
        judge.graph(&file)?;
        let answer = graph_answer(judge, &file)?;
        one_of(known.name, &answer, &known.answers)?;
        for answer in &known.answers {
            verdict(judge, &file, answer, Verdict::Yes)?;
        }
    }
    Ok(())
}

pub fn stock_examples(judge: &mut Judge) -> Trial {
    for known in stocks() {
        let file = known.stock.file();
        judge.stock(&file)?;
        let answer = stock_answer(judge, &file)?;
        one_of(known.name, &answer, &known.answers())?;
    }
    Ok(())
}

/// The trial and the engine both say so.
pub fn verdict(judge: &mut Judge, graph: &[u8], certificate: &[u8], right: Verdict) -> Trial {
    by_trial(certificate, graph_trial::check(graph, certificate), right)?;
    judge.certificate(graph, certificate)
}

pub fn graph_refusal(judge: &mut Judge, file: &[u8], right: u8) -> Trial {
    by_trial(file, graph_trial::read(file).err().unwrap_or(0), right)?;
    judge.graph(file)
}

pub fn stock_refusal(judge: &mut Judge, file: &[u8], right: u8) -> Trial {
    by_trial(file, stock_trial::read(file).err().unwrap_or(0), right)?;
    judge.stock(file)
}

/// A graph of some mate pairs with that many parallel arcs 0 to 2 and back.
pub fn graph_of_arcs(pairs: usize, number: usize) -> Vec<u8> {
    let arcs: Vec<Pair> = G3.iter().copied().cycle().take(number).collect();
    graph_file(pairs, 0, &arcs)
}

/// Their body lines stand in another order than the table of frames has them.
pub const FIT_BEHIND_LIT: [&[u8]; 2] = [b"1104\n120001\n130001\n120203\n1F0003\n", b"1104\n130001\n120001\n1F0002\n"];

pub fn edges(judge: &mut Judge) -> Trial {
    graph_refusal(judge, &graph_file(0x80, 0, &[]), 0)?;
    graph_refusal(judge, &graph_file(0x80, 0xFF, &[]), 0)?;
    graph_refusal(judge, &graph_file(0x00, 0, &[]), 5)?;
    graph_refusal(judge, &graph_file(0x81, 0, &[]), 5)?;
    graph_refusal(judge, &graph_file(2, 4, &[]), 5)?;
    graph_refusal(judge, &graph_of_arcs(2, 8_192), 0)?;
    graph_refusal(judge, &graph_of_arcs(2, 1), 8)?;
    graph_refusal(judge, &graph_of_arcs(2, 8_191), 8)?;
    graph_refusal(judge, &graph_of_arcs(2, 8_194), 8)?;
    stock_refusal(judge, &stock_file(0x7F, &all_fits(127)[..3_900], &[]), 0)?;
    stock_refusal(judge, &stock_file(0x7F, &all_fits(127)[..3_901], &[]), 8)?;
    stock_refusal(judge, &stock_file(0x80, &[], &[]), 5)?;
    stock_refusal(judge, &stock_file(0xFF, &[], &[]), 5)?;
    graph_refusal(judge, b"", 4)?;
    stock_refusal(judge, b"", 4)?;
    graph_refusal(judge, b"010100\n", 6)?;
    stock_refusal(judge, b"1100\n", 6)?;
    FIT_BEHIND_LIT.into_iter().try_for_each(|file| stock_refusal(judge, file, 6))?;
    verdict(judge, &graph(1, &[]).file(), &path_file(&[]), Verdict::No)?;
    verdict(judge, &graph(2, &G5).file(), &path_file(&[]), Verdict::No)?;
    for room in [0, 1, 2_046, 2_047, 2_048, 2_049, 60_000] {
        let (g4, s7) = (graph(2, &G4).file(), stock(6, &S7, &[]).file());
        judge.lend(Call::Graph, &g4, room, &graph_owed(&graph_truth(&g4)))?;
        judge.lend(Call::Stock, &s7, room, &stock_owed(&stock_truth(&s7)))?;
        judge.lend(Call::Stock, b"", room, &stock_owed(&stock_truth(b"")))?;
        judge.lend(Call::Budget(2), &s7, room, &budget_owed(&stock_truth(&s7), 2))?;
    }
    file_lengths(judge)
}

/// 60,000 bytes pass question 2 and 60,001 do not.
fn file_lengths(judge: &mut Judge) -> Trial {
    for (length, right) in [(59_999, 3), (60_000, 3), (60_001, 2), (70_000, 2), (200_000, 2)] {
        let zeros = vec![b'0'; length];
        graph_refusal(judge, &zeros, right)?;
        stock_refusal(judge, &zeros, right)?;
        let added = 40 + right;
        verdict(judge, &graph(2, &G4).file(), &zeros, Verdict::Refused(added))?;
    }
    // 60,000 bytes in two lines: the first is no header
    let mut long = vec![b'0'; 60_000];
    long[6] = b'\n';
    long[59_999] = b'\n';
    graph_refusal(judge, &long, 4)
}

pub fn traps(judge: &mut Judge) -> Trial {
    let bare = stock(6, &S7, &[(0, 2), (3, 5)]).file();
    let answer = stock_answer(judge, &bare)?;
    one_of("S7 with lit 0-2 and 3-5", &answer, &[printout(&[(0, 1), (2, 3), (4, 5)], 3, &[2; 6])])?;
    verdict(judge, &graph(2, &G4).file(), &path_file(&[0, 2, 1]), Verdict::No)?;
    verdict(judge, &graph(2, &G5).file(), &path_file(&[0, 2, 5]), Verdict::Yes)?;
    // the bud of 2 and 3, and from it over an arc the bud of 4 and 5
    let joined = graph(3, &[(0, 2), (3, 1), (2, 3), (2, 3), (2, 4), (5, 3), (4, 5), (4, 5)]).file();
    let answer = graph_answer(judge, &joined)?;
    one_of("two buds joined by an arc", &answer, &[barrier_file(&[1, 2, 3, 3, 3, 3])])?;
    let fits = [(0, 1), (0, 2), (1, 2)];
    for lit in [&[][..], &fits[..1], &fits[1..2], &fits[2..]] {
        let answer = stock_answer(judge, &stock(3, &fits, lit).file())?;
        let plans = if lit.is_empty() { &fits[..] } else { lit };
        let right: Vec<Vec<u8>> = plans.iter().map(|pair| printout(&[*pair], 1, &[0; 3])).collect();
        one_of("S3 with a pair lit", &answer, &right)?;
    }
    judge.stock(&bare)
}

/// Counts at their largest value remain there; the others rise one by one.
pub fn tallies(judge: &mut Judge) -> Trial {
    let (barred, open) = (graph(1, &[]).file(), graph(1, &[(0, 1), (0, 1)]).file());
    let chain = stock(4, &[(0, 1), (1, 2), (2, 3)], &[(1, 2)]).file();
    let no_cameras = stock(0, &[], &[]).file();
    let to_itself = graph(1, &[(0, 0), (1, 1)]).file();
    let calls: [(Call, &[u8], Count); 13] = [
        (Call::Graph, &open, Count::Paths),
        (Call::Graph, &barred, Count::Barriers),
        (Call::Stock, &chain, Count::Stocks),
        (Call::Stock, &no_cameras, Count::Stocks),
        (Call::Graph, b"", Count::Refusals),
        (Call::Stock, &barred, Count::Refusals),
        (Call::Stock, b"\n", Count::Refusals),
        (Call::Graph, &to_itself, Count::Refusals),
        (Call::Graph, &open, Count::Paths),
        (Call::Budget(0), &chain, Count::Stocks),
        (Call::Budget(64), &chain, Count::Stocks),
        (Call::Budget(65), &chain, Count::Refusals),
        (Call::Budget(1), b"", Count::Refusals),
    ];
    let calls = by_all_callers(&calls);
    for start in [0, 7, u32::MAX - 2, u32::MAX - 1, u32::MAX] {
        for counts in [
            Counts { paths: start, barriers: start, stocks: start, refusals: start },
            Counts { paths: start, ..Counts::default() },
            Counts { barriers: start, ..Counts::default() },
            Counts { stocks: start, ..Counts::default() },
            Counts { refusals: start, ..Counts::default() },
        ] {
            judge.in_a_row(Tally::of_each(counts), &calls)?;
        }
    }
    Ok(())
}

pub fn points_left_to_the_reader(judge: &mut Judge) -> Trial {
    let (g4, g5) = (graph(2, &G4).file(), graph(2, &G5).file());
    graph_refusal(judge, b"\n", 3)?;
    stock_refusal(judge, b"\n", 3)?;
    // question 8 counts fits and not lit lines
    let lit: Vec<Pair> = (0..15).map(|camera| (2 * camera, 2 * camera + 1)).collect();
    stock_refusal(judge, &stock_file(0x7F, &all_fits(127)[..3_900], &lit), 0)?;
    stock_refusal(judge, &stock_file(0x7F, &all_fits(127)[..3_900], &all_fits(127)[..4_000]), 13)?;
    stock_refusal(judge, &stock_file(0x7F, &[], &all_fits(127)), 13)?;
    // question 9 is put to lit pairs too
    stock_refusal(judge, &stock_file(3, &[(0, 1)], &[(0, 3)]), 9)?;
    stock_refusal(judge, &stock_file(3, &[(1, 1)], &[]), 11)?;
    stock_refusal(judge, &stock_file(3, &[(0, 1)], &[(0, 1), (0, 1)]), 12)?;
    // an entry counts by arc number
    verdict(judge, &g4, &barrier_file(&[1, 2, 3, 3]), Verdict::Yes)?;
    verdict(judge, &g5, &barrier_file(&[1, 2, 3, 3]), Verdict::No)?;
    // class 82 and 40 added
    verdict(judge, &g4, &barrier_file(&[1, 2, 0x82, 0x82]), Verdict::No)?;
    verdict(judge, &g4, &barrier_file(&[1, 2, 0x83, 0x83]), Verdict::Refused(49))?;
    verdict(judge, &g4, &barrier_file(&[1, 2, 3, 4]), Verdict::No)?;
    // any numbering of the parts; a part need not be connected; a skipped class is none
    let two_parts = graph(3, &[(0, 2), (3, 1), (2, 3), (2, 3), (0, 4), (5, 1), (4, 5), (4, 5)]).file();
    verdict(judge, &two_parts, &barrier_file(&[1, 2, 3, 3, 4, 4]), Verdict::Yes)?;
    verdict(judge, &two_parts, &barrier_file(&[1, 2, 4, 4, 3, 3]), Verdict::Yes)?;
    verdict(judge, &two_parts, &barrier_file(&[1, 2, 3, 3, 5, 5]), Verdict::No)?;
    verdict(judge, &two_parts, &barrier_file(&[1, 2, 3, 3, 3, 3]), Verdict::No)?;
    let with_stranger = graph(3, &G4).file();
    verdict(judge, &with_stranger, &barrier_file(&[1, 2, 3, 3, 0, 0]), Verdict::Yes)?;
    verdict(judge, &with_stranger, &barrier_file(&[1, 2, 3, 3, 3, 3]), Verdict::Yes)?;
    verdict(judge, &with_stranger, &barrier_file(&[1, 2, 3, 3, 4, 4]), Verdict::No)?;
    // headers of the wrong length
    verdict(judge, &g4, &file("2100", &[], 0x2F), Verdict::Refused(44))?;
    verdict(judge, &g4, &file("3100", &pair_lines(0x32, &[(0, 1)]), 0x3F), Verdict::Refused(44))?;
    verdict(judge, &g4, b"", Verdict::Refused(44))?;
    verdict(judge, b"", b"", Verdict::Refused(4))
}

// ---- examples/

const FOLDER: &str = concat!(env!("CARGO_MANIFEST_DIR"), "/../examples");

/// A file's name without .hex, and what it may be.
type Example = (String, Vec<Vec<u8>>);

const CERTIFICATES: [(&str, [usize; 3], Verdict); 2] = [("G4", [0, 2, 1], Verdict::No), ("G5", [0, 2, 5], Verdict::Yes)];

fn examples() -> Vec<Example> {
    let mut all: Vec<Example> = Vec::new();
    for KnownGraph { name, graph, answers } in graphs() {
        all.extend([(format!("{name}.graph"), vec![graph.file()]), (format!("{name}.answer"), answers)]);
    }
    for known in stocks().into_iter().chain(isolated_examples()) {
        let stock = (format!("{}.stock", known.name), vec![known.stock.file()]);
        all.extend([stock, (format!("{}.answer", known.name), known.answers())]);
    }
    all.push(("S7_crlf.stock".to_string(), vec![cr_lf(&stock(6, &S7, &[]).file())]));
    all.extend(S5_BUDGETS.map(|(most, answer)| (format!("S5.budget{most}"), vec![answer.to_vec()])));
    for (name, arcs, right) in CERTIFICATES {
        let certificate = (format!("{name}.certificate"), vec![path_file(&arcs)]);
        all.extend([certificate, (format!("{name}.verdict"), vec![verdict_line(right)])]);
    }
    all
}

fn example(name: &str) -> Result<Vec<u8>, String> {
    fs::read(format!("{FOLDER}/{name}.hex")).map_err(|error| format!("examples/{name}.hex: {error}"))
}

/// The names in the folder, rising.
fn names_in_folder() -> Result<Vec<String>, String> {
    let read = || -> std::io::Result<Vec<String>> {
        fs::read_dir(FOLDER)?.map(|file| Ok(file?.file_name().to_string_lossy().into_owned())).collect()
    };
    let mut names = read().map_err(|error| format!("examples: {error}"))?;
    names.sort_unstable();
    Ok(names)
}

/// What the folder has to hold, rising: these and a README.
fn names_of(examples: &[Example]) -> Vec<String> {
    let files = examples.iter().map(|(name, _)| format!("{name}.hex"));
    let mut names: Vec<String> = files.chain(["README.md".to_string()]).collect();
    names.sort_unstable();
    names
}

pub fn examples_folder(judge: &mut Judge) -> Trial {
    let all = examples();
    let (found, right) = (names_in_folder()?, names_of(&all));
    if found != right {
        return Err(format!("examples/ holds {found:?}\nwhere these are known: {right:?}"));
    }
    all.iter().try_for_each(|(name, right)| one_of(&format!("examples/{name}.hex"), &example(name)?, right))?;
    for (most, answer) in S5_BUDGETS {
        one_of("S5", &judge.budget(&example("S5.stock")?, most)?, &[answer.to_vec()])?;
    }
    for (name, _, right) in CERTIFICATES {
        verdict(judge, &example(&format!("{name}.graph"))?, &example(&format!("{name}.certificate"))?, right)?;
    }
    Ok(())
}
