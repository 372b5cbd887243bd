//! All that is tried, by name.
//!   Group       a name, what is tried, and whether its files are drawn by the seed; of an engine, or of programs
//!   of_trial    the trial against itself; no engine is called
//!   of_engine   what an engine must pass; those that cost least come first
//!   of_kept     what it must pass besides, of kept pairings; an engine that is wrong in those alone must fail one of these
//!   of_programs what the programs must pass
//!   run         one group, with a seed of its own; a panic is a failure, and so is a group that tries nothing
//!   run_programs    the same for the programs

use crate::engine::Engine;
use crate::judge::{Judge, Trial};
use crate::programs::Programs;
use crate::random::Random;
use crate::seen::Seen;
use crate::{
    budget_trials, caller_trials, cases, damage, exhaustive, isolated_trials, kept_plan_trials, kept_trials, large,
    line_end_trials, lit_pair_trials, look_up_trials, printout_trials, program_trials, self_arc_trials, self_checks, sizes,
    trials,
};
use std::panic::{catch_unwind, AssertUnwindSafe};

pub struct Group<T> {
    pub name: &'static str,
    /// whether its files are drawn by the seed; otherwise they are the same with every seed
    pub drawn: bool,
    pub tried: T,
}

pub type EngineGroup = Group<Tried>;
pub type ProgramGroup = Group<fn(&Programs, &mut Random) -> Trial>;

pub enum Tried {
    Whole(fn(&mut Judge) -> Trial),
    /// that many of a thousand files
    Share(usize, fn(&mut Judge, usize) -> Trial),
}

impl<T> Group<T> {
    /// The seeds to try it with: all of them where its files are drawn, otherwise the first.
    pub fn seeds<'a>(&self, seeds: &'a [u64]) -> &'a [u64] {
        if self.drawn {
            seeds
        } else {
            &seeds[..1]
        }
    }
}

const fn fixed(name: &'static str, tried: fn(&mut Judge) -> Trial) -> EngineGroup {
    Group { name, drawn: false, tried: Tried::Whole(tried) }
}

const fn drawn(name: &'static str, tried: fn(&mut Judge) -> Trial) -> EngineGroup {
    Group { name, drawn: true, tried: Tried::Whole(tried) }
}

const fn share(name: &'static str, of_a_thousand: usize, tried: fn(&mut Judge, usize) -> Trial) -> EngineGroup {
    Group { name, drawn: true, tried: Tried::Share(of_a_thousand, tried) }
}

pub fn of_trial() -> Vec<EngineGroup> {
    vec![
        fixed("lines cut agree with bytes read one by one", self_checks::lines_agree),
        share("look-ups by places agree with the number of smaller fits", 100, self_checks::look_ups_agree),
        share("all pairings agree with the blossom algorithm", 200, self_checks::pairings_agree),
        share("marks by alternating paths agree with all pairings", 100, self_checks::marks_by_paths_agree),
        share("printouts taken agree with all pairings", 40, self_checks::printouts_agree),
        share("budgets by formulas agree with searches one by one", 40, self_checks::budgets_agree),
        share("kept pairings by going back agree with a list of names", 20, self_checks::kept_agree),
        share("marks are document 01's but for isolated cameras", 100, self_checks::marks_agree),
        share("the bound of Tutte and Berge is met", 10, self_checks::bounds_are_met),
        share("all regular paths agree with matchings of arcs", 100, self_checks::paths_agree),
        share("a path to each node reached in larger graphs", 10, self_checks::paths_are_found),
        share("a path, or else the canonical barrier", 200, self_checks::barriers_exclude_paths),
    ]
}

pub fn of_engine() -> Vec<EngineGroup> {
    vec![
        fixed("G1 to G5", cases::graph_examples),
        fixed("S1 to S7", cases::stock_examples),
        fixed("the folder examples/", cases::examples_folder),
        fixed("tallies", cases::tallies),
        fixed("traps", cases::traps),
        fixed("printouts: known marks", printout_trials::known_marks),
        drawn("printouts: known stocks", printout_trials::known),
        drawn("self arcs: known graphs", self_arc_trials::known),
        fixed("look-ups: known ones", look_up_trials::known),
        fixed("lit pairs: known stocks", lit_pair_trials::known),
        fixed("budgets: known stocks", budget_trials::known),
        fixed("budgets: above 64", budget_trials::over),
        fixed("budgets: rooms", budget_trials::rooms),
        drawn("budgets: calls in a row", budget_trials::calls_in_a_row),
        drawn("printouts: one after another", printout_trials::one_after_another),
        fixed("printouts: over what a buffer holds", printout_trials::over_content),
        fixed("callers: known calls", caller_trials::known),
        fixed("callers: above 3", caller_trials::above_3),
        fixed("callers: each count", caller_trials::each_count),
        drawn("callers: before faults", caller_trials::before_faults),
        share("callers: calls on one tally", 5, caller_trials::on_one_tally),
        share("callers: others between", 5, caller_trials::others_between),
        share("callers: the same answers", 20, caller_trials::same_answers),
        drawn("self arcs: beside certificates", self_arc_trials::beside_certificates),
        drawn("isolated cameras: known stocks", isolated_trials::known),
        fixed("isolated cameras: equal sheets", isolated_trials::equal_sheets),
        share("isolated cameras: other lit pairs", 10, isolated_trials::other_lit_pairs),
        share("isolated cameras: one in each place", 10, isolated_trials::one_in_each_place),
        share("isolated cameras: the last fit taken away", 20, isolated_trials::last_fit_taken),
        fixed("every end of two lines", line_end_trials::ends_of_two_lines),
        drawn("first lines of certificates", line_end_trials::certificate_headers),
        drawn("known files with every choice of line ends", line_end_trials::known_files),
        drawn("the largest certificates with CR LF", line_end_trials::largest_certificates),
        fixed("truncated files", damage::truncated_files),
        fixed("look-ups: 65,536 fits", look_up_trials::around_two_bytes),
        fixed("lit pairs: many of them, or of many fits", lit_pair_trials::many_pairs),
        fixed("printouts: edges", printout_trials::edges),
        fixed("printouts: rooms", printout_trials::rooms),
        share("printouts: other lit pairs", 20, printout_trials::other_lit_pairs),
        share("printouts: the last search", 20, printout_trials::last_search),
        share("budgets: answers compared", 4, budget_trials::answers_compared),
        share("budgets: two calls add up to one", 40, budget_trials::budgets_add_up),
        share("budgets: one search at a time", 20, budget_trials::one_at_a_time),
        share("budgets: all of them for one stock", 8, budget_trials::every_budget),
        drawn("self arcs: among 8,192 arcs", self_arc_trials::among_most_arcs),
        drawn("self arcs: every two arcs", self_arc_trials::every_two_arcs),
        share("self arcs: put in and taken out", 5, self_arc_trials::put_in_and_taken_out),
        share("single faults", 30, trials::single_faults),
        share("pairs of faults", 50, trials::pairs_of_faults),
        drawn("printouts: every refusal", printout_trials::refusals),
        drawn("budgets: every refusal", budget_trials::refusals),
        drawn("callers: every refusal of a graph", caller_trials::graph_refusals),
        drawn("callers: every fault", caller_trials::every_fault),
        drawn("faults in both files of a check", trials::faults_in_both_files),
        drawn("self arcs: with other faults", self_arc_trials::with_other_faults),
        share("self arcs: in each arc", 2, self_arc_trials::in_each_arc),
        fixed("edges", cases::edges),
        fixed("points left to the reader", cases::points_left_to_the_reader),
        drawn("60,000 bytes with CR LF", line_end_trials::lengths),
        drawn("isolated cameras beside 3,900 fits", isolated_trials::three_apart),
        drawn("lit pairs: beside 3,900 fits", lit_pair_trials::beside_3900_fits),
        share("lit pairs: all of them fits", 5, lit_pair_trials::fits_lit),
        share("lit pairs: no fit in each place", 5, lit_pair_trials::no_fit_in_each_place),
        share("look-ups: answers compared", 10, look_up_trials::answers_compared),
        share("look-ups: short lists", 100, look_up_trials::short_lists),
        share("look-ups: lists that do not rise", 100, look_up_trials::other_lists),
        share("look-ups: long lists", 10, look_up_trials::long_lists),
        drawn("look-ups: every place of 3,900 fits", look_up_trials::most_fits),
        fixed("look-ups: every list of rising fits over five cameras", look_up_trials::every_rising_list),
        fixed("look-ups: every short list", look_up_trials::every_short_list),
        fixed("lit pairs: every set among up to four cameras", lit_pair_trials::every_set),
        share("certificates", 100, trials::certificates),
        fixed("certificates damaged at every byte", damage::damaged_certificates),
        fixed("files damaged at every byte", damage::damaged_files),
        share("answers damaged at one byte", 60, damage::damaged_random_answers),
        drawn("line ends damaged at every byte", line_end_trials::damaged),
        fixed("every short text", exhaustive::all_texts),
        share("every table of classes", 400, exhaustive::all_classes),
        share("every run of arcs", 60, exhaustive::all_runs),
        share("random bytes", 60, damage::random_bytes),
        share("random frames", 60, damage::random_frames),
        share("small graphs", 280, trials::small_graphs),
        share("small stocks", 220, trials::small_stocks),
        share("isolated cameras: random stocks", 80, isolated_trials::random_stocks),
        share("doubled tables", 60, trials::doubled_tables),
        share("middling graphs", 40, trials::middling_graphs),
        share("middling stocks", 20, trials::middling_stocks),
        fixed("every graph of one or two mate pairs", exhaustive::all_graphs),
        fixed("every stock of up to five cameras", exhaustive::all_stocks),
        fixed("printouts: every pairing lit of up to five cameras", printout_trials::every_pairing_lit),
        fixed("budgets: every stock of up to five cameras", budget_trials::every_small_stock),
        drawn("isolated cameras: every set of them", isolated_trials::every_set),
        drawn("paths and barriers of every size", sizes::graphs),
        drawn("rows of every size", sizes::stocks),
        fixed("printouts: every number of pairs with every number of cameras", printout_trials::every_size),
        drawn("budgets: answers of every size", budget_trials::every_size),
        drawn("127 parts", large::many_parts),
        drawn("buds inside buds", large::nested_buds),
        drawn("128 mate pairs and 8,192 arcs", large::dense_graphs),
        share("128 mate pairs and few arcs", 1, large::sparse_graphs),
        drawn("doubled tables of 127 cameras", large::largest_tables),
        drawn("127 cameras and 3,900 fits", large::dense_stocks),
        drawn("printouts: all 64 searches", printout_trials::all_searches),
        drawn("printouts: other lit pairs of 127 cameras", printout_trials::largest_stocks),
        fixed("budgets: known large stocks", budget_trials::known_large),
        drawn("budgets: the largest stocks", budget_trials::largest_stocks),
        drawn("isolated cameras among 127", isolated_trials::largest_stocks),
        drawn("42 triangles in a row", large::triangles),
        drawn("odd rings", large::odd_rings),
        share("ears of 90 to 127 cameras", 1, large::ears),
    ]
}

pub fn of_kept() -> Vec<EngineGroup> {
    vec![
        fixed("kept: known calls", kept_trials::known),
        fixed("kept: rooms", kept_trials::rooms),
        fixed("kept: before the first stock", kept_trials::before_the_first),
        share("kept: random calls", 10, kept_trials::random_calls),
        share("kept: side by side", 5, kept_trials::side_by_side),
        share("kept: other calls between", 5, kept_trials::other_calls_between),
        share("kept: plans of stocks", 10, kept_plan_trials::plans_of_stocks),
        drawn("kept: cut off", kept_plan_trials::cut_off),
        drawn("kept: other pairs", kept_plan_trials::other_pairs),
        drawn("kept: places", kept_trials::places),
        share("kept: answers compared", 10, kept_trials::answers_compared),
        drawn("kept: every refusal of a stock", kept_plan_trials::bring_refusals),
        drawn("kept: every refusal of a keep", kept_plan_trials::keep_refusals),
        drawn("kept: damaged at every byte", kept_plan_trials::damaged),
        fixed("kept: every name", kept_trials::every_name),
        fixed("kept: 60,000 bytes", kept_plan_trials::lengths),
        drawn("kept: numbers of pairs told", kept_plan_trials::told_counts),
        drawn("kept: new stocks", kept_trials::stocks),
        drawn("kept: every number of pairs", kept_plan_trials::every_size),
        fixed("kept: every two names", kept_trials::every_two_names),
    ]
}

const fn programs(name: &'static str, drawn: bool, tried: fn(&Programs, &mut Random) -> Trial) -> ProgramGroup {
    Group { name, drawn, tried }
}

/// Document 01's examples first, then those that cost least.
pub fn of_programs() -> Vec<ProgramGroup> {
    vec![
        programs("programs: document 01's examples", false, program_trials::examples),
        programs("programs: files that can't be opened", false, program_trials::unopened_files),
        programs("programs: self arcs", true, program_trials::self_arcs),
        programs("programs: input in pieces", false, program_trials::pieces),
        programs("programs: long and empty input", false, program_trials::lengths),
        programs("programs: printouts", false, program_trials::printouts),
        programs("programs: words that are no budget", true, program_trials::other_words),
        programs("programs: budgets", false, program_trials::budgets),
        programs("programs: line ends", true, program_trials::line_ends),
        programs("programs: every refusal", true, program_trials::refusals),
        programs("programs: 60,000 bytes with CR LF", false, program_trials::full_files),
        programs("programs: isolated cameras", true, program_trials::isolated_cameras),
        programs("programs: the largest files", true, program_trials::largest_files),
        programs("programs: bytes that are no digits", true, program_trials::other_bytes),
        programs("programs: middling graphs and stocks", true, program_trials::middling_files),
        programs("programs: printouts and budgets of every size", false, program_trials::stock_sizes),
        programs("programs: paths and barriers of every size", false, program_trials::graph_sizes),
    ]
}

fn own_seed(name: &str, seed: u64) -> u64 {
    name.bytes().fold(seed, |sum, byte| sum.wrapping_mul(31).wrapping_add(byte as u64))
}

/// What a failure by a panic is told as.
pub const PANIC: &str = "a panic";

fn without_panic(tried: impl FnOnce() -> Trial) -> Trial {
    catch_unwind(AssertUnwindSafe(tried)).unwrap_or_else(|_| Err(PANIC.to_string()))
}

/// What was seen, and how it went.
pub fn run(group: &EngineGroup, engine: &dyn Engine, seed: u64, files: usize) -> (Seen, Trial) {
    let mut judge = Judge::new(engine, own_seed(group.name, seed));
    let mut outcome = without_panic(|| match group.tried {
        Tried::Whole(tried) => tried(&mut judge),
        Tried::Share(of_a_thousand, tried) => tried(&mut judge, (files * of_a_thousand).div_ceil(1_000)),
    });
    if judge.seen.calls + judge.seen.compared + judge.seen.look_ups == 0 {
        outcome = outcome.and(Err("nothing was tried".to_string()));
    }
    (judge.seen, outcome)
}

pub fn run_programs(group: &ProgramGroup, programs: &Programs, seed: u64) -> Trial {
    without_panic(|| (group.tried)(programs, &mut Random::new(own_seed(group.name, seed))))
}
