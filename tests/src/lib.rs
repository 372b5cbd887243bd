//! The engine tried from outside. The trial is written from documents 01 and 02 alone and shares nothing with the engine.
//!   random           a seeded source of numbers
//!   frames           files of frames: written and read
//!   line_ends        files with other line ends, right or damaged
//!   graph_trial      graphs, regular paths, barriers and certificates, by trial of everything
//!   stock_trial      stocks, pairings, marks and plans, by trial of everything
//!   blossom          maximum matchings of any size
//!   arc_matching     regular paths of any size, by matchings
//!   truth            what the documents say of a file
//!   kept_trial       what the documents say of pairings kept under names, by going back through the calls
//!   engine           the calls, the look-up, states of kept pairings, and the proved engine where it is linked
//!   reference        an engine made of the trial's parts
//!   kept_reference   its kept pairings
//!   wrong, slips     engines with one part wrong
//!   wrong_line_ends  engines that take line ends wrongly
//!   wrong_isolated   engines that mark cameras without a fit wrongly
//!   wrong_budgets    engines that stop wrongly after so many searches
//!   wrong_look_ups   engines that look up a pair wrongly, or ask wrongly whether lit pairs are fits
//!   wrong_printouts  engines that put a plan and its sheet together wrongly
//!   wrong_halves     engines that give another plan or another sheet in it
//!   wrong_self_arcs  engines that ask wrongly for arcs from a node to itself
//!   wrong_callers    engines that take callers wrongly, or count for another
//!   wrong_kept       engines that keep pairings wrongly: in names, places, forgetting and states
//!   wrong_kept_plans    the same in what is kept, and in the questions put to it
//!   wrong_kept_answers  the same in the stock, and in what comes back
//!   judge            a call judged whole: result, buffer, tally
//!   kept_judge       a call for kept pairings judged whole
//!   seen             what was tried, counted
//!   seen_kept        the same of kept pairings
//!   generate         random graphs and stocks
//!   fit_lists        lists of fits, and pairs to look up in them
//!   faults           files that fail chosen questions
//!   known            document 01's known graphs and stocks, stocks with isolated cameras, and budgets
//!   cases            document 01's examples, edges and traps
//!   exhaustive       every graph, stock and certificate of a small size
//!   trials           random graphs, stocks, certificates and faults
//!   damage           files damaged, cut off, or of random bytes
//!   shapes           graphs and stocks made to measure
//!   sizes            answers of every size
//!   large            the largest files
//!   line_end_trials  line ends: every choice, wrong ones, damaged ones, and lengths
//!   isolated_trials  cameras without a fit: known stocks, sheets compared, every set of them
//!   look_up_trials   a pair looked up among fits: whether it is found, and how many are looked at
//!   lit_pair_trials  lit pairs that are fits, and such as are none
//!   printout_trials  what a stock gets: a plan, directly followed by its sheet
//!   budget_trials    the call that stops after so many searches
//!   self_arc_trials  graphs with an arc from a node to itself
//!   caller_trials    callers, and the counts of each
//!   kept_trials      pairings kept under names, and what comes back
//!   kept_plan_trials plan files that are handed in to be kept
//!   prints           what the programs print
//!   programs         the programs, run and judged
//!   stand_in         this binary in a program's place
//!   wrong_programs   programs that go about it wrongly
//!   program_trials   what is tried with the programs
//!   self_checks      the trial against itself
//!   groups           all that is tried, by name
//!   options          the words of a run
//!   summary          a run, told line by line

pub mod arc_matching;
pub mod blossom;
pub mod budget_trials;
pub mod caller_trials;
pub mod cases;
pub mod damage;
pub mod engine;
pub mod exhaustive;
pub mod faults;
pub mod fit_lists;
pub mod frames;
pub mod generate;
pub mod graph_trial;
pub mod groups;
pub mod isolated_trials;
pub mod judge;
pub mod kept_judge;
pub mod kept_plan_trials;
pub mod kept_reference;
pub mod kept_trial;
pub mod kept_trials;
pub mod known;
pub mod large;
pub mod line_end_trials;
pub mod line_ends;
pub mod lit_pair_trials;
pub mod look_up_trials;
pub mod options;
pub mod printout_trials;
pub mod prints;
pub mod program_trials;
pub mod programs;
pub mod random;
pub mod reference;
pub mod seen;
pub mod seen_kept;
pub mod self_arc_trials;
pub mod self_checks;
pub mod shapes;
pub mod sizes;
pub mod slips;
pub mod stand_in;
pub mod stock_trial;
pub mod summary;
pub mod trials;
pub mod truth;
pub mod wrong;
pub mod wrong_budgets;
pub mod wrong_callers;
pub mod wrong_halves;
pub mod wrong_isolated;
pub mod wrong_kept;
pub mod wrong_kept_answers;
pub mod wrong_kept_plans;
pub mod wrong_line_ends;
pub mod wrong_look_ups;
pub mod wrong_printouts;
pub mod wrong_programs;
pub mod wrong_self_arcs;
