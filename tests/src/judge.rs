//! Calls to an engine, each judged whole: refusal number, size, every byte of the buffer and around it, and the tally. Each comes from
//! some caller, and at times the same call comes from a wrong one before it.
//!   Judge                 an engine, a source of numbers, and counts of what was tried
//!   graph, stock          a file handed to the calls for its kind, and judged by what the documents say of it
//!   graph_answer          the same, and the answer, empty for a refusal
//!   graph_all_ways, stock_all_ways    the same with all line ends; what the file gets remains, unless it becomes too long
//!   made_graph, made_stock    the same of a graph or stock that was made to be accepted
//!   budget                a file and a number of searches handed to the call with a budget, and judged; the answer
//!   budget_owing, budget_all_ways    the same where the truth is at hand; with all line ends
//!   stock_owing           the same of the call for a stock alone
//!   failing               one call that fails some questions, from a caller and from a wrong one: the engine's numbers are counted, with
//!                         the others of them
//!   lend, lend_over       one call with a buffer of a size, or over what a buffer holds; the answer
//!   lend_to               the same of a caller
//!   Sent, one_after_another    calls in a row, each of which is judged whole, in one buffer and on one tally, and checks between them
//!   given                 an answer as the engine gives it, whatever the documents say of it
//!   got, left_by          what a caller gets, and the tally that calls in a row leave, not judged
//!   self_arcs             a graph file with self arcs handed to the graph call and to the check; the engine's numbers are counted
//!   short_buffers, wrong_callers    any file with a buffer that is too small, or from wrong callers
//!   all_calls             any bytes handed to every call
//!   check, certificate    two files handed to the check; the second counted as a file tried
//!   certificate_all_ways  the same with all line ends in both
//!   Counted, in_a_row     calls of callers on one tally, each with the count that it owes
//!   by_all_callers        such calls, each by every caller
//!   look_up, look_up_in   a pair looked up among fits, or among those that two slices give, and judged
//!   looked_up             what a look-up answers, not judged
//!   OVER, wrong_caller    numbers of searches that are not granted; some number that is no caller's
//!   Lent, some_lent       a buffer and a tally that are lent to a call
//!   raised, counts_of     a tally with one count of one caller raised; its counts for messages
//!   Trial                 done, or what went wrong and on which file

use crate::engine::{Call, Engine, Fit, Looked, Searched, Tally, Told, Verdict, CALLERS, OF_EACH};
use crate::fit_lists::{joined, parted};
use crate::frames::{number, Text, GREATEST_FILE};
use crate::graph_trial::{self, Graph, SELF_ARC};
use crate::line_ends::all_ways;
use crate::random::Random;
use crate::seen::{Came, Reading, Seen};
use crate::stock_trial::{self, Stock};
use crate::truth::{
    budget_owed, graph_owed, graph_truth, is_caller, look_up_owed, opening, owed, refused, stock_owed, stock_truth, truth_for,
    Count, GraphTruth, Owed, StockTruth, MOST_SEARCHES, OVER_BUDGET, WIDE_CALLERS, WRONG_CALLER,
};

pub type Trial = Result<(), String>;

/// Numbers of searches that question 15 refuses: next to the largest, around one, two and four bytes, and such as end in a small byte.
pub const OVER: [u32; 10] = [65, 127, 128, 255, 256, 320, 65_536, 65_600, 1 << 31, u32::MAX];

/// Of one byte, such as stand out, or any.
pub fn wrong_caller(random: &mut Random) -> u32 {
    match random.below(4) {
        0 => random.between(CALLERS, u32::MAX as usize) as u32,
        1 => *random.choose(&WIDE_CALLERS),
        _ => random.between(CALLERS, 255) as u32,
    }
}

/// What is sent to an engine: a call of some caller, with a room that is lent to it, or two files for the check.
#[derive(Clone)]
pub enum Sent {
    Call { call: Call, caller: u32, file: Vec<u8>, room: usize },
    Check { graph: Vec<u8>, certificate: Vec<u8> },
}

/// A call, who makes it, its file, and the count that it raises.
pub type Counted<'a> = (Call, u32, &'a [u8], Count);

/// Each of these by every caller.
pub fn by_all_callers<'a>(calls: &[(Call, &'a [u8], Count)]) -> Vec<Counted<'a>> {
    let by_all = |(call, file, count): &(Call, &'a [u8], Count)| [0, 1, 2, 3].map(|caller| (*call, caller, *file, *count));
    calls.iter().flat_map(by_all).collect()
}

pub struct Judge<'a> {
    pub engine: &'a dyn Engine,
    pub random: Random,
    pub seen: Seen,
}

pub const LEAST_ROOM: usize = 2_048;

/// A buffer with bytes before and after it, and a tally.
pub struct Lent {
    pub bytes: Vec<u8>,
    pub start: usize,
    pub room: usize,
    tally: Tally,
}

/// Bytes before and after the lent buffer, which no call may touch; some more before it, so that it may stand at any address.
const MARGIN: usize = 64;

impl<'a> Judge<'a> {
    pub fn new(engine: &'a dyn Engine, seed: u64) -> Judge<'a> {
        Judge { engine, random: Random::new(seed), seen: Seen::default() }
    }

    pub fn graph(&mut self, file: &[u8]) -> Trial {
        self.graph_answer(file).map(drop)
    }

    pub fn graph_answer(&mut self, file: &[u8]) -> Result<Vec<u8>, String> {
        self.seen.files += 1;
        self.as_graph(file)
    }

    pub fn stock(&mut self, file: &[u8]) -> Trial {
        self.seen.files += 1;
        self.as_stock(file)
    }

    pub fn graph_all_ways(&mut self, file: &[u8]) -> Trial {
        let (read, truth) = (graph_trial::read(file), graph_truth(file));
        for other in all_ways(&mut self.random, file) {
            let long = is_too_long(&other);
            read_alike(&read, graph_trial::read(&other), &other)?;
            self.seen.files += 1;
            self.graph_owing(&other, if long { &GraphTruth::Refused(2) } else { &truth })?;
        }
        Ok(())
    }

    pub fn stock_all_ways(&mut self, file: &[u8]) -> Trial {
        let (read, truth) = (stock_trial::read(file), stock_truth(file));
        for other in all_ways(&mut self.random, file) {
            let long = is_too_long(&other);
            read_alike(&read, stock_trial::read(&other), &other)?;
            self.seen.files += 1;
            self.both_owing(&other, if long { &StockTruth::Refused(2) } else { &truth })?;
        }
        Ok(())
    }

    /// A graph that was made to be accepted: what is read from its file is the graph itself.
    pub fn made_graph(&mut self, graph: &Graph) -> Trial {
        read_back(graph_trial::read(&graph.file()), graph, &graph.file())?;
        self.graph_all_ways(&graph.file())
    }

    /// A stock likewise.
    pub fn made_stock(&mut self, stock: &Stock) -> Trial {
        read_back(stock_trial::read(&stock.file()), stock, &stock.file())?;
        self.stock_all_ways(&stock.file())
    }

    pub fn budget(&mut self, file: &[u8], most: u32) -> Result<Vec<u8>, String> {
        self.seen.files += 1;
        self.budget_owing(file, most, &stock_truth(file))
    }

    pub fn budget_owing(&mut self, file: &[u8], most: u32, truth: &StockTruth) -> Result<Vec<u8>, String> {
        let room = self.rooms().0;
        let answer = self.lend(Call::Budget(most), file, room, &budget_owed(truth, most))?;
        match truth {
            StockTruth::Accepted(stock, standing) if most <= MOST_SEARCHES => {
                self.seen.budget(stock, standing.greatest, most, &answer)
            }
            _ => (),
        }
        Ok(answer)
    }

    /// What the file gets remains, unless it becomes too long; question 15 is put before that.
    pub fn budget_all_ways(&mut self, file: &[u8], most: u32, truth: &StockTruth) -> Trial {
        for other in all_ways(&mut self.random, file) {
            self.seen.files += 1;
            self.budget_owing(&other, most, if is_too_long(&other) { &StockTruth::Refused(2) } else { truth })?;
        }
        Ok(())
    }

    /// With a room that is too small, or else one that is large enough.
    pub fn failing(&mut self, call: Call, file: &[u8], short: Option<usize>, owed: &Owed, faults: &[u8]) -> Trial {
        let room = short.unwrap_or_else(|| self.rooms().0);
        for caller in [self.some_caller(), wrong_caller(&mut self.random)] {
            let (told, _) = self.lend_to(caller, call, file, room, owed)?;
            self.seen.refusal(call.kind(), told, &failed_by(call, caller, room, faults));
        }
        Ok(())
    }

    pub fn given(&mut self, call: Call, file: &[u8]) -> Result<Vec<u8>, String> {
        let owed = Owed { number: 0, count: Count::Stocks, is_right: Box::new(|_| true) };
        self.seen.files += 1;
        self.lend(call, file, LEAST_ROOM, &owed)
    }

    /// Whatever else the file fails; with a room that is too small, or else one that is large enough, and beside a certificate.
    pub fn self_arcs(&mut self, file: &[u8], short: Option<usize>, certificate: &[u8]) -> Trial {
        let failing = graph_trial::failed(file);
        let truth = GraphTruth::Refused(failing[0]);
        if let (SELF_ARC, Ok(graph)) = (failing[0], graph_trial::read_in_order(file, &[])) {
            self.seen.self_arcs(&graph);
        }
        let room = short.unwrap_or_else(|| self.rooms().0);
        for caller in [self.some_caller(), wrong_caller(&mut self.random)] {
            let (told, _) = self.lend_to(caller, Call::Graph, file, room, &graph_owed(&truth))?;
            self.seen.self_arc_refusal(Reading::Graph, file, told, &failed_by(Call::Graph, caller, room, &failing));
        }
        self.seen.files += 1;
        if let Verdict::Refused(number) = self.checked(file, certificate)? {
            self.seen.self_arc_refusal(Reading::Check, file, number, &failing);
        }
        Ok(())
    }

    pub fn certificate(&mut self, graph: &[u8], certificate: &[u8]) -> Trial {
        self.seen.files += 1;
        self.check(graph, certificate)
    }

    /// The verdict remains, unless a file that is read becomes too long.
    pub fn certificate_all_ways(&mut self, graph: &[u8], certificate: &[u8]) -> Trial {
        let verdict = graph_trial::check(graph, certificate);
        let graph_refused = matches!(verdict, Verdict::Refused(number) if number < 40);
        let certificates = all_ways(&mut self.random, certificate);
        for graph in all_ways(&mut self.random, graph) {
            for certificate in &certificates {
                let owed = match (is_too_long(&graph), is_too_long(certificate)) {
                    (true, _) => Verdict::Refused(2),
                    (false, true) if !graph_refused => Verdict::Refused(42),
                    _ => verdict,
                };
                self.seen.files += 1;
                if self.checked(&graph, certificate)? != owed {
                    return Err(format!("{UNLIKE}\n{}and\n{}", shown(&graph), shown(certificate)));
                }
            }
        }
        Ok(())
    }

    /// As a graph, as a stock, and as a certificate of a given graph.
    pub fn all_calls(&mut self, graph: &[u8], file: &[u8]) -> Trial {
        self.seen.files += 1;
        self.as_graph(file)?;
        self.as_stock(file)?;
        self.check(graph, file)
    }

    fn as_graph(&mut self, file: &[u8]) -> Result<Vec<u8>, String> {
        self.graph_owing(file, &graph_truth(file))
    }

    fn graph_owing(&mut self, file: &[u8], truth: &GraphTruth) -> Result<Vec<u8>, String> {
        let owed = graph_owed(truth);
        let (room, short) = self.rooms();
        let answer = self.lend(Call::Graph, file, room, &owed)?;
        if let Some(room) = short {
            self.lend(Call::Graph, file, room, &owed)?;
        }
        if owed.number == 0 {
            self.check(file, &answer)?;
        }
        Ok(answer)
    }

    fn as_stock(&mut self, file: &[u8]) -> Trial {
        self.both_owing(file, &stock_truth(file))
    }

    /// By the call for a stock, and by the one with a budget.
    fn both_owing(&mut self, file: &[u8], truth: &StockTruth) -> Trial {
        if let StockTruth::Accepted(stock, _) = truth {
            self.seen.stock(stock);
        }
        self.stock_owing(file, truth)?;
        let most = self.some_most();
        self.budget_owing(file, most, truth)?;
        if let Some(room) = self.rooms().1 {
            self.lend(Call::Stock, file, room, &stock_owed(truth))?;
            self.lend(Call::Budget(most), file, room, &budget_owed(truth, most))?;
        }
        Ok(())
    }

    pub fn stock_owing(&mut self, file: &[u8], truth: &StockTruth) -> Result<Vec<u8>, String> {
        let room = self.rooms().0;
        let answer = self.lend(Call::Stock, file, room, &stock_owed(truth))?;
        if let StockTruth::Accepted(stock, standing) = truth {
            self.seen.printout(stock, standing, &answer);
        }
        Ok(answer)
    }

    /// Whatever the file, a buffer of 2,047 gives 1.
    pub fn short_buffers(&mut self, file: &[u8]) -> Trial {
        self.each_call().into_iter().try_for_each(|call| self.lend(call, file, LEAST_ROOM - 1, &refused(1)).map(drop))
    }

    /// Whatever the file and the buffer, a wrong caller gives 17.
    pub fn wrong_callers(&mut self, file: &[u8]) -> Trial {
        self.each_call().into_iter().try_for_each(|call| {
            let room = *self.random.choose(&[0, LEAST_ROOM - 1, LEAST_ROOM]);
            let caller = wrong_caller(&mut self.random);
            self.lend_to(caller, call, file, room, &refused(WRONG_CALLER)).map(drop)
        })
    }

    /// One of each kind, with some budget.
    fn each_call(&mut self) -> [Call; 3] {
        [Call::Graph, Call::Stock, Call::Budget(self.some_most())]
    }

    pub fn check(&mut self, graph: &[u8], certificate: &[u8]) -> Trial {
        self.checked(graph, certificate).map(drop)
    }

    /// The verdict, by the trial and by the engine.
    fn checked(&mut self, graph: &[u8], certificate: &[u8]) -> Result<Verdict, String> {
        let owed = graph_trial::check(graph, certificate);
        let said = self.engine.check(graph, certificate);
        let came = match owed {
            Verdict::Yes => Came::Yes,
            Verdict::No => Came::No,
            Verdict::Refused(number) => Came::Refusal(number),
        };
        self.seen.call(&[graph, certificate], came);
        if said == owed {
            return Ok(owed);
        }
        let files = format!("graph:\n{}certificate:\n{}", shown(graph), shown(certificate));
        Err(format!("check says {said:?}, owed is {owed:?}\n{files}"))
    }

    pub fn in_a_row(&mut self, start: Tally, calls: &[Counted]) -> Trial {
        let mut tally = start;
        let mut owed = start;
        for (call, caller, file, count) in calls {
            call.by(self.engine, file, *caller, &mut [0; LEAST_ROOM], &mut tally);
            self.seen.calls += 1;
            owed = raised(owed, *caller, Some(*count));
            if tally != owed {
                let counts = format!("{} where {} is owed", counts_of(&tally), counts_of(&owed));
                return Err(format!("tally {counts}, after {call:?} by caller {caller} of\n{}", shown(file)));
            }
        }
        Ok(())
    }

    pub fn look_up(&mut self, fits: &[Fit], sought: Fit) -> Trial {
        let (firsts, seconds) = parted(fits);
        self.look_up_in(&firsts, &seconds, sought)
    }

    pub fn look_up_in(&mut self, firsts: &[u8], seconds: &[u8], sought: Fit) -> Trial {
        let owed = look_up_owed(&joined(firsts, seconds), sought);
        let said = self.looked_up(firsts, seconds, sought);
        if said == owed {
            return Ok(());
        }
        Err(format!("{sought:?} looked up: {said:?} where {owed:?} is owed\n{}", shown_fits(firsts, seconds)))
    }

    /// The cameras sought stand right before and right behind the slices, where nothing is to be read.
    pub fn looked_up(&mut self, firsts: &[u8], seconds: &[u8], sought: Fit) -> Looked {
        self.seen.look_up(&joined(firsts, seconds), firsts.len() == seconds.len(), sought);
        let margin = 1 + self.random.below(16);
        let within = |camera: u8, cameras: &[u8]| [&vec![camera; margin], cameras, &[camera; MARGIN]].concat();
        let (around_firsts, around_seconds) = (within(sought.0, firsts), within(sought.1, seconds));
        let firsts = &around_firsts[margin..margin + firsts.len()];
        let seconds = &around_seconds[margin..margin + seconds.len()];
        self.engine.look_up(firsts, seconds, sought)
    }

    /// One call with a buffer of a size. Returns the answer, empty for a refusal.
    pub fn lend(&mut self, call: Call, file: &[u8], room: usize, owed: &Owed) -> Result<Vec<u8>, String> {
        if self.random.chance(5) {
            let wrong = wrong_caller(&mut self.random);
            self.lend_to(wrong, call, file, room, owed)?;
        }
        let caller = self.some_caller();
        self.lend_to(caller, call, file, room, owed).map(|(_, answer)| answer)
    }

    /// One call with a buffer that holds something.
    pub fn lend_over(&mut self, call: Call, file: &[u8], content: &[u8], owed: &Owed) -> Result<Vec<u8>, String> {
        let mut lent = self.some_lent(content.len());
        let Lent { start, room, .. } = lent;
        lent.bytes[start..start + room].copy_from_slice(content);
        let caller = self.some_caller();
        self.judged(call, caller, file, &mut lent, owed).map(|(_, answer)| answer)
    }

    /// One call of a caller, right or wrong. Returns the refusal number that the engine told, and the answer.
    pub fn lend_to(&mut self, caller: u32, call: Call, file: &[u8], room: usize, owed: &Owed) -> Result<(u8, Vec<u8>), String> {
        let mut lent = self.some_lent(room);
        self.judged(call, caller, file, &mut lent, owed)
    }

    /// Each call gets a room at the front of the buffer. Returns the refusal numbers that were told, 0 for an answer, and the tally.
    pub fn one_after_another(&mut self, tally: Tally, all: &[Sent]) -> Result<(Vec<u8>, Tally), String> {
        let room_of = |sent: &Sent| if let Sent::Call { room, .. } = sent { *room } else { 0 };
        let mut lent = self.some_lent(all.iter().map(room_of).max().unwrap_or(0));
        lent.tally = tally;
        let mut numbers = Vec::new();
        for sent in all {
            match sent {
                Sent::Check { graph, certificate } => self.check(graph, certificate)?,
                Sent::Call { call, caller, file, room } => {
                    lent.room = *room;
                    let truth = truth_for(*call, file);
                    numbers.push(self.judged(*call, *caller, file, &mut lent, &owed(*call, &truth))?.0);
                }
            }
        }
        Ok((numbers, lent.tally))
    }

    /// The refusal number, and the answer.
    pub fn got(&mut self, caller: u32, call: Call, file: &[u8]) -> (u8, Vec<u8>) {
        let mut out = [0; LEAST_ROOM];
        let Told { number, size } = call.by(self.engine, file, caller, &mut out, &mut Tally::default()).told;
        self.seen.calls += 1;
        (number, out[..size.min(LEAST_ROOM)].to_vec())
    }

    pub fn left_by(&mut self, tally: Tally, all: &[Sent]) -> Tally {
        let mut left = tally;
        for sent in all {
            match sent {
                Sent::Check { graph, certificate } => {
                    self.engine.check(graph, certificate);
                }
                Sent::Call { call, caller, file, room } => {
                    call.by(self.engine, file, *caller, &mut vec![0; *room], &mut left);
                }
            }
        }
        self.seen.calls += all.len();
        left
    }

    /// A buffer of a size at any address, any bytes in it and around it, and any tally.
    pub fn some_lent(&mut self, room: usize) -> Lent {
        let start = MARGIN + self.random.below(16);
        Lent { bytes: self.random.bytes(start + room + MARGIN), start, room, tally: self.some_tally() }
    }

    /// One call on what is lent to it, where its bytes and counts remain.
    fn judged(&mut self, call: Call, caller: u32, file: &[u8], lent: &mut Lent, owed: &Owed) -> Result<(u8, Vec<u8>), String> {
        let Lent { start, room, tally: tally_before, .. } = *lent;
        let (number, count) = due(caller, room, owed);
        let before = lent.bytes.clone();
        let after = &mut lent.bytes;
        let tally = &mut lent.tally;
        let Searched { told, searches } = call.by(self.engine, file, caller, &mut after[start..start + room], tally);
        let came = match count {
            Some(Count::Paths) => Came::Path,
            Some(Count::Barriers) => Came::Barrier,
            Some(Count::Stocks) => Came::Stock,
            Some(Count::Refusals) | None => Came::Refusal(number),
        };
        self.seen.call(&[file], came);
        self.seen.caller(call.kind(), caller, count, &tally_before);
        let fault = |what: String| Err(format!("{call:?} by caller {caller} with a buffer of {room}: {what}\n{}", shown(file)));
        if told.number != number {
            return fault(format!("refusal {} where {number} is owed (0: an answer)", told.number));
        }
        if told.size > room || (number != 0 && told.size != 0) {
            return fault(format!("size {} with number {number}", told.size));
        }
        let answer = after[start..start + told.size].to_vec();
        if before[..start] != after[..start] || before[start + told.size..] != after[start + told.size..] {
            return fault("a byte outside the answer changed".to_string());
        }
        if *tally != raised(tally_before, caller, count) {
            return fault(format!("tally {} after {}, and {count:?} is owed", counts_of(tally), counts_of(&tally_before)));
        }
        if searches != searches_in(call, &answer) {
            return fault(format!("{searches} searches told, with the answer\n{}to:", shown(&answer)));
        }
        if number == 0 && !(owed.is_right)(&answer) {
            return fault(format!("wrong answer ({}):\n{}to:", opening(&answer), shown(&answer)));
        }
        Ok((told.number, answer))
    }

    /// A buffer that is large enough, and at times one that is not.
    fn rooms(&mut self) -> (usize, Option<usize>) {
        let room = if self.random.chance(80) { LEAST_ROOM } else { LEAST_ROOM + self.random.below(3_000) };
        let short = if self.random.chance(50) { LEAST_ROOM - 1 } else { self.random.below(LEAST_ROOM) };
        (room, self.random.chance(5).then_some(short))
    }

    /// A number of searches: few, any that is granted, or at times one that is not.
    fn some_most(&mut self) -> u32 {
        match self.random.below(20) {
            0 => *self.random.choose(&OVER),
            1 => MOST_SEARCHES,
            2..=6 => self.random.below(MOST_SEARCHES as usize + 1) as u32,
            _ => self.random.below(4) as u32,
        }
    }

    /// Counts of any size, at times at their largest value or one below.
    pub fn some_tally(&mut self) -> Tally {
        let mut count = || match self.random.below(6) {
            0 => u32::MAX,
            1 => u32::MAX - 1,
            2 => 0,
            _ => self.random.number() as u32,
        };
        Tally::of([0; CALLERS * OF_EACH].map(|_| count()))
    }

    pub fn some_caller(&mut self) -> u32 {
        self.random.below(CALLERS) as u32
    }
}

/// The number that a call owes by its caller and its room, 0 for an answer, and the count of its caller that rises: 17 first, then 1.
fn due(caller: u32, room: usize, owed: &Owed) -> (u8, Option<Count>) {
    match (is_caller(caller), room < LEAST_ROOM) {
        (false, _) => (WRONG_CALLER, None),
        (true, true) => (1, Some(Count::Refusals)),
        (true, false) => (owed.number, Some(owed.count)),
    }
}

/// The questions that a call fails: by its caller, its room and its budget, and those that its file fails.
fn failed_by(call: Call, caller: u32, room: usize, faults: &[u8]) -> Vec<u8> {
    let of_caller = (!is_caller(caller)).then_some(WRONG_CALLER);
    let of_room = (room < LEAST_ROOM).then_some(1);
    let of_budget = matches!(call, Call::Budget(most) if most > MOST_SEARCHES).then_some(OVER_BUDGET);
    of_caller.into_iter().chain(of_room).chain(of_budget).chain(faults.iter().copied()).collect()
}

/// The number of searches that an answer tells; a refusal, and another call's answer, tells none.
fn searches_in(call: Call, answer: &[u8]) -> u64 {
    match call {
        Call::Budget(_) => number(Text::of(answer).header(), 4, 2) as u64,
        _ => 0,
    }
}

fn is_too_long(file: &[u8]) -> bool {
    file.len() > GREATEST_FILE
}

/// What is said where other line ends change what the trial says.
const UNLIKE: &str = "the trial says another thing of a file with other line ends";

/// A file with other line ends reads as the file itself, unless it became too long.
fn read_alike<T: PartialEq>(read: &Result<T, u8>, other: Result<T, u8>, file: &[u8]) -> Trial {
    let alike = if is_too_long(file) { matches!(other, Err(2)) } else { other == *read };
    if alike {
        return Ok(());
    }
    Err(format!("{UNLIKE}\n{}", shown(file)))
}

fn read_back<T: PartialEq>(read: Result<T, u8>, made: &T, file: &[u8]) -> Trial {
    match read {
        Ok(found) if found == *made => Ok(()),
        Ok(_) => Err(format!("the trial reads another graph or stock than was written\n{}", shown(file))),
        Err(refusal) => Err(format!("refusal {refusal} of a graph or stock that was made to be accepted\n{}", shown(file))),
    }
}

/// One count of one caller up, unless it is at 4,294,967,295; without a count nothing rises.
pub fn raised(tally: Tally, caller: u32, count: Option<Count>) -> Tally {
    let mut all = tally.all();
    if let Some(count) = count {
        let place = &mut all[count.place(caller)];
        *place = place.saturating_add(1);
    }
    Tally::of(all)
}

/// The counts of a tally, caller by caller, for messages.
pub fn counts_of(tally: &Tally) -> String {
    let of_callers: Vec<String> = tally.all().chunks(OF_EACH).map(|counts| format!("{counts:?}")).collect();
    of_callers.join(" ")
}

/// The beginning of a file, for messages; each CR is told.
pub fn shown(file: &[u8]) -> String {
    const MOST: usize = 1_200;
    let start = String::from_utf8_lossy(&file[..file.len().min(MOST)]).replace('\r', "<CR>");
    let rest = if file.len() > MOST { format!("\n.. {} bytes in all\n", file.len()) } else { String::new() };
    format!("{start}{rest}")
}

/// The beginning of two slices of cameras, for messages.
pub fn shown_fits(firsts: &[u8], seconds: &[u8]) -> String {
    const MOST: usize = 200;
    let start = |cameras: &[u8]| format!("{:?} ({} in all)\n", &cameras[..cameras.len().min(MOST)], cameras.len());
    format!("first cameras {}second cameras {}", start(firsts), start(seconds))
}
