//! An engine put together from the trial's parts and the matchings, to try the tests themselves: they must pass on it,
//! and must fail on each engine that has one part replaced by a wrong one (wrong.rs).
//!   GraphAnswer       a path or a barrier's classes
//!   Reached           a pairing that some searches have reached, their number, and the lanes at most still missing
//!   Parts             the engine as a record of its parts
//!   Parts::right      each part as the documents say
//!   Parts::past_17    a call by its parts, once question 17 is answered
//!   Parts::kept       the calls for kept pairings (kept_reference.rs)
//!   answer .. check   those of them that wrong ones are made from

use crate::arc_matching;
use crate::blossom;
use crate::engine::{Call, Counts, Engine, Fit, Kept, Looked, Searched, Tally, Told, Verdict};
use crate::frames::{barrier_file, budget_file, path_file, printout, Pair};
use crate::graph_trial::{self, canonical, Certificate, Graph};
use crate::kept_reference::{Calls, Held};
use crate::stock_trial::{self, Standing, Stock};
use crate::truth::WRONG_CALLER;

pub enum GraphAnswer {
    Path(Vec<usize>),
    Barrier(Vec<usize>),
}

impl GraphAnswer {
    pub fn file(&self) -> Vec<u8> {
        match self {
            GraphAnswer::Path(arcs) => path_file(arcs),
            GraphAnswer::Barrier(classes) => barrier_file(classes),
        }
    }
}

pub struct Reached {
    pub pairs: Vec<Pair>,
    pub searches: usize,
    pub missing: usize,
}

/// What a file holds, or the number that refuses it.
pub type Reader<T> = Box<dyn Fn(&[u8]) -> Result<T, u8>>;
pub type LookUp = Box<dyn Fn(&[u8], &[u8], Fit) -> Looked>;
pub type Search = Box<dyn Fn(&Stock, u32) -> Reached>;
// by the engine's other parts
pub type BudgetCall = Box<dyn Fn(&Parts, &[u8], u32, &mut [u8], &mut Counts) -> Searched>;
pub type FileCall = Box<dyn Fn(&Parts, &[u8], &mut [u8], &mut Counts) -> Told>;
/// A call of any kind, its file, and who calls.
pub type AnyCall = Box<dyn Fn(&Parts, Call, &[u8], u32, &mut [u8], &mut Tally) -> Searched>;
pub type Printing = Box<dyn Fn(&Parts, &Stock) -> Vec<u8>>;
pub type Check = Box<dyn Fn(&Parts, &[u8], &[u8]) -> Verdict>;
pub type CertificateReader = Box<dyn Fn(&Graph, &[u8]) -> Result<Certificate, u8>>;

pub struct Parts {
    pub least_room: usize,
    pub buffer_first: bool,
    pub read_graph: Reader<Graph>,
    pub read_stock: Reader<Stock>,
    pub read_certificate: CertificateReader,
    pub answer: fn(&Graph) -> GraphAnswer,
    pub plan: fn(&Stock) -> Vec<Pair>,
    pub standing: Box<dyn Fn(&Stock) -> Standing>,
    /// what a stock gets, of its plan and its standing
    pub printout: Printing,
    pub holds: fn(&Graph, &Certificate) -> bool,
    pub added_for_certificates: u8,
    pub raise: fn(u32) -> u32,
    /// of a file and its answer, the answer with the line ends that it is written with
    pub ends: fn(&[u8], Vec<u8>) -> Vec<u8>,
    pub write: fn(&[u8], &mut [u8]) -> Told,
    pub refuse: fn(u8, &mut [u8]) -> Told,
    /// first cameras, second cameras, and the pair sought; the stocks are read without it
    pub look_up: LookUp,
    /// what a stock comes to within a number of searches
    pub search: Search,
    pub reached_file: fn(&Reached) -> Vec<u8>,
    // calls past question 17, with the caller's own counts: of a graph, of a stock, of one with a budget
    pub answer_graph: FileCall,
    pub stock: FileCall,
    pub budget: BudgetCall,
    // calls, whole: those three, and the check
    pub call: AnyCall,
    pub check: Check,
    /// the calls for kept pairings, which share nothing with those
    pub kept: Calls,
}

impl Parts {
    pub fn right() -> Parts {
        Parts {
            least_room: 2_048,
            buffer_first: true,
            read_graph: Box::new(graph_trial::read),
            read_stock: Box::new(stock_trial::read),
            read_certificate: Box::new(graph_trial::read_certificate),
            answer,
            plan,
            standing: Box::new(standing),
            printout: Box::new(both_halves),
            holds: graph_trial::certificate_holds,
            added_for_certificates: 40,
            raise: |count| count.saturating_add(1),
            ends: |_, answer| answer,
            write,
            refuse: |number, _| Told { number, size: 0 },
            look_up: Box::new(look_up),
            search: Box::new(search),
            reached_file: |reached| budget_file(&reached.pairs, reached.searches, reached.missing),
            answer_graph: Box::new(answer_graph),
            stock: Box::new(stock),
            budget: Box::new(budget),
            call: Box::new(call),
            check: Box::new(check),
            kept: Calls::right(),
        }
    }

    pub fn refusal(&self, number: u8, out: &mut [u8], counts: &mut Counts) -> Told {
        counts.refusals = (self.raise)(counts.refusals);
        (self.refuse)(number, out)
    }

    /// On the caller's own counts.
    pub fn past_17(&self, call: Call, file: &[u8], out: &mut [u8], counts: &mut Counts) -> Searched {
        let told = match call {
            Call::Graph => (self.answer_graph)(self, file, out, counts),
            Call::Stock => (self.stock)(self, file, out, counts),
            Call::Budget(most) => return (self.budget)(self, file, most, out, counts),
        };
        Searched { told, searches: 0 }
    }

    /// Question 1, then the file's.
    fn read<T>(&self, reader: &Reader<T>, file: &[u8], out: &[u8]) -> Result<T, u8> {
        let room = if out.len() < self.least_room { Err(1) } else { Ok(()) };
        if self.buffer_first {
            room?;
        }
        let read = reader(file)?;
        room.map(|_| read)
    }

    fn answer_stock(&self, file: &[u8], out: &mut [u8], counts: &mut Counts, text: impl FnOnce(&Stock) -> Vec<u8>) -> Told {
        match self.read(&self.read_stock, file, out) {
            Err(number) => self.refusal(number, out, counts),
            Ok(stock) => {
                counts.stocks = (self.raise)(counts.stocks);
                (self.write)(&(self.ends)(file, text(&stock)), out)
            }
        }
    }
}

pub fn answer(graph: &Graph) -> GraphAnswer {
    match arc_matching::wanted_path(graph) {
        Some(arcs) => GraphAnswer::Path(arcs),
        None => GraphAnswer::Barrier(canonical(graph, &arc_matching::reachable(graph))),
    }
}

pub fn plan(stock: &Stock) -> Vec<Pair> {
    let mut partner = blossom::partners(stock.cameras, &stock.lit);
    blossom::enlarge(&blossom::neighbours(stock.cameras, &stock.fits), &mut partner);
    blossom::pairs(&partner)
}

/// By alternating paths from the cameras that the plan leaves over.
pub fn standing(stock: &Stock) -> Standing {
    let plan = plan(stock);
    Standing { greatest: plan.len(), marks: blossom::marks_from(stock.cameras, &stock.fits, &plan) }
}

/// The plan, directly followed by the sheet.
pub fn both_halves(parts: &Parts, stock: &Stock) -> Vec<u8> {
    let Standing { greatest, marks } = (parts.standing)(stock);
    printout(&(parts.plan)(stock), greatest, &marks)
}

pub fn write(answer: &[u8], out: &mut [u8]) -> Told {
    out[..answer.len()].copy_from_slice(answer);
    Told { number: 0, size: answer.len() }
}

/// Fit by fit from the first, up to one that is equal or larger.
pub fn look_up(firsts: &[u8], seconds: &[u8], sought: Fit) -> Looked {
    let mut looked = 0;
    for (first, second) in firsts.iter().zip(seconds) {
        looked += 1;
        if (*first, *second) >= sought {
            return Looked { found: (*first, *second) == sought, looked };
        }
    }
    Looked { found: false, looked }
}

/// Cameras are searched from in turn, until one is lit: that is a search. From one that was passed over no path leads later either.
pub fn search(stock: &Stock, most: u32) -> Reached {
    let lists = blossom::neighbours(stock.cameras, &stock.fits);
    let mut partner = blossom::partners(stock.cameras, &stock.lit);
    let mut roots = 0..stock.cameras;
    let (mut searches, mut found) = (0, true);
    while found && searches < most as usize {
        searches += 1;
        found = roots.any(|root| partner[root].is_none() && blossom::augment(&lists, &mut partner, root).is_ok());
    }
    let left_over = partner.iter().filter(|other| other.is_none()).count();
    Reached { pairs: blossom::pairs(&partner), searches, missing: if found { left_over / 2 } else { 0 } }
}

pub fn stock(parts: &Parts, file: &[u8], out: &mut [u8], counts: &mut Counts) -> Told {
    parts.answer_stock(file, out, counts, |stock| (parts.printout)(parts, stock))
}

/// Question 1, then 15, then the file's.
pub fn budget(parts: &Parts, file: &[u8], most: u32, out: &mut [u8], counts: &mut Counts) -> Searched {
    if out.len() >= parts.least_room && most > 64 {
        return Searched { told: parts.refusal(15, out, counts), searches: 0 };
    }
    let mut searches = 0;
    let told = parts.answer_stock(file, out, counts, |stock| {
        let reached = (parts.search)(stock, most);
        searches = reached.searches as u64;
        (parts.reached_file)(&reached)
    });
    Searched { told, searches }
}

pub fn answer_graph(parts: &Parts, file: &[u8], out: &mut [u8], counts: &mut Counts) -> Told {
    let graph = match parts.read(&parts.read_graph, file, out) {
        Err(number) => return parts.refusal(number, out, counts),
        Ok(graph) => graph,
    };
    let answer = (parts.answer)(&graph);
    match answer {
        GraphAnswer::Path(_) => counts.paths = (parts.raise)(counts.paths),
        GraphAnswer::Barrier(_) => counts.barriers = (parts.raise)(counts.barriers),
    }
    (parts.write)(&(parts.ends)(file, answer.file()), out)
}

/// Question 17, then the call on the caller's own counts.
pub fn call(parts: &Parts, call: Call, file: &[u8], caller: u32, out: &mut [u8], tally: &mut Tally) -> Searched {
    match tally.sets.get_mut(caller as usize) {
        None => Searched { told: (parts.refuse)(WRONG_CALLER, out), searches: 0 },
        Some(counts) => parts.past_17(call, file, out, counts),
    }
}

/// The graph's questions, then the certificate's.
pub fn check(parts: &Parts, graph: &[u8], certificate: &[u8]) -> Verdict {
    let graph = match (parts.read_graph)(graph) {
        Err(number) => return Verdict::Refused(number),
        Ok(graph) => graph,
    };
    match (parts.read_certificate)(&graph, certificate) {
        Err(number) => Verdict::Refused(number + parts.added_for_certificates),
        Ok(certificate) if (parts.holds)(&graph, &certificate) => Verdict::Yes,
        Ok(_) => Verdict::No,
    }
}

impl Engine for Parts {
    fn answer_graph(&self, file: &[u8], caller: u32, out: &mut [u8], tally: &mut Tally) -> Told {
        (self.call)(self, Call::Graph, file, caller, out, tally).told
    }

    fn stock(&self, file: &[u8], caller: u32, out: &mut [u8], tally: &mut Tally) -> Told {
        (self.call)(self, Call::Stock, file, caller, out, tally).told
    }

    fn budget(&self, file: &[u8], caller: u32, most: u32, out: &mut [u8], tally: &mut Tally) -> Searched {
        (self.call)(self, Call::Budget(most), file, caller, out, tally)
    }

    fn check(&self, graph: &[u8], certificate: &[u8]) -> Verdict {
        (self.check)(self, graph, certificate)
    }

    fn look_up(&self, firsts: &[u8], seconds: &[u8], sought: Fit) -> Looked {
        (self.look_up)(firsts, seconds, sought)
    }

    fn power_on(&self) -> Box<dyn Kept + '_> {
        Box::new(Held::at_power_on(&self.kept))
    }

    fn zero_bytes(&self) -> Box<dyn Kept + '_> {
        Box::new(Held::of_zero_bytes(&self.kept))
    }
}
