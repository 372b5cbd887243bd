//! Pairings kept under names, by trial (document 02, L8): what is kept is told by going back through the calls so far.
//!   PLAN_QUESTIONS, OF_HEADER    the questions put to a file of plan frames; 7 as it is put to PP
//!   NOT_KEPT, NO_PLACE           the questions put to a name: 18 and 19
//!   MOST_KEPT                    how many pairings may be kept
//!   told_as                      the number that a question is told by
//!   questions_of                 the questions put to a call, in order
//!   ask, read                    one question put to a plan file beside a stock; all in order
//!   Change, Past                 a call that changed what is kept; all of them since power-on
//!   Past::stock, kept, names     the present stock; the pairs last kept under a name; the names that are kept
//!   Past::due, Due               what a call owes: number, answer, and the change that it makes

use crate::engine::{KeptCall, KeptKind};
use crate::frames::{first_no, number, plan_file, Pair, Text, PLAN};
use crate::judge::LEAST_ROOM;
use crate::stock_trial::{self, Stock, STOCK_QUESTIONS};

/// CCCC is question 7 itself; the number of pairs in the header comes beside it.
pub const OF_HEADER: u8 = 107;

pub const PLAN_QUESTIONS: [u8; 10] = [2, 3, 4, 6, 7, OF_HEADER, 9, 12, 13, 14];

pub const NOT_KEPT: u8 = 18;
pub const NO_PLACE: u8 = 19;
pub const MOST_KEPT: usize = 8;

pub fn told_as(question: u8) -> u8 {
    if question == OF_HEADER {
        7
    } else {
        question
    }
}

pub fn questions_of(kind: KeptKind) -> Vec<u8> {
    match kind {
        KeptKind::Bring => STOCK_QUESTIONS.to_vec(),
        KeptKind::Keep => [&PLAN_QUESTIONS[..], &[NO_PLACE]].concat(),
        KeptKind::ComeBack => vec![1, NOT_KEPT],
        KeptKind::Forget => vec![NOT_KEPT],
    }
}

// ---- plan files

fn pairs_in(text: &Text) -> Vec<Pair> {
    text.pairs(PLAN.bodies[0])
}

/// By the number that each pair gives, by a search among the fits, and by counting each camera.
pub fn ask(stock: &Stock, text: &Text, question: u8) -> bool {
    let pairs = pairs_in(text);
    let is_fit = |(one, other): &Pair| stock.fits.binary_search(&(*one.min(other), *one.max(other))).is_ok();
    let numbers: Vec<usize> = pairs.iter().map(|(first, second)| 256 * first + second).collect();
    match question {
        OF_HEADER => number(text.header(), 2, 2) == text.body().len(),
        9 => !pairs.iter().any(|(first, second)| *first.max(second) >= stock.cameras),
        12 => {
            numbers.iter().all(|number| number / 256 < number % 256) && (1..numbers.len()).all(|at| numbers[at - 1] < numbers[at])
        }
        13 => pairs.iter().all(is_fit),
        14 => times_named(&pairs).iter().all(|times| *times < 2),
        _ => text.answers(&PLAN, question),
    }
}

/// Of each camera that two digits can name.
fn times_named(pairs: &[Pair]) -> [usize; 256] {
    let mut times = [0; 256];
    pairs.iter().flat_map(|(first, second)| [*first, *second]).for_each(|camera| times[camera] += 1);
    times
}

/// The pairs of a file, or the number of the first question answered no.
pub fn read(stock: &Stock, file: &[u8]) -> Result<Vec<Pair>, u8> {
    let text = Text::of(file);
    match first_no(&PLAN_QUESTIONS, |question| ask(stock, &text, question)) {
        0 => Ok(pairs_in(&text)),
        refusal => Err(told_as(refusal)),
    }
}

// ---- what is kept

#[derive(Clone, Debug, PartialEq)]
pub enum Change {
    Brought(Stock),
    Kept(u8, Vec<Pair>),
    Forgotten(u8),
}

impl Change {
    fn is_of(&self, one: u8) -> bool {
        match self {
            Change::Brought(_) => true,
            Change::Kept(name, _) | Change::Forgotten(name) => *name == one,
        }
    }
}

/// The changes in the order in which they were made; refused calls and those that come back make none.
#[derive(Clone, Default)]
pub struct Past {
    pub changes: Vec<Change>,
    /// the stock before the first, without cameras
    none: Stock,
}

/// An answer is empty unless a call comes back.
pub struct Due {
    pub number: u8,
    pub answer: Vec<u8>,
    pub change: Option<Change>,
}

impl Due {
    fn refused(number: u8) -> Due {
        Due { number, answer: Vec::new(), change: None }
    }

    fn changing(change: Change) -> Due {
        Due { number: 0, answer: Vec::new(), change: Some(change) }
    }
}

impl Past {
    /// The one that was brought last.
    pub fn stock(&self) -> &Stock {
        let brought = self.changes.iter().rev().find_map(|change| match change {
            Change::Brought(stock) => Some(stock),
            _ => None,
        });
        brought.unwrap_or(&self.none)
    }

    /// The last change of this name, or of all names, tells it.
    pub fn kept(&self, name: u8) -> Option<&[Pair]> {
        match self.changes.iter().rev().find(|change| change.is_of(name)) {
            Some(Change::Kept(_, pairs)) => Some(pairs),
            _ => None,
        }
    }

    /// In the order in which they came into use. Going back, the first change of a name that is met tells whether it is kept.
    pub fn names(&self) -> Vec<u8> {
        let mut told = [false; 256];
        let mut names = Vec::new();
        for change in self.changes.iter().rev() {
            match change {
                Change::Brought(_) => break,
                Change::Kept(name, _) if !std::mem::replace(&mut told[*name as usize], true) => names.push(*name),
                Change::Kept(..) => (),
                Change::Forgotten(name) => told[*name as usize] = true,
            }
        }
        names.sort_by_key(|name| self.in_use_since(*name));
        names
    }

    /// The place of the first change that kept it after it last was not kept.
    fn in_use_since(&self, name: u8) -> usize {
        let is_end = |change: &Change| change.is_of(name) && !matches!(change, Change::Kept(..));
        let end = self.changes.iter().rposition(is_end).map_or(0, |place| place + 1);
        let later = self.changes[end..].iter().position(|change| change.is_of(name));
        end + later.unwrap_or(0)
    }

    pub fn due(&self, call: &KeptCall) -> Due {
        match call {
            KeptCall::Bring(file) => match stock_trial::read(file) {
                Err(number) => Due::refused(number),
                Ok(stock) => Due::changing(Change::Brought(stock)),
            },
            KeptCall::Keep(name, file) => match read(self.stock(), file) {
                Err(number) => Due::refused(number),
                Ok(_) if self.kept(*name).is_none() && self.names().len() >= MOST_KEPT => Due::refused(NO_PLACE),
                Ok(pairs) => Due::changing(Change::Kept(*name, pairs)),
            },
            KeptCall::Forget(name) if self.kept(*name).is_some() => Due::changing(Change::Forgotten(*name)),
            KeptCall::ComeBack(_, room) if *room < LEAST_ROOM => Due::refused(1),
            KeptCall::ComeBack(name, _) => match self.kept(*name) {
                Some(pairs) => Due { number: 0, answer: plan_file(pairs), change: None },
                None => Due::refused(NOT_KEPT),
            },
            KeptCall::Forget(_) => Due::refused(NOT_KEPT),
        }
    }
}
