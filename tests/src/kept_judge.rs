//! Calls for kept pairings (document 02, L8), each judged whole: number, size, answer, and every byte of the buffer and around it.
//!   Watched               a state of the engine, what the trial says was done to it, and what was asked of it
//!   state, zero_state     a state at power-on; one of zero bytes
//!   kept                  one call, judged; the answer, empty unless it comes back
//!   kept_all              calls in a row
//!   kept_owing            the same of one that is known to get a number
//!   kept_failing          one that fails some questions: the engine's number is counted, with the others of them
//!   asked                 one call as the engine answers it, whatever the trial says; only bytes of the answer may change
//!   all_back              every name that is kept comes back, and some that are not do not
//!   probed                the same, and the present stock is told by plans that are handed in, on a copy
//!   bring, keep, back, forget    the calls

use crate::cases::by_trial;
use crate::engine::{Kept, KeptCall, Told};
use crate::frames::plan_file;
use crate::judge::{shown, Judge, Lent, Trial, LEAST_ROOM};
use crate::kept_trial::{told_as, Past};
use crate::seen_kept::Logged;

pub struct Watched<'a> {
    state: Box<dyn Kept + 'a>,
    pub past: Past,
    log: Vec<Logged>,
}

impl<'a> Watched<'a> {
    fn of(state: Box<dyn Kept + 'a>) -> Watched<'a> {
        Watched { state, past: Past::default(), log: Vec::new() }
    }

    /// Set to power-on again.
    pub fn power_on(&mut self) {
        self.state.power_on();
        self.past = Past::default();
        self.log.push(Logged::PowerOn);
    }

    /// Another state that goes on by itself.
    pub fn copied(&self) -> Watched<'a> {
        let log = [&self.log[..], &[Logged::Copied]].concat();
        Watched { state: self.state.copied(), past: self.past.clone(), log }
    }

    /// The copy in this one's place.
    pub fn replaced_by_copy(&mut self) {
        *self = self.copied();
    }

    /// Another call was made, of a graph or a stock.
    pub fn after_other_call(&mut self) {
        self.log.push(Logged::OtherCall);
    }
}

// ---- calls

pub fn bring(file: &[u8]) -> KeptCall {
    KeptCall::Bring(file.to_vec())
}

pub fn keep(name: u8, file: &[u8]) -> KeptCall {
    KeptCall::Keep(name, file.to_vec())
}

/// With a room that is just large enough.
pub fn back(name: u8) -> KeptCall {
    KeptCall::ComeBack(name, LEAST_ROOM)
}

pub fn forget(name: u8) -> KeptCall {
    KeptCall::Forget(name)
}

/// What stands in memory right before a file, and right behind it: frames that it could begin or go on with.
const BEFORE: &[u8] = b"5100\n";
const BEHIND: &[u8] = b"\n520001\n5F0001\n";

/// A call, for messages.
fn told_call(call: &KeptCall) -> String {
    match call {
        KeptCall::Bring(_) | KeptCall::Keep(..) => {
            format!("{:?} under {:?} of\n{}", call.kind(), call.name(), shown(call.file()))
        }
        _ => format!("{call:?}\n"),
    }
}

impl<'a> Judge<'a> {
    pub fn state(&mut self) -> Watched<'a> {
        Watched::of(self.engine.power_on())
    }

    pub fn zero_state(&mut self) -> Watched<'a> {
        Watched::of(self.engine.zero_bytes())
    }

    /// The number, and the answer.
    pub fn asked(&mut self, watched: &mut Watched, call: &KeptCall) -> Result<(u8, Vec<u8>), String> {
        let room = if let KeptCall::ComeBack(_, room) = call { *room } else { 0 };
        let Lent { mut bytes, start, .. } = self.some_lent(room);
        let before = bytes.clone();
        let around = [BEFORE, call.file(), BEHIND].concat();
        let file = &around[BEFORE.len()..around.len() - BEHIND.len()];
        let Told { number, size } = call.by(watched.state.as_mut(), file, &mut bytes[start..start + room]);
        watched.log.push(Logged::Call(call.kind(), call.name(), number));
        self.seen.calls += 1;
        let fault = |what: String| Err(format!("{what}, by {}", told_call(call)));
        if size > room || (number != 0 && size != 0) {
            return fault(format!("size {size} with number {number}"));
        }
        if before[..start] != bytes[..start] || before[start + size..] != bytes[start + size..] {
            return fault("a byte outside the answer changed".to_string());
        }
        Ok((number, bytes[start..start + size].to_vec()))
    }

    pub fn kept(&mut self, watched: &mut Watched, call: &KeptCall) -> Result<Vec<u8>, String> {
        let due = watched.past.due(call);
        self.seen.kept.call(&watched.past, &watched.log, call, &due);
        let (number, answer) = self.asked(watched, call)?;
        let fault = |what: String| Err(format!("{what}, by {}", told_call(call)));
        if number != due.number {
            return fault(format!("refusal {number} where {} is owed (0: none)", due.number));
        }
        if answer != due.answer {
            return fault(format!("the answer\n{}where\n{}is owed", shown(&answer), shown(&due.answer)));
        }
        watched.past.changes.extend(due.change);
        Ok(answer)
    }

    pub fn kept_all(&mut self, watched: &mut Watched, calls: &[KeptCall]) -> Trial {
        calls.iter().try_for_each(|call| self.kept(watched, call).map(drop))
    }

    /// The number is known beforehand, and so the trial is held to it too.
    pub fn kept_owing(&mut self, watched: &mut Watched, call: &KeptCall, number: u8) -> Trial {
        by_trial(call.file(), watched.past.due(call).number, number)?;
        self.kept(watched, call).map(drop)
    }

    /// The first of these questions refuses it.
    pub fn kept_failing(&mut self, watched: &mut Watched, call: &KeptCall, failing: &[u8]) -> Trial {
        self.kept_owing(watched, call, told_as(failing[0]))?;
        self.seen.kept.refusal(call.kind(), failing[0], failing);
        Ok(())
    }

    pub fn all_back(&mut self, watched: &mut Watched) -> Trial {
        for name in watched.past.names() {
            self.kept(watched, &back(name))?;
            let beside = name ^ 1 << self.random.below(8);
            self.kept(watched, &back(beside))?;
        }
        let any = self.random.byte();
        self.kept(watched, &back(any)).map(drop)
    }

    /// The copy forgets all names first, so that there is a place for each plan: without pairs, of each of some fits, and of cameras that
    /// may not be there.
    pub fn probed(&mut self, watched: &mut Watched) -> Trial {
        self.all_back(watched)?;
        let mut copy = watched.copied();
        for name in copy.past.names() {
            self.kept(&mut copy, &forget(name))?;
        }
        let stock = copy.past.stock().clone();
        let some = stock.fits.iter().copied().step_by(1 + stock.fits.len() / 4);
        let others = [(0, 1), (1, 2), (0, stock.cameras.max(1))];
        let plans = some.chain(others).map(|pair| plan_file(&[pair]));
        plans.chain([plan_file(&[])]).try_for_each(|plan| self.kept(&mut copy, &keep(0, &plan)).map(drop))
    }
}
