//! The reference engine's kept pairings: a list of names with the pairs under each, and the calls put together from parts, of which wrong
//! ones have one replaced (wrong_kept.rs).
//!   KeptState         the present stock and the names in use; what only wrong engines remember besides
//!   Calls             the calls as a record of their parts
//!   Calls::right      each part as document 02 says, L8
//!   Held              a state and the calls that it is lent to
//!   read_plan, read_plan_in_order    the pairs of a plan file; by other questions
//!   bring .. come_back    the calls, which wrong ones are made from

use crate::engine::{Kept, Told};
use crate::frames::{first_no, number, plan_file, Pair, Text, PLAN};
use crate::kept_trial::{told_as, MOST_KEPT, NOT_KEPT, NO_PLACE, OF_HEADER, PLAN_QUESTIONS};
use crate::reference::{self, Reader};
use crate::stock_trial::{self, lit_answers, Stock};

/// A name and the pairs under it.
pub type Place = (u8, Vec<Pair>);

#[derive(Clone, Default)]
pub struct KeptState {
    pub stock: Stock,
    /// in the order in which the names came into use
    pub places: Vec<Place>,
    /// nothing, but of wrong engines
    pub beside: Beside,
}

#[derive(Clone, Default)]
pub struct Beside {
    pub number: usize,
    pub places: Vec<Place>,
    pub stock: Stock,
    pub file: Vec<u8>,
}

/// The pairs of a plan file beside a stock, or the number that refuses it.
pub type PlanReader = Box<dyn Fn(&Stock, &[u8]) -> Result<Vec<Pair>, u8>>;
// by the other parts
pub type Bring = Box<dyn Fn(&Calls, &mut KeptState, &[u8]) -> u8>;
pub type Keep = Box<dyn Fn(&Calls, &mut KeptState, u8, &[u8]) -> u8>;
pub type Forget = Box<dyn Fn(&Calls, &mut KeptState, u8) -> u8>;
pub type ComeBack = Box<dyn Fn(&Calls, &mut KeptState, u8, &mut [u8]) -> Told>;

pub struct Calls {
    pub least_room: usize,
    pub most: usize,
    pub read_stock: Reader<Stock>,
    pub read_plan: PlanReader,
    /// whether the first, which is kept, is the second, which is asked for
    pub is_same: Box<dyn Fn(u8, u8) -> bool>,
    /// the frames of pairs
    pub frames: Box<dyn Fn(&[Pair]) -> Vec<u8>>,
    pub write: fn(&[u8], &mut [u8]) -> Told,
    // calls, whole
    pub bring: Bring,
    pub keep: Keep,
    pub forget: Forget,
    pub come_back: ComeBack,
    // states: at power-on, over what stands in the block; of zero bytes; copied
    pub power_on: Box<dyn Fn(KeptState) -> KeptState>,
    pub zero_bytes: Box<dyn Fn() -> KeptState>,
    pub copied: Box<dyn Fn(&KeptState) -> KeptState>,
}

impl Calls {
    pub fn right() -> Calls {
        Calls {
            least_room: 2_048,
            most: MOST_KEPT,
            read_stock: Box::new(stock_trial::read),
            read_plan: Box::new(read_plan),
            is_same: Box::new(|kept, asked| kept == asked),
            frames: Box::new(plan_file),
            write: reference::write,
            bring: Box::new(bring),
            keep: Box::new(keep),
            forget: Box::new(forget),
            come_back: Box::new(come_back),
            power_on: Box::new(|_| KeptState::default()),
            zero_bytes: Box::new(KeptState::default),
            copied: Box::new(KeptState::clone),
        }
    }

    /// Where a name stands.
    pub fn place(&self, state: &KeptState, name: u8) -> Option<usize> {
        state.places.iter().position(|place| (self.is_same)(place.0, name))
    }
}

pub fn read_plan(stock: &Stock, file: &[u8]) -> Result<Vec<Pair>, u8> {
    read_plan_in_order(stock, file, &PLAN_QUESTIONS)
}

/// From 9 on the questions are those of the stock with these pairs lit.
pub fn read_plan_in_order(stock: &Stock, file: &[u8], order: &[u8]) -> Result<Vec<Pair>, u8> {
    let text = Text::of(file);
    let lit = text.pairs(PLAN.bodies[0]);
    let with_pairs = Stock { lit, ..stock.clone() };
    let ask = |question: u8| match question {
        OF_HEADER => number(text.header(), 2, 2) == with_pairs.lit.len(),
        9.. => lit_answers(&with_pairs, question),
        _ => text.answers(&PLAN, question),
    };
    match first_no(order, ask) {
        0 => Ok(with_pairs.lit),
        refusal => Err(told_as(refusal)),
    }
}

pub fn bring(calls: &Calls, state: &mut KeptState, file: &[u8]) -> u8 {
    match (calls.read_stock)(file) {
        Err(number) => number,
        Ok(stock) => {
            state.stock = stock;
            state.places.clear();
            0
        }
    }
}

pub fn keep(calls: &Calls, state: &mut KeptState, name: u8, file: &[u8]) -> u8 {
    match ((calls.read_plan)(&state.stock, file), calls.place(state, name)) {
        (Err(number), _) => number,
        (Ok(pairs), Some(place)) => {
            state.places[place].1 = pairs;
            0
        }
        (Ok(_), None) if state.places.len() >= calls.most => NO_PLACE,
        (Ok(pairs), None) => {
            state.places.push((name, pairs));
            0
        }
    }
}

pub fn forget(calls: &Calls, state: &mut KeptState, name: u8) -> u8 {
    match calls.place(state, name) {
        None => NOT_KEPT,
        Some(place) => {
            state.places.remove(place);
            0
        }
    }
}

pub fn come_back(calls: &Calls, state: &mut KeptState, name: u8, out: &mut [u8]) -> Told {
    if out.len() < calls.least_room {
        return Told { number: 1, size: 0 };
    }
    match calls.place(state, name) {
        None => Told { number: NOT_KEPT, size: 0 },
        Some(place) => (calls.write)(&(calls.frames)(&state.places[place].1), out),
    }
}

pub struct Held<'a> {
    calls: &'a Calls,
    state: KeptState,
}

impl Held<'_> {
    pub fn at_power_on(calls: &Calls) -> Held<'_> {
        Held { calls, state: (calls.power_on)(KeptState::default()) }
    }

    pub fn of_zero_bytes(calls: &Calls) -> Held<'_> {
        Held { calls, state: (calls.zero_bytes)() }
    }
}

impl Kept for Held<'_> {
    fn power_on(&mut self) {
        self.state = (self.calls.power_on)(std::mem::take(&mut self.state));
    }

    fn bring(&mut self, file: &[u8]) -> u8 {
        (self.calls.bring)(self.calls, &mut self.state, file)
    }

    fn keep(&mut self, name: u8, file: &[u8]) -> u8 {
        (self.calls.keep)(self.calls, &mut self.state, name, file)
    }

    fn forget(&mut self, name: u8) -> u8 {
        (self.calls.forget)(self.calls, &mut self.state, name)
    }

    fn come_back(&mut self, name: u8, out: &mut [u8]) -> Told {
        (self.calls.come_back)(self.calls, &mut self.state, name, out)
    }

    fn copied<'a>(&self) -> Box<dyn Kept + 'a>
    where
        Self: 'a,
    {
        Box::new(Held { calls: self.calls, state: (self.calls.copied)(&self.state) })
    }
}
