//! The engine as the tests see it: the calls and the look-up of documents 01 and 02.
//!   Counts, Tally            the counts of one caller; those of the four callers
//!   AllCounts, CALLERS, OF_EACH    a tally's counts in a row; how many callers there are, and how many counts each has
//!   Told, Verdict            a call's refusal number and answer size; what the check says
//!   Searched                 what a call with a budget tells: the same, and the number of searches
//!   Fit, Looked              two cameras as the look-up takes them; what it answers
//!   Engine                   the four calls, the look-up, and states of kept pairings
//!   Kept                     a state of kept pairings (document 02, L8): a block that is lent to each of its calls
//!   KeptCall, KeptKind       one of these calls, and which of them
//!   Call, CallKind           a call that names its caller, which an engine can be made to answer; the same, whatever budget it has
//!   linked, Library          the proved engine in its static libraries (only where they are linked, see build.rs)
//!   State                    the proved engine's block of kept pairings, as a Rust program holds it (there too)

#[derive(Clone, Copy, Debug, Default, PartialEq)]
pub struct Counts {
    pub paths: u32,
    pub barriers: u32,
    pub stocks: u32,
    pub refusals: u32,
}

pub const CALLERS: usize = 4;

pub const OF_EACH: usize = 4;

/// Caller by caller: paths, barriers, stocks, refusals.
pub type AllCounts = [u32; CALLERS * OF_EACH];

/// The counts of callers 0 to 3.
#[derive(Clone, Copy, Debug, Default, PartialEq)]
pub struct Tally {
    pub sets: [Counts; CALLERS],
}

impl Tally {
    /// The same counts for each caller.
    pub fn of_each(counts: Counts) -> Tally {
        Tally { sets: [counts; CALLERS] }
    }

    pub fn of(all: AllCounts) -> Tally {
        let of_caller = |caller: usize| {
            let [paths, barriers, stocks, refusals] = [0, 1, 2, 3].map(|place| all[OF_EACH * caller + place]);
            Counts { paths, barriers, stocks, refusals }
        };
        Tally { sets: [0, 1, 2, 3].map(of_caller) }
    }

    pub fn all(&self) -> AllCounts {
        let mut all = [0; CALLERS * OF_EACH];
        for (own, counts) in all.chunks_exact_mut(OF_EACH).zip(&self.sets) {
            let Counts { paths, barriers, stocks, refusals } = *counts;
            own.copy_from_slice(&[paths, barriers, stocks, refusals]);
        }
        all
    }
}

/// `number` is the refusal, 0 for an answer; `size` is the bytes of the answer, 0 for a refusal.
#[derive(Clone, Copy, Debug, PartialEq)]
pub struct Told {
    pub number: u8,
    pub size: usize,
}

/// `searches` is how many were run, 0 for a refusal.
#[derive(Clone, Copy, Debug, PartialEq)]
pub struct Searched {
    pub told: Told,
    pub searches: u64,
}

#[derive(Clone, Copy, Debug, PartialEq)]
pub enum Verdict {
    Refused(u8),
    Yes,
    No,
}

/// The first camera, then the second.
pub type Fit = (u8, u8);

/// Whether the pair is found, and how many fits were looked at.
#[derive(Clone, Copy, Debug, PartialEq)]
pub struct Looked {
    pub found: bool,
    pub looked: u64,
}

pub trait Engine {
    fn answer_graph(&self, file: &[u8], caller: u32, out: &mut [u8], tally: &mut Tally) -> Told;
    /// A stock: the plan, directly followed by the sheet.
    fn stock(&self, file: &[u8], caller: u32, out: &mut [u8], tally: &mut Tally) -> Told;
    /// A stock, and the number of searches that are granted.
    fn budget(&self, file: &[u8], caller: u32, most: u32, out: &mut [u8], tally: &mut Tally) -> Searched;
    /// It names no caller and has no tally.
    fn check(&self, graph: &[u8], certificate: &[u8]) -> Verdict;
    /// A pair sought among fits: their first cameras stand in one slice, their second ones in the other, up to the shorter length.
    fn look_up(&self, firsts: &[u8], seconds: &[u8], sought: Fit) -> Looked;
    /// A state set to power-on, whatever bytes stood in its block.
    fn power_on(&self) -> Box<dyn Kept + '_>;
    /// A block of zero bytes, which is power-on too.
    fn zero_bytes(&self) -> Box<dyn Kept + '_>;
}

/// Up to eight pairings of one stock, under names of one byte. The calls tell 0, or the number of the first question answered no; they name
/// no caller and have no tally.
pub trait Kept {
    /// Set to power-on again, over what stands there.
    fn power_on(&mut self);
    /// A new stock, without names.
    fn bring(&mut self, file: &[u8]) -> u8;
    /// The pairs of a file of plan frames, under a name.
    fn keep(&mut self, name: u8, file: &[u8]) -> u8;
    fn forget(&mut self, name: u8) -> u8;
    /// The pairs last kept under a name, in plan frames.
    fn come_back(&mut self, name: u8, out: &mut [u8]) -> Told;
    /// The same bytes in another block, at another address.
    fn copied<'a>(&self) -> Box<dyn Kept + 'a>
    where
        Self: 'a;
}

#[derive(Clone, Debug, PartialEq)]
pub enum KeptCall {
    Bring(Vec<u8>),
    Keep(u8, Vec<u8>),
    /// with the room that is lent
    ComeBack(u8, usize),
    Forget(u8),
}

#[derive(Clone, Copy, Debug, PartialEq, Eq, PartialOrd, Ord)]
pub enum KeptKind {
    Bring,
    Keep,
    ComeBack,
    Forget,
}

pub const KEPT_KINDS: [KeptKind; 4] = [KeptKind::Bring, KeptKind::Keep, KeptKind::ComeBack, KeptKind::Forget];

impl KeptCall {
    pub fn kind(&self) -> KeptKind {
        match self {
            KeptCall::Bring(_) => KeptKind::Bring,
            KeptCall::Keep(..) => KeptKind::Keep,
            KeptCall::ComeBack(..) => KeptKind::ComeBack,
            KeptCall::Forget(_) => KeptKind::Forget,
        }
    }

    /// A stock has none.
    pub fn name(&self) -> Option<u8> {
        match self {
            KeptCall::Bring(_) => None,
            KeptCall::Keep(name, _) | KeptCall::ComeBack(name, _) | KeptCall::Forget(name) => Some(*name),
        }
    }

    /// What is handed in, nothing where no file is.
    pub fn file(&self) -> &[u8] {
        match self {
            KeptCall::Bring(file) | KeptCall::Keep(_, file) => file,
            KeptCall::ComeBack(..) | KeptCall::Forget(_) => &[],
        }
    }

    /// With a file in the place of its own, and a buffer of its room; only coming back writes there.
    pub fn by(&self, state: &mut dyn Kept, file: &[u8], out: &mut [u8]) -> Told {
        let number = match self {
            KeptCall::Bring(_) => state.bring(file),
            KeptCall::Keep(name, _) => state.keep(*name, file),
            KeptCall::Forget(name) => state.forget(*name),
            KeptCall::ComeBack(name, _) => return state.come_back(*name, out),
        };
        Told { number, size: 0 }
    }
}

#[derive(Clone, Copy, Debug, PartialEq)]
pub enum Call {
    Graph,
    Stock,
    /// with the number of searches that are granted
    Budget(u32),
}

#[derive(Clone, Copy, Debug, PartialEq, Eq, PartialOrd, Ord)]
pub enum CallKind {
    Graph,
    Stock,
    Budget,
}

pub const CALL_KINDS: [CallKind; 3] = [CallKind::Graph, CallKind::Stock, CallKind::Budget];

impl Call {
    pub fn kind(self) -> CallKind {
        match self {
            Call::Graph => CallKind::Graph,
            Call::Stock => CallKind::Stock,
            Call::Budget(_) => CallKind::Budget,
        }
    }

    /// Only the call with a budget tells searches.
    pub fn by(self, engine: &dyn Engine, file: &[u8], caller: u32, out: &mut [u8], tally: &mut Tally) -> Searched {
        let told = match self {
            Call::Graph => engine.answer_graph(file, caller, out, tally),
            Call::Stock => engine.stock(file, caller, out, tally),
            Call::Budget(most) => return engine.budget(file, caller, most, out, tally),
        };
        Searched { told, searches: 0 }
    }
}

/// The proved engine, where it is linked, and the files that were linked.
#[cfg(lanes_library)]
pub fn linked() -> Option<(Box<dyn Engine>, &'static str)> {
    Some((Box::new(library::Library), env!("LANES_LINKED")))
}

#[cfg(not(lanes_library))]
pub fn linked() -> Option<(Box<dyn Engine>, &'static str)> {
    None
}

/// The libraries' C functions (crates/lanes_c/include/lanes.h, and the look-up), each slice a pointer and a length, and a safe function
/// over each.
/// A call returns its number in the lowest byte and its size above; its tally is sixteen counts, caller by caller: paths, barriers, stocks,
/// refusals.
/// The call with a budget returns the size in bits 8 to 39 and the number of searches above.
/// The check returns 1 for yes, 0 for no, and otherwise the refusal, which is never below 2.
/// The look-up returns 1 where the pair is found, 0 where not, and writes how many fits it looked at.
/// The calls for kept pairings return 0 or the refusal, and coming back the size above it, in bits 8 to 39; each is lent the block.
#[cfg(lanes_library)]
pub mod library {
    use super::{AllCounts, Engine, Fit, Kept, Looked, Searched, Tally, Told, Verdict, CALLERS, OF_EACH};

    type Function = unsafe extern "C" fn(*const u8, usize, u32, *mut u8, usize, *mut AllCounts) -> u64;

    extern "C" {
        fn lanes_graph(file: *const u8, file_len: usize, caller: u32, out: *mut u8, out_len: usize, tally: *mut AllCounts)
            -> u64;
        fn lanes_stock(file: *const u8, file_len: usize, caller: u32, out: *mut u8, out_len: usize, tally: *mut AllCounts)
            -> u64;
        fn lanes_budget(
            file: *const u8,
            file_len: usize,
            caller: u32,
            most: u32,
            out: *mut u8,
            out_len: usize,
            tally: *mut AllCounts,
        ) -> u64;
        fn lanes_check(graph: *const u8, graph_len: usize, certificate: *const u8, certificate_len: usize) -> u8;
        fn files_look_up(
            firsts: *const u8,
            firsts_len: usize,
            seconds: *const u8,
            seconds_len: usize,
            first: u8,
            second: u8,
            looked: *mut [u64; 1],
        ) -> u8;
        fn lanes_power_on(state: *mut u8);
        fn lanes_bring(state: *mut u8, file: *const u8, file_len: usize) -> u8;
        fn lanes_keep(state: *mut u8, name: u8, file: *const u8, file_len: usize) -> u8;
        fn lanes_forget(state: *mut u8, name: u8) -> u8;
        fn lanes_come_back(state: *const u8, name: u8, out: *mut u8, out_len: usize) -> u64;
    }

    pub struct Library;

    /// What stands in the place of the look-up's number before the call, and before and after that place; half of it around a tally.
    const UNTOUCHED: u64 = 0xA5A5_A5A5_A5A5_A5A5;

    /// Words before and after a tally's counts, which no call may touch: as far as a caller of one byte would lead.
    const BESIDE: usize = 256 * OF_EACH;

    /// Something done with the counts of a tally in an array.
    fn with_counts(tally: &mut Tally, done: impl FnOnce(*mut AllCounts) -> u64) -> u64 {
        let mut words = [UNTOUCHED as u32; BESIDE + CALLERS * OF_EACH + BESIDE];
        words[BESIDE..][..CALLERS * OF_EACH].copy_from_slice(&tally.all());
        // the counts are those in the middle
        let told = done(unsafe { words.as_mut_ptr().add(BESIDE).cast() });
        let (before, rest) = words.split_at(BESIDE);
        let (all, after) = rest.split_first_chunk().unwrap();
        assert!(before.iter().chain(after).all(|word| *word == UNTOUCHED as u32), "a call writes beside its counts");
        *tally = Tally::of(*all);
        told
    }

    fn call(function: Function, file: &[u8], caller: u32, out: &mut [u8], tally: &mut Tally) -> Told {
        // each pointer, and its length, is that of one slice or array that is borrowed for the length of the call
        let told = with_counts(tally, |counts| unsafe {
            function(file.as_ptr(), file.len(), caller, out.as_mut_ptr(), out.len(), counts)
        });
        Told { number: told as u8, size: (told >> 8) as usize }
    }

    impl Engine for Library {
        fn answer_graph(&self, file: &[u8], caller: u32, out: &mut [u8], tally: &mut Tally) -> Told {
            call(lanes_graph, file, caller, out, tally)
        }

        fn stock(&self, file: &[u8], caller: u32, out: &mut [u8], tally: &mut Tally) -> Told {
            call(lanes_stock, file, caller, out, tally)
        }

        fn budget(&self, file: &[u8], caller: u32, most: u32, out: &mut [u8], tally: &mut Tally) -> Searched {
            // as above
            let told = with_counts(tally, |counts| unsafe {
                lanes_budget(file.as_ptr(), file.len(), caller, most, out.as_mut_ptr(), out.len(), counts)
            });
            let size = (told >> 8) as u32 as usize;
            Searched { told: Told { number: told as u8, size }, searches: told >> 40 }
        }

        fn check(&self, graph: &[u8], certificate: &[u8]) -> Verdict {
            // as above
            let said = unsafe { lanes_check(graph.as_ptr(), graph.len(), certificate.as_ptr(), certificate.len()) };
            match said {
                0 => Verdict::No,
                1 => Verdict::Yes,
                refusal => Verdict::Refused(refusal),
            }
        }

        fn look_up(&self, firsts: &[u8], seconds: &[u8], (first, second): Fit) -> Looked {
            let mut numbers = [UNTOUCHED; 3];
            // as above; the number is the one in the middle
            let said = unsafe {
                let looked = numbers.as_mut_ptr().add(1).cast();
                files_look_up(firsts.as_ptr(), firsts.len(), seconds.as_ptr(), seconds.len(), first, second, looked)
            };
            let [before, looked, after] = numbers;
            assert!(said <= 1, "the look-up returns {said}");
            assert!(before == UNTOUCHED && after == UNTOUCHED, "the look-up writes beside its number");
            Looked { found: said == 1, looked }
        }

        fn power_on(&self) -> Box<dyn Kept + '_> {
            Box::new(State::power_on())
        }

        fn zero_bytes(&self) -> Box<dyn Kept + '_> {
            Box::new(State::zero_bytes())
        }
    }

    // ---- kept pairings

    /// The bytes of a block (LANES_STATE).
    pub const STATE: usize = 8_828;

    /// Bytes before and behind a block that no call may touch, and what stands in them.
    const GUARD: usize = 512;
    const GUARDED: u8 = 0xA5;

    /// A block may stand at any address: a copy stands one byte further on, up to this many.
    const ADDRESSES: usize = 16;

    /// The block that is lent to the calls for kept pairings. Only these calls change it, so a Rust program holds it as a value: it may be
    /// moved and copied, and each copy goes on by itself. Such a program needs the 8,828 bytes alone; here bytes stand around them, and each
    /// call is held to leave those as they are, and a refused one the block too.
    #[derive(Clone)]
    pub struct State {
        bytes: Vec<u8>,
        start: usize,
    }

    impl State {
        pub fn power_on() -> State {
            let mut state = State::filled(GUARDED, GUARD);
            state.set_to_power_on();
            state
        }

        pub fn zero_bytes() -> State {
            State::filled(0, GUARD)
        }

        fn filled(byte: u8, start: usize) -> State {
            let mut bytes = vec![GUARDED; start + STATE + GUARD];
            bytes[start..start + STATE].fill(byte);
            State { bytes, start }
        }

        fn block(&self) -> &[u8] {
            &self.bytes[self.start..self.start + STATE]
        }

        /// The same bytes, further on.
        fn moved(&self) -> State {
            let mut other = State::filled(0, GUARD + (self.start - GUARD + 1) % ADDRESSES);
            let start = other.start;
            other.bytes[start..start + STATE].copy_from_slice(self.block());
            other
        }

        /// Something done with the block; what it tells.
        fn lent<T>(&mut self, done: impl FnOnce(*mut u8) -> T) -> T {
            // the block is the part in the middle
            let told = done(unsafe { self.bytes.as_mut_ptr().add(self.start) });
            let beside = self.bytes[..self.start].iter().chain(&self.bytes[self.start + STATE..]);
            assert!(beside.into_iter().all(|byte| *byte == GUARDED), "a call writes beside the block that is lent to it");
            told
        }

        /// The same, of a call that leaves the block as it is where it refuses.
        fn asked(&mut self, call: impl FnOnce(*mut u8) -> u8) -> u8 {
            let before = self.block().to_vec();
            let number = self.lent(call);
            assert!(number == 0 || before == self.block(), "refusal {number} changes the block");
            number
        }

        pub fn set_to_power_on(&mut self) {
            // the pointer is that of a block of STATE bytes, here and below
            self.lent(|block| unsafe { lanes_power_on(block) })
        }

        pub fn bring(&mut self, file: &[u8]) -> u8 {
            self.asked(|block| unsafe { lanes_bring(block, file.as_ptr(), file.len()) })
        }

        pub fn keep(&mut self, name: u8, file: &[u8]) -> u8 {
            self.asked(|block| unsafe { lanes_keep(block, name, file.as_ptr(), file.len()) })
        }

        pub fn forget(&mut self, name: u8) -> u8 {
            self.asked(|block| unsafe { lanes_forget(block, name) })
        }

        /// The answer stands at the front of the buffer. The block is not changed.
        pub fn come_back(&self, name: u8, out: &mut [u8]) -> Told {
            let mut lent = self.clone();
            let told = lent.lent(|block| unsafe { lanes_come_back(block, name, out.as_mut_ptr(), out.len()) });
            assert!(lent.block() == self.block(), "coming back changes the block");
            assert!(told >> 40 == 0, "coming back tells more than a number and a size: {told:X}");
            Told { number: told as u8, size: (told >> 8) as usize }
        }
    }

    impl Kept for State {
        fn power_on(&mut self) {
            self.set_to_power_on();
        }

        fn bring(&mut self, file: &[u8]) -> u8 {
            State::bring(self, file)
        }

        fn keep(&mut self, name: u8, file: &[u8]) -> u8 {
            State::keep(self, name, file)
        }

        fn forget(&mut self, name: u8) -> u8 {
            State::forget(self, name)
        }

        fn come_back(&mut self, name: u8, out: &mut [u8]) -> Told {
            State::come_back(self, name, out)
        }

        fn copied<'a>(&self) -> Box<dyn Kept + 'a> {
            Box::new(self.moved())
        }
    }
}
