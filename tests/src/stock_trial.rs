//! Stocks by trial (document 01, "Stocks", "Questions put to a call"; document 02, L2).
//!   Stock                 number of cameras, fits, lit pairs; which cameras are isolated
//!   MOST_CAMERAS, MOST_PAIRS    how many cameras there may be, and how many pairs of them
//!   ask, read             one question put to a stock file; all in order
//!   lit_answers           a question of the lit pairs, put to a stock
//!   any_twice             two of some things are the same
//!   each_pairing, all_pairings    every pairing of the fits, once
//!   Standing              greatest number of pairs and every camera's mark
//!   standing              it, by all pairings
//!   ISOLATED              the mark of a camera without a fit
//!   marks_by              marks, by the fits and by which cameras some largest pairing leaves over
//!   is_rising_pairing     pairs are a pairing of the stock's fits, in order, and every lit camera is in one
//!   is_plan               pairs are a plan of the stock

use crate::frames::{first_no, number, stock_file, Pair, Text, STOCK};

#[derive(Clone, Debug, Default, PartialEq)]
pub struct Stock {
    pub cameras: usize,
    pub fits: Vec<Pair>,
    pub lit: Vec<Pair>,
}

impl Stock {
    pub fn file(&self) -> Vec<u8> {
        stock_file(self.cameras, &self.fits, &self.lit)
    }

    /// The cameras that have no fit, rising.
    pub fn isolated(&self) -> Vec<usize> {
        (0..self.cameras).filter(|camera| !includes(&self.fits, *camera)).collect()
    }
}

// ---- stock files

pub const MOST_CAMERAS: usize = 127;
pub const MOST_PAIRS: usize = 63;

pub const STOCK_QUESTIONS: [u8; 12] = [2, 3, 4, 5, 6, 7, 8, 9, 11, 12, 13, 14];

fn stock_in(text: &Text) -> Stock {
    Stock { cameras: number(text.header(), 2, 2), fits: text.pairs(0x12), lit: text.pairs(0x13) }
}

/// The smaller camera first in each pair, and the pairs strictly rising.
pub fn rises(pairs: &[Pair]) -> bool {
    pairs.iter().all(|(first, second)| first < second) && pairs.windows(2).all(|two| two[0] < two[1])
}

pub fn no_camera_twice(pairs: &[Pair]) -> bool {
    !any_twice(pairs.iter().flat_map(|(first, second)| [*first, *second]))
}

/// Two of all are the same.
pub fn any_twice<T: Ord>(all: impl Iterator<Item = T>) -> bool {
    let mut ordered: Vec<T> = all.collect();
    ordered.sort_unstable();
    ordered.windows(2).any(|two| two[0] == two[1])
}

pub fn includes(pairs: &[Pair], camera: usize) -> bool {
    pairs.iter().any(|(first, second)| *first == camera || *second == camera)
}

pub fn ask(text: &Text, question: u8) -> bool {
    let stock = stock_in(text);
    match question {
        5 => stock.cameras <= MOST_CAMERAS,
        8 => stock.fits.len() <= 3_900,
        9 => stock.fits.iter().all(|fit| is_named(&stock, fit)) && lit_answers(&stock, 9),
        11 => rises(&stock.fits),
        12..=14 => lit_answers(&stock, question),
        _ => text.answers(&STOCK, question),
    }
}

fn is_named(stock: &Stock, (first, second): &Pair) -> bool {
    *first < stock.cameras && *second < stock.cameras
}

/// Questions 9, of the lit pairs alone, and 12 to 14.
pub fn lit_answers(stock: &Stock, question: u8) -> bool {
    let is_fit = |(first, second): &Pair| stock.fits.contains(&(*first, *second)) || stock.fits.contains(&(*second, *first));
    match question {
        9 => stock.lit.iter().all(|pair| is_named(stock, pair)),
        12 => rises(&stock.lit),
        13 => stock.lit.iter().all(is_fit),
        14 => no_camera_twice(&stock.lit),
        _ => panic!("question {question} is not asked of lit pairs"),
    }
}

/// The stock of a file, or the number of the first question answered no.
pub fn read(file: &[u8]) -> Result<Stock, u8> {
    read_in_order(file, &STOCK_QUESTIONS)
}

pub fn read_in_order(file: &[u8], order: &[u8]) -> Result<Stock, u8> {
    let text = Text::of(file);
    match first_no(order, |question| ask(&text, question)) {
        0 => Ok(stock_in(&text)),
        refusal => Err(refusal),
    }
}

// ---- pairings

/// Hands every pairing of the fits to `visit`, each once. For small stocks.
pub fn each_pairing(cameras: usize, fits: &[Pair], visit: &mut dyn FnMut(&[Pair])) {
    extend_pairing(cameras, fits, 0, &mut Vec::new(), visit);
}

/// Every pairing of the fits, once. For small stocks.
pub fn all_pairings(cameras: usize, fits: &[Pair]) -> Vec<Vec<Pair>> {
    let mut all = Vec::new();
    each_pairing(cameras, fits, &mut |pairs| all.push(pairs.to_vec()));
    all
}

/// The camera is left over, or paired with a later one that is free: both ways, then the cameras after it.
fn extend_pairing(cameras: usize, fits: &[Pair], camera: usize, pairs: &mut Vec<Pair>, visit: &mut dyn FnMut(&[Pair])) {
    if camera == cameras {
        return visit(pairs);
    }
    extend_pairing(cameras, fits, camera + 1, pairs, visit);
    if includes(pairs, camera) {
        return;
    }
    for fit in fits.iter().filter(|fit| fit.0 == camera) {
        if !includes(pairs, fit.1) {
            pairs.push(*fit);
            extend_pairing(cameras, fits, camera + 1, pairs, visit);
            pairs.pop();
        }
    }
}

#[derive(Clone, Debug, PartialEq)]
pub struct Standing {
    pub greatest: usize,
    pub marks: Vec<usize>,
}

pub const ISOLATED: usize = 3;

/// By all pairings of the fits.
pub fn standing(cameras: usize, fits: &[Pair]) -> Standing {
    let mut greatest = 0;
    each_pairing(cameras, fits, &mut |pairs| greatest = greatest.max(pairs.len()));
    let mut left_over = vec![false; cameras];
    each_pairing(cameras, fits, &mut |pairs| {
        if pairs.len() == greatest {
            for camera in (0..cameras).filter(|camera| !includes(pairs, *camera)) {
                left_over[camera] = true;
            }
        }
    });
    Standing { greatest, marks: marks_by(&left_over, fits) }
}

/// A camera is isolated by the fits alone; the other marks are document 01's.
pub fn marks_by(left_over: &[bool], fits: &[Pair]) -> Vec<usize> {
    let fits_left_over = |camera: usize| {
        fits.iter().any(|(first, second)| (*first == camera && left_over[*second]) || (*second == camera && left_over[*first]))
    };
    let mark = |camera: usize| match (includes(fits, camera), left_over[camera], fits_left_over(camera)) {
        (false, _, _) => ISOLATED,
        (true, true, _) => 0,
        (true, false, true) => 1,
        (true, false, false) => 2,
    };
    (0..left_over.len()).map(mark).collect()
}

/// A pairing that leaves no lit camera unlit, and stands in order.
pub fn is_rising_pairing(stock: &Stock, pairs: &[Pair]) -> bool {
    let is_pairing = pairs.iter().all(|pair| stock.fits.contains(pair)) && no_camera_twice(pairs);
    let keeps_lit = (0..stock.cameras).all(|camera| !includes(&stock.lit, camera) || includes(pairs, camera));
    is_pairing && keeps_lit && rises(pairs)
}

/// The same, largest, and the lit pairs if those are largest.
pub fn is_plan(stock: &Stock, greatest: usize, pairs: &[Pair]) -> bool {
    let lit_if_largest = stock.lit.len() != greatest || pairs == stock.lit;
    pairs.len() == greatest && lit_if_largest && is_rising_pairing(stock, pairs)
}
