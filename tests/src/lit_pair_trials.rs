//! What is tried with question 13: is each lit pair a fit? The look-up behind it ends early (document 02, L3), and files do not show it.
//!   known                 stocks with their refusals written out, those of which lit pairs are fits among them
//!   many_pairs            the same with more fits than a byte counts, or more lit pairs than cameras allow
//!   fits_lit              random stocks, each fit lit, alone and beside others
//!   no_fit_in_each_place  random stocks, a lit pair that is no fit at each place between their fits
//!   every_set             every stock of up to four cameras with every set of pairs lit
//!   beside_3900_fits      lit pairs in every part of 3,900 fits, and between them
//! A lit pair that is no fit is refused before a camera in two lit pairs is.

use crate::cases::stock_refusal;
use crate::exhaustive::every_fits;
use crate::frames::Pair;
use crate::generate::{all_fits, in_order, nearly_largest_lit, some_fits, some_lit, stock_of};
use crate::judge::{Judge, Trial};
use crate::known::{stock, S7};
use crate::random::Random;
use crate::stock_trial::{no_camera_twice, Stock};

/// The trial and the engine both say so; 0 for an answer.
fn gets(judge: &mut Judge, stock: &Stock, right: u8) -> Trial {
    if [0, 13, 14].contains(&right) {
        judge.seen.lit_pairs(stock);
    }
    stock_refusal(judge, &stock.file(), right)
}

// ---- known stocks

pub fn known(judge: &mut Judge) -> Trial {
    one_of_s7_lit(judge)?;
    some_of_s7_lit(judge)?;
    beside_one_fit(judge)
}

fn one_of_s7_lit(judge: &mut Judge) -> Trial {
    let lit = [
        ((0, 1), 0),
        ((0, 2), 0),
        ((0, 3), 13),
        ((0, 4), 13),
        ((0, 5), 13),
        ((1, 2), 0),
        ((1, 3), 13),
        ((1, 4), 13),
        ((1, 5), 13),
        ((2, 3), 0),
        ((2, 4), 13),
        ((2, 5), 13),
        ((3, 4), 0),
        ((3, 5), 0),
        ((4, 5), 0),
        // not the smaller camera first, and no camera
        ((1, 0), 12),
        ((3, 2), 12),
        ((3, 3), 12),
        ((4, 6), 9),
    ];
    lit.into_iter().try_for_each(|(pair, right)| gets(judge, &stock(6, &S7, &[pair]), right))
}

/// Camera 6 has no fit.
fn some_of_s7_lit(judge: &mut Judge) -> Trial {
    let lit: [(&[Pair], u8); 21] = [
        (&[(0, 1), (2, 3)], 0),
        (&[(0, 1), (2, 3), (4, 5)], 0),
        (&[(0, 2), (3, 4)], 0),
        (&[(1, 2), (4, 5)], 0),
        // the first, the middle one or the last is no fit
        (&[(0, 3), (1, 2), (4, 5)], 13),
        (&[(0, 1), (2, 4), (3, 5)], 13),
        (&[(0, 2), (1, 3), (4, 5)], 13),
        (&[(0, 1), (2, 3), (4, 6)], 13),
        (&[(0, 1), (3, 4), (5, 6)], 13),
        (&[(0, 1), (2, 4)], 13),
        (&[(0, 4), (3, 5)], 13),
        // more than one
        (&[(0, 3), (1, 2), (4, 6)], 13),
        (&[(0, 3), (1, 4), (2, 5)], 13),
        // a camera in two
        (&[(0, 1), (0, 2)], 14),
        (&[(0, 1), (1, 2), (4, 5)], 14),
        (&[(0, 1), (0, 3)], 13),
        (&[(0, 1), (0, 2), (4, 6)], 13),
        (&[(0, 3), (3, 4), (4, 5)], 13),
        (&[(0, 1), (1, 5), (4, 5)], 13),
        // not rising
        (&[(2, 3), (0, 1)], 12),
        (&[(0, 1), (0, 1)], 12),
    ];
    lit.into_iter().try_for_each(|(lit, right)| gets(judge, &stock(7, &S7, lit), right))
}

/// Fit 2-4 of seven cameras, and no fit at all.
fn beside_one_fit(judge: &mut Judge) -> Trial {
    for pair in all_fits(7) {
        gets(judge, &stock(7, &[(2, 4)], &[pair]), if pair == (2, 4) { 0 } else { 13 })?;
        gets(judge, &stock(7, &[], &[pair]), 13)?;
    }
    gets(judge, &stock(7, &[(2, 4)], &[]), 0)?;
    gets(judge, &stock(7, &[], &[]), 0)
}

/// More fits than a byte counts, and more lit pairs than cameras allow.
pub fn many_pairs(judge: &mut Judge) -> Trial {
    // 276 fits of 24 cameras
    let of_24 = all_fits(24);
    for lit in [&[(0, 1), (22, 23)][..], &[(11, 23), (21, 22)]] {
        gets(judge, &stock(24, &of_24, lit), 0)?;
    }
    for place in [0, 254, 255, 256, 275] {
        let (pair, mut others) = (of_24[place], of_24.clone());
        others.remove(place);
        gets(judge, &stock(24, &of_24, &[pair]), 0)?;
        gets(judge, &stock(24, &others, &[pair]), 13)?;
    }
    // all 66 pairs of twelve cameras lit, of which the first, one, or the last is no fit
    let of_12 = all_fits(12);
    for place in [0, 30, 62, 63, 64, 65] {
        let mut others = of_12.clone();
        others.remove(place);
        gets(judge, &stock(12, &others, &of_12), 13)?;
    }
    gets(judge, &stock(12, &of_12, &of_12), 14)
}

// ---- random stocks

/// Some fits of some cameras, in the file's order.
fn some_stock(random: &mut Random) -> Stock {
    let cameras = random.between(4, 14);
    let number = random.between(1, 3 * cameras);
    let fits = some_fits(random, cameras, number);
    stock_of(cameras, &fits, &[])
}

fn are_apart(one: Pair, other: Pair) -> bool {
    no_camera_twice(&[one, other])
}

/// The pair beside lit fits that leave its cameras free.
fn beside_others(random: &mut Random, stock: &Stock, pair: Pair) -> Stock {
    let others: Vec<Pair> = stock.fits.iter().copied().filter(|fit| are_apart(*fit, pair)).collect();
    let percent = *random.choose(&[20, 50, 100]);
    let lit = [&some_lit(random, &others, percent)[..], &[pair]].concat();
    Stock { lit: in_order(&lit), ..stock.clone() }
}

pub fn fits_lit(judge: &mut Judge, files: usize) -> Trial {
    (0..files).try_for_each(|_| {
        let stock = some_stock(&mut judge.random);
        stock.fits.iter().try_for_each(|fit| {
            gets(judge, &Stock { lit: vec![*fit], ..stock.clone() }, 0)?;
            let more = beside_others(&mut judge.random, &stock, *fit);
            gets(judge, &more, 0)
        })?;
        let right = if no_camera_twice(&stock.fits) { 0 } else { 14 };
        gets(judge, &Stock { lit: stock.fits.clone(), ..stock }, right)
    })
}

/// Pairs that are no fits: for each place among the fits, and before and after all of them, one where there is any.
fn unfit_in_each_place(random: &mut Random, stock: &Stock) -> Vec<Pair> {
    let Stock { cameras, fits, .. } = stock;
    let unfit: Vec<Pair> = all_fits(*cameras).into_iter().filter(|pair| !fits.contains(pair)).collect();
    let in_place = |place: usize| -> Vec<Pair> {
        unfit.iter().copied().filter(|pair| fits.iter().filter(|fit| *fit < pair).count() == place).collect()
    };
    let places = (0..=fits.len()).map(in_place).filter(|pairs| !pairs.is_empty());
    places.map(|pairs| *random.choose(&pairs)).collect()
}

pub fn no_fit_in_each_place(judge: &mut Judge, files: usize) -> Trial {
    (0..files).try_for_each(|_| {
        let stock = some_stock(&mut judge.random);
        let unfit = unfit_in_each_place(&mut judge.random, &stock);
        unfit.iter().try_for_each(|pair| {
            gets(judge, &Stock { lit: vec![*pair], ..stock.clone() }, 13)?;
            let more = beside_others(&mut judge.random, &stock, *pair);
            gets(judge, &more, 13)?;
            // a camera in two lit pairs, by one more fit or by one more pair that is none
            let from = if judge.random.chance(70) { &stock.fits } else { &unfit };
            let again = *judge.random.choose(from);
            let lit = in_order(&[&more.lit[..], &[again]].concat());
            gets(judge, &Stock { lit, ..stock.clone() }, 13)
        })
    })
}

// ---- every stock of a size

pub fn every_set(judge: &mut Judge) -> Trial {
    for cameras in 0..=4 {
        for fits in every_fits(cameras) {
            for lit in every_fits(cameras) {
                let right = match (lit.iter().all(|pair| fits.contains(pair)), no_camera_twice(&lit)) {
                    (false, _) => 13,
                    (true, false) => 14,
                    (true, true) => 0,
                };
                gets(judge, &stock(cameras, &fits, &lit), right)?;
            }
        }
    }
    Ok(())
}

// ---- the largest stocks

/// 0-1 and 125-126 are no fits, so that one pair stands before all fits and one after them.
pub fn beside_3900_fits(judge: &mut Judge) -> Trial {
    let random = &mut judge.random;
    let mut pairs: Vec<Pair> = all_fits(127).into_iter().filter(|pair| *pair != (0, 1) && *pair != (125, 126)).collect();
    random.shuffle(&mut pairs);
    let (fits, unfit) = pairs.split_at(3_900);
    let stock = stock_of(127, fits, &[]);
    let unfit = [&[(0, 1), (125, 126)], &unfit[..10]].concat();
    for pair in unfit {
        gets(judge, &Stock { lit: vec![pair], ..stock.clone() }, 13)?;
        let more = beside_others(&mut judge.random, &stock, pair);
        gets(judge, &more, 13)?;
    }
    let lit = nearly_largest_lit(127, &stock.fits, 0);
    gets(judge, &stock_of(127, &stock.fits, &lit), 0)?;
    for place in [0, 254, 255, 256, 1_950, 3_898, 3_899] {
        gets(judge, &Stock { lit: vec![stock.fits[place]], ..stock.clone() }, 0)?;
    }
    Ok(())
}
