//! What is tried with isolated cameras, those that have no fit (document 02, L2); elsewhere they are tried beside other things.
//!   known                 the known stocks, with all line ends and, where they are small, with every pairing lit
//!   equal_sheets          every stock of up to five cameras: equal sheets mean the same isolated cameras
//!   other_lit_pairs       the sheet remains, whichever pairs are lit
//!   one_in_each_place     an isolated camera put in at each place of a stock: no two sheets are equal
//!   last_fit_taken        the fits of a camera taken away one by one: it has mark 03 after the last, and the sheet is another
//!   every_set             six to eight cameras, every set of them isolated, the others in a shape whose marks are plain
//!   random_stocks         random stocks with isolated cameras
//!   largest_stocks        127 cameras, most or a few of them isolated
//!   three_apart           127 cameras and 3,900 fits, of which the first two or the last two are all that three cameras have
//! Sheets are compared with one another as the engine gave them behind a plan, whatever the trial says of their marks.

use crate::cases::{by_trial, one_of, stock_answer};
use crate::engine::Call;
use crate::exhaustive::every_fits;
use crate::frames::{sheet_in, Pair, Text, SHEET};
use crate::generate::{
    all_fits, ear_fits, nearly_largest_lit, placed, places_among, some_fits, some_lit, stock_of, stock_with_isolated,
};
use crate::judge::{shown, Judge, Trial};
use crate::known::isolated_stocks;
use crate::large::try_stock;
use crate::shapes::{row, triangles_in_a_row};
use crate::stock_trial::{all_pairings, includes, Standing, Stock, ISOLATED};
use std::collections::{BTreeMap, BTreeSet};

// ---- known stocks

/// Up to this size every pairing is lit.
const FEW_CAMERAS: usize = 10;

pub fn known(judge: &mut Judge) -> Trial {
    for known in isolated_stocks() {
        let stock = &known.stock;
        one_of(known.name, &stock_answer(judge, &stock.file())?, &known.answers())?;
        judge.made_stock(stock)?;
        if stock.cameras <= FEW_CAMERAS {
            for lit in all_pairings(stock.cameras, &stock.fits) {
                let file = Stock { lit, ..stock.clone() }.file();
                judge.stock(&file)?;
                one_of(known.name, sheet_in(&stock_answer(judge, &file)?), std::slice::from_ref(&known.sheet))?;
            }
        }
    }
    Ok(())
}

// ---- sheets compared with one another

/// A sheet as the engine gives it; neither it nor the plan before it is judged.
fn given_sheet(judge: &mut Judge, stock: &Stock) -> Result<Vec<u8>, String> {
    judge.given(Call::Stock, &stock.file()).map(|answer| sheet_in(&answer).to_vec())
}

fn fault(what: &str, stock: &Stock, sheet: &[u8]) -> Trial {
    Err(format!("{what}:\n{}to:\n{}", shown(sheet), shown(&stock.file())))
}

pub fn equal_sheets(judge: &mut Judge) -> Trial {
    let mut by_sheet: BTreeMap<Vec<u8>, Vec<usize>> = BTreeMap::new();
    for cameras in 0..=5 {
        for fits in every_fits(cameras) {
            let stock = stock_of(cameras, &fits, &[]);
            let sheet = given_sheet(judge, &stock)?;
            let isolated = by_sheet.entry(sheet.clone()).or_insert(stock.isolated());
            if *isolated != stock.isolated() {
                return fault("a stock with other isolated cameras gets the same sheet", &stock, &sheet);
            }
        }
    }
    Ok(())
}

pub fn other_lit_pairs(judge: &mut Judge, files: usize) -> Trial {
    (0..files).try_for_each(|_| {
        let random = &mut judge.random;
        let stock = stock_with_isolated(random);
        let some = some_lit(random, &stock.fits, 50);
        let most = nearly_largest_lit(stock.cameras, &stock.fits, 0);
        let sheet = given_sheet(judge, &stock)?;
        [Vec::new(), some, most].into_iter().try_for_each(|lit| {
            let other = stock_of(stock.cameras, &stock.fits, &lit);
            if given_sheet(judge, &other)? == sheet {
                return Ok(());
            }
            fault("with other lit pairs the sheet is not", &other, &sheet)
        })
    })
}

pub fn one_in_each_place(judge: &mut Judge, files: usize) -> Trial {
    (0..files).try_for_each(|_| {
        let random = &mut judge.random;
        let own = random.between(2, 7);
        // each camera fits one before it
        let fits: Vec<Pair> = (1..own).map(|camera| (random.below(camera), camera)).collect();
        let stock = stock_of(own, &fits, &some_lit(random, &fits, 50));
        let mut sheets = BTreeSet::new();
        (0..=own).try_for_each(|place| {
            let places: Vec<usize> = (0..place).chain(place + 1..own + 1).collect();
            let other = placed(&stock, own + 1, &places);
            let sheet = given_sheet(judge, &other)?;
            if sheets.insert(sheet.clone()) {
                return Ok(());
            }
            fault("with another camera isolated the sheet is the same", &other, &sheet)
        })
    })
}

pub fn last_fit_taken(judge: &mut Judge, files: usize) -> Trial {
    (0..files).try_for_each(|_| {
        let random = &mut judge.random;
        let mut stock = stock_with_isolated(random);
        while stock.fits.is_empty() {
            stock = stock_with_isolated(random);
        }
        let (u, v) = *random.choose(&stock.fits);
        let camera = *random.choose(&[u, v]);
        take_fits(judge, stock, camera)
    })
}

fn take_fits(judge: &mut Judge, mut stock: Stock, camera: usize) -> Trial {
    let mut before = given_sheet(judge, &stock)?;
    while let Some(fit) = stock.fits.iter().copied().find(|fit| fit.0 == camera || fit.1 == camera) {
        stock.fits.retain(|other| *other != fit);
        stock.lit.retain(|other| *other != fit);
        let sheet = given_sheet(judge, &stock)?;
        let left = includes(&stock.fits, camera);
        let marked = Text::of(&sheet).pairs(SHEET.bodies[0]).contains(&(camera, ISOLATED));
        if marked == left || (marked && sheet == before) {
            return fault(&format!("a fit of camera {camera} was taken away"), &stock, &sheet);
        }
        before = sheet;
    }
    Ok(())
}

// ---- sets of isolated cameras

/// Fits among some cameras, the greatest number of pairs, and the marks. A single camera has no fit.
type Shape = fn(usize) -> (Vec<Pair>, Standing);

const SHAPES: [Shape; 4] = [in_row, ring, star, all_fit];

fn in_row(cameras: usize) -> (Vec<Pair>, Standing) {
    let (stock, standing) = row(cameras, cameras);
    (stock.fits, standing)
}

/// The standing where all are alike: of an odd number each may be left over, of an even number none.
fn alike(cameras: usize) -> Standing {
    let mark = match cameras {
        1 => ISOLATED,
        number if number % 2 == 0 => 2,
        _ => 0,
    };
    Standing { greatest: cameras / 2, marks: vec![mark; cameras] }
}

fn ring(cameras: usize) -> (Vec<Pair>, Standing) {
    let mut fits: Vec<Pair> = (1..cameras).map(|camera| (camera - 1, camera)).collect();
    if cameras > 2 {
        fits.push((0, cameras - 1));
    }
    (fits, alike(cameras))
}

fn all_fit(cameras: usize) -> (Vec<Pair>, Standing) {
    (all_fits(cameras), alike(cameras))
}

/// The last camera fits each other one.
fn star(cameras: usize) -> (Vec<Pair>, Standing) {
    if cameras < 3 {
        return in_row(cameras);
    }
    let marks = (0..cameras).map(|camera| usize::from(camera + 1 == cameras)).collect();
    ((0..cameras - 1).map(|camera| (camera, cameras - 1)).collect(), Standing { greatest: 1, marks })
}

/// A stock's own marks at the places of its cameras, 03 elsewhere.
fn among(standing: &Standing, cameras: usize, places: &[usize]) -> Standing {
    let mut marks = vec![ISOLATED; cameras];
    places.iter().zip(&standing.marks).for_each(|(place, mark)| marks[*place] = *mark);
    Standing { greatest: standing.greatest, marks }
}

pub fn every_set(judge: &mut Judge) -> Trial {
    for cameras in 6..=8 {
        for set in 0..1_usize << cameras {
            let places: Vec<usize> = (0..cameras).filter(|camera| set >> camera & 1 == 1).collect();
            for shape in SHAPES {
                let (fits, standing) = shape(places.len());
                let lit = some_lit(&mut judge.random, &fits, 50);
                let stock = placed(&stock_of(places.len(), &fits, &lit), cameras, &places);
                try_stock(judge, &stock, Some(among(&standing, cameras, &places)))?;
            }
        }
    }
    Ok(())
}

// ---- random and large stocks

pub fn random_stocks(judge: &mut Judge, files: usize) -> Trial {
    (0..files).try_for_each(|_| {
        let stock = stock_with_isolated(&mut judge.random);
        judge.made_stock(&stock)
    })
}

pub fn largest_stocks(judge: &mut Judge) -> Trial {
    let random = &mut judge.random;
    let (few, most) = (random.between(2, 60), random.between(100, 126));
    for (own, (fits, standing)) in
        [few, 63, most].into_iter().flat_map(|own| SHAPES[..3].iter().map(move |shape| (own, shape(own))))
    {
        let lit = some_lit(&mut judge.random, &fits, 60);
        among_127(judge, &stock_of(own, &fits, &lit), Some(standing))?;
    }
    let standing = Standing { greatest: 63, marks: vec![2; 126] };
    among_127(judge, &triangles_in_a_row(1), Some(standing))?;
    let fits = ear_fits(&mut judge.random, 101);
    let lit = nearly_largest_lit(101, &fits, 2);
    among_127(judge, &stock_of(101, &fits, &lit), Some(Standing { greatest: 50, marks: vec![0; 101] }))?;
    // 64 cameras that all fit but for two pairs, and a few fits among 100
    for (own, number) in [(64, 2_014), (100, 60)] {
        let fits = some_fits(&mut judge.random, own, number);
        let lit = some_lit(&mut judge.random, &fits, 60);
        among_127(judge, &stock_of(own, &fits, &lit), None)?;
    }
    one_fit_of_127(judge)
}

fn among_127(judge: &mut Judge, stock: &Stock, known: Option<Standing>) -> Trial {
    let places = places_among(&mut judge.random, stock.cameras, 127 - stock.cameras);
    let known = known.map(|standing| among(&standing, 127, &places));
    try_stock(judge, &placed(stock, 127, &places), known)
}

/// 3,900 fits: of three cameras one fits the two others, by the first two fits or by the last two. Of 89 more, nearly all fit each other,
/// so that each may be left over. The others, between them, are isolated.
pub fn three_apart(judge: &mut Judge) -> Trial {
    let dense = &all_fits(89)[..3_898];
    let after = |number: usize, pairs: &[Pair]| -> Vec<Pair> { pairs.iter().map(|(u, v)| (u + number, v + number)).collect() };
    let three = [(0, 1), (0, 2)];
    for (fits, center, before) in
        [([&three, &after(3, dense)[..]].concat(), 0, 3), ([dense, &after(89, &three)].concat(), 89, 89)]
    {
        let lit = some_lit(&mut judge.random, &fits, 60);
        let marks = (0..92).map(|camera| usize::from(camera == center)).collect();
        let places: Vec<usize> = (0..before).chain(before + 35..127).collect();
        let known = among(&Standing { greatest: 45, marks }, 127, &places);
        try_stock(judge, &placed(&stock_of(92, &fits, &lit), 127, &places), Some(known))?;
    }
    Ok(())
}

/// A fit between any two cameras: both have mark 02.
fn one_fit_of_127(judge: &mut Judge) -> Trial {
    (0..8).try_for_each(|number| {
        let random = &mut judge.random;
        let (u, v) = (random.below(63), random.between(63, 126));
        let lit: &[Pair] = if number % 2 == 0 { &[] } else { &[(u, v)] };
        let stock = stock_of(127, &[(u, v)], lit);
        by_trial(&stock.file(), stock.isolated().len(), 125)?;
        try_stock(judge, &stock, Some(among(&Standing { greatest: 1, marks: vec![2; 2] }, 127, &[u, v])))
    })
}
