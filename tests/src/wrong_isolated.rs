//! More engines with one part wrong: in which cameras are isolated, those without a fit, and in what follows from it (document 02, L2).
//!   engines              each with what is wrong of it
//!   taking, taking_left_over    document 01's marks, but 03 for other cameras than the isolated ones; for those marked 00 alone
//!   marking_isolated     another mark for the isolated cameras
//!   NOTED                cameras that are noted as having a fit: not all, or too many
//! Of what is noted wrongly there are two engines: one asks it of every camera, one of those that some largest pairing leaves over.

use crate::blossom::{augment, neighbours, pairs, partners};
use crate::frames::Pair;
use crate::reference::{self, Parts};
use crate::stock_trial::{self, includes, Standing, Stock, ISOLATED};
use crate::wrong::{named, Named};

pub fn engines() -> Vec<Named> {
    let mut all = other_marks();
    all.extend(other_cameras());
    all.extend(other_places());
    all.extend(other_parts());
    for (what, noted) in NOTED {
        let every = move |stock: &Stock| taking(stock, unnoted(noted(stock)));
        let left_over = move |stock: &Stock| taking_left_over(stock, unnoted(noted(stock)));
        all.push(named(&format!("03 but for {what}"), sheet(every)));
        all.push(named(&format!("03 in place of 00 but for {what}"), sheet(left_over)));
    }
    all
}

fn sheet(standing: impl Fn(&Stock) -> Standing + 'static) -> Parts {
    Parts { standing: Box::new(standing), ..Parts::right() }
}

// ---- marks by which cameras are taken for isolated

/// Document 01's marks: 00 for the isolated cameras.
fn before(stock: &Stock) -> Standing {
    marking_isolated(stock, 0)
}

fn marking_isolated(stock: &Stock, mark: usize) -> Standing {
    let mut standing = reference::standing(stock);
    stock.isolated().into_iter().for_each(|camera| standing.marks[camera] = mark);
    standing
}

fn taking(stock: &Stock, isolated: impl Fn(usize) -> bool) -> Standing {
    let mut standing = before(stock);
    (0..stock.cameras).filter(|camera| isolated(*camera)).for_each(|camera| standing.marks[camera] = ISOLATED);
    standing
}

fn taking_left_over(stock: &Stock, isolated: impl Fn(usize) -> bool) -> Standing {
    let marks = before(stock).marks;
    taking(stock, |camera| marks[camera] == 0 && isolated(camera))
}

/// The isolated cameras, some of them passed over.
fn passing_over(stock: &Stock, passed: impl Fn(usize) -> bool) -> Standing {
    taking(stock, |camera| stock.isolated().contains(&camera) && !passed(camera))
}

fn is_unlit(pairs: &[Pair], camera: usize) -> bool {
    !includes(pairs, camera)
}

// ---- other marks for isolated cameras

fn other_marks() -> Vec<Named> {
    vec![
        named("00 for an isolated camera", sheet(before)),
        named("01 for an isolated camera", sheet(|stock| marking_isolated(stock, 1))),
        named("02 for an isolated camera", sheet(|stock| marking_isolated(stock, 2))),
        named("04 for an isolated camera", sheet(|stock| marking_isolated(stock, 4))),
        named("03 only where no camera has a fit", sheet(|stock| passing_over(stock, |_| !stock.fits.is_empty()))),
        named("03 only where some camera has a fit", sheet(|stock| passing_over(stock, |_| stock.fits.is_empty()))),
        named("03 only where no pair is lit", sheet(|stock| passing_over(stock, |_| !stock.lit.is_empty()))),
        named("03 only where a pair is lit", sheet(|stock| passing_over(stock, |_| stock.lit.is_empty()))),
        named("03 only where one camera is isolated", sheet(|stock| passing_over(stock, |_| stock.isolated().len() > 1))),
    ]
}

// ---- 03 for other cameras

fn other_cameras() -> Vec<Named> {
    vec![
        named("03 for every camera", sheet(|stock| taking(stock, |_| true))),
        named("03 for every camera that some largest pairing leaves over", sheet(|stock| taking_left_over(stock, |_| true))),
        named("03 for every camera unlit in the plan at hand", sheet(unlit_in_plan)),
        named("03 for a camera unlit in the plan at hand though it has a fit, 00 for an isolated one", sheet(unlit_with_a_fit)),
        named(
            "03 for a camera with no more than one fit",
            sheet(|stock| taking(stock, |camera| fitting(stock, camera).len() <= 1)),
        ),
        named(
            "03 in place of 00 for a camera with no more than one fit",
            sheet(|stock| taking_left_over(stock, |camera| fitting(stock, camera).len() <= 1)),
        ),
        named("03 for a camera that fits only cameras with one fit", sheet(fitting_single_fits)),
        named("03 for two cameras that fit only each other", sheet(fitting_each_other)),
        named("03 for a camera marked 00 that fits none marked 00", sheet(|stock| fitting_none_marked(stock, 0))),
        named("03 for a camera marked 00 that fits none marked 01", sheet(|stock| fitting_none_marked(stock, 1))),
    ]
}

fn unlit_in_plan(stock: &Stock) -> Standing {
    let plan = reference::plan(stock);
    taking(stock, |camera| is_unlit(&plan, camera))
}

fn unlit_with_a_fit(stock: &Stock) -> Standing {
    let plan = reference::plan(stock);
    taking(stock, |camera| is_unlit(&plan, camera) && includes(&stock.fits, camera))
}

/// The cameras that a camera fits.
fn fitting(stock: &Stock, camera: usize) -> Vec<usize> {
    neighbours(stock.cameras, &stock.fits).swap_remove(camera)
}

fn fitting_single_fits(stock: &Stock) -> Standing {
    taking(stock, |camera| fitting(stock, camera).iter().all(|other| fitting(stock, *other).len() == 1))
}

fn fitting_each_other(stock: &Stock) -> Standing {
    let only = |camera: usize| fitting(stock, camera).len() == 1;
    taking(stock, |camera| fitting(stock, camera).iter().all(|other| only(camera) && only(*other)))
}

fn fitting_none_marked(stock: &Stock, mark: usize) -> Standing {
    let marks = before(stock).marks;
    taking_left_over(stock, |camera| fitting(stock, camera).iter().all(|other| marks[*other] != mark))
}

// ---- 03 in other places

fn other_places() -> Vec<Named> {
    let is = |stock: &Stock, camera: usize| stock.isolated().contains(&camera);
    vec![
        named("every mark at the next camera", sheet(|stock| shifted(stock, |marks| marks.rotate_right(1)))),
        named("every mark at the camera before", sheet(|stock| shifted(stock, |marks| marks.rotate_left(1)))),
        named(
            "03 at the camera after an isolated one",
            sheet(move |stock| taking(stock, |camera| camera > 0 && is(stock, camera - 1))),
        ),
        named("03 at the camera before an isolated one", sheet(move |stock| taking(stock, |camera| is(stock, camera + 1)))),
        named("camera 0 never 03", sheet(|stock| passing_over(stock, |camera| camera == 0))),
        named("the last camera never 03", sheet(|stock| passing_over(stock, |camera| camera + 1 == stock.cameras))),
        named("camera 126 never 03", sheet(|stock| passing_over(stock, |camera| camera == 126))),
        named("cameras 64 and above never 03", sheet(|stock| passing_over(stock, |camera| camera >= 64))),
        named(
            "03 for the first isolated camera alone",
            sheet(|stock| passing_over(stock, |camera| stock.isolated().first() != Some(&camera))),
        ),
        named(
            "03 for the last isolated camera alone",
            sheet(|stock| passing_over(stock, |camera| stock.isolated().last() != Some(&camera))),
        ),
        named(
            "03 only before the first camera that has a fit",
            sheet(|stock| passing_over(stock, |camera| is_after_a_fit(stock, camera))),
        ),
        named(
            "03 only after the last camera that has a fit",
            sheet(|stock| passing_over(stock, |camera| is_before_a_fit(stock, camera))),
        ),
    ]
}

fn shifted(stock: &Stock, shift: fn(&mut [usize])) -> Standing {
    let mut standing = reference::standing(stock);
    if !standing.marks.is_empty() {
        shift(&mut standing.marks);
    }
    standing
}

fn is_after_a_fit(stock: &Stock, camera: usize) -> bool {
    stock.fits.iter().any(|fit| fit.0 < camera)
}

fn is_before_a_fit(stock: &Stock, camera: usize) -> bool {
    stock.fits.iter().any(|fit| fit.1 > camera)
}

// ---- what follows from isolated cameras

fn other_parts() -> Vec<Named> {
    vec![
        named("isolated cameras left out of the sheet", sheet(left_out)),
        named("the greatest number half of the cameras that have a fit", sheet(half_of_fitting)),
        named("the greatest number by searches up to the first isolated camera", sheet(number_until_isolated)),
        named("a plan by searches up to the first isolated camera", Parts { plan: until_isolated, ..Parts::right() }),
        named("a stock with an isolated camera refused", Parts { read_stock: Box::new(refusing_isolated), ..Parts::right() }),
        named("a stock without a fit refused", Parts { read_stock: Box::new(refusing_no_fit), ..Parts::right() }),
    ]
}

fn left_out(stock: &Stock) -> Standing {
    let mut standing = reference::standing(stock);
    standing.marks.retain(|mark| *mark != ISOLATED);
    standing
}

fn half_of_fitting(stock: &Stock) -> Standing {
    Standing { greatest: (stock.cameras - stock.isolated().len()) / 2, ..reference::standing(stock) }
}

fn number_until_isolated(stock: &Stock) -> Standing {
    Standing { greatest: until_isolated(stock).len(), ..reference::standing(stock) }
}

fn until_isolated(stock: &Stock) -> Vec<Pair> {
    let lists = neighbours(stock.cameras, &stock.fits);
    let mut partner = partners(stock.cameras, &stock.lit);
    for root in (0..stock.cameras).take_while(|root| !lists[*root].is_empty()) {
        if partner[root].is_none() {
            let _ = augment(&lists, &mut partner, root);
        }
    }
    pairs(&partner)
}

fn refusing_isolated(file: &[u8]) -> Result<Stock, u8> {
    stock_trial::read(file).and_then(|stock| if stock.isolated().is_empty() { Ok(stock) } else { Err(9) })
}

fn refusing_no_fit(file: &[u8]) -> Result<Stock, u8> {
    stock_trial::read(file).and_then(|stock| if stock.fits.is_empty() && stock.cameras > 0 { Err(8) } else { Ok(stock) })
}

// ---- fits noted wrongly

type Noted = fn(&Stock) -> Vec<usize>;

const NOTED: [(&str, Noted); 11] = [
    ("the smaller camera of each fit", |stock| stock.fits.iter().map(|fit| fit.0).collect()),
    ("the larger camera of each fit", |stock| stock.fits.iter().map(|fit| fit.1).collect()),
    ("the cameras of lit pairs", |stock| both_ends(&stock.lit)),
    ("the cameras of fits that are not lit", |stock| both_ends(&unlit_fits(stock))),
    ("the cameras of all fits after the first", |stock| both_ends(stock.fits.get(1..).unwrap_or(&[]))),
    ("the cameras of all fits before the last", |stock| both_ends(stock.fits.split_last().map_or(&[], |split| split.1))),
    ("the cameras of the first fit", |stock| both_ends(&stock.fits[..stock.fits.len().min(1)])),
    ("the cameras of the last fit", |stock| both_ends(&stock.fits[stock.fits.len().saturating_sub(1)..])),
    ("the cameras of the first 255 fits", |stock| both_ends(&stock.fits[..stock.fits.len().min(255)])),
    ("the cameras of the first 3,899 fits", |stock| both_ends(&stock.fits[..stock.fits.len().min(3_899)])),
    ("the cameras of fits and those 64 before and after them", |stock| {
        both_ends(&stock.fits).iter().flat_map(|camera| [*camera, camera + 64, camera.wrapping_sub(64)]).collect()
    }),
];

fn unnoted(noted: Vec<usize>) -> impl Fn(usize) -> bool {
    move |camera| !noted.contains(&camera)
}

fn both_ends(pairs: &[Pair]) -> Vec<usize> {
    pairs.iter().flat_map(|(u, v)| [*u, *v]).collect()
}

fn unlit_fits(stock: &Stock) -> Vec<Pair> {
    stock.fits.iter().copied().filter(|fit| !stock.lit.contains(fit)).collect()
}
