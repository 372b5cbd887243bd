//! More engines with one part wrong: in the plan or in the sheet that a stock gets in one printout (document 02, L6). The other calls are
//! right.
//!   engines                 each with what is wrong of it
//!   numbering, numbering_sheet    other numbers of pairs in the headers and in the plan's end frame, or in the sheet's header alone
//!   marking, marking_from, remarking    other marks: by the stock, by alternating paths from some pairs, or the right ones changed
//!   planning, planning_and_marking    another plan, with its number in both halves, or with its marks too
//! First those with another number of pairs, then with other marks, then with another plan.

use crate::arc_matching::reachable;
use crate::blossom::{augment, marks_from, neighbours, partners, Partners};
use crate::frames::{file, pair_lines, plan_file, printout, sheet_file, Pair, PLAN};
use crate::generate::doubled_table;
use crate::reference::{self, Parts};
use crate::stock_trial::{all_pairings, includes, marks_by, Standing, Stock, ISOLATED};
use crate::wrong::{named, without_blossoms, Named};
use crate::wrong_budgets::{greatest, unlit};
use crate::wrong_printouts::{printing, without_end, without_header};
use std::collections::VecDeque;

pub fn engines() -> Vec<Named> {
    let mut all = other_numbers();
    all.extend(other_marks());
    all.extend(other_plans());
    all.into_iter().map(|(what, engine)| (format!("printout: {what}"), engine)).collect()
}

// ---- other numbers of pairs

/// The right lines, with these numbers in the plan's header, in its end frame and in the sheet's header.
fn numbering(number: impl Fn(&Stock, usize) -> [usize; 3] + 'static) -> Parts {
    printing(move |stock, plan, standing| {
        let [in_header, in_end, in_sheet] = number(stock, standing.greatest);
        let end = format!("{:02X}{in_end:04X}\n", PLAN.end);
        let lines = file(&format!("51{in_header:02X}"), &pair_lines(PLAN.bodies[0], plan), PLAN.end);
        [without_end(&lines), end.as_bytes(), &sheet_file(in_sheet, &standing.marks)].concat()
    })
}

/// The same of the sheet's header alone.
fn numbering_sheet(number: fn(&Stock) -> usize) -> Parts {
    numbering(move |stock, greatest| [greatest, greatest, number(stock)])
}

fn other_numbers() -> Vec<Named> {
    vec![
        named("the lit pairs' number in the sheet", numbering_sheet(|stock| stock.lit.len())),
        named("the lit pairs' number in the plan's header", numbering(|stock, greatest| [stock.lit.len(), greatest, greatest])),
        named(
            "the lit pairs' number in the plan's end frame",
            numbering(|stock, greatest| [greatest, stock.lit.len(), greatest]),
        ),
        named("the lit pairs' number in both headers", numbering(|stock, greatest| [stock.lit.len(), greatest, stock.lit.len()])),
        named("the number gained in the sheet", numbering_sheet(|stock| greatest(stock) - stock.lit.len())),
        named("the number of searches in the sheet", numbering_sheet(|stock| greatest(stock) - stock.lit.len() + 1)),
        named("one pair more in the sheet", numbering_sheet(|stock| greatest(stock) + 1)),
        named("one pair fewer in the sheet", numbering_sheet(|stock| greatest(stock).saturating_sub(1))),
        named("the number before the last pair was gained in the sheet", numbering_sheet(|stock| before_last(stock).len())),
        named("half the cameras in the sheet", numbering_sheet(|stock| stock.cameras / 2)),
        named(
            "half the cameras that have a fit in the sheet",
            numbering_sheet(|stock| (stock.cameras - stock.isolated().len()) / 2),
        ),
        named("the number of cameras in the sheet", numbering_sheet(|stock| stock.cameras)),
        named("the number of a search that improves once in the sheet", numbering_sheet(|stock| searched(stock, 1).len())),
        named(
            "the number of a search from no lit pair that improves once in the sheet",
            numbering_sheet(|stock| searched(&unlit(stock), 1).len()),
        ),
        named("the number of at most 32 searches in the sheet", numbering_sheet(|stock| searched(stock, 32).len())),
        named("the number of at most 62 searches in the sheet", numbering_sheet(|stock| searched(stock, 62).len())),
        named("the number of fits that leave each other free in the sheet", numbering_sheet(|stock| greedy(stock).len())),
        named("the number of a search without blossoms in the sheet", numbering_sheet(|stock| without_blossoms(stock).len())),
        named("the number of the sheet in base ten", printing(in_base_ten)),
    ]
}

fn searched(stock: &Stock, most: u32) -> Vec<Pair> {
    reference::search(stock, most).pairs
}

/// The pairing that the last search to light a pair started from, or the lit pairs.
fn before_last(stock: &Stock) -> Vec<Pair> {
    searched(stock, (greatest(stock) - stock.lit.len()).saturating_sub(1) as u32)
}

/// From the lit pairs on, each fit that leaves those before it free.
fn greedy(stock: &Stock) -> Vec<Pair> {
    let mut all = stock.lit.clone();
    for (one, other) in &stock.fits {
        if !includes(&all, *one) && !includes(&all, *other) {
            all.push((*one, *other));
        }
    }
    all.sort_unstable();
    all
}

fn in_base_ten(_: &Stock, plan: &[Pair], standing: &Standing) -> Vec<u8> {
    let sheet = sheet_file(standing.greatest, &standing.marks);
    [plan_file(plan), format!("41{:02}\n", standing.greatest).into_bytes(), without_header(&sheet).to_vec()].concat()
}

// ---- other marks

fn marking(marks: impl Fn(&Stock) -> Vec<usize> + 'static) -> Parts {
    Parts { standing: Box::new(move |stock| Standing { greatest: greatest(stock), marks: marks(stock) }), ..Parts::right() }
}

/// Marks by alternating paths from the cameras that these pairs leave over.
fn marking_from(start: fn(&Stock) -> Vec<Pair>) -> Parts {
    marking(move |stock| marks_from(stock.cameras, &stock.fits, &start(stock)))
}

/// The right marks, changed.
fn remarking(change: fn(&Stock, &[Pair], Vec<usize>) -> Vec<usize>) -> Parts {
    marking(move |stock| change(stock, &reference::plan(stock), reference::standing(stock).marks))
}

fn other_marks() -> Vec<Named> {
    vec![
        named("marks read before the last pair was gained", marking_from(before_last)),
        named("marks read before the first search", marking_from(|stock| stock.lit.clone())),
        named("marks read after one search", marking_from(|stock| searched(stock, 1))),
        named("marks read after 32 searches", marking_from(|stock| searched(stock, 32))),
        named(
            "marks read before the 64th search",
            marking_from(
                |stock| if greatest(stock) - stock.lit.len() == 63 { before_last(stock) } else { reference::plan(stock) },
            ),
        ),
        named("marks read where a search without blossoms ends", marking_from(without_blossoms)),
        named("marks read where no fit leaves the others free", marking_from(greedy)),
        named("marks of every search together", marking(of_every_search)),
        named("marks from the first camera left over alone", marking(|stock| from_root(stock, |roots| roots.first().copied()))),
        named("marks from the last camera left over alone", marking(|stock| from_root(stock, |roots| roots.last().copied()))),
        named("marks by paths that never come back to a camera", marking(by_trees)),
        named("cameras in buds marked 01", marking(|stock| by_nodes(stock, |_, odd| usize::from(odd)))),
        named(
            "cameras in buds marked 02",
            marking(|stock| by_nodes(stock, |even, odd| usize::from(odd) + usize::from(even && odd))),
        ),
        named("every camera reached marked 00", marking(|stock| by_nodes(stock, |_, _| 0))),
        named("marks by the plan at hand", marking(|stock| by_pairs(stock, &reference::plan(stock)))),
        named("marks by a plan of no lit pair at hand", marking(|stock| by_pairs(stock, &reference::plan(&unlit(stock))))),
        named("marks by the lit pairs", marking(|stock| by_pairs(stock, &stock.lit))),
        named(
            "marks by the fits of the plan alone",
            marking(|stock| marks_from(stock.cameras, &reference::plan(stock), &reference::plan(stock))),
        ),
        named("marks by the fits that are not lit", marking(|stock| marks_from(stock.cameras, &unlit_fits(stock), &[]))),
        named(
            "a lit camera never marked 00",
            remarking(|stock, _, marks| {
                changed(marks, |camera, mark| if mark == 0 && includes(&stock.lit, camera) { 2 } else { mark })
            }),
        ),
        named(
            "a lit camera marked 02",
            remarking(|stock, _, marks| changed(marks, |camera, mark| if includes(&stock.lit, camera) { 2 } else { mark })),
        ),
        named(
            "a camera of the plan never marked 00",
            remarking(|_, plan, marks| changed(marks, |camera, mark| if mark == 0 && includes(plan, camera) { 1 } else { mark })),
        ),
        named("00 and 01 exchanged", remarking(|_, _, marks| changed(marks, |_, mark| if mark < 2 { 1 - mark } else { mark }))),
        named(
            "02 for all where nothing is gained",
            remarking(|stock, plan, marks| all_02_if(plan.len() == stock.lit.len(), marks)),
        ),
        named(
            "02 for all where something is gained",
            remarking(|stock, plan, marks| all_02_if(plan.len() > stock.lit.len(), marks)),
        ),
        named("02 for all where no pair is lit", remarking(|stock, _, marks| all_02_if(stock.lit.is_empty(), marks))),
        named(
            "02 for all where the lit pairs leave one camera over",
            remarking(|stock, _, marks| all_02_if(stock.cameras == 2 * stock.lit.len() + 1, marks)),
        ),
        named(
            "02 for all where 63 pairs are gained",
            remarking(|stock, plan, marks| all_02_if(plan.len() == stock.lit.len() + 63, marks)),
        ),
        named(
            "marks of the plan's cameras alone",
            remarking(|_, plan, marks| of_cameras(marks, |camera| includes(plan, camera))),
        ),
        named(
            "marks of the cameras alone that the plan leaves over",
            remarking(|_, plan, marks| of_cameras(marks, |camera| !includes(plan, camera))),
        ),
        named("marks in the order of the plan", remarking(|_, plan, marks| in_order_of(plan, &marks))),
        named(
            "the last camera's mark left out",
            remarking(|_, _, marks| marks.split_last().map_or(Vec::new(), |(_, rest)| rest.to_vec())),
        ),
        named("at most 126 marks", remarking(|_, _, marks| marks.into_iter().take(126).collect())),
    ]
}

/// 00 for what some search reached evenly, the first of them too.
fn of_every_search(stock: &Stock) -> Vec<usize> {
    let gain = (greatest(stock) - stock.lit.len()) as u32;
    let mut left_over = vec![false; stock.cameras];
    for most in 0..=gain {
        let marks = marks_from(stock.cameras, &stock.fits, &searched(stock, most));
        marks.iter().zip(&mut left_over).for_each(|(mark, reached)| *reached |= *mark == 0);
    }
    marks_by(&left_over, &stock.fits)
}

/// The plan's partners, and the cameras that it leaves over though they have a fit.
fn plan_and_roots(stock: &Stock) -> (Partners, Vec<usize>) {
    let partner = partners(stock.cameras, &reference::plan(stock));
    let roots = (0..stock.cameras).filter(|camera| partner[*camera].is_none() && includes(&stock.fits, *camera)).collect();
    (partner, roots)
}

fn from_root(stock: &Stock, choice: fn(&[usize]) -> Option<usize>) -> Vec<usize> {
    let (mut partner, roots) = plan_and_roots(stock);
    let lists = neighbours(stock.cameras, &stock.fits);
    let reached = choice(&roots).and_then(|root| augment(&lists, &mut partner, root).err());
    marks_by(&reached.unwrap_or(vec![false; stock.cameras]), &stock.fits)
}

/// Breadth first from all cameras left over, each camera in one place of the tree.
fn by_trees(stock: &Stock) -> Vec<usize> {
    let (partner, roots) = plan_and_roots(stock);
    let lists = neighbours(stock.cameras, &stock.fits);
    let (mut met, mut even) = (vec![false; stock.cameras], vec![false; stock.cameras]);
    roots.iter().for_each(|root| (met[*root], even[*root]) = (true, true));
    let mut queue = VecDeque::from(roots);
    while let Some(camera) = queue.pop_front() {
        for odd in &lists[camera] {
            if let (false, Some(after)) = (std::mem::replace(&mut met[*odd], true), partner[*odd]) {
                (met[after], even[after]) = (true, true);
                queue.push_back(after);
            }
        }
    }
    marks_by(&even, &stock.fits)
}

/// Of a camera that has a fit, by whether regular paths reach its two nodes in the doubled table with the plan lit, the even one and the
/// odd one; right are 00 for the even one or both, 01 for the odd one alone and 02 for neither.
fn by_nodes(stock: &Stock, mark: fn(bool, bool) -> usize) -> Vec<usize> {
    let reached = reachable(&doubled_table(&Stock { lit: reference::plan(stock), ..stock.clone() }));
    changed(reference::standing(stock).marks, |camera, right| match (reached[2 * camera], reached[2 * camera + 1]) {
        (even, odd) if (even || odd) && right != ISOLATED => mark(even, odd),
        _ => right,
    })
}

/// 00 for the cameras that these pairs leave over.
fn by_pairs(stock: &Stock, pairs: &[Pair]) -> Vec<usize> {
    let left_over: Vec<bool> = (0..stock.cameras).map(|camera| !includes(pairs, camera)).collect();
    marks_by(&left_over, &stock.fits)
}

fn unlit_fits(stock: &Stock) -> Vec<Pair> {
    stock.fits.iter().copied().filter(|fit| !stock.lit.contains(fit)).collect()
}

fn changed(marks: Vec<usize>, change: impl Fn(usize, usize) -> usize) -> Vec<usize> {
    marks.iter().enumerate().map(|(camera, mark)| change(camera, *mark)).collect()
}

fn all_02_if(meant: bool, marks: Vec<usize>) -> Vec<usize> {
    if meant {
        vec![2; marks.len()]
    } else {
        marks
    }
}

fn of_cameras(marks: Vec<usize>, is_meant: impl Fn(usize) -> bool) -> Vec<usize> {
    marks.iter().enumerate().filter(|(camera, _)| is_meant(*camera)).map(|(_, mark)| *mark).collect()
}

/// First the cameras of the plan, pair by pair, and then the others.
fn in_order_of(plan: &[Pair], marks: &[usize]) -> Vec<usize> {
    let paired = plan.iter().flat_map(|(one, other)| [*one, *other]);
    let others = (0..marks.len()).filter(|camera| !includes(plan, *camera));
    paired.chain(others).map(|camera| marks[camera]).collect()
}

// ---- other plans

/// Another plan, and its number in both halves; the marks are right.
fn planning(plan: fn(&Stock) -> Vec<Pair>) -> Parts {
    printing(move |stock, _, standing| {
        let pairs = plan(stock);
        printout(&pairs, pairs.len(), &standing.marks)
    })
}

/// Another plan, its number in both halves, and its marks.
fn planning_and_marking(plan: fn(&Stock) -> Vec<Pair>) -> Parts {
    printing(move |stock, _, _| {
        let pairs = plan(stock);
        printout(&pairs, pairs.len(), &marks_from(stock.cameras, &stock.fits, &pairs))
    })
}

fn other_plans() -> Vec<Named> {
    vec![
        named("the lit pairs for the plan, and their number in both halves", planning(|stock| stock.lit.clone())),
        named("the lit pairs for the plan, their number and their marks", planning_and_marking(|stock| stock.lit.clone())),
        named(
            "the lit pairs for the plan where there are any",
            planning(|stock| if stock.lit.is_empty() { reference::plan(stock) } else { stock.lit.clone() }),
        ),
        named("a plan improved once, and its number in both halves", planning(|stock| searched(stock, 1))),
        named("a plan improved once, its number and its marks", planning_and_marking(|stock| searched(stock, 1))),
        named("the pairing before the last pair was gained, its number and its marks", planning_and_marking(before_last)),
        named("a plan of at most 32 searches, its number and its marks", planning_and_marking(|stock| searched(stock, 32))),
        named("a plan of at most 62 searches, its number and its marks", planning_and_marking(|stock| searched(stock, 62))),
        named("a plan without blossoms, its number and its marks", planning_and_marking(without_blossoms)),
        named("a plan of fits that leave each other free, its number and its marks", planning_and_marking(greedy)),
        named("a plan from no lit pair", planning(|stock| reference::plan(&unlit(stock)))),
        named("another plan where the lit pairs are largest", planning(other_largest)),
        named(
            "the pairs gained alone",
            planning(|stock| reference::plan(stock).into_iter().filter(|pair| !stock.lit.contains(pair)).collect()),
        ),
        named("the pairs gained behind those that were lit", planning(gained_last)),
        named("at most 62 pairs", planning(|stock| reference::plan(stock).into_iter().take(62).collect())),
        named("at most 62 pairs, with the right numbers", printing(|_, plan, standing| shortened(plan, standing))),
        named(
            "the plan's last pair left out, with the right numbers",
            printing(|_, plan, standing| framed(plan.split_last().map_or(&[], |(_, rest)| rest), standing)),
        ),
        named(
            "the plan's last pair twice, with the right numbers",
            printing(|_, plan, standing| framed(&plan.iter().chain(plan.last()).copied().collect::<Vec<Pair>>(), standing)),
        ),
    ]
}

/// Where the lit pairs are largest and there is another largest pairing that keeps their cameras, that one.
fn other_largest(stock: &Stock) -> Vec<Pair> {
    let plan = reference::plan(stock);
    if stock.cameras > 8 || plan != stock.lit {
        return plan;
    }
    let keeps = |pairs: &[Pair]| (0..stock.cameras).all(|camera| !includes(&stock.lit, camera) || includes(pairs, camera));
    let is_one = |other: &Vec<Pair>| *other != plan && other.len() == plan.len() && keeps(other);
    all_pairings(stock.cameras, &stock.fits).into_iter().find(is_one).unwrap_or(plan)
}

fn gained_last(stock: &Stock) -> Vec<Pair> {
    let (kept, gained): (Vec<Pair>, Vec<Pair>) = reference::plan(stock).into_iter().partition(|pair| stock.lit.contains(pair));
    [kept, gained].concat()
}

/// These pairs in the frames of the right number.
fn framed(pairs: &[Pair], standing: &Standing) -> Vec<u8> {
    let Standing { greatest, marks } = standing;
    let lines = file(&format!("51{greatest:02X}"), &pair_lines(PLAN.bodies[0], pairs), PLAN.end);
    let end = format!("{:02X}{greatest:04X}\n", PLAN.end);
    [without_end(&lines), end.as_bytes(), &sheet_file(*greatest, marks)].concat()
}

fn shortened(plan: &[Pair], standing: &Standing) -> Vec<u8> {
    framed(&plan[..plan.len().min(62)], standing)
}
