//! What is tried with the look-up of a pair among fits (document 02, L3).
//!   known               look-ups written out with their answers, from no fit to 4,000
//!   around_two_bytes    the same of 65,536 fits
//!   answers_compared    answers held to the fits and to one another, whatever the trial says of them
//!   short_lists         random fits that rise, each place of them
//!   long_lists          up to 3,900 of them
//!   most_fits           every place of 3,900 fits
//!   other_lists         random fits that do not rise, or with repeats, and slices of different lengths
//!   every_rising_list   every list of fits over few cameras, and every pair
//!   every_short_list    every list of up to four pairs, rising or not, and every two slices of up to three cameras
//! What a look-up owes is told by `truth::look_up_owed`.

use crate::engine::{Fit, Looked};
use crate::exhaustive::{every_fits, texts};
use crate::fit_lists::{
    every_place, first_fits, joined, long_list, number_of, of_number, other_list, parted, rises, rising, short_list, sought_in,
    MOST_FITS,
};
use crate::judge::{shown_fits, Judge, Trial};
use crate::truth::{is_equal_or_larger, look_up_owed};

// ---- known look-ups

/// A pair sought, whether it is found, and how many fits are looked at.
type Known = (Fit, bool, u64);

pub fn known(judge: &mut Judge) -> Trial {
    no_fit_and_one(judge)?;
    fits_of_s7(judge)?;
    any_bytes(judge)?;
    not_rising(judge)?;
    other_lengths(judge)?;
    around_a_byte(judge)?;
    fits_3900(judge)
}

/// The trial and the engine both say so.
fn known_in(judge: &mut Judge, firsts: &[u8], seconds: &[u8], known: &[Known]) -> Trial {
    let fits = joined(firsts, seconds);
    known.iter().try_for_each(|(sought, found, looked)| {
        let (by_trial, right) = (look_up_owed(&fits, *sought), Looked { found: *found, looked: *looked });
        if by_trial != right {
            let fits = shown_fits(firsts, seconds);
            return Err(format!("{sought:?} looked up: the trial says {by_trial:?}, document 02 {right:?}\n{fits}"));
        }
        judge.look_up_in(firsts, seconds, *sought)
    })
}

fn known_among(judge: &mut Judge, fits: &[Fit], known: &[Known]) -> Trial {
    let (firsts, seconds) = parted(fits);
    known_in(judge, &firsts, &seconds, known)
}

fn no_fit_and_one(judge: &mut Judge) -> Trial {
    known_among(judge, &[], &[((0, 0), false, 0), ((0, 1), false, 0), ((3, 7), false, 0), ((255, 255), false, 0)])?;
    let of_one = [
        ((0, 0), false, 1),
        ((0, 255), false, 1),
        ((3, 3), false, 1),
        ((3, 6), false, 1),
        ((3, 7), true, 1),
        ((3, 8), false, 1),
        ((4, 0), false, 1),
        ((7, 3), false, 1),
        ((255, 255), false, 1),
    ];
    known_among(judge, &[(3, 7)], &of_one)
}

/// Document 01's S7.
fn fits_of_s7(judge: &mut Judge) -> Trial {
    let fits = [(0, 1), (0, 2), (1, 2), (2, 3), (3, 4), (3, 5), (4, 5)];
    let known = [
        ((0, 0), false, 1),
        ((0, 1), true, 1),
        ((0, 2), true, 2),
        ((0, 3), false, 3),
        ((1, 0), false, 3),
        ((1, 1), false, 3),
        ((1, 2), true, 3),
        ((1, 3), false, 4),
        ((2, 0), false, 4),
        ((2, 1), false, 4),
        ((2, 3), true, 4),
        ((2, 5), false, 5),
        ((3, 2), false, 5),
        ((3, 4), true, 5),
        ((3, 5), true, 6),
        ((3, 6), false, 7),
        ((4, 3), false, 7),
        ((4, 5), true, 7),
        ((4, 6), false, 7),
        ((5, 4), false, 7),
        ((255, 255), false, 7),
        ((0, 1), true, 1),
    ];
    known_among(judge, &fits, &known)
}

fn any_bytes(judge: &mut Judge) -> Trial {
    let fits = [(0, 255), (127, 128), (128, 255), (254, 255)];
    let known = [
        ((0, 0), false, 1),
        ((0, 254), false, 1),
        ((0, 255), true, 1),
        ((1, 0), false, 2),
        ((127, 127), false, 2),
        ((127, 128), true, 2),
        ((127, 129), false, 3),
        ((128, 127), false, 3),
        ((128, 255), true, 3),
        ((129, 0), false, 4),
        ((254, 255), true, 4),
        ((255, 0), false, 4),
        ((255, 255), false, 4),
    ];
    known_among(judge, &fits, &known)
}

fn not_rising(judge: &mut Judge) -> Trial {
    let falling = [(2, 3), (1, 2), (0, 1)];
    known_among(judge, &falling, &[((0, 1), false, 1), ((1, 2), false, 1), ((2, 3), true, 1), ((2, 4), false, 3)])?;
    let mixed = [(0, 1), (2, 3), (1, 2), (2, 4)];
    known_among(
        judge,
        &mixed,
        &[((0, 1), true, 1), ((1, 2), false, 2), ((2, 3), true, 2), ((2, 4), true, 4), ((3, 0), false, 4)],
    )?;
    let repeats = [(0, 1), (0, 1), (1, 2), (1, 2)];
    let known = [((0, 0), false, 1), ((0, 1), true, 1), ((0, 2), false, 3), ((1, 2), true, 3), ((1, 3), false, 4)];
    known_among(judge, &repeats, &known)?;
    let turned = [(1, 0), (1, 1), (2, 1)];
    known_among(
        judge,
        &turned,
        &[((0, 1), false, 1), ((1, 0), true, 1), ((1, 1), true, 2), ((1, 2), false, 3), ((2, 1), true, 3)],
    )
}

fn other_lengths(judge: &mut Judge) -> Trial {
    let more_firsts = [((0, 1), true, 1), ((0, 2), true, 2), ((0, 3), false, 2), ((1, 0), false, 2), ((1, 2), false, 2)];
    known_in(judge, &[0, 0, 1], &[1, 2], &more_firsts)?;
    let more_seconds = [((0, 1), true, 1), ((0, 3), false, 2), ((1, 2), true, 2), ((1, 3), false, 2), ((2, 3), false, 2)];
    known_in(judge, &[0, 1], &[1, 2, 3, 4, 5], &more_seconds)?;
    known_in(judge, &[], &[1, 2], &[((0, 1), false, 0), ((1, 2), false, 0), ((2, 0), false, 0)])?;
    known_in(judge, &[5], &[], &[((5, 0), false, 0), ((5, 5), false, 0), ((0, 0), false, 0)])
}

/// Camera 0 with each later one are 255 fits.
fn around_a_byte(judge: &mut Judge) -> Trial {
    let first: Vec<Fit> = (1..=255).map(|second| (0, second)).collect();
    known_among(judge, &first, &[((0, 254), true, 254), ((0, 255), true, 255), ((1, 0), false, 255)])?;
    let one_more = [&first[..], &[(1, 2)]].concat();
    known_among(judge, &one_more, &[((0, 255), true, 255), ((1, 1), false, 256), ((1, 2), true, 256), ((1, 3), false, 256)])?;
    let two_more = [&first[..], &[(1, 2), (1, 4)]].concat();
    let known = [((1, 2), true, 256), ((1, 3), false, 257), ((1, 4), true, 257), ((2, 0), false, 257)];
    known_among(judge, &two_more, &known)
}

/// Of all pairs of 127 cameras the first 3,900: 126 with camera 0, 125 with camera 1 and so on; of the last, camera 35, 85.
fn fits_3900(judge: &mut Judge) -> Trial {
    let known = [
        ((0, 0), false, 1),
        ((0, 1), true, 1),
        ((0, 126), true, 126),
        ((0, 127), false, 127),
        ((1, 2), true, 127),
        ((1, 126), true, 251),
        ((2, 2), false, 252),
        ((2, 3), true, 252),
        ((2, 6), true, 255),
        ((2, 7), true, 256),
        ((2, 8), true, 257),
        ((34, 126), true, 3_815),
        ((35, 35), false, 3_816),
        ((35, 36), true, 3_816),
        ((35, 119), true, 3_899),
        ((35, 120), true, 3_900),
        ((35, 121), false, 3_900),
        ((36, 37), false, 3_900),
        ((126, 126), false, 3_900),
    ];
    known_among(judge, &first_fits(127, MOST_FITS), &known)?;
    // a hundred more than a stock may have: six with camera 35, 90 with camera 36 and four with camera 37
    let more = [((35, 121), true, 3_901), ((36, 90), true, 3_960), ((36, 126), true, 3_996)];
    known_among(judge, &first_fits(127, 4_000), &more)
}

/// Every pair of bytes: 65,536 fits that rise. Then all but the last, and three smaller ones behind them.
pub fn around_two_bytes(judge: &mut Judge) -> Trial {
    let every: Vec<Fit> = (0..65_536).map(of_number).collect();
    let known = [
        ((0, 0), true, 1),
        ((127, 255), true, 32_768),
        ((128, 0), true, 32_769),
        ((255, 254), true, 65_535),
        ((255, 255), true, 65_536),
    ];
    known_among(judge, &every, &known)?;
    let less_last = [&every[..65_535], &[(0, 0), (0, 1), (7, 7)]].concat();
    known_among(judge, &less_last, &[((0, 1), true, 2), ((255, 254), true, 65_535), ((255, 255), false, 65_538)])
}

// ---- answers compared with one another

pub fn answers_compared(judge: &mut Judge, files: usize) -> Trial {
    (0..files).try_for_each(|number| {
        let random = &mut judge.random;
        let fits = if number % 3 == 0 { other_list(random) } else { short_list(random) };
        let mut pairs = sought_in(random, &fits);
        pairs.sort_unstable();
        let (firsts, seconds) = parted(&fits);
        let mut before = 0;
        pairs.into_iter().try_for_each(|sought| {
            let answer = judge.looked_up(&firsts, &seconds, sought);
            let fault = |what: &str| Err(format!("{sought:?} looked up: {answer:?}; {what}\n{}", shown_fits(&firsts, &seconds)));
            if answer.looked < before {
                return fault("fewer than for a smaller pair");
            }
            before = answer.looked;
            agrees_with_fits(&fits, sought, answer).or_else(fault)?;
            agrees_with_others(judge, &fits, sought, answer).or_else(|what| fault(&what))
        })
    })
}

/// The fits before the last one looked at are smaller, and it alone decides.
fn agrees_with_fits(fits: &[Fit], sought: Fit, answer: Looked) -> Result<(), &'static str> {
    let Some((last, before)) = fits.get(..answer.looked as usize).ok_or("more than there are")?.split_last() else {
        return if fits.is_empty() && !answer.found { Ok(()) } else { Err("none was looked at") };
    };
    if before.iter().any(|fit| is_equal_or_larger(*fit, sought)) {
        return Err("a fit before the last one looked at is equal or larger");
    }
    if !is_equal_or_larger(*last, sought) && before.len() + 1 < fits.len() {
        return Err("the last one looked at is smaller, and there are more");
    }
    if answer.found != (*last == sought) {
        return Err("the last one looked at says otherwise");
    }
    if rises(fits) && answer.found != fits.contains(&sought) {
        return Err("the fits rise, and say otherwise");
    }
    Ok(())
}

/// The same look-up again, and with fits taken away, put before or put behind.
fn agrees_with_others(judge: &mut Judge, fits: &[Fit], sought: Fit, answer: Looked) -> Result<(), String> {
    let looked = answer.looked as usize;
    let number = number_of(sought);
    let behind = other_list(&mut judge.random);
    let none_larger = fits.iter().all(|fit| !is_equal_or_larger(*fit, sought));
    let of = |found: bool, looked: usize| Looked { found, looked: looked as u64 };
    let mut others = vec![
        ("asked again", fits.to_vec(), answer),
        ("without the fits behind", fits[..looked].to_vec(), answer),
        ("behind the pair itself", [&[sought], fits].concat(), of(true, 1)),
    ];
    if looked > 0 {
        others.push(("without the last one looked at and the fits behind", fits[..looked - 1].to_vec(), of(false, looked - 1)));
    }
    if number > 0 {
        let smaller = of_number(judge.random.below(number));
        others.push(("behind a smaller fit", [&[smaller], fits].concat(), of(answer.found, looked + 1)));
    }
    if number < 65_535 {
        let larger = of_number(judge.random.between(number + 1, 65_535));
        others.push(("behind a larger fit", [&[larger], fits].concat(), of(false, 1)));
    }
    if none_larger {
        others.push(("with the pair itself behind", [fits, &[sought]].concat(), of(true, fits.len() + 1)));
        others.push(("with smaller fits behind", [fits, fits].concat(), of(false, 2 * fits.len())));
    } else {
        others.push(("with any fits behind", [fits, &behind].concat(), answer));
        others.push(("with the pair itself behind", [fits, &[sought]].concat(), answer));
    }
    others.into_iter().try_for_each(|(what, other, owed)| {
        let (firsts, seconds) = parted(&other);
        let said = judge.looked_up(&firsts, &seconds, sought);
        if said == owed {
            return Ok(());
        }
        Err(format!("{what}: {said:?}, where {owed:?} follows"))
    })
}

// ---- random lists

fn look_up_all(judge: &mut Judge, fits: &[Fit], pairs: &[Fit]) -> Trial {
    pairs.iter().try_for_each(|sought| judge.look_up(fits, *sought))
}

pub fn short_lists(judge: &mut Judge, files: usize) -> Trial {
    (0..files).try_for_each(|_| {
        let fits = short_list(&mut judge.random);
        let pairs = [sought_in(&mut judge.random, &fits), every_place(&fits)].concat();
        look_up_all(judge, &fits, &pairs)
    })
}

pub fn long_lists(judge: &mut Judge, files: usize) -> Trial {
    (0..files).try_for_each(|_| {
        let fits = long_list(&mut judge.random);
        let pairs: Vec<Fit> = (0..3).flat_map(|_| sought_in(&mut judge.random, &fits)).collect();
        look_up_all(judge, &fits, &pairs)
    })
}

/// Of 127 cameras and of all bytes.
pub fn most_fits(judge: &mut Judge) -> Trial {
    let every: Vec<u8> = (0..=255).collect();
    for cameras in [&every[..127], &every] {
        let fits = rising(&mut judge.random, cameras, cameras, MOST_FITS);
        look_up_all(judge, &fits, &fits)?;
        // of the pairs right before and after each fit some
        let mut beside = every_place(&fits);
        judge.random.shuffle(&mut beside);
        look_up_all(judge, &fits, &beside[..MOST_FITS / 3])?;
    }
    Ok(())
}

pub fn other_lists(judge: &mut Judge, files: usize) -> Trial {
    (0..files).try_for_each(|_| {
        let random = &mut judge.random;
        let fits = other_list(random);
        let pairs = [sought_in(random, &fits), every_place(&fits)].concat();
        let (firsts, seconds) = parted(&if random.chance(50) { short_list(random) } else { fits.clone() });
        let shorter = random.below(firsts.len() + 1);
        look_up_all(judge, &fits, &pairs)?;
        let few = [&every_place(&joined(&firsts, &seconds))[..], &pairs[..4]].concat();
        few.into_iter().try_for_each(|sought| {
            judge.look_up_in(&firsts[..shorter], &seconds, sought)?;
            judge.look_up_in(&firsts, &seconds[..shorter], sought)
        })
    })
}

// ---- every list of a size

/// The cameras of small lists under other numbers: as they are, and as bytes that are far apart.
const NUMBERS: [[u8; 6]; 2] = [[0, 1, 2, 3, 4, 5], [0, 1, 127, 128, 254, 255]];

/// Every set of fits among five of six cameras, and every two of the six, in any order or the same twice.
pub fn every_rising_list(judge: &mut Judge) -> Trial {
    for fits in every_fits(5) {
        for numbers in NUMBERS {
            let fits: Vec<Fit> = fits.iter().map(|(first, second)| (numbers[*first], numbers[*second])).collect();
            let pairs = numbers.into_iter().flat_map(|first| numbers.map(|second| (first, second)));
            pairs.into_iter().try_for_each(|sought| judge.look_up(&fits, sought))?;
        }
    }
    Ok(())
}

/// Of three cameras.
pub fn every_short_list(judge: &mut Judge) -> Trial {
    let cameras: [&[u8]; 3] = [&[0], &[7], &[255]];
    let pairs: Vec<Fit> = (0..9).map(|number| (cameras[number / 3][0], cameras[number % 3][0])).collect();
    let lists = texts(&cameras, 3);
    for (firsts, seconds) in lists.iter().flat_map(|firsts| lists.iter().map(move |seconds| (firsts, seconds))) {
        pairs.iter().try_for_each(|sought| judge.look_up_in(firsts, seconds, *sought))?;
    }
    let places: [&[u8]; 9] = [&[0], &[1], &[2], &[3], &[4], &[5], &[6], &[7], &[8]];
    for list in texts(&places, 4) {
        let fits: Vec<Fit> = list.iter().map(|place| pairs[*place as usize]).collect();
        pairs.iter().try_for_each(|sought| judge.look_up(&fits, *sought))?;
    }
    Ok(())
}
