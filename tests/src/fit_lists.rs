//! Lists of fits for the look-up (document 02, L3), and pairs to be sought in them. Cameras are any bytes.
//!   MOST_FITS            the most that a stock may have
//!   number_of, of_number a pair as a number that rises with it, and back
//!   parted, joined       the first cameras and the second cameras of fits; fits of those, up to the shorter
//!   rises                whether fits rise, each once
//!   first_fits           the fits of a stock's first cameras, as a file has them
//!   rising               some fits of chosen cameras
//!   short_list           0 to 60 fits that rise, of few or of many cameras
//!   long_list            up to 3,900
//!   other_list           few fits that do not rise, or with repeats
//!   sought_in            pairs in every place of a list: before, among, between and after its fits, or beside them in one camera
//!   every_place          each fit, and the pairs right before and after it

use crate::engine::Fit;
use crate::generate::all_fits;
use crate::random::Random;

pub const MOST_FITS: usize = 3_900;

pub fn number_of((first, second): Fit) -> usize {
    256 * first as usize + second as usize
}

pub fn of_number(number: usize) -> Fit {
    ((number / 256) as u8, (number % 256) as u8)
}

/// The last pair of bytes, by its number.
const LAST: usize = 65_535;

pub fn parted(fits: &[Fit]) -> (Vec<u8>, Vec<u8>) {
    fits.iter().copied().unzip()
}

pub fn joined(firsts: &[u8], seconds: &[u8]) -> Vec<Fit> {
    firsts.iter().copied().zip(seconds.iter().copied()).collect()
}

pub fn rises(fits: &[Fit]) -> bool {
    fits.windows(2).all(|two| number_of(two[0]) < number_of(two[1]))
}

// ---- lists

/// Of all pairs of that many cameras the first ones.
pub fn first_fits(cameras: usize, number: usize) -> Vec<Fit> {
    all_fits(cameras).into_iter().take(number).map(|(first, second)| (first as u8, second as u8)).collect()
}

/// That many bytes, rising.
fn some_bytes(random: &mut Random, number: usize) -> Vec<u8> {
    let mut bytes: Vec<u8> = (0..=255).collect();
    random.shuffle(&mut bytes);
    bytes.truncate(number);
    bytes.sort_unstable();
    bytes
}

/// Of the pairs of some cameras with later ones that many, or all where there are fewer; rising.
pub fn rising(random: &mut Random, firsts: &[u8], cameras: &[u8], number: usize) -> Vec<Fit> {
    let later = |first: u8| cameras.iter().copied().filter(move |second| *second > first);
    let mut fits: Vec<Fit> = firsts.iter().flat_map(|first| later(*first).map(|second| (*first, second))).collect();
    random.shuffle(&mut fits);
    fits.truncate(number);
    fits.sort_unstable();
    fits
}

pub fn short_list(random: &mut Random) -> Vec<Fit> {
    let bytes = match random.below(5) {
        0 => (0..random.between(2, 12) as u8).collect(),
        1 => (250..=255).collect(),
        2 => (0..127).collect(),
        _ => {
            let cameras = random.between(2, 40);
            some_bytes(random, cameras)
        }
    };
    let firsts = if random.chance(50) { &bytes[..] } else { &bytes[..bytes.len().min(3)] };
    let number = match random.below(10) {
        0 => 0,
        1 => 1,
        2..=6 => random.between(2, 12),
        _ => random.between(2, 60),
    };
    rising(random, firsts, &bytes, number)
}

/// Of a few first cameras with as many fits as can be, of a stock's cameras, or of all bytes.
pub fn long_list(random: &mut Random) -> Vec<Fit> {
    let number = if random.chance(30) { MOST_FITS } else { random.between(100, MOST_FITS) };
    let firsts = some_bytes(random, 20);
    let every: Vec<u8> = (0..=255).collect();
    match random.below(3) {
        0 => rising(random, &firsts, &every, number),
        1 => rising(random, &every[..127], &every[..127], number),
        _ => rising(random, &every, &every, number),
    }
}

/// Up to twelve fits of up to eight cameras, in any order and with any camera first; many of them are repeats.
pub fn other_list(random: &mut Random) -> Vec<Fit> {
    let number = random.between(1, 8);
    let cameras = some_bytes(random, number);
    let mut fits: Vec<Fit> = (0..random.between(2, 12)).map(|_| (*random.choose(&cameras), *random.choose(&cameras))).collect();
    match random.below(3) {
        0 => fits.sort_unstable(),
        1 => fits.sort_unstable_by(|one, other| other.cmp(one)),
        _ => (),
    }
    fits
}

// ---- pairs sought

/// A pair from one number to another, both included, if there is any.
fn some_between(random: &mut Random, from: usize, to: usize) -> Option<Fit> {
    (from <= to).then(|| of_number(random.between(from, to)))
}

/// The pair before, the pair itself and the pair after.
fn around(pair: Fit) -> impl Iterator<Item = Fit> {
    let number = number_of(pair);
    (number.saturating_sub(1)..=LAST.min(number + 1)).map(of_number)
}

pub fn every_place(fits: &[Fit]) -> Vec<Fit> {
    fits.iter().flat_map(|fit| around(*fit)).collect()
}

/// The fits of a list that does not rise are taken for one that does.
pub fn sought_in(random: &mut Random, fits: &[Fit]) -> Vec<Fit> {
    let anywhere = (random.byte(), random.byte());
    let camera = random.byte();
    let mut all = vec![anywhere, (0, 0), (255, 255), (camera, camera)];
    let (Some(first), Some(last)) = (fits.first(), fits.last()) else {
        return all;
    };
    let middle = random.below(fits.len());
    let fit = fits[middle];
    let next = fits.get(middle + 1).map_or(LAST + 1, |next| number_of(*next));
    all.extend([*first, *last, fit].into_iter().flat_map(around));
    all.extend(some_between(random, 0, number_of(*first).saturating_sub(1)));
    all.extend(some_between(random, number_of(fit) + 1, next.saturating_sub(1)));
    all.extend(some_between(random, number_of(*last) + 1, LAST));
    let other = random.byte();
    all.extend([(fit.0, 0), (fit.0, 255), (fit.0, other), (other, fit.1), (fit.1, fit.0), (fit.0, fit.0), (fit.1, fit.1)]);
    // with the first camera of a fit, between two seconds
    let of_first: Vec<usize> = (0..fits.len()).filter(|place| fits[*place].0 == fit.0).collect();
    let (least, most) = (fits[of_first[0]], fits[of_first[of_first.len() - 1]]);
    all.extend(some_between(random, number_of(least) + 1, number_of(most).saturating_sub(1)));
    all
}
