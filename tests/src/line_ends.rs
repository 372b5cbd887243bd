//! Line ends (document 02, L1): a file with other ends than its own, right or damaged.
//!   CR_LF, has_cr_lf  the longer end; whether a file has it anywhere
//!   Ends, ends_of     which ends a file has
//!   cr_lf             a file with it throughout
//!   mixed             with both ends
//!   all_ways          as it is, with CR LF throughout, and mixed
//!   every_choice      every choice of an end for each line, for files of few lines
//!   to_length         with so many CRs that there are a given number of bytes
//!   damages           bytes of ends put in, left out, changed or swapped at every place, and the file cut off there
//!   replaced          some bytes by others, wherever they stand
//! A CR is put only before an LF that has none, so that the lines remain what they are.

use crate::frames::{CR, LF};
use crate::random::Random;

pub const CR_LF: &[u8] = b"\r\n";

pub fn has_cr_lf(file: &[u8]) -> bool {
    file.windows(2).any(|two| two == CR_LF)
}

#[derive(Clone, Copy, Debug, PartialEq, Eq, PartialOrd, Ord)]
pub enum Ends {
    Lf,
    CrLf,
    Mixed,
}

/// None of a file without an end.
pub fn ends_of(file: &[u8]) -> Option<Ends> {
    match (bare_ends(file).is_empty(), has_cr_lf(file)) {
        (true, true) => Some(Ends::CrLf),
        (false, true) => Some(Ends::Mixed),
        (false, false) => Some(Ends::Lf),
        (true, false) => None,
    }
}

/// The places of line feeds without a CR before them.
fn bare_ends(file: &[u8]) -> Vec<usize> {
    (0..file.len()).filter(|place| file[*place] == LF && !file[..*place].ends_with(&[CR])).collect()
}

/// A CR before each of these line feeds that is wanted, told by its number.
fn with_returns(file: &[u8], mut wanted: impl FnMut(usize) -> bool) -> Vec<u8> {
    let mut other = Vec::with_capacity(2 * file.len());
    let mut copied = 0;
    for (number, place) in bare_ends(file).into_iter().enumerate() {
        if wanted(number) {
            other.extend_from_slice(&file[copied..place]);
            other.push(CR);
            copied = place;
        }
    }
    other.extend_from_slice(&file[copied..]);
    other
}

pub fn cr_lf(file: &[u8]) -> Vec<u8> {
    with_returns(file, |_| true)
}

/// At least one line keeps its end and at least one gets a CR, where there are two.
pub fn mixed(random: &mut Random, file: &[u8]) -> Vec<u8> {
    let mut left = bare_ends(file).len();
    let mut more = if left < 2 { random.below(left + 1) } else { random.between(1, left - 1) };
    with_returns(file, |_| {
        let wanted = random.below(left) < more;
        left -= 1;
        more -= usize::from(wanted);
        wanted
    })
}

pub fn all_ways(random: &mut Random, file: &[u8]) -> [Vec<u8>; 3] {
    [file.to_vec(), cr_lf(file), mixed(random, file)]
}

pub fn every_choice(file: &[u8]) -> impl Iterator<Item = Vec<u8>> + '_ {
    (0..1_usize << bare_ends(file).len()).map(|set| with_returns(file, |number| set >> number & 1 == 1))
}

/// The first lines get the CRs.
pub fn to_length(file: &[u8], bytes: usize) -> Vec<u8> {
    let other = with_returns(file, |number| number < bytes - file.len());
    assert_eq!(other.len(), bytes, "the file has too few lines");
    other
}

pub fn damages(file: &[u8]) -> Vec<Vec<u8>> {
    let with = |from: usize, bytes: &[u8], to: usize| [&file[..from], bytes, &file[to..]].concat();
    let mut all = Vec::new();
    for place in 0..=file.len() {
        all.push(file[..place].to_vec());
        all.extend([&b"\r"[..], b"\n", b"\r\n", b"\n\r"].map(|more| with(place, more, place)));
    }
    for place in 0..file.len() {
        all.extend([&b""[..], b"\r", b"\n"].map(|other| with(place, other, place + 1)));
    }
    for place in 1..file.len() {
        all.push(with(place - 1, &[file[place], file[place - 1]], place + 1));
    }
    all
}

pub fn replaced(file: &[u8], old: &[u8], new: &[u8]) -> Vec<u8> {
    let mut other = Vec::with_capacity(file.len());
    let mut rest = file;
    while let Some((first, after)) = rest.split_first() {
        if let Some(after_old) = rest.strip_prefix(old) {
            other.extend_from_slice(new);
            rest = after_old;
        } else {
            other.push(*first);
            rest = after;
        }
    }
    other
}
