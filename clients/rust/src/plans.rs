//! Plan files: lists of addresses, each with its parameter set, counted, judged beside L, and written.
//!
//! A file is the number of plans, 1 to 16; for each plan its profile, its bits, its N, the offset of its list from the file's start, and how many
//! addresses the list has; then the lists. The numbers have 4 bytes, the addresses 2, all big end first. The lists follow the header and each other
//! without gaps, to the file's end, and a file has at most 65,536 bytes: anything else is [`Refusal::Form`]. A plan's profile is 1 to 5; every other is
//! [`Refusal::Profile`].
//!
//! ```
//! use interleaver::{plans, plans::Judged, Refusal};
//!
//! let mut file = plans::write(&[[3, 4, 192], [5, 1, 5114]])?;
//! assert_eq!((plans::count(&file)?, plans::judge(&file, 2)?), (2, Judged::Equal));
//! file[44 + 2 * 7 + 1] ^= 1; // the first list stands behind 44 bytes
//! assert_eq!(plans::judge(&file, 1)?, Judged::Wrong { first: 7, count: 1 });
//! assert_eq!(plans::judge(&file, 3), Err(Refusal::Position));
//! assert_eq!(plans::count(&file[1..]), Err(Refusal::Form));
//! assert_eq!(plans::write(&[[3, 4, 100]]), Err(Refusal::Size { fits: 192 }));
//! # Ok::<(), Refusal>(())
//! ```

use super::refusal::{answer, answer_with};
use super::{raw, Refusal, Set};

/// What a plan's list is, beside L of its set.
#[derive(Clone, Copy, Debug, PartialEq, Eq)]
pub enum Judged {
    /// It is L.
    Equal,
    /// It is another. A missing place is wrong, and so is a surplus one.
    Wrong {
        /// The first wrong position, counted from 0.
        first: u32,
        /// How many positions are wrong.
        count: u32,
    },
}

// The size that would have fitted three numbers that are refused with 3.
fn fitting([profile, bits, n]: [u32; 3]) -> u32 {
    let set = Set { profile, bits, n, stream: 1, factors: [0; 4] };
    // SAFETY: the set is eight numbers in a row.
    unsafe { raw::interleaver_fitting(&set) }
}

// The three numbers of a plan's set, in a file that has the plan.
fn set_in(file: &[u8], plan: u32) -> [u32; 3] {
    let entry = &file[20 * plan as usize - 16..];
    [0, 4, 8].map(|at| u32::from_be_bytes([entry[at], entry[at + 1], entry[at + 2], entry[at + 3]]))
}

// The answer of a call on sets. Where it is 3, the first set whose test refuses it is the one that the call speaks of.
fn answer_for(sets: &[[u32; 3]], number: u32) -> Result<(), Refusal> {
    let refused = |set: &&[u32; 3]| Set::new(set[0], set[1], set[2]).is_err();
    answer_with(number, || sets.iter().find(refused).map_or(0, |&set| fitting(set)))
}

/// How many plans a file has.
pub fn count(file: &[u8]) -> Result<u32, Refusal> {
    let mut plans = 0;
    // SAFETY: the slice is live, and the number is this call's own.
    answer(unsafe { raw::interleaver_plans(file.as_ptr(), file.len(), &mut plans) }).map(|()| plans)
}

/// Judges a plan, counted from 1. One that the file doesn't have is [`Refusal::Position`]; one whose set is refused has that refusal.
pub fn judge(file: &[u8], plan: u32) -> Result<Judged, Refusal> {
    let (mut first, mut count) = (0, 0);
    // SAFETY: as above.
    let number = unsafe { raw::interleaver_judge_plan(file.as_ptr(), file.len(), plan, &mut first, &mut count) };
    answer_with(number, || fitting(set_in(file, plan)))?;
    Ok(if count == 0 { Judged::Equal } else { Judged::Wrong { first, count } })
}

/// The length of the file of some sets: the profile, the bits and N of each. The first set that is refused has its refusal;
/// [`Refusal::Form`] is a number of sets that isn't 1 to 16, or a file above 65,536 bytes.
pub fn length(sets: &[[u32; 3]]) -> Result<usize, Refusal> {
    let mut bytes = 0;
    // SAFETY: the sets are live, three numbers each in a row, and the number is this call's own.
    let number = unsafe { raw::interleaver_plans_length(sets.as_ptr().cast(), 3 * sets.len(), &mut bytes) };
    answer_for(sets, number).map(|()| bytes as usize)
}

/// The file of some sets: of each the list L.
pub fn write(sets: &[[u32; 3]]) -> Result<Vec<u8>, Refusal> {
    let mut file = vec![0; length(sets)?];
    write_into(sets, &mut file).map(|()| file)
}

/// Writes the file of some sets into a slice of its [`length`]. One of another length is [`Refusal::Output`].
pub fn write_into(sets: &[[u32; 3]], out: &mut [u8]) -> Result<(), Refusal> {
    // SAFETY: the sets are as above, the slice is live, and they do not overlap.
    answer_for(sets, unsafe { raw::interleaver_write_plans(sets.as_ptr().cast(), 3 * sets.len(), out.as_mut_ptr(), out.len()) })
}
