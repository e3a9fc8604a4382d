//! The padding report of profile 5, the turbo interleaver of WCDMA: 3GPP TS 25.212.
//!
//! A block of K is written into R rows of C columns, and the cells behind its last symbol are padding.
//!
//! ```
//! use interleaver::{wcdma, wcdma::Figures, wcdma::Totals, Refusal};
//!
//! assert_eq!(wcdma::figures(41)?, Figures { k: 41, r: 5, c: 10, cells: 50, pads: 9 });
//! assert_eq!(wcdma::totals(40, 41)?, Totals { sizes: 2, cells: 90, pads: 9 });
//! assert_eq!(wcdma::figures(39), Err(Refusal::Size { fits: 40 }));
//! assert_eq!(wcdma::totals(41, 40), Err(Refusal::Range));
//! # Ok::<(), Refusal>(())
//! ```

use super::refusal::answer;
use super::{raw, Refusal, Set};

/// What one K comes to.
#[derive(Clone, Copy, Debug, PartialEq, Eq)]
pub struct Figures {
    /// K, the symbols of a block.
    pub k: u32,
    /// R, the rows of its rectangle.
    pub r: u32,
    /// C, its columns.
    pub c: u32,
    /// Its cells, R·C.
    pub cells: u32,
    /// How many of them are padding: R·C - K.
    pub pads: u32,
}

/// What the sizes of a range come to.
#[derive(Clone, Copy, Debug, PartialEq, Eq)]
pub struct Totals {
    /// How many they are.
    pub sizes: u32,
    /// The sum of their cells.
    pub cells: u32,
    /// The sum of their padding.
    pub pads: u32,
}

/// The figures of one `k`. A `k` that isn't 40 to 5,114 is refused with [`Refusal::Size`].
pub fn figures(k: u32) -> Result<Figures, Refusal> {
    let mut given = [0; 5];
    // SAFETY: a number, and five numbers of this call's own.
    let number = unsafe { raw::interleaver_wcdma_figures(k, &mut given) };
    let [own, r, c, cells, pads] = given;
    let set = Set { profile: 5, bits: 1, n: k, stream: 1, factors: [0; 4] };
    set.answer(number).map(|()| Figures { k: own, r, c, cells, pads })
}

/// The totals of every K from `first` to `last`, these two among them. Refused with [`Refusal::Range`], where either isn't 40 to 5,114, or `first` is
/// above `last`.
pub fn totals(first: u32, last: u32) -> Result<Totals, Refusal> {
    let mut given = [0; 3];
    // SAFETY: numbers, and three numbers of this call's own.
    let number = unsafe { raw::interleaver_wcdma_totals(first, last, &mut given) };
    let [sizes, cells, pads] = given;
    match number {
        3 => Err(Refusal::Range),
        number => answer(number).map(|()| Totals { sizes, cells, pads }),
    }
}
