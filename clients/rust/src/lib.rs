//! Interleavers for radio terminals, proved in Rattle: slices in, `Result` out.
//!
//! L is the list of input indices in output order, M its inverse: interleaving gives `out[t] = in[L(t)]`, deinterleaving
//! `out[L(t)] = in[t]`. Of profile 9 the indices of L and M are those of couples: see [`Set::wimax`]. A call that is refused leaves every slice as it was.
//!
//! ```
//! use interleaver::{lte, Refusal, Set};
//!
//! let set = Set::new(3, 4, 192)?; // IEEE 802.11a, 4 bits per carrier
//! let input: Vec<u8> = (0..192).collect();
//! let (mut sent, mut received) = ([0; 192], [0; 192]);
//! set.interleave(&input, &mut sent)?;
//! set.deinterleave(&sent, &mut received)?;
//! assert_eq!((sent[1], set.source(1)?), (16, 16));
//! assert_eq!(received[..], input[..]);
//! assert_eq!(set.interleave(&input, &mut sent[1..]), Err(Refusal::Output));
//! assert_eq!(Set::new(3, 4, 100), Err(Refusal::Size { fits: 192 })); // the least listed N that is not below 100
//!
//! let fourth = Set::new(7, 6, 648)?.with_stream(4); // IEEE 802.11n at 40 MHz, the fourth spatial stream
//! assert_eq!((fourth.target(0)?, fourth.source(126)?), (126, 0));
//!
//! let (f1, f2) = lte::factors(6144)?; // LTE's turbo interleaver, with the standard's own factors
//! assert_eq!(Set::lte(6144, f1, f2)?.source(1)?, f1 + f2);
//!
//! let couples = Set::wimax(24, [5, 0, 0, 0])?; // WiMAX's turbo couples: 24 of them, 48 symbols
//! assert_eq!((couples.source(1)?, couples.symbols()), (18, 48));
//! # Ok::<(), Refusal>(())
//! ```
//!
//! What each call does is proved: see the contracts in `crates/exports/src`. What is left to this crate is that the pointers it hands over
//! are those of live slices that do not overlap, which is what a `&` and a `&mut` are.

pub mod lte;
pub mod plans;
mod raw;
mod refusal;
mod streams;
mod sums;
pub mod wcdma;
mod wimax;

use refusal::answer_with;
pub use refusal::Refusal;
pub use streams::{Atsc, Dvb, Stream};
pub use sums::Running;

/// A parameter set: a profile (1 IEEE 802.16 OFDM, 2 OFDMA, 3 IEEE 802.11a, 4 bench, 5 WCDMA turbo, 6 IEEE 802.11n at 20 MHz, 7 at 40 MHz, 8 LTE
/// turbo, 9 IEEE 802.16 turbo couples), bits per carrier, the block's size N, for profiles 6 and 7 a spatial stream from 1 to 4, for profile 8 the factors
/// f1 and f2, for profile 9 the numbers P0 to P3. Each call tests it.
#[derive(Clone, Copy, Debug, PartialEq, Eq)]
#[repr(C)]
pub struct Set {
    profile: u32,
    bits: u32,
    n: u32,
    stream: u32,
    factors: [u32; 4],
}

// One body for each of the block calls, which differ in a name, a type and whether a symbol's width is named.
macro_rules! block_call {
    ($name:ident, $call:ident, $symbol:ty, $what:literal $(, $width:ident)?) => {
        #[doc = $what]
        pub fn $name(&self, $($width: u32,)? src: &[$symbol], dst: &mut [$symbol]) -> Result<(), Refusal> {
            // SAFETY: both slices are live and do not overlap, and the call keeps neither pointer.
            self.answer(unsafe { raw::$call(self, $($width,)? src.as_ptr(), src.len(), dst.as_mut_ptr(), dst.len()) })
        }
    };
}

impl Set {
    // The answer of a call on this set.
    fn answer(&self, number: u32) -> Result<(), Refusal> {
        // SAFETY: the set is eight numbers in a row, as every call reads it.
        answer_with(number, || unsafe { raw::interleaver_fitting(self) })
    }

    /// The set of stream 1, tested. It has no factors, so that profiles 8 and 9 are refused: [`Set::lte`] and [`Set::wimax`] make sets of those.
    pub fn new(profile: u32, bits: u32, n: u32) -> Result<Set, Refusal> {
        let set = Set { profile, bits, n, stream: 1, factors: [0; 4] };
        set.test().map(|()| set)
    }

    /// The same set of another stream. Any number may be given: [`Set::test`] and every other call refuse the set if it has no such stream.
    pub fn with_stream(self, stream: u32) -> Self {
        Set { stream, ..self }
    }

    /// Tests the set.
    pub fn test(&self) -> Result<(), Refusal> {
        // SAFETY: as above.
        self.answer(unsafe { raw::interleaver_test(self) })
    }

    /// N: how many positions a list has, couples for profile 9.
    pub fn size(&self) -> usize {
        self.n as usize
    }

    /// The symbols of a block: N, of profile 9 twice as many. It tests nothing.
    pub fn symbols(&self) -> usize {
        if self.profile == 9 {
            2 * self.size()
        } else {
            self.size()
        }
    }

    /// L(t): the input index that output `t` holds, of couples for profile 9. For profile 5 it is found by walking up to it.
    pub fn source(&self, t: u32) -> Result<u32, Refusal> {
        let mut address = 0;
        // SAFETY: numbers, and a number of this call's own.
        self.answer(unsafe { raw::interleaver_address_l(self, t, &mut address) }).map(|()| address)
    }

    /// M(k): the output index that input `k` goes to, of couples for profile 9. For profile 5 it is looked up in the whole list, which is walked first; for
    /// profiles 8 and 9 it is found by walking there, up to N steps.
    pub fn target(&self, k: u32) -> Result<u32, Refusal> {
        let mut address = 0;
        // SAFETY: as above.
        self.answer(unsafe { raw::interleaver_address_m(self, k, &mut address) }).map(|()| address)
    }

    /// The whole list L.
    pub fn sources(&self) -> Result<Vec<u16>, Refusal> {
        let mut list = vec![0; self.size()];
        Walk::sources(*self).fill(&mut list).map(|_| list)
    }

    /// The whole list M. Profiles 5, 8 and 9 are refused.
    pub fn targets(&self) -> Result<Vec<u16>, Refusal> {
        let mut list = vec![0; self.size()];
        Walk::targets(*self).fill(&mut list).map(|_| list)
    }

    block_call!(interleave, interleaver_interleave_bytes, u8, "Interleaves a block of bytes, [`Set::symbols`] of them.");
    block_call!(deinterleave, interleaver_deinterleave_bytes, u8, "Deinterleaves a block of bytes, [`Set::symbols`] of them.");
    block_call!(interleave_soft, interleaver_interleave_soft, f32, "Interleaves a block of soft values, each with its 32 bits.");
    block_call!(deinterleave_soft, interleaver_deinterleave_soft, f32, "Deinterleaves a block of soft values, each with its 32 bits.");
    block_call!(interleave_symbols, interleaver_interleave_symbols, u8, "Interleaves a block of symbols of `width` bytes each.", width);
    block_call!(deinterleave_symbols, interleaver_deinterleave_symbols, u8, "Deinterleaves a block of symbols of `width` bytes each.", width);
}

/// A walk over the addresses of a set, slice by slice, without a list of its own.
#[derive(Clone, Copy, Debug, PartialEq, Eq)]
pub struct Walk {
    set: Set,
    /// The next cell. A walk may start at any.
    pub cell: u32,
    back: bool,
}

/// What a step of a walk did.
#[derive(Clone, Copy, Debug, PartialEq, Eq)]
pub struct Walked {
    /// Addresses written: fewer than the slice holds only at the end.
    pub written: usize,
    /// Cells passed: for profile 5 some are padding, and give no address.
    pub cells: u32,
}

impl Walk {
    /// The walk for L.
    pub fn sources(set: Set) -> Walk {
        Walk { set, cell: 0, back: false }
    }

    /// The walk for M. Its steps are refused for profiles 5, 8 and 9.
    pub fn targets(set: Set) -> Walk {
        Walk { set, cell: 0, back: true }
    }

    /// Writes the next addresses, and moves on.
    pub fn fill(&mut self, out: &mut [u16]) -> Result<Walked, Refusal> {
        let (mut written, mut cells) = (0, 0);
        let call = if self.back { raw::interleaver_walk_m } else { raw::interleaver_walk_l };
        // SAFETY: the slice is live, and the numbers are this call's own and the walk's.
        self.set.answer(unsafe { call(&self.set, &mut self.cell, out.as_mut_ptr(), out.len(), &mut written, &mut cells) })?;
        Ok(Walked { written: written as usize, cells })
    }
}

#[cfg(test)]
mod tests;
