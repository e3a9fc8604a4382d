//! Profile 8, the turbo interleaver of LTE: 3GPP TS 36.212.

use super::{raw, Refusal, Set};

impl Set {
    /// The set of profile 8 for a block of `k`, tested: L(t) is (f1·t + f2·t²) mod k. The sizes are 40 to 512 by 8, to 1,024 by 16, to 2,048 by 32
    /// and to 6,144 by 64; [`factors`] has the standard's own f1 and f2 for each.
    pub fn lte(k: u32, f1: u32, f2: u32) -> Result<Set, Refusal> {
        let set = Set::lte_untested(k, [f1, f2, 0, 0]);
        set.test().map(|()| set)
    }

    fn lte_untested(k: u32, factors: [u32; 4]) -> Set {
        Set { profile: 8, bits: 1, n: k, stream: 1, factors }
    }
}

/// The standard's own f1 and f2 for a block of `k`, table 5.1.3-3. [`Set::lte`] takes them. A `k` that isn't listed for profile 8 is refused with
/// [`Refusal::Size`].
pub fn factors(k: u32) -> Result<(u32, u32), Refusal> {
    let mut given = [0; 4];
    // SAFETY: a number, and four numbers of this call's own.
    let number = unsafe { raw::interleaver_lte_factors(k, &mut given) };
    Set::lte_untested(k, [0; 4]).answer(number).map(|()| (given[0], given[1]))
}
