//! Profile 9, the couples of the turbo code of IEEE 802.16.

use super::{Refusal, Set};

impl Set {
    /// The set of profile 9 for a block of `n` couples, 2·n symbols, tested: `numbers` are P0, P1, P2 and P3, [`Refusal::Factors`] where one isn't below `n`,
    /// then [`Refusal::Shared`] where two outputs would share a couple. Couple c is symbols 2c, its A, and 2c + 1, its B. First the odd-numbered couples swap
    /// A and B; then output couple j is couple L(j) = (P0·j + Q) mod n, where Q is 1, 1 + n/2 + P1, 1 + P2, 1 + n/2 + P3 for j mod 4 = 0, 1, 2, 3. Positions
    /// and addresses are those of couples. The sizes are the multiples of 4 from 24 to 2,400.
    ///
    /// ```
    /// use interleaver::{Refusal, Set};
    ///
    /// let set = Set::wimax(24, [5, 0, 0, 0])?;
    /// assert_eq!((set.size(), set.symbols()), (24, 48));
    /// assert_eq!(set.sources()?[..8], [1, 18, 11, 4, 21, 14, 7, 0]);
    /// let input: Vec<u8> = (0..48).collect();
    /// let mut sent = [0; 48];
    /// set.interleave(&input, &mut sent)?;
    /// assert_eq!(sent[..4], [3, 2, 36, 37]); // couple 1, which is odd, is swapped; couple 18 is not
    /// assert_eq!(Set::wimax(24, [5, 1, 0, 0]), Err(Refusal::Shared));
    /// # Ok::<(), Refusal>(())
    /// ```
    pub fn wimax(n: u32, numbers: [u32; 4]) -> Result<Set, Refusal> {
        let set = Set { profile: 9, bits: 1, n, stream: 1, factors: numbers };
        set.test().map(|()| set)
    }
}
