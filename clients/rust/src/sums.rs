//! Repeated receptions of a block, added up and read.

use super::{raw, Refusal, Set};

/// What a position holds: the running sum of the values that it received, and how many they are.
#[derive(Clone, Copy, Debug, PartialEq)]
pub struct Running {
    /// Exact while the values are whole eighths whose magnitudes total at most 2,097,152.
    pub sum: f32,
    /// Never 0: that is a blank.
    pub count: u16,
}

impl Set {
    /// Adds a received block to what is stored: value `t`, in output order, at input index L(t). A presence byte is 1 where there is a value and 0
    /// where there is a blank, which changes nothing. The first value of a position is stored with its bits unchanged, count 1; a later one is
    /// added with one rounding, and the count rises by one. Zero is a value. Before a first block every count is 0, and the sums may be any. Profile 9 is
    /// refused with [`Refusal::Profile`].
    pub fn add_received(&self, received: &[f32], present: &[u8], sums: &mut [f32], counts: &mut [u16]) -> Result<(), Refusal> {
        // SAFETY: the slices are live and do not overlap, and the call keeps no pointer.
        self.answer(unsafe {
            raw::interleaver_add_received(
                self,
                received.as_ptr(),
                received.len(),
                present.as_ptr(),
                present.len(),
                sums.as_mut_ptr(),
                sums.len(),
                counts.as_mut_ptr(),
                counts.len(),
            )
        })
    }

    /// Reads a position, by input index: what it holds, or `None` for a blank. Profile 9 is refused with [`Refusal::Profile`].
    pub fn read_sum(&self, sums: &[f32], counts: &[u16], position: u32) -> Result<Option<Running>, Refusal> {
        let mut held = Running { sum: 0.0, count: 0 };
        // SAFETY: both slices are live, and the numbers are this call's own.
        self.answer(unsafe {
            raw::interleaver_read_sum(self, sums.as_ptr(), sums.len(), counts.as_ptr(), counts.len(), position, &mut held.sum, &mut held.count)
        })?;
        Ok(Some(held).filter(|held| held.count != 0))
    }
}
