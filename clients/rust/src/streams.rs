//! Byte streams: the interleavers and deinterleavers of DVB and of ATSC.

use super::refusal::answer;
use super::{raw, Refusal};

// Where a stream stands: its kind, the branch of its next byte, a place for each ring in rising size. Those that DVB lacks are 0.
#[derive(Clone, Copy, Debug, PartialEq, Eq)]
#[repr(C)]
pub(crate) struct Record {
    pub(crate) kind: u32,
    pub(crate) branch: u32,
    pub(crate) places: [u32; 51],
}

/// A byte interleaver or deinterleaver, with its own store: a [`Dvb`] or an [`Atsc`].
///
/// ```
/// use interleaver::{Atsc, Refusal};
///
/// let (mut there, mut back) = (Atsc::interleaver(0), Atsc::deinterleaver(0));
/// let (mut sent, mut received) = ([0; 207], [0; 207]);
/// for turn in 0..100 {
///     there.feed(&[turn; 207], &mut sent)?;
///     back.feed(&sent, &mut received)?;
///     assert_eq!(received[206] as usize, (206 + turn as usize * 207).saturating_sub(Atsc::DELAY) / 207);
/// }
/// assert_eq!(there.feed(&[1; 207], &mut sent[1..]), Err(Refusal::Output));
/// # Ok::<(), Refusal>(())
/// ```
#[derive(Clone)]
pub struct Stream<const BYTES: usize> {
    pub(crate) store: [u8; BYTES],
    pub(crate) record: Record,
    back: bool,
}

/// DVB, ETSI EN 300 744: 12 branches, steps of 17 bytes.
pub type Dvb = Stream<1122>;

/// ATSC A/53: 52 branches, steps of 4 bytes.
pub type Atsc = Stream<5304>;

impl<const BYTES: usize> Stream<BYTES> {
    /// The bytes of a store.
    pub const STORE: usize = BYTES;

    // Of a kind whose stores have so many bytes.
    fn start(kind: u32, fill: u8, back: bool) -> Self {
        let mut machine = Stream { store: [0; BYTES], record: Record { kind: 0, branch: 0, places: [0; 51] }, back };
        // SAFETY: the store and the record are live. Kind and length are those that the call asks for, which refuses nothing else.
        let number = unsafe { raw::interleaver_stream_start(kind, machine.store.as_mut_ptr(), BYTES, fill, &mut machine.record) };
        debug_assert_eq!(number, 0);
        machine
    }

    /// Passes any number of bytes, as many out as in.
    pub fn feed(&mut self, input: &[u8], out: &mut [u8]) -> Result<(), Refusal> {
        let call = if self.back { raw::interleaver_stream_deinterleave } else { raw::interleaver_stream_interleave };
        // SAFETY: the slices, the store and the record are live and do not overlap.
        answer(unsafe { call(&mut self.record, self.store.as_mut_ptr(), BYTES, input.as_ptr(), input.len(), out.as_mut_ptr(), out.len()) })
    }
}

// What the kinds differ in: the number of a kind, and its delay.
macro_rules! kinds {
    ($($name:ident $kind:literal $delay:literal)*) => {
        $(
            impl $name {
                /// How many bytes late an interleaver and a deinterleaver are together.
                pub const DELAY: usize = $delay;

                /// An interleaver whose branches hold `fill`.
                pub fn interleaver(fill: u8) -> Self {
                    Self::start($kind, fill, false)
                }

                /// A deinterleaver whose branches hold `fill`.
                pub fn deinterleaver(fill: u8) -> Self {
                    Self::start($kind, fill, true)
                }
            }
        )*
    };
}

kinds! {
    Dvb 1 2244
    Atsc 2 10_608
}
