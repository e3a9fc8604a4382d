//! Why a call was refused.

// A line for each refusal: the number that the calls for C give, a name, what it carries with it if anything, and the sentence that the documentation
// and an error say alike. Behind the semicolon those whose number another line has.
macro_rules! refusals {
    ($($number:literal $name:ident $({ $size:ident })? $sentence:literal)*; $($same:literal $bare:ident $also:literal)*) => {
        /// Why a call was refused, with the numbers of the calls for C.
        #[derive(Clone, Copy, Debug, PartialEq, Eq)]
        pub enum Refusal {
            $(
                #[doc = concat!(stringify!($number), ": ", $sentence, ".")]
                $name $({
                    /// The least listed N not below the one asked for, for that profile and those bits, or 0 if there is none.
                    $size: u32,
                })?,
            )*
            $(
                #[doc = concat!(stringify!($same), " too: ", $also, ".")]
                $bare,
            )*
            /// A number that has no name here: of an archive that refuses for more reasons than this crate knows.
            Other(u32),
        }

        impl Refusal {
            // The refusal of a number; `fits` goes with the one that carries a size.
            pub(crate) fn of(number: u32, fits: u32) -> Refusal {
                match number {
                    $($number => Refusal::$name $({ $size: fits })?,)*
                    other => Refusal::Other(other),
                }
            }

            /// The number that the calls for C give.
            pub fn number(self) -> u32 {
                match self {
                    $(Refusal::$name { .. } => $number,)*
                    $(Refusal::$bare => $same,)*
                    Refusal::Other(number) => number,
                }
            }

            fn sentence(self) -> &'static str {
                match self {
                    $(Refusal::$name { .. } => $sentence,)*
                    $(Refusal::$bare => $also,)*
                    Refusal::Other(_) => "for a reason that has no name here",
                }
            }
        }
    };
}

refusals! {
    1 Profile "no such profile, or the walk for M of profile 5, 8 or 9, or receptions of profile 9, or a plan file's profile above 5"
    2 Bits "the bits aren't listed for the profile"
    3 Size { fits } "N isn't listed for that profile and those bits"
    4 Position "a position is N or more, or a plan is 0 or more than the file has"
    5 Input "a block's input isn't as long as the block, N or of profile 9 2·N, times the width for symbols, or its presence bytes aren't N"
    6 Output "a block's output isn't as long as the block, N or of profile 9 2·N, times the width for symbols, or sums or counts aren't N, \
              or a feed's output isn't as long as its input, or a plan file's buffer isn't as long as the file"
    7 Store "a store isn't as long as its kind asks; never here, since a `Stream` has its own"
    9 Record "a walk's cell is past the cell total, or, never here, a byte stream's kind is unknown or its branch or a place is out of its range"
    10 Shared "two positions would share an address, by the factors of profile 8 or the numbers of profile 9"
    11 Factors "f1 or f2 of profile 8 is 0, or not below N, or one of P0 to P3 of profile 9 isn't below N"
    12 Form "a plan file isn't of the form, or its sets aren't 1 to 16, or it would pass 65,536 bytes"
    13 Finite "a present value, a stored sum whose count isn't 0, or the sum of these two isn't finite"
    14 Presence "a presence byte is above 1"
    15 Count "a count would pass 65,535"
    16 Stream "the spatial stream isn't 1 to 4, or isn't 1 and the profile is neither 6 nor 7";
    3 Range "the first or the last K of a range isn't 40 to 5,114, or the first is above the last"
}

impl std::fmt::Display for Refusal {
    fn fmt(&self, f: &mut std::fmt::Formatter) -> std::fmt::Result {
        write!(f, "refused with {}: {}", self.number(), self.sentence())?;
        match self {
            Refusal::Size { fits: 0 } => write!(f, "; no listed one is so large"),
            Refusal::Size { fits } => write!(f, "; the next listed one is {fits}"),
            _ => Ok(()),
        }
    }
}

impl std::error::Error for Refusal {}

// The answer of a call.
pub(crate) fn answer(number: u32) -> Result<(), Refusal> {
    answer_with(number, || 0)
}

// The same of a call that carries a size with 3, which is asked for then alone.
pub(crate) fn answer_with(number: u32, fits: impl FnOnce() -> u32) -> Result<(), Refusal> {
    match number {
        0 => Ok(()),
        3 => Err(Refusal::of(3, fits())),
        refused => Err(Refusal::of(refused, 0)),
    }
}
