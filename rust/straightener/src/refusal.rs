//! Why a call is refused.

use std::error::Error;
use std::fmt;
use straightener_sys as sys;

/// Makes the refusals of a list: number, name, the C interface's constant and words of each. Those of the
/// second list name the sample to blame, by its row and column; the text before the constant says which. One of
/// them that blocks are refused with, too, has a second name, which names the depth as well.
macro_rules! refusals {
    (
        plain: $($number:literal $name:ident $constant:ident $words:literal)*
        with_a_place: $(
            $at:literal $placed:ident $(in_a_block $deep:ident)?
            $first:literal $placed_constant:ident $placed_words:literal
        )*
    ) => {
        /// Why a call was refused; nothing was written to any buffer.
        ///
        /// ```
        /// use straightener::{level, Refusal};
        ///
        /// let refusal = level(0, 0, 10, 20).unwrap_err();
        /// assert_eq!(refusal, Refusal::Slope);
        /// assert_eq!(refusal.number(), 8);
        /// println!("{refusal}");
        /// ```
        #[derive(Clone, Copy, Debug, PartialEq, Eq, Hash)]
        #[non_exhaustive]
        pub enum Refusal {
            $(#[doc = concat!("Number ", $number, ": ", $words, ".")] $name,)*
            $(
                #[doc = concat!("Number ", $at, ": ", $placed_words, ".")]
                $placed {
                    #[doc = concat!("Row of ", $first, ".")]
                    row: usize,
                    /// Column of that sample.
                    column: usize,
                },
                $(
                    #[doc = concat!("Number ", $at, " of a block: ", $placed_words, ".")]
                    $deep {
                        /// Depth of the first such sample as the block is stored: by depth, row and column.
                        depth: usize,
                        /// Row of that sample.
                        row: usize,
                        /// Column of that sample.
                        column: usize,
                    },
                )?
            )*
            /// A number that this version of the package has no name for, as a later version of the library may answer.
            #[non_exhaustive]
            Unknown {
                /// The number.
                number: u32,
                /// The row that came with it.
                row: usize,
                /// The column that came with it.
                column: usize,
            },
        }

        $(const _: () = assert!($number == sys::$constant);)*
        $(const _: () = assert!($at == sys::$placed_constant);)*

        impl Refusal {
            /// The number that the documents, the C interface and the line program give the refusal.
            pub fn number(self) -> u32 {
                match self {
                    $(Refusal::$name => $number,)*
                    $(Refusal::$placed { .. } => $at, $(Refusal::$deep { .. } => $at,)?)*
                    Refusal::Unknown { number, .. } => number,
                }
            }

            /// The refusal of a number, with the row and the column that came with it; number 0 is none.
            pub fn from_number(number: u32, row: usize, column: usize) -> Option<Refusal> {
                Some(match number {
                    sys::STRAIGHTENER_ACCEPTED => return None,
                    $($number => Refusal::$name,)*
                    $($at => Refusal::$placed { row, column },)*
                    _ => Refusal::Unknown { number, row, column },
                })
            }

            /// The refusal of a number that a call on a block answered, with the depth, the row and the column that
            /// came with it; number 0 is none. The depth is kept under number 6 alone: no other has one.
            pub fn from_block_number(number: u32, depth: usize, row: usize, column: usize) -> Option<Refusal> {
                match number {
                    $($($at => Some(Refusal::$deep { depth, row, column }),)?)*
                    _ => Refusal::from_number(number, row, column),
                }
            }
        }

        impl fmt::Display for Refusal {
            fn fmt(&self, f: &mut fmt::Formatter<'_>) -> fmt::Result {
                match self {
                    $(Refusal::$name => f.write_str($words),)*
                    $(Refusal::$placed { row, column } => {
                        write!(f, "{}; row {row}, column {column}", $placed_words)
                    })*
                    $($(Refusal::$deep { depth, row, column } => {
                        write!(f, "{}; depth {depth}, row {row}, column {column}", $placed_words)
                    })?)*
                    Refusal::Unknown { number, row, column } => {
                        write!(f, "number {number}, which this version has no words for; ")?;
                        write!(f, "row {row}, column {column}")
                    }
                }
            }
        }
    };
}

refusals! {
    plain:
        1 Size STRAIGHTENER_REFUSED_SIZE
        "width, height and line length must be from 1 to 1,024, and width, height and depth of a block from 1 \
         to 128"

        2 Buffer STRAIGHTENER_REFUSED_BUFFER
        "a buffer is too short: a picture, result or output takes width x height places, a block or its result \
         width x height x depth, a line its length, work its work places, and the answer to a line all of its \
         bytes"

        3 Centre STRAIGHTENER_REFUSED_CENTRE
        "the centre lies outside the picture: its column must be below the width and its row below the \
         height; for a block, below the columns and the rows of its plane"

        4 Shear STRAIGHTENER_REFUSED_SHEAR
        "a shear must be from -4,096 to 4,096, a step from -1,697 to 1,697, and the move of a line from \
         -4,194,304 to 4,194,304"

        5 Kernel STRAIGHTENER_REFUSED_KERNEL
        "the kernel must be 0 (linear), 1 (Keys) or 2 (cubic spline)"

        7 Point STRAIGHTENER_REFUSED_POINT
        "a point lies outside the picture, or a place beyond its line, both counted from 0; for levelling without \
         a picture, coordinates must be from 0 to 1,023"

        8 Slope STRAIGHTENER_REFUSED_SLOPE
        "the second point must lie to the right of the first, and no steeper than 45 degrees from it"

        9 Line STRAIGHTENER_REFUSED_LINE
        "the line must be upper-case hexadecimal digits and nothing else: 22, then 2 for each of its \
         width x height greys, at most 4,096 greys"

        12 Background STRAIGHTENER_REFUSED_BACKGROUND
        "the background must be a sample from -32,767 to 32,767, 128 units to one grey; a wrapped border \
         has none"

        14 Ticket STRAIGHTENER_REFUSED_TICKET
        "the width or the height differs from the ticket's: ask again about this picture; the ticket of a \
         refused asking is of no size"

        16 Move STRAIGHTENER_REFUSED_MOVE
        "the quarter move must be 0 to 3, that many clockwise quarter turns, or 4 to 7, a left-right mirror and \
         then 0 to 3 turns"

        17 Plane STRAIGHTENER_REFUSED_PLANE
        "the plane must be 0 (across and down), 1 (across and depth) or 2 (down and depth)"

    with_a_place:
        6 Sample in_a_block BlockSample "the first such sample in row order; 0 for a line" STRAIGHTENER_REFUSED_SAMPLE
        "a sample, or the largest sample size given for a forecast, lies beyond its range, which is 32,767 \
         units to either side of 0 for straightening, 294,912 for a single line, and 1,048,576 for readings and \
         for levelling with a picture"

        15 Threshold "the leftmost such sample" STRAIGHTENER_REFUSED_THRESHOLD
        "a sample on the line between the two points is below the threshold: the points are not on one \
         graticule line, or the threshold is too high"
}

impl Error for Refusal {}

/// Passes number 0, and turns every other into its refusal.
pub(crate) fn accepted(number: u32, row: usize, column: usize) -> Result<(), Refusal> {
    match Refusal::from_number(number, row, column) {
        None => Ok(()),
        Some(refusal) => Err(refusal),
    }
}
