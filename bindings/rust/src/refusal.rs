//! Document 01's table of numbers.

use std::error::Error;
use std::fmt;

/// Why a call is refused. The lowest number that applies to the call is given, and every slice that
/// was lent is as it was before the call.
#[derive(Clone, Copy, Debug, PartialEq, Eq, PartialOrd, Ord, Hash)]
#[repr(u32)]
#[non_exhaustive]
pub enum Refusal {
    BadDepth = 1,
    BadPlane = 2,
    BadFrameType = 3,
    BadFrameSide = 4,
    BadUnitSize = 5,
    WidthShrinks = 6,
    BadShape = 7,
    NotWider = 8,
    BadEdgeRows = 9,
    BadUnitTable = 10,
    BadUnit = 11,
    BadMarks = 12,
    BadIndex = 13,
    AlreadyRestored = 14,
    BadSample = 15,
    ShortScratch = 16,
}

impl Refusal {
    /// All of them, by number.
    pub const ALL: [Refusal; 16] = [
        Refusal::BadDepth,
        Refusal::BadPlane,
        Refusal::BadFrameType,
        Refusal::BadFrameSide,
        Refusal::BadUnitSize,
        Refusal::WidthShrinks,
        Refusal::BadShape,
        Refusal::NotWider,
        Refusal::BadEdgeRows,
        Refusal::BadUnitTable,
        Refusal::BadUnit,
        Refusal::BadMarks,
        Refusal::BadIndex,
        Refusal::AlreadyRestored,
        Refusal::BadSample,
        Refusal::ShortScratch,
    ];

    /// Document 01's number.
    pub fn number(self) -> u32 {
        self as u32
    }

    /// The refusal of that number, if there is one.
    pub fn from_number(number: u32) -> Option<Refusal> {
        Refusal::ALL.into_iter().find(|refusal| refusal.number() == number)
    }

    /// The condition in words.
    pub fn reason(self) -> &'static str {
        match self {
            Refusal::BadDepth => "the depth is not 8, 10 or 12",
            Refusal::BadPlane => {
                "the plane is above 2, or the subsampling is not (0,0), (1,0) or (1,1)"
            }
            Refusal::BadFrameType => "the frame type is above 3",
            Refusal::BadFrameSide => "a frame side is 0 or above 16384",
            Refusal::BadUnitSize => "the unit size is not legal for the plane",
            Refusal::WidthShrinks => "the upscaled frame width is below the frame width",
            Refusal::BadShape => "a plane's (or the window's) length or shape is wrong",
            Refusal::NotWider => "upscaling is asked for and the plane's two widths do not grow",
            Refusal::BadEdgeRows => "the edge rows are not 4 x plane width x (stripes - 1) long",
            Refusal::BadUnitTable => "the unit table is not 10 x unit rows x unit columns long",
            Refusal::BadUnit => "some unit entry is not legal",
            Refusal::BadMarks => "the marks are not one per stripe, or one is not 0 or 1",
            Refusal::BadIndex => "the stripe or rectangle number is not below its count",
            Refusal::AlreadyRestored => "the stripe's mark is 1: it is restored already",
            Refusal::BadSample => "a sample that would be read is out of range",
            Refusal::ShortScratch => "the scratch or the stripe copy is too short",
        }
    }
}

impl fmt::Display for Refusal {
    fn fmt(&self, f: &mut fmt::Formatter<'_>) -> fmt::Result {
        write!(f, "refused {}: {}", self.number(), self.reason())
    }
}

impl Error for Refusal {}

/// The answer beside a number of the library.
///
/// # Panics
///
/// Where the number is not in the table: another library is linked than this crate is for.
pub(crate) fn answer<T>(number: u32, done: T) -> Result<T, Refusal> {
    match (number, Refusal::from_number(number)) {
        (0, _) => Ok(done),
        (_, Some(refusal)) => Err(refusal),
        (_, None) => panic!("the linked library gave {number}, which document 01's table lacks"),
    }
}
