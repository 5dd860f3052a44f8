//! Why there is no answer.

use std::fmt;

/// Why a function has no answer.
#[derive(Clone, Copy, Debug, PartialEq, Eq, Hash)]
#[non_exhaustive]
pub enum Refusal {
    /// One of the solver's eighteen numbers, or a coordinate given to a plate, is an infinity or a
    /// NaN.
    InputNotFinite = 1,
    /// No ordering of the solver's points is usable.
    NoUsableOrdering = 2,
    /// The solver kept no pose.
    NoPose = 3,
    /// A coefficient of the polynomial is an infinity or a NaN.
    CoefficientNotFinite = 4,
    /// The quadratic's discriminant is negative by more than rounding, or not finite.
    NoRealRoots = 5,
    /// No root of the cubic was found.
    NoRoot = 6,
    /// The record's length is not 193.
    RecordLength = 7,
    /// The record's version is not 1.
    RecordVersion = 8,
    /// Bytes of the record are missing.
    RecordCutShort = 9,
    /// No pose has a finite score, as where each puts the target behind the camera.
    NoFiniteScore = 10,
    /// A plate has no target of that number: they are 0, 1 and 2.
    NoSuchTarget = 11,
    /// The power of two by which a plate is to be multiplied is not from -64 to 64.
    PowerOutOfRange = 12,
    /// A coordinate of a plate to be multiplied is not finite, or leaves the normal range.
    CoordinateOutOfRange = 13,
}

impl Refusal {
    /// The number by which the C interface and the listing name it.
    pub fn number(self) -> u32 {
        self as u32
    }

    /// An answer, or the refusal of a number that is not 0.
    pub(crate) fn unless_zero<T>(number: u32, answer: T) -> Result<T, Self> {
        Err(match number {
            0 => return Ok(answer),
            1 => Self::InputNotFinite,
            2 => Self::NoUsableOrdering,
            3 => Self::NoPose,
            4 => Self::CoefficientNotFinite,
            5 => Self::NoRealRoots,
            6 => Self::NoRoot,
            7 => Self::RecordLength,
            8 => Self::RecordVersion,
            9 => Self::RecordCutShort,
            10 => Self::NoFiniteScore,
            11 => Self::NoSuchTarget,
            12 => Self::PowerOutOfRange,
            13 => Self::CoordinateOutOfRange,
            _ => unreachable!("no refusal has the number {number}"),
        })
    }
}

impl fmt::Display for Refusal {
    fn fmt(&self, f: &mut fmt::Formatter<'_>) -> fmt::Result {
        f.write_str(match self {
            Self::InputNotFinite => "a number of the input is not finite",
            Self::NoUsableOrdering => "no ordering of the points is usable",
            Self::NoPose => "no pose was kept",
            Self::CoefficientNotFinite => "a coefficient is not finite",
            Self::NoRealRoots => "the quadratic has no real roots",
            Self::NoRoot => "no root of the cubic was found",
            Self::RecordLength => "the record's length is not 193",
            Self::RecordVersion => "the record's version is not 1",
            Self::RecordCutShort => "bytes of the record are missing",
            Self::NoFiniteScore => "no pose has a finite score",
            Self::NoSuchTarget => "the plate has no target of that number",
            Self::PowerOutOfRange => "the power of two is not from -64 to 64",
            Self::CoordinateOutOfRange => "a coordinate is not finite or leaves the normal range",
        })
    }
}

impl std::error::Error for Refusal {}
