//! "Who can cause which number": the numbers and their causes.

use std::error::Error;
use std::fmt;

/// A number of document 01 with its place: the lowest faulty record for 4 to 8, else 0.
#[derive(Clone, Copy, Debug, PartialEq, Eq, PartialOrd, Ord)]
pub struct Refusal {
    pub number: u8,
    pub place: usize,
}

impl Refusal {
    /// A number whose place is 0.
    pub const fn number(number: u8) -> Self {
        Refusal { number, place: 0 }
    }

    /// Document 01's cause in words.
    pub const fn cause(&self) -> &'static str {
        match self.number {
            1 => "under 18 bytes, or last two bytes wrong",
            2 => "a count, or D, outside its limits",
            3 => "distance not the sum, or more than the bytes before the trailer",
            4 => "a fluent record breaks its rule",
            5 => "a formula record breaks its rule or has an unknown kind",
            6 => "an effect record breaks its rule",
            7 => "an action record breaks its rule",
            8 => "a program record breaks its rule or has an unknown kind",
            9 => "height above 16",
            10 => "trace shorter than D",
            11 => "work shorter than required",
            12 => "lookup of a fluent not below F",
            13 => "no run of at most D transitions ends final, and no run has D + 1",
            14 => "no run of at most D transitions ends final, but some run has D + 1",
            _ => "no number of document 01",
        }
    }
}

/// What the program prints, and the cause.
impl fmt::Display for Refusal {
    fn fmt(&self, f: &mut fmt::Formatter) -> fmt::Result {
        write!(f, "refused {} {}: {}", self.number, self.place, self.cause())
    }
}

impl Error for Refusal {}
