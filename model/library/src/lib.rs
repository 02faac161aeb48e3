//! The verified planner behind safe functions: one for each function of include/planner.h.
//!
//! An answer is handed on as the library gives it, number, place and results, so that a comparison sees all of it. The
//! model is not named here, and [`Refusal`] is not the model's: the two sides of a comparison share nothing.
//!
//! ```
//! /// The moves of a plan.
//! fn moves(sheet: &[u8]) -> Result<Vec<u16>, library::Refusal> {
//!     let [words, _] = library::check(sheet).into_result()?;
//!     let [_, bound] = library::sizes(sheet).into_result()?;
//!     let (mut work, mut trace) = (vec![0; words], vec![0; bound]);
//!     let [n, _] = library::plan(sheet, &mut work, &mut trace, &mut []).into_result()?;
//!     trace.truncate(n);
//!     Ok(trace)
//! }
//!
//! let refusal = moves(b"not a sheet").unwrap_err();
//! assert_eq!(refusal.to_string(), "refused 1 0: under 18 bytes, or last two bytes wrong");
//! ```

use std::error::Error;
use std::fmt;

/// A number of document 01 with its place.
#[derive(Clone, Copy, Debug, PartialEq, Eq)]
pub struct Refusal {
    pub number: u32,
    pub place: usize,
}

/// The causes of 1 to 14, in the words of document 01.
const CAUSES: [&str; 14] = [
    "under 18 bytes, or last two bytes wrong",
    "a count, or D, outside its limits",
    "distance not the sum, or more than the bytes before the trailer",
    "a fluent record breaks its rule",
    "a formula record breaks its rule or has an unknown kind",
    "an effect record breaks its rule",
    "an action record breaks its rule",
    "a program record breaks its rule or has an unknown kind",
    "height above 16",
    "trace shorter than D",
    "work shorter than required",
    "lookup of a fluent not below F",
    "no run of at most D transitions ends final, and no run has D + 1",
    "no run of at most D transitions ends final, but some run has D + 1",
];

impl fmt::Display for Refusal {
    fn fmt(&self, f: &mut fmt::Formatter) -> fmt::Result {
        let Refusal { number, place } = *self;
        let cause =
            (number as usize).checked_sub(1).and_then(|at| CAUSES.get(at)).unwrap_or(&"no number of document 01");
        write!(f, "refused {number} {place}: {cause}")
    }
}

impl Error for Refusal {}

/// Number (0 where there is none) and place of document 01, and the other results; those a call leaves unwritten keep
/// [`UNWRITTEN`].
#[derive(Clone, Copy, Debug, PartialEq, Eq)]
pub struct Answer<const N: usize> {
    pub number: u32,
    pub place: usize,
    pub results: [usize; N],
}

/// What the places for results hold before a call.
pub const UNWRITTEN: usize = 0xa5a5_a5a5;

impl<const N: usize> Answer<N> {
    /// The results, unless there is a number.
    pub fn into_result(self) -> Result<[usize; N], Refusal> {
        match self.number {
            0 => Ok(self.results),
            number => Err(Refusal { number, place: self.place }),
        }
    }
}

mod c {
    unsafe extern "C" {
        pub fn planner_raw_check(
            sheet: *const u8,
            sheet_len: usize,
            words: *mut usize,
            names: *mut u32,
            place: *mut usize,
        ) -> u32;
        pub fn planner_raw_sizes(
            sheet: *const u8,
            sheet_len: usize,
            fluents: *mut usize,
            bound: *mut usize,
            place: *mut usize,
        ) -> u32;
        pub fn planner_raw_plan(
            sheet: *const u8,
            sheet_len: usize,
            work: *mut u32,
            work_len: usize,
            trace: *mut u16,
            trace_len: usize,
            index: *mut u32,
            index_len: usize,
            n: *mut usize,
            t: *mut usize,
            place: *mut usize,
        ) -> u32;
        pub fn planner_raw_replay(
            sheet: *const u8,
            sheet_len: usize,
            history: *const u16,
            history_len: usize,
            work: *mut u32,
            work_len: usize,
            yes: *mut u32,
            place: *mut usize,
        ) -> u32;
        pub fn planner_raw_look_up(
            sheet: *const u8,
            sheet_len: usize,
            fluent: usize,
            size: *mut usize,
            initial: *mut usize,
            place: *mut usize,
        ) -> u32;
        pub fn planner_raw_notes(sheet: *const u8, sheet_len: usize, length: *mut usize, place: *mut usize) -> u32;
    }
}

// Why the calls below are safe: a Rust slice's pointer is never null and is aligned, and borrows keep the lent areas
// apart and alive for the time of the call, after which the library keeps none of them.

/// Results: the words of work that planning and replay require, and the set of the fluents that formulas name, bit x
/// for fluent x (document 02, F-5). Initial values of fluents outside the set never change an answer.
pub fn check(sheet: &[u8]) -> Answer<2> {
    let [mut words, mut place] = [UNWRITTEN; 2];
    let mut names = UNWRITTEN as u32;
    // SAFETY: above.
    let number = unsafe { c::planner_raw_check(sheet.as_ptr(), sheet.len(), &mut words, &mut names, &mut place) };
    Answer { number, place, results: [words, names as usize] }
}

/// Results: the number of fluents, F, and the bound D, which is how many entries of trace planning requires.
pub fn sizes(sheet: &[u8]) -> Answer<2> {
    let [mut fluents, mut bound, mut place] = [UNWRITTEN; 3];
    // SAFETY: above.
    let number = unsafe { c::planner_raw_sizes(sheet.as_ptr(), sheet.len(), &mut fluents, &mut bound, &mut place) };
    Answer { number, place, results: [fluents, bound] }
}

/// Results: n and t. The index may have any length, and no result depends on it.
pub fn plan(sheet: &[u8], work: &mut [u32], trace: &mut [u16], index: &mut [u32]) -> Answer<2> {
    let [mut n, mut t, mut place] = [UNWRITTEN; 3];
    // SAFETY: above.
    let number = unsafe {
        c::planner_raw_plan(
            sheet.as_ptr(),
            sheet.len(),
            work.as_mut_ptr(),
            work.len(),
            trace.as_mut_ptr(),
            trace.len(),
            index.as_mut_ptr(),
            index.len(),
            &mut n,
            &mut t,
            &mut place,
        )
    };
    Answer { number, place, results: [n, t] }
}

/// Result: 1 for yes, 0 for no.
pub fn replay(sheet: &[u8], history: &[u16], work: &mut [u32]) -> Answer<1> {
    let (mut yes, mut place) = (UNWRITTEN as u32, UNWRITTEN);
    // SAFETY: above.
    let number = unsafe {
        c::planner_raw_replay(
            sheet.as_ptr(),
            sheet.len(),
            history.as_ptr(),
            history.len(),
            work.as_mut_ptr(),
            work.len(),
            &mut yes,
            &mut place,
        )
    };
    Answer { number, place, results: [yes as usize] }
}

/// Results: domain size and initial value.
pub fn look_up(sheet: &[u8], fluent: usize) -> Answer<2> {
    let [mut size, mut initial, mut place] = [UNWRITTEN; 3];
    // SAFETY: above.
    let number =
        unsafe { c::planner_raw_look_up(sheet.as_ptr(), sheet.len(), fluent, &mut size, &mut initial, &mut place) };
    Answer { number, place, results: [size, initial] }
}

/// Result: the number of bytes from the sheet's start that are its notes.
pub fn notes(sheet: &[u8]) -> Answer<1> {
    let [mut length, mut place] = [UNWRITTEN; 2];
    // SAFETY: above.
    let number = unsafe { c::planner_raw_notes(sheet.as_ptr(), sheet.len(), &mut length, &mut place) };
    Answer { number, place, results: [length] }
}
