//! The thin program of "Who can cause which number": a sheet from standard input, and what it prints.

use crate::planner::{self, lent, Plan};
use crate::refusal::Refusal;
use crate::sheet::{check_with, PLACEHOLDERS};

/// What the program lends to planning, and the most that it reads.
const WORK: usize = 16_384;
const TRACE: usize = 64;
const MOST_BYTES: usize = 16_384;

/// What it prints for this input.
pub fn printed(input: &[u8]) -> String {
    printed_with(PLACEHOLDERS, input)
}

/// The same with so many placeholders.
pub fn printed_with(placeholders: usize, input: &[u8]) -> String {
    if input.len() > MOST_BYTES {
        return "too long\n".to_string();
    }
    lines(&plan(placeholders, input))
}

fn plan(placeholders: usize, bytes: &[u8]) -> Result<Plan, Refusal> {
    let sheet = check_with(placeholders, bytes)?;
    lent(&sheet, Some(TRACE), WORK)?;
    planner::plan(&sheet)
}

/// `refused`, number, place; or `found`, n, t, then one entry a line.
fn lines(answer: &Result<Plan, Refusal>) -> String {
    match answer {
        Ok(plan) => {
            let first = format!("found {} {}\n", plan.history.len(), plan.transitions);
            plan.history.iter().fold(first, |text, entry| text + &format!("{entry}\n"))
        }
        Err(refusal) => format!("refused {} {}\n", refusal.number, refusal.place),
    }
}
