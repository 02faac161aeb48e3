//! Document 02, F-5: what evaluating a condition returns, what a possible-check returns, and what checking a sheet
//! returns, by the verified functions themselves, against the model. The test program `named_cases` calls them: for an
//! accepted sheet it prints `formula`, number, truth and set of each formula in the initial state, `action`, number,
//! whether it is possible there, and set of each action, then `sheet`, words and set; else `refused`, number and place.
//! It is target/bin/named_cases of the repository, or the file that PLANNER_NAMED_CASES names.

#![forbid(unsafe_code)]

mod programs;

use model::meaning::{Moment, State};
use model::sheet::{check, Sheet};
use sheets::cases::{cases, conflicts, doubled, edges, placeholders, Case};
use sheets::examples::examples;
use sheets::random::{damaged, large, searchable, Random};
use std::process::ExitCode;

/// The most that the program reads.
const MOST_BYTES: usize = 16_384;

fn lines(sheet: &Sheet) -> String {
    let moment = Moment::new(sheet, State::initial(sheet));
    let mut lines = String::new();
    for formula in 0..sheet.formulas.len() {
        let truth = u8::from(moment.holds(formula));
        lines += &format!("formula {formula} {truth} {}\n", sheet.formula_names(formula));
    }
    for action in 0..sheet.actions.len() {
        let possible = u8::from(moment.possible(action));
        lines += &format!("action {action} {possible} {}\n", sheet.action_names(action));
    }
    lines + &format!("sheet {} {}\n", sheet.work(), sheet.names())
}

/// A sheet with what must be printed for it.
fn named(name: impl Into<String>, sheet: Vec<u8>) -> Case {
    let printed = match check(&sheet) {
        Ok(sheet) => lines(&sheet),
        Err(refusal) => format!("refused {} {}\n", refusal.number, refusal.place),
    };
    Case::new(name, sheet, printed)
}

/// Random sheets: so many small ones, half as many with large tables, and as many of either sort that break a rule.
fn random_cases(count: usize) -> Vec<Case> {
    let mut random = Random::new(1);
    let mut cases = vec![];
    for number in 0..count {
        cases.push(named(format!("random sheet {number}, small"), searchable(&mut random, 3_000).0));
        if number % 2 == 0 {
            cases.push(named(format!("random sheet {number}, large"), large(&mut random).bytes()));
        }
        let fault = random.between(1, 9) as u8;
        cases.push(named(format!("random sheet {number}, faulty"), damaged(&mut random, &[fault]).0));
    }
    cases
}

fn main() -> ExitCode {
    let mut all = vec![named("doubled", doubled().bytes())];
    let of_documents = [cases(), conflicts(), placeholders(), edges(), examples()].concat();
    let short = of_documents.into_iter().filter(|case| case.sheet.len() <= MOST_BYTES);
    all.extend(short.map(|case| named(case.name, case.sheet)));
    all.extend(random_cases(200));
    programs::compare("named_cases", "PLANNER_NAMED_CASES", all)
}
