//! The deep sheets: that they are as deep as they say.

use model::meaning::{Configuration, Prog};
use model::planner::{plan, Plan};
use model::sheet::{check, check_with};
use sheets::deep::{choosing, deep};
use sheets::runs;

/// The most links on a path down.
fn depth(program: &Prog) -> usize {
    use Prog::*;
    match program {
        Nil | Act(_) | Start | Stop | Test(_) => 0,
        Star(a) | While(_, a) | Iteration(a) | Interrupt(_, a) | Pick(_, a, _) => 1 + depth(a),
        Sequence(a, b) | Choice(a, b) | If(_, a, b) | Together(a, b) | Over(a, b) => 1 + depth(a).max(depth(b)),
    }
}

#[test]
fn the_plan_has_64_moves() {
    for deep in deep() {
        let sheet = check(&deep.sheet).expect("the sheet is accepted");
        assert_eq!(plan(&sheet), Ok(Plan { history: deep.history, transitions: 64 }), "{}", deep.name);
    }
}

#[test]
fn there_is_one_run_of_each_length() {
    for deep in deep() {
        let sheet = check(&deep.sheet).expect("the sheet is accepted");
        assert_eq!(runs::count(&sheet, sheet.bound + 1, usize::MAX), Some(65), "{}", deep.name);
    }
}

#[test]
fn all_but_the_first_are_as_deep_as_they_get() {
    for deep in deep().into_iter().skip(1) {
        let sheet = check(&deep.sheet).expect("the sheet is accepted");
        let mut configuration = Configuration::first(&sheet);
        for _ in 0..63 {
            configuration = configuration.transitions(&sheet).swap_remove(0).to;
        }
        assert_eq!(depth(&configuration.program), 16 + 63, "{}", deep.name);
    }
}

#[test]
fn with_placeholders() {
    for deep in choosing() {
        let sheet = check_with(2, &deep.sheet).expect("the sheet is accepted");
        assert_eq!(plan(&sheet), Ok(Plan { history: deep.history, transitions: 64 }), "{}", deep.name);
        assert_eq!(runs::count(&sheet, sheet.bound + 1, usize::MAX), Some(65), "{}", deep.name);
    }
    let sheets = choosing().into_iter().map(|deep| check_with(2, &deep.sheet).expect("the sheet is accepted"));
    let [choices, quantifiers] = &sheets.collect::<Vec<_>>()[..] else { panic!("two sheets") };
    assert_eq!(choices.height(), 16);
    assert!(quantifiers.formulas.len() > 400);
}
