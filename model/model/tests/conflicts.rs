//! Document 02, F-2: "An action with two holding effects that give one fluent different values is now impossible, like
//! one whose precondition fails; equal values are fine."

use model::meaning::{Moment, State};
use model::sheet::{check, Formula, Program, Sheet};
use sheets::cases::Effect;
use sheets::write::Records;

const YES: usize = 0;
const NO: usize = 1;
/// Fluent 0 is 0, and is not.
const ZERO: usize = 2;
const NOT_ZERO: usize = 3;

/// Three fluents with the values 0 to 3, at first 0, and one action: this precondition and this part of these effects.
fn sheet(precondition: usize, effects: &[Effect], [first, count]: [usize; 2]) -> Sheet {
    let mut records = Records::default();
    for _ in 0..3 {
        records.fluent(4, 0);
    }
    for formula in [Formula::True, Formula::False, Formula::Is(0, 0), Formula::Not(ZERO)] {
        records.formula(formula);
    }
    for (condition, fluent, value) in effects {
        records.effect(*condition, *fluent, *value);
    }
    records.action(precondition, first, count);
    records.program(Program::Act(0));
    check(&records.bytes()).expect("the sheet is accepted")
}

/// Whether an action with this precondition and these effects is possible where fluent 0 has this value.
fn possible_where(value: u8, precondition: usize, effects: &[Effect]) -> bool {
    let sheet = sheet(precondition, effects, [0, effects.len()]);
    let mut state = State::initial(&sheet);
    state.values[0] = value;
    Moment::new(&sheet, state).possible(0)
}

/// The same with the precondition `true` and the value 0.
fn possible(effects: &[Effect]) -> bool {
    possible_where(0, YES, effects)
}

#[test]
fn different_values_are_impossible() {
    assert!(!possible(&[(YES, 0, 1), (YES, 0, 2)]));
    assert!(!possible(&[(YES, 0, 2), (YES, 0, 1)]));
    assert!(!possible(&[(YES, 0, 1), (YES, 0, 1), (YES, 0, 2)]));
}

#[test]
fn equal_values_are_fine() {
    assert!(possible(&[(YES, 0, 1), (YES, 0, 1)]));
    assert!(possible(&[(YES, 0, 1), (YES, 1, 2), (YES, 0, 1), (YES, 1, 2)]));
    assert!(possible(&[(YES, 0, 0), (YES, 0, 0)]));
}

#[test]
fn the_old_value_is_a_value_like_others() {
    assert!(!possible(&[(YES, 0, 0), (YES, 0, 1)]));
    assert!(!possible(&[(YES, 0, 1), (YES, 0, 0)]));
    // One effect changes it, and none gives another value.
    assert!(possible(&[(YES, 0, 1)]) && possible(&[(YES, 0, 0)]) && possible(&[]));
}

#[test]
fn a_precondition_that_fails_is_enough() {
    assert!(!possible_where(0, NO, &[]));
    assert!(!possible_where(0, NO, &[(YES, 0, 1), (YES, 0, 1)]));
    assert!(!possible_where(0, NO, &[(YES, 0, 1), (YES, 0, 2)]));
}

#[test]
fn only_holding_effects_count() {
    assert!(possible(&[(YES, 0, 1), (NO, 0, 2)]));
    assert!(possible(&[(NO, 0, 1), (YES, 0, 2)]));
    assert!(possible(&[(NO, 0, 1), (NO, 0, 2)]));
    assert!(!possible(&[(YES, 0, 1), (NO, 0, 3), (YES, 0, 2)]));
}

#[test]
fn every_fluent_has_values_of_its_own() {
    assert!(possible(&[(YES, 0, 1), (YES, 1, 2), (YES, 2, 3)]));
    assert!(!possible(&[(YES, 0, 1), (YES, 1, 1), (YES, 1, 2)]));
    assert!(!possible(&[(YES, 0, 1), (YES, 0, 1), (YES, 2, 1), (YES, 2, 2)]));
}

#[test]
fn every_pair_counts() {
    assert!(!possible(&[(YES, 0, 1), (YES, 0, 2), (YES, 0, 1)]));
    assert!(!possible(&[(YES, 0, 1), (YES, 1, 1), (YES, 0, 2)]));
    assert!(!possible(&[(YES, 0, 1), (YES, 1, 1), (YES, 2, 1), (YES, 1, 2)]));
    assert!(!possible(&[(YES, 1, 1), (YES, 0, 1), (YES, 2, 1), (YES, 0, 1), (YES, 1, 2)]));
}

#[test]
fn it_depends_on_the_state() {
    let effects = [(YES, 0, 1), (NOT_ZERO, 0, 2)];
    assert_eq!([0, 1, 2].map(|value| possible_where(value, YES, &effects)), [true, false, false]);
    let one_holds = [(ZERO, 0, 1), (NOT_ZERO, 0, 2)];
    assert_eq!([0, 1, 2].map(|value| possible_where(value, YES, &one_holds)), [true; 3]);
}

#[test]
fn conditions_are_judged_in_the_old_values() {
    // In the new values the last would hold.
    assert!(possible(&[(YES, 0, 1), (NOT_ZERO, 0, 2)]));
    assert!(possible(&[(YES, 0, 1), (YES, 1, 1), (NOT_ZERO, 1, 2)]));
    // In the new values the last would fail.
    assert!(!possible(&[(YES, 0, 1), (ZERO, 0, 2)]));
    assert!(!possible(&[(YES, 0, 1), (YES, 1, 1), (ZERO, 1, 2)]));
}

#[test]
fn effects_outside_the_range_do_not_count() {
    let effects = [(YES, 0, 1), (YES, 0, 2), (YES, 0, 2), (YES, 0, 3)];
    for (first, count, agree) in [(0, 1, true), (1, 2, true), (0, 2, false), (1, 3, false), (4, 0, true)] {
        let sheet = sheet(YES, &effects, [first, count]);
        assert_eq!(Moment::new(&sheet, State::initial(&sheet)).possible(0), agree, "{count} from {first}");
    }
}
