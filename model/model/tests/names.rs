//! Document 02, F-5: the fluents that formulas name, those of actions and of sheets; and that "two accepted sheets that
//! differ only in initial values of fluents outside the union get the same plan verdict, trace and replay replies".

use model::planner::{plan, replay, Plan};
use model::refusal::Refusal;
use model::sheet::Formula::{self, *};
use model::sheet::{check, check_with, Program, Sheet};
use sheets::cases::{doubled, Effect};
use sheets::random::{near_miss, other_initials, run, searchable, Random};
use sheets::runs;
use sheets::write::Records;

/// Five fluents with the values 0 to 3, at first 0, these formulas, and for each precondition and effects an action.
fn sheet(formulas: &[Formula], actions: &[(usize, &[Effect])]) -> Sheet {
    let mut records = Records::default();
    for _ in 0..5 {
        records.fluent(4, 0);
    }
    for formula in formulas {
        records.formula(*formula);
    }
    for (precondition, effects) in actions {
        let first = records.effects.len();
        for (condition, fluent, value) in *effects {
            records.effect(*condition, *fluent, *value);
        }
        records.action(*precondition, first, effects.len());
    }
    records.program(Program::Nil);
    check(&records.bytes()).expect("the sheet is accepted")
}

/// The set of each formula.
fn formula_names(formulas: &[Formula]) -> Vec<u32> {
    let sheet = sheet(formulas, &[]);
    (0..formulas.len()).map(|number| sheet.formula_names(number)).collect()
}

#[test]
fn every_kind() {
    let rows = [
        (True, 0b00000),
        (False, 0b00000),
        (Is(0, 3), 0b00001),
        (Less(4, 1), 0b10000),
        (Equal(1, 3), 0b01010),
        (Equal(3, 1), 0b01010),
        (Equal(2, 2), 0b00100),
        (Not(4), 0b01010),
        (And(2, 4), 0b01011),
        (Or(3, 2), 0b10001),
        (And(0, 6), 0b00100),
        (Or(6, 1), 0b00100),
    ];
    let names = formula_names(&rows.map(|(formula, _)| formula));
    for (names, (formula, expected)) in names.into_iter().zip(rows) {
        assert_eq!(names, expected, "{formula:?}");
    }
}

/// Neither the value that is asked for nor what holds in any state counts.
#[test]
fn what_always_or_never_holds_is_named_too() {
    assert_eq!(formula_names(&[Less(1, 0), Less(2, 4), Not(0), And(0, 1), Or(2, 1)]), [2, 4, 2, 6, 6]);
}

#[test]
fn subformulas_at_every_depth() {
    let formulas = [Is(0, 0), Less(1, 1), Equal(2, 3), Not(0), And(3, 1), Or(4, 2), Not(5), Not(6)];
    assert_eq!(formula_names(&formulas), [1, 2, 12, 1, 3, 15, 15, 15]);
}

#[test]
fn shared_subformulas() {
    let formulas = [Is(0, 0), Is(1, 0), Is(2, 0), Or(0, 1), Or(0, 2), And(3, 4), And(0, 0), Or(6, 0)];
    assert_eq!(formula_names(&formulas), [1, 2, 4, 3, 5, 7, 1, 1]);
}

/// Were a formula visited as often as it is met, the last would be 2^511 times.
#[test]
fn doubled_512_times() {
    let sheet = check(&doubled().bytes()).expect("the sheet is accepted");
    assert_eq!(sheet.formulas.len(), 512);
    assert!((0..512).all(|formula| sheet.formula_names(formula) == 0x8000_0001));
    assert_eq!([sheet.action_names(0), sheet.names()], [0x8000_0001; 2]);
}

/// Formulas 0 to 4 ask for the value 0 of fluents 0 to 4, formula 5 is `true`.
fn action_names(precondition: usize, effects: &[Effect]) -> u32 {
    let formulas = [Is(0, 0), Is(1, 0), Is(2, 0), Is(3, 0), Is(4, 0), True];
    sheet(&formulas, &[(precondition, effects)]).action_names(0)
}

#[test]
fn an_action_has_those_of_its_precondition_and_conditions() {
    assert_eq!(action_names(5, &[]), 0);
    assert_eq!(action_names(1, &[]), 0b00010);
    assert_eq!(action_names(5, &[(0, 0, 1), (4, 0, 1)]), 0b10001);
    assert_eq!(action_names(1, &[(0, 0, 1), (4, 0, 1), (4, 0, 2)]), 0b10011);
}

#[test]
fn fluents_that_effects_give_values_do_not_count() {
    assert_eq!(action_names(5, &[(5, 0, 1), (5, 3, 2)]), 0);
    assert_eq!(action_names(1, &[(2, 3, 1)]), 0b00110);
}

/// Nor does it matter whether the precondition holds, or the effects conflict.
#[test]
fn an_effect_counts_whether_it_holds_or_not() {
    let formulas = [Is(0, 0), Is(1, 3), Equal(2, 3), Not(2)];
    let actions: [(usize, &[Effect]); 4] =
        [(0, &[(1, 4, 1)]), (1, &[(3, 4, 1)]), (0, &[(0, 4, 1), (2, 4, 2)]), (1, &[(1, 4, 1), (3, 4, 2)])];
    let sheet = sheet(&formulas, &actions);
    assert_eq!([0, 1, 2, 3].map(|action| sheet.action_names(action)), [0b0011, 0b1110, 0b1101, 0b1110]);
}

#[test]
fn effects_outside_the_range_do_not_count() {
    let mut records = Records::default();
    for fluent in 0..4 {
        records.fluent(2, 0);
        records.formula(Is(fluent, 0));
        records.effect(fluent, 0, 1);
    }
    records.formula(True);
    for (first, count) in [(0, 1), (1, 2), (3, 1), (0, 4), (4, 0)] {
        records.action(4, first, count);
    }
    records.program(Program::Nil);
    let sheet = check(&records.bytes()).expect("the sheet is accepted");
    let names: Vec<u32> = (0..5).map(|action| sheet.action_names(action)).collect();
    assert_eq!(names, [0b0001, 0b0110, 0b1000, 0b1111, 0]);
}

#[test]
fn a_sheet_has_those_of_every_formula() {
    assert_eq!(sheet(&[], &[]).names(), 0);
    assert_eq!(sheet(&[True, False], &[(0, &[(0, 3, 1)])]).names(), 0);
    // Nothing uses formulas 1 and 2.
    let unused = sheet(&[Is(0, 0), Is(2, 0), Equal(3, 0)], &[(0, &[(0, 4, 1)])]);
    assert_eq!([unused.action_names(0), unused.names()], [0b00001, 0b01101]);
}

#[test]
fn every_fluent_has_its_bit() {
    let mut records = Records::default();
    for _ in 0..32 {
        records.fluent(1, 0);
    }
    for fluent in 0..32 {
        records.formula(Is(fluent, 0));
    }
    records.program(Program::Nil);
    let sheet = check(&records.bytes()).expect("the sheet is accepted");
    assert!((0..32).all(|fluent| sheet.formula_names(fluent) == 1 << fluent));
    assert_eq!(sheet.names(), u32::MAX);
}

/// What planning and the replay of these histories answer.
fn answers(sheet: &Sheet, histories: &[Vec<u16>]) -> (Result<Plan, Refusal>, Vec<bool>) {
    (plan(sheet), histories.iter().map(|history| replay(sheet, history)).collect())
}

#[test]
fn initial_values_outside_the_set_change_no_answer() {
    let mut random = Random::with_placeholders(17, 2);
    let (mut outside, mut inside, mut changed) = (0, 0, 0);
    for _ in 0..3000 {
        let (bytes, sheet) = searchable(&mut random, 300);
        let (reached, _) = run(&mut random, &sheet);
        let histories = [near_miss(&mut random, &sheet, &reached), reached, vec![]];
        let expected = answers(&sheet, &histories);
        let mut with_others = |set| {
            let other = other_initials(&mut random, &bytes, &sheet, set)?;
            let other = check_with(2, &other).expect("values stay below their sizes");
            runs::few(&other, 3000).then(|| answers(&other, &histories))
        };
        if let Some(same) = with_others(!sheet.names()) {
            assert_eq!(same, expected);
            outside += 1;
        }
        if let Some(any) = with_others(sheet.names()) {
            inside += 1;
            changed += usize::from(any != expected);
        }
    }
    println!("of 3000: pairs that differ outside the set {outside}; inside {inside}, with other answers {changed}");
    assert!(outside > 1000 && changed > 500);
}
