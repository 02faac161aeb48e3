//! "Steps and endings": every kind's steps and finality, one test a kind (000, sections 4 and 5); the truth of formulas.

use model::meaning::Prog::*;
use model::meaning::{Instance, Moment, Prog, State};
use model::sheet::{check, Formula, Program, Sheet};
use sheets::write::Records;
use std::rc::Rc;

/// Formulas and actions with 0 put in for both placeholders.
const fn at_start(number: usize) -> Instance {
    Instance { number, values: [0, 0] }
}

const YES: Instance = at_start(0);
const NO: Instance = at_start(1);

/// Formula 0 is true, formula 1 false; actions 0 and 2 are possible, action 1 is not; nothing changes a value.
fn sheet() -> Sheet {
    let mut records = Records::default();
    records.fluent(1, 0);
    records.formula(Formula::True);
    records.formula(Formula::False);
    for precondition in [YES, NO, YES] {
        records.action(precondition.number, 0, 0);
    }
    records.program(Program::Nil);
    check(&records.bytes()).expect("the sheet is accepted")
}

type Steps = Vec<(Option<u16>, Rc<Prog>)>;

/// The steps as entry and remaining program, and finality, while interrupts run or not.
fn meaning(program: &Rc<Prog>, interrupts: bool) -> (Steps, bool) {
    let sheet = sheet();
    let state = State { interrupts, ..State::initial(&sheet) };
    let moment = Moment::new(&sheet, state);
    let steps = moment.transitions(program).into_iter().map(|step| (step.entry, step.to.program)).collect();
    (steps, moment.is_final(program))
}

fn steps(program: Prog) -> Steps {
    meaning(&Rc::new(program), false).0
}

fn is_final(program: Prog) -> bool {
    meaning(&Rc::new(program), false).1
}

fn nil() -> Rc<Prog> {
    Rc::new(Nil)
}

fn act(action: usize) -> Rc<Prog> {
    Rc::new(Act(at_start(action)))
}

/// A program that is final and has a step: star(act 0), and what that step leaves.
fn star() -> Rc<Prog> {
    Rc::new(Star(act(0)))
}

fn after_star() -> Rc<Prog> {
    Rc::new(Sequence(nil(), star()))
}

#[test]
fn kind_0_nil() {
    assert_eq!(steps(Nil), []);
    assert!(is_final(Nil));
}

#[test]
fn kind_1_act() {
    assert_eq!(steps(Act(at_start(0))), [(Some(0), nil())]);
    assert_eq!(steps(Act(at_start(1))), []);
    assert!(!is_final(Act(at_start(0))) && !is_final(Act(at_start(1))));
}

#[test]
fn kind_2_test() {
    assert_eq!(steps(Test(YES)), [(None, nil())]);
    assert_eq!(steps(Test(NO)), []);
    assert!(!is_final(Test(YES)) && !is_final(Test(NO)));
}

#[test]
fn kind_3_sequence() {
    assert_eq!(steps(Sequence(act(0), act(2))), [(Some(0), Rc::new(Sequence(nil(), act(2))))]);
    assert_eq!(steps(Sequence(act(1), act(2))), []);
    assert_eq!(steps(Sequence(nil(), act(2))), [(Some(2), nil())]);
    let both = [(Some(0), Rc::new(Sequence(after_star(), act(2)))), (Some(2), nil())];
    assert_eq!(steps(Sequence(star(), act(2))), both);
    assert!(is_final(Sequence(nil(), star())));
    assert!(!is_final(Sequence(nil(), act(0))) && !is_final(Sequence(act(0), nil())));
}

#[test]
fn kind_4_choice() {
    assert_eq!(steps(Choice(act(2), act(0))), [(Some(2), nil()), (Some(0), nil())]);
    assert_eq!(steps(Choice(act(1), act(0))), [(Some(0), nil())]);
    assert!(is_final(Choice(nil(), act(0))) && is_final(Choice(act(0), nil())));
    assert!(!is_final(Choice(act(0), act(2))));
}

#[test]
fn kind_5_star() {
    assert_eq!(steps(Star(act(0))), [(Some(0), after_star())]);
    assert_eq!(steps(Star(act(1))), []);
    assert!(is_final(Star(act(0))) && is_final(Star(act(1))));
}

#[test]
fn kind_6_if() {
    assert_eq!(steps(If(YES, act(0), act(2))), [(Some(0), nil())]);
    assert_eq!(steps(If(NO, act(0), act(2))), [(Some(2), nil())]);
    assert_eq!(steps(If(YES, act(1), act(2))), []);
    assert!(is_final(If(YES, nil(), act(0))) && is_final(If(NO, act(0), nil())));
    assert!(!is_final(If(YES, act(0), nil())) && !is_final(If(NO, nil(), act(0))));
}

#[test]
fn kind_7_while() {
    assert_eq!(steps(While(YES, act(0))), [(Some(0), Rc::new(Sequence(nil(), Rc::new(While(YES, act(0))))))]);
    assert_eq!(steps(While(NO, act(0))), []);
    assert!(is_final(While(NO, act(0))) && is_final(While(YES, nil())));
    assert!(!is_final(While(YES, act(0))));
}

#[test]
fn kind_8_together() {
    let both = [(Some(0), Rc::new(Together(nil(), act(2)))), (Some(2), Rc::new(Together(act(0), nil())))];
    assert_eq!(steps(Together(act(0), act(2))), both);
    assert!(is_final(Together(nil(), star())));
    assert!(!is_final(Together(nil(), act(0))) && !is_final(Together(act(0), nil())));
}

#[test]
fn kind_9_over() {
    assert_eq!(steps(Over(act(0), act(2))), [(Some(0), Rc::new(Over(nil(), act(2))))]);
    assert_eq!(steps(Over(act(1), act(2))), [(Some(2), Rc::new(Over(act(1), nil())))]);
    assert_eq!(steps(Over(nil(), act(2))), [(Some(2), Rc::new(Over(nil(), nil())))]);
    assert_eq!(steps(Over(star(), act(2))), [(Some(0), Rc::new(Over(after_star(), act(2))))]);
    assert!(is_final(Over(nil(), star())));
    assert!(!is_final(Over(nil(), act(0))) && !is_final(Over(act(0), nil())));
}

#[test]
fn kind_10_concurrent_iteration() {
    let left = Rc::new(Together(nil(), Rc::new(Iteration(act(0)))));
    assert_eq!(steps(Iteration(act(0))), [(Some(0), left)]);
    assert_eq!(steps(Iteration(act(1))), []);
    assert!(is_final(Iteration(act(0))) && is_final(Iteration(act(1))));
}

#[test]
fn kind_11_interrupt() {
    let interrupt = |condition, body| Rc::new(Interrupt(condition, body));
    let left = Rc::new(Sequence(nil(), interrupt(YES, act(0))));
    assert_eq!(meaning(&interrupt(YES, act(0)), true), (vec![(Some(0), left)], false));
    assert_eq!(meaning(&interrupt(NO, act(0)), true), (vec![], false));
    assert_eq!(meaning(&interrupt(YES, nil()), true), (vec![], true));
    assert_eq!(meaning(&interrupt(NO, nil()), true), (vec![], false));
    assert_eq!(meaning(&interrupt(YES, act(0)), false), (vec![], true));
    assert_eq!(meaning(&interrupt(NO, act(0)), false), (vec![], true));
}

#[test]
fn start_and_stop() {
    let sheet = sheet();
    for (program, entry, after) in [(Start, 65534, true), (Stop, 65535, false)] {
        let program = Rc::new(program);
        for interrupts in [false, true] {
            let state = State { interrupts, ..State::initial(&sheet) };
            let steps = Moment::new(&sheet, state).transitions(&program);
            assert_eq!(meaning(&program, interrupts), (vec![(Some(entry), nil())], false));
            assert_eq!(steps[0].to.state, State { interrupts: after, ..state });
        }
    }
}

#[test]
fn truth_of_formulas() {
    use Formula::*;
    // Fluents 0 and 1 have the value 1, fluent 2 the value 2.
    let rows = [
        (True, true),
        (False, false),
        (Is(0, 1), true),
        (Is(2, 1), false),
        (Less(0, 0), false),
        (Less(0, 1), false),
        (Less(0, 2), true),
        (Less(2, 3), true),
        (Equal(0, 1), true),
        (Equal(1, 2), false),
        (Not(0), false),
        (Not(1), true),
        (And(0, 0), true),
        (And(0, 1), false),
        (And(1, 0), false),
        (And(1, 1), false),
        (Or(0, 0), true),
        (Or(0, 1), true),
        (Or(1, 0), true),
        (Or(1, 1), false),
    ];
    let mut records = Records::default();
    for value in [1, 1, 2] {
        records.fluent(3, value);
    }
    for (formula, _) in rows {
        records.formula(formula);
    }
    records.program(Program::Nil);
    let sheet = check(&records.bytes()).expect("the sheet is accepted");
    let moment = Moment::new(&sheet, State::initial(&sheet));
    for (number, (formula, truth)) in rows.into_iter().enumerate() {
        assert_eq!(moment.holds(number), truth, "{formula:?}");
    }
}
