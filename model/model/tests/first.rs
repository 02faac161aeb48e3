//! Document 02, F-1: "the plan is the first: fewest transitions, and among those the history that is smaller at the
//! first differing entry, a proper beginning counting as smaller".

use model::meaning::{Configuration, START, STOP};
use model::planner::{depth_first, judge, plan, Plan};
use model::sheet::Program::*;
use model::sheet::{check, Formula, Program, Sheet};
use sheets::write::Records;

/// Four actions, always possible, that change nothing; formula 0 is true, so that its test is a transition without an
/// entry. Records 0 to 3 perform the actions, record 4 is the test, and these program records follow.
fn sheet(programs: &[Program], bound: u16) -> Sheet {
    let mut records = Records { bound, ..Records::default() };
    records.fluent(1, 0);
    records.formula(Formula::True);
    for _ in 0..4 {
        records.action(0, 0, 0);
    }
    for program in [Act(0), Act(1), Act(2), Act(3), Test(0)].iter().chain(programs) {
        records.program(*program);
    }
    check(&records.bytes()).expect("the sheet is accepted")
}

const TEST: usize = 4;

/// Every run of exactly so many transitions, as its history and last configuration.
fn runs(sheet: &Sheet, transitions: usize) -> Vec<(Vec<u16>, Configuration)> {
    let mut runs = vec![(vec![], Configuration::first(sheet))];
    for _ in 0..transitions {
        let longer = |(history, from): (Vec<u16>, Configuration)| {
            let steps = from.transitions(sheet).into_iter();
            steps.map(move |step| ([&history[..], step.entry.as_slice()].concat(), step.to))
        };
        runs = runs.into_iter().flat_map(longer).collect();
    }
    runs
}

/// The first plan has this history and t; the others, of as many transitions, are plans too.
fn first(sheet: &Sheet, transitions: usize, history: &[u16], others: &[&[u16]]) {
    assert_eq!(plan(sheet), Ok(Plan { history: history.to_vec(), transitions }));
    for other in others {
        assert!(judge(sheet, other, transitions), "{other:?}");
    }
}

#[test]
fn fewest_transitions_count_before_a_smaller_history() {
    // (act 0; act 0) | act 1
    let sheet = sheet(&[Sequence(0, 0), Choice(5, 1)], 2);
    first(&sheet, 1, &[1], &[]);
    assert!(judge(&sheet, &[0, 0], 2));
}

#[test]
fn fewest_transitions_are_not_fewest_moves() {
    // (test; test; test) | (act 1; act 0)
    let sheet = sheet(&[Sequence(TEST, TEST), Sequence(TEST, 5), Sequence(1, 0), Choice(6, 7)], 3);
    first(&sheet, 2, &[1, 0], &[]);
    assert!(judge(&sheet, &[], 3));
}

#[test]
fn listed_order_is_not_the_order_of_histories() {
    // (act 3 | act 1) | act 2
    let choices = sheet(&[Choice(3, 1), Choice(5, 2)], 1);
    first(&choices, 1, &[1], &[&[2], &[3]]);
    assert_eq!(depth_first(&choices), Ok(Plan { history: vec![3], transitions: 1 }));

    // act 2 together with act 0
    let orders = sheet(&[Together(2, 0)], 2);
    first(&orders, 2, &[0, 2], &[&[2, 0]]);
    assert_eq!(depth_first(&orders), Ok(Plan { history: vec![2, 0], transitions: 2 }));
}

#[test]
fn a_proper_beginning_is_smaller() {
    // (act 1; act 0) | (act 1; test): a test adds no entry.
    first(&sheet(&[Sequence(1, 0), Sequence(1, TEST), Choice(5, 6)], 2), 2, &[1], &[&[1, 0]]);
    // (act 0; act 0) | (test; test)
    first(&sheet(&[Sequence(0, 0), Sequence(TEST, TEST), Choice(5, 6)], 2), 2, &[], &[&[0, 0]]);
}

#[test]
fn the_first_differing_entry_counts_before_the_length() {
    // (test; act 1) | (act 0; act 2)
    first(&sheet(&[Sequence(TEST, 1), Sequence(0, 2), Choice(5, 6)], 2), 2, &[0, 2], &[&[1]]);
    // (act 1; act 0) | (act 0; act 3)
    first(&sheet(&[Sequence(1, 0), Sequence(0, 3), Choice(5, 6)], 2), 2, &[0, 3], &[&[1, 0]]);
}

#[test]
fn the_least_beginning_is_not_what_counts() {
    // ((act 1; test) | (act 1; act 0)); act 2
    let sheet = sheet(&[Sequence(1, TEST), Sequence(1, 0), Choice(5, 6), Sequence(7, 2)], 3);
    // Two transitions lead to one configuration, and [1] is the smaller history.
    let [(short, there), (long, also_there)] = &runs(&sheet, 2)[..] else { panic!("two runs") };
    assert_eq!((&short[..], &long[..], there), (&[1][..], &[1, 0][..], also_there));
    assert!(short < long);
    first(&sheet, 3, &[1, 0, 2], &[&[1, 2]]);
}

#[test]
fn start_and_stop_are_larger_than_every_action() {
    // test | act 3, with an interrupt that the root does not reach.
    let sheet = sheet(&[Interrupt(0, 0), Choice(TEST, 3)], 3);
    first(&sheet, 3, &[START, 3, STOP], &[&[START, STOP]]);
}

#[test]
fn a_higher_bound_keeps_the_plan() {
    // star(act 0); act 1
    for bound in [1, 2, 64] {
        let sheet = sheet(&[Star(0), Sequence(5, 1)], bound);
        first(&sheet, 1, &[1], &[]);
        let longest = [&vec![0; sheet.bound - 1][..], &[1]].concat();
        assert_eq!(depth_first(&sheet), Ok(Plan { history: longest, transitions: sheet.bound }));
    }
}
