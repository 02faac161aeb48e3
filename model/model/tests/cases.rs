//! "A quay of three sections": the thirteen cases, case 13 by F-2 of document 02 with those beside it, case 3's bytes
//! and figure, and the edges that it names.

use model::meaning::{Configuration, Moment, State, START, STOP};
use model::planner::{judge, lengths, lent, plan, replay, verdict, Plan};
use model::program::printed;
use model::refusal::Refusal;
use model::sheet::Program::*;
use model::sheet::{check, Program, Sheet};
use sheets::cases::{case_13, cases, conflicts, edges, three_sections, with_action_2, Effect};
use sheets::cases::{CASE_3, DIFFERENT, DIFFERENT_AFTERWARDS, EQUAL, STAR_OVER};
use sheets::write::Records;

fn sheet(records: &Records) -> Sheet {
    check(&records.bytes()).expect("the sheet is accepted")
}

#[test]
fn every_case_and_edge_is_printed_as_it_should() {
    for case in [cases(), conflicts(), edges()].concat() {
        assert_eq!(printed(&case.sheet), case.printed, "{}", case.name);
    }
}

#[test]
fn plan_verdict_and_replay_agree_on_every_case() {
    for case in [cases(), conflicts()].concat() {
        let sheet = check(&case.sheet).expect(&case.name);
        match plan(&sheet) {
            Ok(Plan { history, transitions }) => {
                assert_eq!(verdict(&sheet), Ok(()), "{}", case.name);
                assert!(replay(&sheet, &history) && judge(&sheet, &history, transitions), "{}", case.name);
            }
            Err(refusal) => {
                assert_eq!(verdict(&sheet), Err(refusal), "{}", case.name);
                assert!(!replay(&sheet, &[]), "{}", case.name);
            }
        }
    }
}

#[test]
fn case_7_replayed() {
    let plain = sheet(&three_sections(&[Act(0), Act(1), Over(0, 1)], 2));
    assert!(replay(&plain, &[0, 1]));
    assert!(!replay(&plain, &[1, 0]));

    // The upper program is final at once and still goes first, as long as it has a step.
    let starred = sheet(&three_sections(&[Act(0), Star(0), Act(1), Over(1, 2)], 2));
    assert!(!replay(&starred, &[0, 1]));
}

#[test]
fn case_13_no_step() {
    let sheet = sheet(&case_13());
    assert_eq!(Configuration::first(&sheet).transitions(&sheet), []);
    assert_eq!(plan(&sheet), Err(Refusal::number(13)));
    assert!(!replay(&sheet, &[2]));
}

/// "Histories are legal by this reading."
#[test]
fn conflicts_replayed() {
    let quay = |effects: &[Effect], programs: &[Program], bound| sheet(&with_action_2(effects, programs, bound));
    let twice = [Act(2), Sequence(0, 0)];
    assert!(replay(&quay(&EQUAL, &twice, 2), &[2, 2]));
    assert!(!replay(&quay(&DIFFERENT_AFTERWARDS, &twice, 2), &[2, 2]));
    // star(act 2), act 2 once and no more.
    let star = quay(&DIFFERENT_AFTERWARDS, &[Act(2), Star(0)], 2);
    assert_eq!([&[][..], &[2], &[2, 2]].map(|history| replay(&star, history)), [true, true, false]);
    // star(act 2) over act 0
    assert!(replay(&quay(&DIFFERENT, &STAR_OVER, 2), &[0]));
    assert!(!replay(&quay(&EQUAL, &STAR_OVER, 2), &[0]));
    // Act 0 makes fluent 0 the 0 that it was, so that act 2 goes again.
    let between = quay(&DIFFERENT_AFTERWARDS, &[Act(2), Act(0), Sequence(0, 1), Sequence(2, 0)], 3);
    assert!(replay(&between, &[2, 0, 2]));
    assert!(!replay(&quay(&DIFFERENT, &[Act(2), Interrupt(3, 0)], 3), &[START, 2, STOP]));
}

#[test]
fn the_first_holding_effect_gives_the_value() {
    let sheet = sheet(&with_action_2(&[(4, 0, 2), (3, 0, 1), (1, 0, 1)], &[Act(2)], 1));
    let next = Moment::new(&sheet, State::initial(&sheet)).perform(2);
    assert_eq!(next.values[..2], [1, 0]);
}

#[test]
fn conditions_are_read_from_the_old_values() {
    // The first effect changes fluent 0, the second asks for its old value.
    let sheet = sheet(&with_action_2(&[(3, 0, 1), (1, 1, 2)], &[Act(2)], 1));
    let next = Moment::new(&sheet, State::initial(&sheet)).perform(2);
    assert_eq!(next.values[..2], [1, 2]);
}

#[test]
fn a_condition_and_the_first_step_of_its_branch_are_one_transition() {
    let sheet = sheet(&three_sections(&[Act(0), Nil, If(0, 0, 1)], 1));
    assert_eq!(lengths(&sheet, &[0]), [1]);
}

#[test]
fn one_history_may_have_runs_of_several_lengths() {
    let sheet = sheet(&three_sections(&[Act(0), Test(3), Star(1), Sequence(0, 2)], 3));
    assert_eq!(lengths(&sheet, &[0]), [1, 2, 3]);
    assert!(!judge(&sheet, &[0], 0));
    assert!(!judge(&sheet, &[0], 4));
}

#[test]
fn unknown_entries_mean_no() {
    let sheet = sheet(&three_sections(&CASE_3, 3));
    for unknown in [2, 63, 64, 65533, 65534, 65535] {
        assert!(!replay(&sheet, &[0, unknown]));
        assert!(!replay(&sheet, &[unknown, 0, 1]));
        assert!(!replay(&sheet, &[0, 1, unknown]));
    }
}

#[test]
fn case_3_trailer_and_figure() {
    let bytes = three_sections(&CASE_3, 2).bytes();
    let trailer = [2, 0, 4, 0, 2, 0, 2, 0, 4, 0, 2, 0, 0x50, 0, 0, 0, 0x42, 0x51];
    assert_eq!(bytes.len(), 0x50 + 18);
    assert!(bytes.ends_with(&trailer));
    assert_eq!(check(&bytes).map(|sheet| sheet.work()), Ok(273));
}

#[test]
fn case_3_lent_areas() {
    let sheet = sheet(&three_sections(&CASE_3, 2));
    assert_eq!(lent(&sheet, Some(2), 273), Ok(()));
    assert_eq!(lent(&sheet, Some(2), 272), Err(Refusal::number(11)));
    assert_eq!(lent(&sheet, Some(1), 273), Err(Refusal::number(10)));
    assert_eq!(lent(&sheet, Some(1), 272), Err(Refusal::number(10)));
    assert_eq!(lent(&sheet, None, 272), Err(Refusal::number(11)));
}

#[test]
fn an_unreached_interrupt_adds_start_and_stop() {
    let sheet = sheet(&three_sections(&[Nil, Interrupt(3, 0), Act(0)], 3));
    assert_eq!(plan(&sheet), Ok(Plan { history: vec![65534, 0, 65535], transitions: 3 }));
    // Height 0, plus 2 for the record of kind 11.
    assert_eq!(sheet.work(), 4 * (64 + 3 * (1 + 2 * 2 * 3)));
}
