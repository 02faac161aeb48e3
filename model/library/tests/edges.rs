//! Document 01's edges of the lent areas, on case 3: "272 words give 11, trace of 1 gives 10, both give 10". That its
//! plan stays under a higher bound, and with an index of any length. Case 13 by F-2. Which fluents are named, by F-5, and
//! that others change no answer. What is told of a sheet's sizes and notes. What a refusal says in words.

use library::{check, notes, plan, replay, sizes, Answer, Refusal};
use model::sheet::Formula;
use model::sheet::Program::Act;
use sheets::cases::{case_13, doubled, three_sections, with_action_2, CASE_3, EQUAL};
use sheets::write::Records;

fn case_3() -> Vec<u8> {
    three_sections(&CASE_3, 2).bytes()
}

/// What planning answers and leaves.
struct Planned {
    answer: Answer<2>,
    trace: Vec<u16>,
    work: Vec<u32>,
    index: Vec<u32>,
}

/// Plans in areas of these lengths that hold ones.
fn planned(words: usize, entries: usize, index: usize) -> Planned {
    let (mut work, mut trace, mut index) = (vec![1; words], vec![1; entries], vec![1; index]);
    let answer = plan(&case_3(), &mut work, &mut trace, &mut index);
    Planned { answer, trace, work, index }
}

#[test]
fn figure() {
    assert_eq!(check(&case_3()), Answer { number: 0, place: 0, results: [273, 0b11] });
}

#[test]
fn found_in_areas_of_any_content_and_length() {
    for (words, entries, index) in [(273, 2, 0), (273, 64, 1), (300, 2, 9), (16_384, 64, 4_096)] {
        let Planned { answer, trace, work, index } = planned(words, entries, index);
        assert_eq!(answer, Answer { number: 0, place: 0, results: [2, 2] });
        assert_eq!(trace[..2], [0, 1]);
        assert!(trace[2..].iter().all(|&entry| entry == 1));
        assert!(work[..273].iter().all(|&word| word == 0));
        assert!(work[273..].iter().all(|&word| word == 1));
        assert!(index.iter().all(|&word| word == 0));
    }
}

/// Document 02, F-1: the fewest transitions. A star comes first in listed order, and could go on to the bound.
#[test]
fn the_plan_stays_under_a_higher_bound() {
    for bound in [2, 3, 64] {
        let sheet = three_sections(&CASE_3, bound).bytes();
        let [words, _] = check(&sheet).into_result().expect("the sheet is accepted");
        let (mut work, mut trace) = (vec![1; words], vec![1; 64]);
        assert_eq!(plan(&sheet, &mut work, &mut trace, &mut []), Answer { number: 0, place: 0, results: [2, 2] });
        assert_eq!(trace[..2], [0, 1]);
        assert!(trace[2..].iter().all(|&entry| entry == 1));
    }
}

#[test]
fn short_areas_stay_untouched() {
    for (words, entries, number) in [(272, 2, 11), (273, 1, 10), (272, 1, 10)] {
        let Planned { answer, trace, work, index } = planned(words, entries, 9);
        assert_eq!(answer, Answer { number, place: 0, results: [0, 0] });
        assert!(trace.iter().all(|&entry| entry == 1));
        assert!(work.iter().all(|&word| word == 1));
        assert!(index.iter().all(|&word| word == 1));
    }
}

#[test]
fn replay_needs_the_same_words() {
    let mut work = vec![1; 272];
    assert_eq!(replay(&case_3(), &[0, 1], &mut work), Answer { number: 11, place: 0, results: [0] });
    assert!(work.iter().all(|&word| word == 1));
    let mut work = vec![1; 274];
    assert_eq!(replay(&case_3(), &[0, 1], &mut work), Answer { number: 0, place: 0, results: [1] });
    assert!(work[..273].iter().all(|&word| word == 0) && work[273] == 1);
}

/// Document 02, F-2: "Case 13 becomes: no step. Histories are legal by this reading"; "equal values are fine".
#[test]
fn case_13_is_not_replayed() {
    let equal = with_action_2(&EQUAL, &[Act(2)], 1);
    for (records, number, yes) in [(case_13(), 13, 0), (equal, 0, 1)] {
        let sheet = records.bytes();
        let [words, _] = check(&sheet).into_result().expect("the sheet is accepted");
        let (mut work, mut trace) = (vec![1; words], vec![1; 1]);
        assert_eq!(plan(&sheet, &mut work, &mut trace, &mut []).number, number);
        assert_eq!(replay(&sheet, &[2], &mut work), Answer { number: 0, place: 0, results: [yes] });
    }
}

/// Document 02, F-5: "the union over its formula table". Beside a number it is 0.
#[test]
fn fluents_that_formulas_name() {
    let names = |records: &Records| check(&records.bytes()).results[1];
    assert_eq!(names(&doubled()), 0x8000_0001);
    // Action 0 gives fluent 2 a value, and nothing uses the formula about fluent 3.
    let mut records = three_sections(&CASE_3, 2);
    records.fluents.extend([[3, 0]; 2]);
    records.effects[0].1 = [2, 1];
    assert_eq!(names(&records), 0b0011);
    records.formula(Formula::Less(3, 1));
    assert_eq!(names(&records), 0b1011);
    records.fluents[3] = [17, 0];
    assert_eq!(check(&records.bytes()), Answer { number: 4, place: 3, results: [0, 0] });
}

/// The same: the initial value of a fluent outside the set changes no answer, though action 1 gives it a value.
#[test]
fn a_fluent_that_no_formula_names() {
    let answers = |initial| {
        let mut records = three_sections(&CASE_3, 2);
        let fluent = records.fluent(3, initial);
        records.effect(3, fluent, 1);
        records.actions[1] = [2, 1, 2];
        let sheet = records.bytes();
        let (mut work, mut trace) = (vec![1; 273], vec![1; 3]);
        let planned = plan(&sheet, &mut work, &mut trace, &mut []);
        (check(&sheet), planned, trace, replay(&sheet, &[0, 1], &mut work), replay(&sheet, &[1], &mut work))
    };
    let [yes, no] = [1, 0].map(|yes| Answer { number: 0, place: 0, results: [yes] });
    let accepted = Answer { number: 0, place: 0, results: [273, 0b011] };
    let found = Answer { number: 0, place: 0, results: [2, 2] };
    for initial in 0..3 {
        assert_eq!(answers(initial), (accepted, found, vec![0, 1, 1], yes, no));
    }
}

#[test]
fn sizes_and_notes_are_told_without_a_number() {
    let sheet = Records { notes: b"noted".to_vec(), ..three_sections(&CASE_3, 7) }.bytes();
    assert_eq!(sizes(&sheet), Answer { number: 0, place: 0, results: [2, 7] });
    assert_eq!(notes(&sheet), Answer { number: 0, place: 0, results: [5] });
    let mut faulty = sheet;
    faulty[5 + 2] = 17;
    assert_eq!(sizes(&faulty), Answer { number: 4, place: 1, results: [0, 0] });
    assert_eq!(notes(&faulty), Answer { number: 4, place: 1, results: [0] });
}

#[test]
fn a_number_is_an_error() {
    assert_eq!(planned(273, 2, 0).answer.into_result(), Ok([2, 2]));
    assert_eq!(planned(272, 2, 0).answer.into_result(), Err(Refusal { number: 11, place: 0 }));
}

#[test]
fn library_and_model_have_the_same_words() {
    for number in 0..=15 {
        let model = model::refusal::Refusal { number, place: 3 };
        assert_eq!(Refusal { number: number.into(), place: 3 }.to_string(), model.to_string());
    }
}
