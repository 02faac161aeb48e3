//! Document 01, "A quay of three sections": its cases and edges, each with what the program prints; case 13 by F-2 of
//! document 02, with more cases beside it. A sheet for F-5. Cases for F-6.

use crate::write::Records;
use model::sheet::Formula;
use model::sheet::Program::{self, *};

/// A sheet with its name and what the program prints for it.
#[derive(Clone)]
pub struct Case {
    pub name: String,
    pub sheet: Vec<u8>,
    pub printed: String,
}

impl Case {
    pub fn new(name: impl Into<String>, sheet: Vec<u8>, printed: impl Into<String>) -> Self {
        Case { name: name.into(), sheet, printed: printed.into() }
    }
}

/// star(act 0); act 1.
pub const CASE_3: [Program; 4] = [Act(0), Star(0), Act(1), Sequence(1, 2)];

/// The quay's fluents, formulas, effects and actions, with these program records and this bound.
pub fn three_sections(programs: &[Program], bound: u16) -> Records {
    let mut records = Records { bound, ..Records::default() };
    records.fluent(3, 1);
    records.fluent(3, 0);
    records.formula(Formula::Is(1, 0));
    records.formula(Formula::Is(0, 0));
    records.formula(Formula::And(0, 1));
    records.formula(Formula::True);
    records.effect(3, 0, 0);
    records.effect(3, 1, 2);
    records.action(0, 0, 1);
    records.action(2, 1, 1);
    for program in programs {
        records.program(*program);
    }
    records
}

/// The thirteen cases, of 7 what is planned.
pub fn cases() -> Vec<Case> {
    let case =
        |name, programs: &[Program], bound, printed| Case::new(name, three_sections(programs, bound).bytes(), printed);
    vec![
        case("case 1", &[Nil], 0, "found 0 0\n"),
        case("case 2", &[Act(1)], 5, "refused 13 0\n"),
        case("case 3", &CASE_3, 2, "found 2 2\n0\n1\n"),
        case("case 4", &CASE_3, 1, "refused 14 0\n"),
        case("case 5, D 0", &[Test(3)], 0, "refused 14 0\n"),
        case("case 5, D 1", &[Test(3)], 1, "found 0 1\n"),
        case("case 6", &[Test(1)], 0, "refused 13 0\n"),
        case("case 7", &[Act(0), Star(0), Act(1), Over(1, 2)], 2, "refused 14 0\n"),
        case("case 8", &[Act(1), Act(0), Over(0, 1)], 2, "found 2 2\n0\n1\n"),
        Case::new("case 9", case_9().bytes(), "found 3 3\n65534\n0\n65535\n"),
        case("case 10", &[Nil, Interrupt(3, 0)], 2, "found 2 2\n65534\n65535\n"),
        case("case 11", &[Act(0), Interrupt(3, 0)], 4, "refused 14 0\n"),
        case("case 12", &[Nil, While(0, 0)], 0, "found 0 0\n"),
        Case::new("case 13", case_13().bytes(), "refused 13 0\n"),
    ]
}

/// Formula 4 is "not formula 1".
fn case_9() -> Records {
    let mut records = three_sections(&[Act(0), Interrupt(4, 0)], 3);
    records.formula(Formula::Not(1));
    records
}

/// An effect: condition, fluent, value.
pub type Effect = (usize, usize, u8);

/// The quay where fluent 0 starts 0, with formulas 4, "not formula 1", and 5, "fluent 0 is 1", and action 2,
/// precondition 3, which has these effects.
pub fn with_action_2(effects: &[Effect], programs: &[Program], bound: u16) -> Records {
    let mut records = three_sections(programs, bound);
    records.fluents[0] = [3, 0];
    records.formula(Formula::Not(1));
    records.formula(Formula::Is(0, 1));
    for (condition, fluent, value) in effects {
        records.effect(*condition, *fluent, *value);
    }
    records.action(3, 2, effects.len());
    records
}

/// Two holding effects on fluent 0, values 1 then 2, neither of which it has yet.
pub const DIFFERENT: [Effect; 2] = [(3, 0, 1), (3, 0, 2)];
/// The same value twice.
pub const EQUAL: [Effect; 2] = [(3, 0, 1), (3, 0, 1)];
/// The second holds where fluent 0 is not 0: not at first, but once the action was performed.
pub const DIFFERENT_AFTERWARDS: [Effect; 2] = [(3, 0, 1), (4, 0, 2)];

/// The root is act 2.
pub fn case_13() -> Records {
    with_action_2(&DIFFERENT, &[Act(2)], 1)
}

/// star(act 2) over act 0.
pub const STAR_OVER: [Program; 4] = [Act(2), Star(0), Act(0), Over(1, 2)];

/// Document 02, F-2, beside case 13: where action 2 is possible and where not, and what goes in its place.
pub fn conflicts() -> Vec<Case> {
    let case = |name, effects: &[Effect], programs: &[Program], bound, printed| {
        Case::new(format!("F-2, {name}"), with_action_2(effects, programs, bound).bytes(), printed)
    };
    let (act, found) = (&[Act(2)], "found 1 1\n2\n");
    let (twice, interrupt) = (&[Act(2), Sequence(0, 0)], &[Act(2), Interrupt(3, 0)]);
    vec![
        case("equal values", &EQUAL, act, 1, found),
        case("equal values, twice", &EQUAL, twice, 2, "found 2 2\n2\n2\n"),
        case("a condition that fails", &DIFFERENT_AFTERWARDS, act, 1, found),
        case("a condition that fails, then holds", &DIFFERENT_AFTERWARDS, twice, 2, "refused 13 0\n"),
        case("conflict on another fluent than the first", &[(3, 0, 1), (3, 1, 1), (3, 1, 2)], act, 1, "refused 13 0\n"),
        case("conflict of the first and third effect", &[(3, 0, 1), (3, 1, 1), (3, 0, 2)], act, 1, "refused 13 0\n"),
        case("different fluents", &[(3, 0, 1), (3, 1, 2)], act, 1, found),
        case("conflict with the second of three", &[(3, 0, 1), (3, 0, 2), (3, 0, 1)], act, 1, "refused 13 0\n"),
        case("different values of one fluent asked for", &[(1, 0, 1), (5, 0, 2)], twice, 2, "found 2 2\n2\n2\n"),
        case("one value asked for twice", &[(1, 0, 1), (1, 0, 2)], act, 1, "refused 13 0\n"),
        case("values of two fluents asked for", &[(0, 0, 1), (1, 0, 2)], act, 1, "refused 13 0\n"),
        case("a value asked for, and nothing", &[(1, 0, 1), (3, 0, 2)], act, 1, "refused 13 0\n"),
        case("star over, conflict", &DIFFERENT, &STAR_OVER, 1, "found 1 1\n0\n"),
        case("star over, equal values", &EQUAL, &STAR_OVER, 1, "refused 14 0\n"),
        case("interrupt, conflict", &DIFFERENT, interrupt, 2, "found 2 2\n65534\n65535\n"),
        case("interrupt, equal values", &EQUAL, interrupt, 2, "refused 14 0\n"),
    ]
}

/// Document 02, F-5: 512 formulas, the first about fluents 0 and 31, each other one "a and a" of the one before it. The
/// action's precondition is the last.
pub fn doubled() -> Records {
    let mut records = Records { fluents: vec![[1, 0]; 32], actions: vec![[511, 0, 0]], ..Records::default() };
    records.formula(Formula::Equal(0, 31));
    for before in 0..511 {
        records.formula(Formula::And(before, before));
    }
    records.program(Act(0));
    records
}

/// Document 02, F-6: two fluents of sizes 4 and 16, at first 2 and 9, with formulas and actions about placeholders, and
/// these program records.
///
/// Formulas: 0 true; 1 false; 2, 3 fluent 0 equals placeholder 0, 1; 4 not 2; 5, 6 for some, for every value below 3 in
/// placeholder 0, formula 2; 7 formulas 2 and 3; 8 for some value below 3 in placeholder 0, formula 7; 9 for some value
/// below 3 in placeholder 1, formula 8; 10 fluent 1 equals placeholder 0; 11 fluent 0 is 0; 12 for every value below 1
/// in placeholder 0, formula 4; 13 formulas 2 and 12; 14 for some value below 3 in placeholder 0, formula 13; 15 fluent
/// 0 is 2; 16 not 15.
///
/// Actions: 0 always; 1, 2 with precondition 2, 3; 3, 4 give fluent 0, 1 the value of placeholder 0; 5 gives fluent 0
/// those of placeholders 0 and 1; 6 gives it 3 and that of placeholder 0; 7 with precondition 2 gives it 0 if it is 2,
/// else 2; 8 gives it that of placeholder 0 if formula 3 holds.
pub fn choosing(programs: &[Program], bound: u16) -> Records {
    let mut records = Records { bound, ..Records::default() };
    records.fluent(4, 2);
    records.fluent(16, 9);
    let formulas = [
        Formula::True,
        Formula::False,
        Formula::Matches(0, 0),
        Formula::Matches(0, 1),
        Formula::Not(2),
        Formula::ForSome(3, 2, 0),
        Formula::ForEvery(3, 2, 0),
        Formula::And(2, 3),
        Formula::ForSome(3, 7, 0),
        Formula::ForSome(3, 8, 1),
        Formula::Matches(1, 0),
        Formula::Is(0, 0),
        Formula::ForEvery(1, 4, 0),
        Formula::And(2, 12),
        Formula::ForSome(3, 13, 0),
        Formula::Is(0, 2),
        Formula::Not(15),
    ];
    for formula in formulas {
        records.formula(formula);
    }
    let actions: [(usize, &[Effect]); 9] = [
        (0, &[]),
        (2, &[]),
        (3, &[]),
        (0, &[(0, 0, 16)]),
        (0, &[(0, 1, 16)]),
        (0, &[(0, 0, 16), (0, 0, 17)]),
        (0, &[(0, 0, 3), (0, 0, 16)]),
        (2, &[(15, 0, 0), (16, 0, 2)]),
        (0, &[(3, 0, 16)]),
    ];
    for (precondition, effects) in actions {
        let first = records.effects.len();
        for (condition, fluent, value) in effects {
            records.effect(*condition, *fluent, *value);
        }
        records.action(precondition, first, effects.len());
    }
    for program in programs {
        records.program(*program);
    }
    records
}

/// Document 02, F-6: choices of a value, quantifiers, effects that give the value of a placeholder, and entries.
pub fn placeholders() -> Vec<Case> {
    let case = |name, programs: &[Program], bound, printed| {
        Case::new(format!("F-6, {name}"), choosing(programs, bound).bytes(), printed)
    };
    vec![
        case("0 at the start", &[Act(0)], 1, "found 1 1\n0\n"),
        case("0 at the start, which fluent 0 is not", &[Act(1)], 1, "refused 13 0\n"),
        case("the value that equals a fluent", &[Act(1), Pick(4, 0, 0)], 1, "found 1 1\n129\n"),
        case("the same in placeholder 1", &[Act(2), Pick(16, 0, 1)], 1, "found 1 1\n2050\n"),
        case("values below 3", &[Act(1), Pick(3, 0, 0)], 1, "found 1 1\n129\n"),
        case("values below 2", &[Act(1), Pick(2, 0, 0)], 1, "refused 13 0\n"),
        case("one value", &[Act(0), Pick(1, 0, 0)], 1, "found 1 1\n0\n"),
        case("the other placeholder", &[Act(1), Pick(4, 0, 1)], 1, "refused 13 0\n"),
        case("choosing is no transition", &[Nil, Pick(16, 0, 0)], 0, "found 0 0\n"),
        case(
            "what remains carries the value",
            &[Act(1), Act(0), Sequence(0, 1), Pick(4, 2, 0)],
            2,
            "found 2 2\n129\n128\n",
        ),
        case("nothing outside does", &[Act(1), Pick(4, 0, 0), Act(0), Sequence(1, 2)], 2, "found 2 2\n129\n0\n"),
        case("nothing outside does, together", &[Act(1), Pick(4, 0, 0), Together(1, 0)], 2, "refused 13 0\n"),
        case(
            "an inner choice hides",
            &[Act(0), Pick(1, 0, 0), Act(1), Sequence(2, 1), Pick(4, 3, 0)],
            2,
            "found 2 2\n129\n0\n",
        ),
        case(
            "after an inner choice",
            &[Act(0), Pick(1, 0, 0), Act(1), Sequence(1, 2), Pick(4, 3, 0)],
            2,
            "found 2 2\n0\n129\n",
        ),
        case(
            "both placeholders",
            &[Test(7), Act(0), Sequence(0, 1), Pick(4, 2, 0), Pick(4, 3, 1)],
            2,
            "found 1 2\n2176\n",
        ),
        case("a loop around a choice", &[Act(7), Pick(4, 0, 0), Sequence(1, 1)], 2, "found 2 2\n135\n7\n"),
        case(
            "a star around a choice",
            &[Act(7), Pick(4, 0, 0), Star(1), Test(11), Sequence(2, 3)],
            4,
            "found 1 2\n135\n",
        ),
        case("a loop inside a choice", &[Act(7), Sequence(0, 0), Pick(4, 1, 0)], 2, "refused 13 0\n"),
        case("over, a step for some value", &[Act(1), Pick(4, 0, 0), Star(1), Act(0), Over(2, 3)], 2, "refused 14 0\n"),
        case("over, a step for no value", &[Act(1), Pick(2, 0, 0), Star(1), Act(0), Over(2, 3)], 2, "found 1 1\n0\n"),
        case("final for some value", &[Test(1), While(4, 0), Pick(3, 1, 0)], 0, "found 0 0\n"),
        case("final for no value", &[Test(1), While(4, 0), Pick(2, 1, 0)], 0, "refused 13 0\n"),
        case("for some value", &[Test(5)], 1, "found 0 1\n"),
        case("for every value", &[Test(6)], 1, "refused 13 0\n"),
        case("a placeholder beside the quantifier's", &[Test(8)], 1, "refused 13 0\n"),
        case("which is chosen", &[Test(8), Pick(3, 0, 1)], 1, "found 0 1\n"),
        case("for some, for some", &[Test(9)], 1, "found 0 1\n"),
        case("a quantifier hides another", &[Test(14)], 1, "found 0 1\n"),
        case("a quantifier hides a choice", &[Test(5), Pick(1, 0, 0)], 1, "found 0 1\n"),
        case("an effect gives the value", &[Act(3), Test(11), Sequence(0, 1), Pick(4, 2, 0)], 2, "found 1 2\n3\n"),
        case("a value outside the domain", &[Test(10), Act(3), Sequence(0, 1), Pick(16, 2, 0)], 2, "refused 13 0\n"),
        case("the same of a larger domain", &[Test(10), Act(4), Sequence(0, 1), Pick(16, 2, 0)], 2, "found 1 2\n580\n"),
        case("outside, but not holding", &[Test(10), Act(8), Sequence(0, 1), Pick(16, 2, 0)], 2, "found 1 2\n584\n"),
        case(
            "16 and 17 agree",
            &[Test(2), Act(5), Sequence(0, 1), Pick(4, 2, 0), Pick(4, 3, 1)],
            2,
            "found 1 2\n2181\n",
        ),
        case("16 and 17 differ", &[Test(2), Act(5), Sequence(0, 1), Pick(4, 2, 0)], 2, "refused 13 0\n"),
        case("3 and 16 agree", &[Act(6), Pick(16, 0, 0)], 1, "found 1 1\n198\n"),
        case("3 and 16 differ", &[Act(6), Pick(3, 0, 0)], 1, "refused 13 0\n"),
        case("start and stop", &[Nil, Interrupt(1, 0), Act(1), Pick(4, 2, 0)], 3, "found 3 3\n65534\n129\n65535\n"),
        case(
            "an interrupt in a choice",
            &[Act(7), Interrupt(2, 0), Pick(4, 1, 0)],
            3,
            "found 3 3\n65534\n135\n65535\n",
        ),
    ]
}

/// The edges of a sheet and of the program's input, on case 3 or on nil.
pub fn edges() -> Vec<Case> {
    let edge = |name, records: Records, printed| Case::new(name, records.bytes(), printed);
    let found = "found 2 2\n0\n1\n";
    vec![
        Case::new("empty input", vec![], "refused 1 0\n"),
        edge("16,384 bytes", noted(16_384), found),
        edge("16,385 bytes", noted(16_385), "too long\n"),
        edge("32 fluents", with_fluents(32), found),
        edge("33 fluents", with_fluents(33), "refused 2 0\n"),
        edge("height 16", of_height(16), "found 0 0\n"),
        edge("height 17", of_height(17), "refused 9 0\n"),
        // 64 passes, but takes more words than the program lends.
        edge("D 64", three_sections(&CASE_3, 64), "refused 11 0\n"),
        edge("D 65", three_sections(&CASE_3, 65), "refused 2 0\n"),
    ]
}

/// Case 3 with as many notes as make so many bytes.
fn noted(bytes: usize) -> Records {
    let records = three_sections(&CASE_3, 2);
    let notes = vec![0; bytes - records.bytes().len()];
    Records { notes, ..records }
}

/// Case 3 with so many fluents.
fn with_fluents(count: usize) -> Records {
    let mut records = three_sections(&CASE_3, 2);
    records.fluents.resize(count, [1, 0]);
    records
}

/// So many stars, one around the other, around nil.
fn of_height(links: usize) -> Records {
    let mut records = three_sections(&[Nil], 2);
    for below in 0..links {
        records.program(Star(below));
    }
    records
}
