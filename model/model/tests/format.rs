//! "The sheet, read from its end" and numbers 1 to 9 and 12.

use model::refusal::Refusal;
use model::sheet::{check, check_with, look_up, sizes, Fluent, Formula, Program, Sheet};
use sheets::write::Records;
use std::collections::BTreeSet;

/// Three fluents of sizes 3, 16 and 1, three formulas, two effects, two actions, and five program records: nil three
/// times, the two others free for a test to replace.
fn base() -> Records {
    let mut records = Records { bound: 4, ..Records::default() };
    records.fluent(3, 1);
    records.fluent(16, 15);
    records.fluent(1, 0);
    records.formula(Formula::True);
    records.formula(Formula::Is(0, 2));
    records.formula(Formula::Or(0, 1));
    records.effect(2, 1, 15);
    records.effect(0, 0, 2);
    records.action(1, 0, 2);
    records.action(2, 2, 0);
    for _ in 0..5 {
        records.program(Program::Nil);
    }
    records
}

fn number_of(bytes: &[u8]) -> u8 {
    check(bytes).map_or_else(|refusal| refusal.number, |_| 0)
}

/// With so many placeholders.
fn refusal_with(placeholders: usize, records: &Records) -> Option<(u8, usize)> {
    check_with(placeholders, &records.bytes()).err().map(|Refusal { number, place }| (number, place))
}

/// Of a sheet that has none: the same whether there are placeholders or not.
fn refusal(records: &Records) -> Option<(u8, usize)> {
    let [none, two] = [0, 2].map(|placeholders| refusal_with(placeholders, records));
    assert_eq!(none, two);
    none
}

/// The sheet's bytes with one two-byte number of the trailer replaced: 0 to 4 the counts, 5 the bound.
fn with_count(records: &Records, index: usize, value: u16) -> Vec<u8> {
    let mut bytes = records.bytes();
    let at = bytes.len() - 18 + 2 * index;
    bytes[at..at + 2].copy_from_slice(&value.to_le_bytes());
    bytes
}

fn with_distance(records: &Records, distance: u32) -> Vec<u8> {
    let mut bytes = records.bytes();
    let at = bytes.len() - 6;
    bytes[at..at + 4].copy_from_slice(&distance.to_le_bytes());
    bytes
}

/// A chain of `links` stars over the last program record.
fn chain(records: &mut Records, links: usize) {
    for _ in 0..links {
        records.program(Program::Star(records.programs.len() - 1));
    }
}

#[test]
fn number_1_short_or_wrong_end() {
    let bytes = base().bytes();
    assert_eq!(number_of(&bytes), 0);
    assert_eq!(number_of(&[]), 1);
    assert_eq!(number_of(&bytes[bytes.len() - 17..]), 1);
    for end in [[0x42, 0x52], [0x43, 0x51], [0x51, 0x42]] {
        let wrong = [&bytes[..bytes.len() - 2], &end[..]].concat();
        assert_eq!(number_of(&wrong), 1);
    }
}

#[test]
fn number_2_counts_and_bound() {
    for (index, value) in [(0, 0), (0, 33), (1, 513), (2, 513), (3, 65), (4, 0), (4, 257), (5, 65), (5, 65535)] {
        assert_eq!(number_of(&with_count(&base(), index, value)), 2);
    }
    // At its limit a count is refused only for the distance, and the bound not at all.
    for (index, value) in [(0, 1), (0, 32), (1, 0), (1, 512), (2, 0), (2, 512), (3, 0), (3, 64), (4, 1), (4, 256)] {
        assert_eq!(number_of(&with_count(&base(), index, value)), 3);
    }
    for bound in [0, 64] {
        assert_eq!(number_of(&with_count(&base(), 5, bound)), 0);
    }
}

#[test]
fn number_2_fluents_that_are_there() {
    let mut records = base();
    while records.fluents.len() < 32 {
        records.fluent(2, 0);
    }
    assert_eq!(refusal(&records), None);
    records.fluent(2, 0);
    assert_eq!(refusal(&records), Some((2, 0)));
}

#[test]
fn full_tables_pass() {
    let mut records = Records { bound: 64, ..Records::default() };
    records.fluents = vec![[16, 15]; 32];
    records.formulas = vec![([0, 0], [0, 0]); 512];
    records.effects = vec![(511, [31, 15]); 512];
    records.actions = vec![[511, 0, 512]; 64];
    records.programs = vec![[1, 63, 0, 0]; 256];
    assert_eq!(refusal(&records), None);
}

#[test]
fn number_3_distance() {
    let records = base();
    let sum = 2 * 3 + 6 * 3 + 4 * 2 + 6 * 2 + 8 * 5;
    assert_eq!(number_of(&with_distance(&records, sum)), 0);
    for wrong in [0, sum - 1, sum + 1, sum + 65536, sum + (1 << 24), u32::MAX] {
        assert_eq!(number_of(&with_distance(&records, wrong)), 3);
    }
    // The sum itself, but one byte too few before the trailer.
    assert_eq!(number_of(&records.bytes()[1..]), 3);
}

#[test]
fn number_4_fluents() {
    for fluent in [[0, 0], [17, 0], [255, 0], [1, 1], [3, 3], [16, 16], [3, 255]] {
        let mut records = base();
        records.fluents[1] = fluent;
        assert_eq!(refusal(&records), Some((4, 1)), "{fluent:?}");
    }
    for fluent in [[1, 0], [16, 0], [16, 15]] {
        let mut records = base();
        records.fluents[1] = fluent;
        records.effects[0].1[1] = 0;
        assert_eq!(refusal(&records), None, "{fluent:?}");
    }
}

#[test]
fn number_5_formulas() {
    // Kind and x; a and b; each at its last good value in record 2.
    let good: &[([u8; 2], [u16; 2])] = &[
        ([0, 0], [0, 0]),
        ([1, 0], [0, 0]),
        ([2, 0], [2, 0]),
        ([2, 2], [0, 0]),
        ([3, 0], [3, 0]),
        ([3, 2], [1, 0]),
        ([4, 2], [2, 0]),
        ([5, 0], [1, 0]),
        ([6, 0], [1, 1]),
        ([7, 0], [1, 1]),
    ];
    for &([kind, x], [a, b]) in good {
        let mut records = base();
        records.formulas[2] = ([kind, x], [a, b]);
        assert_eq!(refusal(&records), None, "kind {kind}");
        // One field further is refused; x of kinds 2 and 3 also moves a's limit, which x 3 has none of.
        let x_over = if (2..=4).contains(&kind) { 3 } else { 1 };
        for fields in [([kind, x_over], [a, b]), ([kind, x], [a + 1, b]), ([kind, x], [a, b + 1])] {
            records.formulas[2] = fields;
            assert_eq!(refusal(&records), Some((5, 2)), "{fields:?}");
        }
    }
    for kind in [11, 12, 255] {
        let mut records = base();
        records.formulas[2] = ([kind, 0], [0, 0]);
        assert_eq!(refusal(&records), Some((5, 2)));
    }
}

/// Document 02, F-6: kind 8, "fluent x equals placeholder a (0 or 1), b 0"; kinds 9 and 10, a value below x (1 to 16) in
/// placeholder b, formula a, numbered lower.
#[test]
fn number_5_formulas_about_placeholders() {
    let with = |fields| Records { formulas: [&base().formulas[..2], &[fields]].concat(), ..base() };
    let good = [
        ([8, 0], [0, 0]),
        ([8, 2], [1, 0]),
        ([9, 1], [0, 0]),
        ([9, 16], [1, 1]),
        ([10, 1], [0, 0]),
        ([10, 16], [1, 1]),
    ];
    for fields in good {
        assert_eq!(refusal_with(2, &with(fields)), None, "{fields:?}");
        assert_eq!(refusal_with(0, &with(fields)), Some((5, 2)), "{fields:?}");
    }
    let faulty = [
        ([8, 3], [0, 0]),
        ([8, 255], [0, 0]),
        ([8, 0], [2, 0]),
        ([8, 0], [256, 0]),
        ([8, 0], [0, 1]),
        ([9, 0], [1, 1]),
        ([9, 17], [1, 1]),
        ([9, 255], [1, 1]),
        ([9, 16], [2, 1]),
        ([9, 16], [1, 2]),
        ([9, 16], [1, 256]),
        ([10, 0], [1, 1]),
        ([10, 17], [1, 1]),
        ([10, 16], [2, 1]),
        ([10, 16], [65535, 1]),
        ([10, 16], [1, 2]),
    ];
    for fields in faulty {
        assert_eq!(refusal(&with(fields)), Some((5, 2)), "{fields:?}");
    }
}

#[test]
fn number_6_effects() {
    for effect in [(3, [0, 0]), (65535, [0, 0]), (0, [3, 0]), (0, [255, 0]), (0, [0, 3]), (0, [1, 18]), (0, [2, 1])] {
        let mut records = base();
        records.effects[1] = effect;
        assert_eq!(refusal(&records), Some((6, 1)), "{effect:?}");
    }
    for effect in [(2, [2, 0]), (0, [0, 2]), (0, [1, 15])] {
        let mut records = base();
        records.effects[1] = effect;
        assert_eq!(refusal(&records), None, "{effect:?}");
    }
}

/// Document 02, F-6: value bytes 16 and 17, on any fluent.
#[test]
fn number_6_effects_by_placeholders() {
    let with = |effect| Records { effects: vec![base().effects[0], effect], ..base() };
    for effect in [(0, [0, 16]), (2, [0, 17]), (0, [1, 16]), (0, [1, 17]), (0, [2, 16]), (0, [2, 17])] {
        assert_eq!(refusal_with(2, &with(effect)), None, "{effect:?}");
        assert_eq!(refusal_with(0, &with(effect)), Some((6, 1)), "{effect:?}");
    }
    for effect in [(3, [0, 16]), (65535, [0, 17]), (0, [3, 16]), (0, [255, 17]), (0, [0, 18]), (0, [1, 255])] {
        assert_eq!(refusal(&with(effect)), Some((6, 1)), "{effect:?}");
    }
}

#[test]
fn number_7_actions() {
    for action in [[3, 0, 0], [0, 0, 3], [0, 1, 2], [0, 2, 1], [0, 3, 0], [0, 65535, 1], [0, 1, 65535], [0, 65535, 0]] {
        let mut records = base();
        records.actions[1] = action;
        assert_eq!(refusal(&records), Some((7, 1)), "{action:?}");
    }
    for action in [[2, 0, 0], [0, 0, 2], [0, 1, 1], [0, 2, 0]] {
        let mut records = base();
        records.actions[1] = action;
        assert_eq!(refusal(&records), None, "{action:?}");
    }
}

#[test]
fn number_8_programs() {
    // Kind, a, b, c, each at its last good value in record 3.
    let good: [[u16; 4]; 12] = [
        [0, 0, 0, 0],
        [1, 1, 0, 0],
        [2, 2, 0, 0],
        [3, 2, 2, 0],
        [4, 2, 2, 0],
        [5, 2, 0, 0],
        [6, 2, 2, 2],
        [7, 2, 0, 2],
        [8, 2, 2, 0],
        [9, 2, 2, 0],
        [10, 2, 0, 0],
        [11, 2, 0, 2],
    ];
    for fields in good {
        let mut records = base();
        records.programs[3] = fields;
        assert_eq!(refusal(&records), None, "{fields:?}");
        for field in 1..4 {
            records.programs[3] = fields;
            records.programs[3][field] += 1;
            assert_eq!(refusal(&records), Some((8, 3)), "{:?}", records.programs[3]);
        }
    }
    for kind in [13, 256, 65535] {
        let mut records = base();
        records.programs[3][0] = kind;
        assert_eq!(refusal(&records), Some((8, 3)));
    }
}

/// Document 02, F-6: kind 12, a value below a (1 to 16) in placeholder c (0 or 1), b a lower program record.
#[test]
fn number_8_choices_of_a_value() {
    let with = |fields| {
        let mut records = base();
        records.programs[3] = fields;
        records
    };
    for fields in [[12, 1, 0, 0], [12, 16, 2, 1], [12, 16, 0, 0]] {
        assert_eq!(refusal_with(2, &with(fields)), None, "{fields:?}");
        assert_eq!(refusal_with(0, &with(fields)), Some((8, 3)), "{fields:?}");
    }
    let faulty = [
        [12, 0, 0, 0],
        [12, 17, 0, 0],
        [12, 257, 0, 0],
        [12, 65535, 0, 0],
        [12, 1, 3, 0],
        [12, 1, 65535, 0],
        [12, 1, 0, 2],
        [12, 1, 0, 256],
        [268, 1, 0, 0],
    ];
    for fields in faulty {
        assert_eq!(refusal(&with(fields)), Some((8, 3)), "{fields:?}");
    }
}

#[test]
fn number_9_height() {
    let mut records = base();
    chain(&mut records, 16);
    assert_eq!(refusal(&records), None);
    chain(&mut records, 1);
    assert_eq!(refusal(&records), Some((9, 0)));
}

#[test]
fn only_the_height_from_the_root_counts() {
    let mut records = base();
    chain(&mut records, 40);
    records.program(Program::Nil);
    records.program(Program::Star(records.programs.len() - 1));
    let sheet = check(&records.bytes()).expect("the chain is not reached");
    assert_eq!(sheet.height(), 1);
    assert_eq!(sheet.work(), 5 * (64 + 3 * (1 + 2 * 4)));
}

#[test]
fn lowest_number_then_lowest_place() {
    let mut records = base();
    records.programs[4][0] = 12;
    records.programs[1][0] = 12;
    assert_eq!(refusal(&records), Some((8, 1)));
    records.actions[0][0] = 3;
    assert_eq!(refusal(&records), Some((7, 0)));
    records.effects[1].0 = 3;
    assert_eq!(refusal(&records), Some((6, 1)));
    records.formulas[2].0[0] = 8;
    assert_eq!(refusal(&records), Some((5, 2)));
    records.fluents[2][0] = 0;
    assert_eq!(refusal(&records), Some((4, 2)));
}

#[test]
fn work_figure() {
    let mut records = base();
    records.bound = 0;
    let figure = |records: &Records| check(&records.bytes()).map(|sheet| sheet.work());
    assert_eq!(figure(&records), Ok(67));
    records.bound = 64;
    chain(&mut records, 16);
    assert_eq!(figure(&records), Ok(65 * (64 + 3 * (1 + 2 * 16 * 64))));
    records.programs[0] = [2, 0, 0, 0];
    records.programs[1] = [11, 0, 0, 0];
    assert_eq!(figure(&records), Ok(65 * (64 + 3 * (1 + 2 * 18 * 64))));
}

#[test]
fn notes_are_never_interpreted() {
    let plain = check(&base().bytes()).expect("accepted");
    assert_eq!(plain.notes, 0..0);
    // Notes that look like a sheet of their own.
    let notes = base().bytes();
    let bytes = Records { notes: notes.clone(), ..base() }.bytes();
    let noted = check(&bytes).expect("accepted");
    assert_eq!(bytes[noted.notes.clone()], notes[..]);
    assert_eq!(Sheet { notes: 0..0, ..noted }, plain);
}

#[test]
fn sizes_of_a_sheet() {
    let bytes = base().bytes();
    assert_eq!(sizes(&bytes), Ok((3, 4)));
    assert_eq!(sizes(&bytes[1..]), Err(Refusal::number(3)));
}

#[test]
fn lookup_of_one_fluent() {
    let bytes = base().bytes();
    assert_eq!(look_up(&bytes, 1), Ok(Fluent { size: 16, initial: 15 }));
    assert_eq!(look_up(&bytes, 3), Err(Refusal::number(12)));
    assert_eq!(look_up(&bytes[1..], 3), Err(Refusal::number(3)));
}

#[test]
fn a_refusal_in_words() {
    let mut records = base();
    records.formulas[2].0[0] = 8;
    let refusal: Box<dyn std::error::Error> = Box::new(check(&records.bytes()).expect_err("formula 2 is faulty"));
    assert_eq!(refusal.to_string(), "refused 5 2: a formula record breaks its rule or has an unknown kind");
    let causes: BTreeSet<&str> = (0..=15).map(|number| Refusal::number(number).cause()).collect();
    assert_eq!(causes.len(), 15, "14 numbers, and one cause for what is no number");
}
