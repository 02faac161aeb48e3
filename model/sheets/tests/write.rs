//! The writer against the model's reader.

use model::sheet::{check_with, Value};
use sheets::random::{large, Random};
use sheets::write::Records;

#[test]
fn what_is_read_can_be_written_again() {
    let mut random = Random::with_placeholders(1, 2);
    for _ in 0..200 {
        let records = large(&mut random);
        let sheet = check_with(2, &records.bytes()).expect("the generator keeps every rule");
        assert!(sheet.height() <= 16);
        let mut again = Records { bound: records.bound, notes: records.notes.clone(), ..Records::default() };
        for fluent in &sheet.fluents {
            again.fluent(fluent.size, fluent.initial);
        }
        for formula in &sheet.formulas {
            again.formula(*formula);
        }
        for effect in &sheet.effects {
            let value = match effect.value {
                Value::Is(value) => value,
                Value::Placeholder(placeholder) => 16 + placeholder as u8,
            };
            again.effect(effect.condition, effect.fluent, value);
        }
        for action in &sheet.actions {
            again.action(action.precondition, action.effects.start, action.effects.len());
        }
        for program in &sheet.programs {
            again.program(*program);
        }
        assert_eq!(again, records);
    }
}
