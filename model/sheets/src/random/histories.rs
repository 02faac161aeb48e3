//! Histories of a sheet: of its runs, near them, and with unknown entries.

use super::Random;
use model::meaning::{Configuration, START, STOP};
use model::sheet::Sheet;

/// The history of a random run of at most D transitions, and whether it ends final. A run may go on past a final
/// configuration.
pub fn run(random: &mut Random, sheet: &Sheet) -> (Vec<u16>, bool) {
    let mut configuration = Configuration::first(sheet);
    let mut history = vec![];
    for _ in 0..sheet.bound {
        let mut steps = configuration.transitions(sheet);
        let ends = configuration.is_final(sheet) && random.percent(40);
        if steps.is_empty() || ends {
            break;
        }
        let step = steps.swap_remove(random.below(steps.len()));
        history.extend(step.entry);
        configuration = step.to;
    }
    let ends = configuration.is_final(sheet);
    (history, ends)
}

/// A history that replay accepts, where one of some runs ends final.
pub fn accepted(random: &mut Random, sheet: &Sheet) -> Option<Vec<u16>> {
    (0..20).map(|_| run(random, sheet)).find(|(_, ends)| *ends).map(|(history, _)| history)
}

/// An entry of this sheet: an action, sometimes with values of the placeholders (document 02, F-6), or start or stop.
fn entry(random: &mut Random, sheet: &Sheet) -> u16 {
    let special = random.percent(15) || sheet.actions.is_empty();
    if special {
        return random.pick(&[START, STOP]);
    }
    let any = random.below(256);
    let values = random.pick(&[0, 0, 0, 0, 0, 0, 1, 2, 16, any]);
    (random.below(sheet.actions.len()) + 64 * values) as u16
}

/// A history changed in one place: an entry left out, put in, changed, or moved by one.
pub fn near_miss(random: &mut Random, sheet: &Sheet, history: &[u16]) -> Vec<u16> {
    let mut near = history.to_vec();
    let place = random.below(near.len() + 1);
    let entry = entry(random, sheet);
    match random.below(4) {
        0 if place < near.len() => {
            near.remove(place);
        }
        1 if place < near.len() => near[place] = entry,
        2 if place + 1 < near.len() => near.swap(place, place + 1),
        _ => near.insert(place, entry),
    }
    near
}

/// A history with one unknown entry put in or in the place of another.
pub fn unknown(random: &mut Random, sheet: &Sheet, history: &[u16]) -> Vec<u16> {
    let mut changed = history.to_vec();
    // 16,384 and more is unknown whatever the action's number; below, one that is not below A.
    let actions = sheet.actions.len();
    let any = random.between(16_384, 65533);
    let mut unknown = random.pick(&[16_384, any, 65533]);
    if actions < 64 && random.percent(70) {
        let values = random.pick(&[0, 0, 1, 16, 255]);
        unknown = random.between(actions, 63) + 64 * values;
    }
    let unknown = unknown as u16;
    let place = random.below(changed.len() + 1);
    if place < changed.len() && random.percent(50) {
        changed[place] = unknown;
    } else {
        changed.insert(place, unknown);
    }
    changed
}
