//! How much there is to search: the number of runs, each transition counted as often as it is listed.

use model::meaning::{Configuration, Moment};
use model::sheet::Sheet;
use std::collections::HashMap;
use std::ops::ControlFlow::{Break, Continue};

/// Whether at most `limit` runs have at most D + 1 transitions. No search without memory follows more transitions.
pub fn few(sheet: &Sheet, limit: usize) -> bool {
    count(sheet, sheet.bound + 1, limit).is_some()
}

/// The number of runs of at most `length` transitions, or none where it is above `limit`.
pub fn count(sheet: &Sheet, length: usize, limit: usize) -> Option<usize> {
    let mut total = 1;
    let mut layer = HashMap::from([(Configuration::first(sheet), 1)]);
    for _ in 0..length {
        let mut next = HashMap::new();
        for (configuration, count) in layer {
            let moment = Moment::new(sheet, configuration.state);
            let counted = moment.each(&configuration.program, &mut |step| {
                *next.entry(step.to).or_insert(0) += count;
                total += count;
                if total > limit {
                    Break(())
                } else {
                    Continue(())
                }
            });
            if counted.is_break() {
                return None;
            }
        }
        layer = next;
    }
    Some(total)
}
