//! Pairs of sheets that differ in initial values alone.

use super::Random;
use model::sheet::{Fluent, Sheet};

/// The accepted sheet with another initial value of one or more fluents of a set, bit x for fluent x; none where all of
/// them have one value only.
pub fn other_initials(random: &mut Random, bytes: &[u8], sheet: &Sheet, set: u32) -> Option<Vec<u8>> {
    let may_change = |&x: &usize| set >> x & 1 == 1 && sheet.fluents[x].size > 1;
    let fluents: Vec<usize> = (0..sheet.fluents.len()).filter(may_change).collect();
    if fluents.is_empty() {
        return None;
    }
    let surely = random.pick(&fluents);
    let mut other = bytes.to_vec();
    for x in fluents {
        if x == surely || random.percent(50) {
            let Fluent { size, initial } = sheet.fluents[x];
            let further = random.between(1, usize::from(size) - 1) as u8;
            other[sheet.notes.end + 2 * x + 1] = (initial + further) % size;
        }
    }
    Some(other)
}
