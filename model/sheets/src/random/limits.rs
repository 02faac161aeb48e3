//! The rules of records a second time, in another way than in [`model::sheet`]: every field has a range that its value
//! lies in, which is 0 alone for an unused field. A well-formed record is drawn inside its limits, and a faulty one has
//! one field outside. (The value of an effect has more than one range, and is not told here.)

use std::ops::Range;

/// Of an unused field.
const UNUSED: Range<usize> = 0..1;
/// A number of values.
const VALUES: Range<usize> = 1..17;

/// The limits of a formula's x, a and b, where placeholders stay below `placeholders`.
pub fn formula_limits(
    kind: u8,
    x: usize,
    number: usize,
    fluents: &[[u8; 2]],
    placeholders: usize,
) -> [Range<usize>; 3] {
    let exists = 0..fluents.len();
    let size = fluents.get(x).map_or(0, |&[size, _]| usize::from(size));
    match kind {
        0 | 1 => [UNUSED, UNUSED, UNUSED],
        2 => [exists, 0..size, UNUSED],
        3 => [exists, 0..size + 1, UNUSED],
        4 => [exists.clone(), exists, UNUSED],
        5 => [UNUSED, 0..number, UNUSED],
        8 => [exists, 0..placeholders, UNUSED],
        9 | 10 => [VALUES, 0..number, 0..placeholders],
        _ => [UNUSED, 0..number, 0..number],
    }
}

/// The limits of a program record's a, b and c, where links stay below `links`, and placeholders below `placeholders`.
pub fn program_limits(
    kind: u16,
    links: usize,
    formulas: usize,
    actions: usize,
    placeholders: usize,
) -> [Range<usize>; 3] {
    match kind {
        0 => [UNUSED, UNUSED, UNUSED],
        1 => [0..actions, UNUSED, UNUSED],
        2 => [0..formulas, UNUSED, UNUSED],
        5 | 10 => [0..links, UNUSED, UNUSED],
        6 => [0..links, 0..links, 0..formulas],
        7 | 11 => [0..links, UNUSED, 0..formulas],
        12 => [VALUES, 0..links, 0..placeholders],
        _ => [0..links, 0..links, UNUSED],
    }
}
