//! A writer of sheets: records as they lie in the five tables, the bound and the notes, turned into bytes. It applies
//! no rule, so that faulty sheets can be written too.

use model::sheet::{Formula, Program};

/// The fields of every record, in the order of their bytes.
#[derive(Clone, Debug, Default, PartialEq, Eq)]
pub struct Records {
    /// Domain size, initial value.
    pub fluents: Vec<[u8; 2]>,
    /// Kind and x; a and b.
    pub formulas: Vec<([u8; 2], [u16; 2])>,
    /// Condition; fluent and value.
    pub effects: Vec<(u16, [u8; 2])>,
    /// Precondition, first effect, number of effects.
    pub actions: Vec<[u16; 3]>,
    /// Kind, a, b, c.
    pub programs: Vec<[u16; 4]>,
    /// The bound D.
    pub bound: u16,
    pub notes: Vec<u8>,
}

/// Adding a record returns its number.
impl Records {
    pub fn fluent(&mut self, size: u8, initial: u8) -> usize {
        self.fluents.push([size, initial]);
        self.fluents.len() - 1
    }

    pub fn formula(&mut self, formula: Formula) -> usize {
        let (kind, x, a, b) = match formula {
            Formula::True => (0, 0, 0, 0),
            Formula::False => (1, 0, 0, 0),
            Formula::Is(x, a) => (2, x, a, 0),
            Formula::Less(x, a) => (3, x, a, 0),
            Formula::Equal(x, a) => (4, x, a, 0),
            Formula::Not(a) => (5, 0, a, 0),
            Formula::And(a, b) => (6, 0, a, b),
            Formula::Or(a, b) => (7, 0, a, b),
            Formula::Matches(x, a) => (8, x, a, 0),
            Formula::ForSome(x, a, b) => (9, usize::from(x), a, b),
            Formula::ForEvery(x, a, b) => (10, usize::from(x), a, b),
        };
        self.formulas.push(([kind, byte(x)], [a, b].map(number)));
        self.formulas.len() - 1
    }

    /// The value is a byte: 16 and 17 mean placeholders 0 and 1.
    pub fn effect(&mut self, condition: usize, fluent: usize, value: u8) -> usize {
        self.effects.push((number(condition), [byte(fluent), value]));
        self.effects.len() - 1
    }

    pub fn action(&mut self, precondition: usize, first: usize, count: usize) -> usize {
        self.actions.push([precondition, first, count].map(number));
        self.actions.len() - 1
    }

    pub fn program(&mut self, program: Program) -> usize {
        let fields = match program {
            Program::Nil => [0, 0, 0, 0],
            Program::Act(a) => [1, a, 0, 0],
            Program::Test(a) => [2, a, 0, 0],
            Program::Sequence(a, b) => [3, a, b, 0],
            Program::Choice(a, b) => [4, a, b, 0],
            Program::Star(a) => [5, a, 0, 0],
            Program::If(c, a, b) => [6, a, b, c],
            Program::While(c, a) => [7, a, 0, c],
            Program::Together(a, b) => [8, a, b, 0],
            Program::Over(a, b) => [9, a, b, 0],
            Program::Iteration(a) => [10, a, 0, 0],
            Program::Interrupt(c, a) => [11, a, 0, c],
            Program::Pick(a, b, c) => [12, usize::from(a), b, c],
        };
        self.programs.push(fields.map(number));
        self.programs.len() - 1
    }

    /// The counts F, Q, E, A, P.
    pub fn counts(&self) -> [usize; 5] {
        [self.fluents.len(), self.formulas.len(), self.effects.len(), self.actions.len(), self.programs.len()]
    }

    /// The sheet: notes, the five tables, the trailer.
    pub fn bytes(&self) -> Vec<u8> {
        let mut records = vec![];
        for bytes in &self.fluents {
            records.extend(bytes);
        }
        for (bytes, numbers) in &self.formulas {
            records.extend(bytes);
            records.extend(little_endian(numbers));
        }
        for (condition, bytes) in &self.effects {
            records.extend(condition.to_le_bytes());
            records.extend(bytes);
        }
        for numbers in &self.actions {
            records.extend(little_endian(numbers));
        }
        for numbers in &self.programs {
            records.extend(little_endian(numbers));
        }

        let mut sheet = [&self.notes[..], &records[..]].concat();
        sheet.extend(little_endian(&self.counts().map(number)));
        sheet.extend(self.bound.to_le_bytes());
        sheet.extend((records.len() as u32).to_le_bytes());
        sheet.extend([0x42, 0x51]);
        sheet
    }
}

fn little_endian(numbers: &[u16]) -> Vec<u8> {
    numbers.iter().flat_map(|n| n.to_le_bytes()).collect()
}

fn number(n: usize) -> u16 {
    u16::try_from(n).expect("the number takes two bytes")
}

fn byte(n: usize) -> u8 {
    u8::try_from(n).expect("the number takes one byte")
}
