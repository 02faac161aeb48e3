//! Sheets from readable sources: conditions and programs are written as trees, fluents and actions by name. Equal
//! records are written once, and the names go into the notes.

use crate::write::Records;
use model::sheet;
use std::ops::{BitAnd, BitOr, Not};
use std::rc::Rc;

/// A placeholder (document 02, F-6).
#[derive(Clone, Copy)]
pub struct Placeholder(pub usize);

/// A fluent of the source.
#[derive(Clone, Copy)]
pub struct Fluent {
    number: usize,
    size: u8,
}

impl Fluent {
    /// Every value of its domain.
    pub fn values(self) -> std::ops::Range<usize> {
        0..usize::from(self.size)
    }

    pub fn is(self, value: usize) -> Condition {
        Condition::Leaf(sheet::Formula::Is(self.number, value))
    }

    /// Its value is below this one, which may lie outside its domain.
    pub fn below(self, value: usize) -> Condition {
        Condition::Leaf(sheet::Formula::Less(self.number, value.min(self.size.into())))
    }

    /// Its value is that of the placeholder.
    pub fn matches(self, placeholder: Placeholder) -> Condition {
        Condition::Leaf(sheet::Formula::Matches(self.number, placeholder.0))
    }

    /// The effect that gives it this value.
    pub fn gets(self, value: usize) -> Effect {
        Effect { condition: TRUE, fluent: self, value }
    }

    /// The effect that gives it the value of the placeholder.
    pub fn takes(self, placeholder: Placeholder) -> Effect {
        self.gets(16 + placeholder.0)
    }

    /// The effects that add one to it, up to its highest value.
    pub fn goes_up(self) -> Vec<Effect> {
        self.values().skip(1).map(|value| self.gets(value).when(self.is(value - 1))).collect()
    }

    /// The effects that take one from it, down to 0.
    pub fn goes_down(self) -> Vec<Effect> {
        self.values().skip(1).map(|value| self.gets(value - 1).when(self.is(value))).collect()
    }
}

/// A formula as a tree.
#[derive(Clone)]
pub enum Condition {
    Leaf(sheet::Formula),
    Not(Rc<Condition>),
    And(Rc<Condition>, Rc<Condition>),
    Or(Rc<Condition>, Rc<Condition>),
    ForSome(u8, Rc<Condition>, Placeholder),
    ForEvery(u8, Rc<Condition>, Placeholder),
}

pub const TRUE: Condition = Condition::Leaf(sheet::Formula::True);
pub const FALSE: Condition = Condition::Leaf(sheet::Formula::False);

impl Not for Condition {
    type Output = Condition;
    fn not(self) -> Condition {
        Condition::Not(Rc::new(self))
    }
}

impl BitAnd for Condition {
    type Output = Condition;
    fn bitand(self, other: Condition) -> Condition {
        Condition::And(Rc::new(self), Rc::new(other))
    }
}

impl BitOr for Condition {
    type Output = Condition;
    fn bitor(self, other: Condition) -> Condition {
        Condition::Or(Rc::new(self), Rc::new(other))
    }
}

/// All of them hold.
pub fn all(conditions: impl IntoIterator<Item = Condition>) -> Condition {
    conditions.into_iter().reduce(|a, b| a & b).unwrap_or(TRUE)
}

/// At least one of them holds.
pub fn any(conditions: impl IntoIterator<Item = Condition>) -> Condition {
    conditions.into_iter().reduce(|a, b| a | b).unwrap_or(FALSE)
}

/// It holds for some value of the placeholder below this number.
pub fn for_some(values: u8, placeholder: Placeholder, condition: Condition) -> Condition {
    Condition::ForSome(values, Rc::new(condition), placeholder)
}

/// It holds for every one.
pub fn for_every(values: u8, placeholder: Placeholder, condition: Condition) -> Condition {
    Condition::ForEvery(values, Rc::new(condition), placeholder)
}

/// An effect of an action; a value of 16 or 17 is that of a placeholder.
#[derive(Clone)]
pub struct Effect {
    condition: Condition,
    fluent: Fluent,
    value: usize,
}

impl Effect {
    pub fn when(self, condition: Condition) -> Effect {
        Effect { condition, ..self }
    }
}

/// A program as a tree, of the kinds that the examples and the benchmark use.
#[derive(Clone)]
pub enum Program {
    Act(usize),
    Test(Condition),
    Sequence(Rc<Program>, Rc<Program>),
    Choice(Rc<Program>, Rc<Program>),
    Star(Rc<Program>),
    While(Condition, Rc<Program>),
    Together(Rc<Program>, Rc<Program>),
    Over(Rc<Program>, Rc<Program>),
    Iteration(Rc<Program>),
    Interrupt(Condition, Rc<Program>),
    Pick(u8, Rc<Program>, Placeholder),
}

pub fn test(condition: Condition) -> Program {
    Program::Test(condition)
}

/// One after the other.
pub fn sequence(programs: impl IntoIterator<Item = Program>) -> Program {
    joined(programs, Program::Sequence)
}

/// Any one of them.
pub fn choice(programs: impl IntoIterator<Item = Program>) -> Program {
    joined(programs, Program::Choice)
}

/// All of them, interleaved.
pub fn together(programs: impl IntoIterator<Item = Program>) -> Program {
    joined(programs, Program::Together)
}

pub fn star(program: Program) -> Program {
    Program::Star(Rc::new(program))
}

pub fn repeat_while(condition: Condition, program: Program) -> Program {
    Program::While(condition, Rc::new(program))
}

/// Each at a lower priority than the one before.
pub fn priorities(programs: impl IntoIterator<Item = Program, IntoIter: DoubleEndedIterator>) -> Program {
    let lower = programs.into_iter().rev();
    lower.reduce(|low, high| Program::Over(Rc::new(high), Rc::new(low))).expect("a program")
}

pub fn iteration(program: Program) -> Program {
    Program::Iteration(Rc::new(program))
}

pub fn interrupt(condition: Condition, program: Program) -> Program {
    Program::Interrupt(condition, Rc::new(program))
}

/// The program for some value of the placeholder below this number.
pub fn pick(values: u8, placeholder: Placeholder, program: Program) -> Program {
    Program::Pick(values, Rc::new(program), placeholder)
}

/// Joins programs in their order to a tree of least height.
fn joined(programs: impl IntoIterator<Item = Program>, join: fn(Rc<Program>, Rc<Program>) -> Program) -> Program {
    fn halves(programs: &[Program], join: fn(Rc<Program>, Rc<Program>) -> Program) -> Program {
        match programs {
            [] => panic!("nothing to join"),
            [program] => program.clone(),
            _ => {
                let (a, b) = programs.split_at(programs.len().div_ceil(2));
                join(Rc::new(halves(a, join)), Rc::new(halves(b, join)))
            }
        }
    }
    halves(&programs.into_iter().collect::<Vec<_>>(), join)
}

/// A sheet in the making.
pub struct Source {
    records: Records,
    names: String,
}

impl Source {
    pub fn new(title: &str, bound: u16) -> Self {
        Source { records: Records { bound, ..Records::default() }, names: format!("{title}\n") }
    }

    pub fn fluent(&mut self, name: &str, size: u8, initial: u8) -> Fluent {
        let number = self.records.fluent(size, initial);
        self.names += &format!("fluent {number}: {name}\n");
        Fluent { number, size }
    }

    /// An action, and the program that performs it.
    pub fn action(
        &mut self,
        name: &str,
        precondition: Condition,
        effects: impl IntoIterator<Item = Effect>,
    ) -> Program {
        let precondition = self.formula(&precondition);
        let first = self.records.effects.len();
        for Effect { condition, fluent, value } in effects {
            let condition = self.formula(&condition);
            self.records.effect(condition, fluent.number, value as u8);
        }
        let number = self.records.action(precondition, first, self.records.effects.len() - first);
        self.names += &format!("action {number}: {name}\n");
        Program::Act(number)
    }

    /// The number of the formula, after those that it is made of.
    pub fn formula(&mut self, condition: &Condition) -> usize {
        let formula = match condition {
            Condition::Leaf(formula) => *formula,
            Condition::Not(a) => sheet::Formula::Not(self.formula(a)),
            Condition::And(a, b) => sheet::Formula::And(self.formula(a), self.formula(b)),
            Condition::Or(a, b) => sheet::Formula::Or(self.formula(a), self.formula(b)),
            Condition::ForSome(values, a, placeholder) => {
                sheet::Formula::ForSome(*values, self.formula(a), placeholder.0)
            }
            Condition::ForEvery(values, a, placeholder) => {
                sheet::Formula::ForEvery(*values, self.formula(a), placeholder.0)
            }
        };
        let number = self.records.formula(formula);
        only_once(&mut self.records.formulas, number)
    }

    /// The number of the program record, after those that it links to.
    fn program(&mut self, program: &Program) -> usize {
        let record = match program {
            Program::Act(a) => sheet::Program::Act(*a),
            Program::Test(c) => sheet::Program::Test(self.formula(c)),
            Program::Sequence(a, b) => sheet::Program::Sequence(self.program(a), self.program(b)),
            Program::Choice(a, b) => sheet::Program::Choice(self.program(a), self.program(b)),
            Program::Star(a) => sheet::Program::Star(self.program(a)),
            Program::While(c, a) => sheet::Program::While(self.formula(c), self.program(a)),
            Program::Together(a, b) => sheet::Program::Together(self.program(a), self.program(b)),
            Program::Over(a, b) => sheet::Program::Over(self.program(a), self.program(b)),
            Program::Iteration(a) => sheet::Program::Iteration(self.program(a)),
            Program::Interrupt(c, a) => sheet::Program::Interrupt(self.formula(c), self.program(a)),
            Program::Pick(values, a, placeholder) => sheet::Program::Pick(*values, self.program(a), placeholder.0),
        };
        let number = self.records.program(record);
        only_once(&mut self.records.programs, number)
    }

    /// The sheet that runs this program.
    pub fn sheet(mut self, root: &Program) -> Vec<u8> {
        let root = self.program(root);
        assert_eq!(root, self.records.programs.len() - 1, "the root is the last program record");
        self.records.notes = self.names.into_bytes();
        self.records.bytes()
    }
}

/// Takes the last record back where an earlier one is equal to it, and returns the number of the one that stays.
fn only_once<R: PartialEq>(records: &mut Vec<R>, last: usize) -> usize {
    let number = records.iter().position(|record| *record == records[last]).unwrap_or(last);
    records.truncate(last.max(number + 1));
    number
}
