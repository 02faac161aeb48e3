//! "Moves" and "Steps and endings (000, sections 4 and 5)"; when an action is possible: document 02, F-2; placeholders:
//! F-6, as the paper's nondeterministic choice of argument, whose value is put into the program.

use crate::sheet::{Formula, Program, Sheet, Value};
use std::cell::Cell;
use std::hash::{Hash, Hasher};
use std::ops::ControlFlow::{self, Break, Continue};
use std::rc::Rc;

/// The history entry of start.
pub const START: u16 = 65534;
/// The history entry of stop.
pub const STOP: u16 = 65535;

/// The values of all fluents at one moment, unused places 0, and whether interrupts run.
#[derive(Clone, Copy, Debug, PartialEq, Eq, Hash)]
pub struct State {
    pub values: [u8; 32],
    pub interrupts: bool,
}

/// An action or a formula of the sheet, and the values that are put into it for placeholders 0 and 1.
#[derive(Clone, Copy, Debug, PartialEq, Eq)]
pub struct Instance {
    pub number: usize,
    pub values: [u8; 2],
}

/// A remaining program: the tree of the paper's constructs, with start and stop. A condition stands first.
#[derive(Debug, PartialEq, Eq, Hash)]
pub enum Prog {
    Nil,
    Act(Instance),
    Start,
    Stop,
    Test(Instance),
    Sequence(Rc<Prog>, Rc<Prog>),
    Choice(Rc<Prog>, Rc<Prog>),
    Star(Rc<Prog>),
    If(Instance, Rc<Prog>, Rc<Prog>),
    While(Instance, Rc<Prog>),
    Together(Rc<Prog>, Rc<Prog>),
    Over(Rc<Prog>, Rc<Prog>),
    Iteration(Rc<Prog>),
    Interrupt(Instance, Rc<Prog>),
    /// For some value below the first, in the placeholder that is last.
    Pick(u8, Rc<Prog>, usize),
}

/// A configuration: a remaining program and the values.
#[derive(Clone, Debug, PartialEq, Eq, Hash)]
pub struct Configuration {
    pub program: Rc<Prog>,
    pub state: State,
}

/// One transition: the entry it adds to the history (a test adds none) and the configuration it leads to.
#[derive(Clone, Debug, PartialEq, Eq)]
pub struct Transition {
    pub entry: Option<u16>,
    pub to: Configuration,
}

impl State {
    /// The initial values; interrupts do not run yet.
    pub fn initial(sheet: &Sheet) -> Self {
        let mut values = [0; 32];
        for (value, fluent) in values.iter_mut().zip(&sheet.fluents) {
            *value = fluent.initial;
        }
        State { values, interrupts: false }
    }
}

/// Placeholders are 0 at the start.
impl From<usize> for Instance {
    fn from(number: usize) -> Self {
        Instance { number, values: [0, 0] }
    }
}

/// By one number, since sets of configurations hash many of them.
impl Hash for Instance {
    fn hash<H: Hasher>(&self, hasher: &mut H) {
        let [p0, p1] = self.values.map(usize::from);
        hasher.write_usize((self.number * 16 + p0) * 16 + p1);
    }
}

impl Instance {
    /// With a value put in for a placeholder: a chosen one in the place of 0, a quantifier's in the place of any.
    fn put(mut self, placeholder: usize, value: u8) -> Self {
        self.values[placeholder] = value;
        self
    }

    /// A formula that belongs to this action or formula, with the same values put in.
    fn part(self, number: usize) -> Self {
        Instance { number, ..self }
    }

    /// The value that an effect of this action gives.
    fn resolved(self, value: Value) -> u8 {
        match value {
            Value::Is(value) => value,
            Value::Placeholder(placeholder) => self.values[placeholder],
        }
    }

    /// The history entry of an action: "the action number + 64 × placeholder 0 + 1024 × placeholder 1".
    fn entry(self) -> u16 {
        let [p0, p1] = self.values.map(u16::from);
        self.number as u16 + 64 * p0 + 1024 * p1
    }
}

impl Prog {
    /// The tree of the root.
    pub fn root(sheet: &Sheet) -> Rc<Prog> {
        let mut trees: Vec<Rc<Prog>> = vec![];
        for program in &sheet.programs {
            let at = |p: usize| trees[p].clone();
            let tree = match *program {
                Program::Nil => Prog::Nil,
                Program::Act(a) => Prog::Act(a.into()),
                Program::Test(f) => Prog::Test(f.into()),
                Program::Sequence(a, b) => Prog::Sequence(at(a), at(b)),
                Program::Choice(a, b) => Prog::Choice(at(a), at(b)),
                Program::Star(a) => Prog::Star(at(a)),
                Program::If(c, a, b) => Prog::If(c.into(), at(a), at(b)),
                Program::While(c, a) => Prog::While(c.into(), at(a)),
                Program::Together(a, b) => Prog::Together(at(a), at(b)),
                Program::Over(a, b) => Prog::Over(at(a), at(b)),
                Program::Iteration(a) => Prog::Iteration(at(a)),
                Program::Interrupt(c, a) => Prog::Interrupt(c.into(), at(a)),
                Program::Pick(values, b, placeholder) => Prog::Pick(values, at(b), placeholder),
            };
            trees.push(Rc::new(tree));
        }
        trees[trees.len() - 1].clone()
    }

    /// What runs: the root, or start; (root over stop) if any program record has kind 11.
    pub fn what_runs(sheet: &Sheet) -> Rc<Prog> {
        let root = Prog::root(sheet);
        if !sheet.has_interrupt() {
            return root;
        }
        let over = Prog::Over(root, Rc::new(Prog::Stop));
        Rc::new(Prog::Sequence(Rc::new(Prog::Start), Rc::new(over)))
    }

    /// The program with a value put in for a placeholder: into its acts and conditions, but for those inside a choice of
    /// the same placeholder, which hides this one. Choices are made from the outermost inwards, so that nothing gets a
    /// value twice, and what stands outside a choice gets none.
    pub fn put(self: &Rc<Prog>, placeholder: usize, value: u8) -> Rc<Prog> {
        use Prog::*;
        let into = |program: &Rc<Prog>| program.put(placeholder, value);
        let with = |instance: &Instance| instance.put(placeholder, value);
        Rc::new(match &**self {
            Nil => Nil,
            Act(a) => Act(with(a)),
            Start => Start,
            Stop => Stop,
            Test(f) => Test(with(f)),
            Sequence(a, b) => Sequence(into(a), into(b)),
            Choice(a, b) => Choice(into(a), into(b)),
            Star(a) => Star(into(a)),
            If(c, a, b) => If(with(c), into(a), into(b)),
            While(c, a) => While(with(c), into(a)),
            Together(a, b) => Together(into(a), into(b)),
            Over(a, b) => Over(into(a), into(b)),
            Iteration(a) => Iteration(into(a)),
            Interrupt(c, a) => Interrupt(with(c), into(a)),
            Pick(_, _, hiding) if *hiding == placeholder => return self.clone(),
            Pick(values, a, other) => Pick(*values, into(a), *other),
        })
    }
}

impl Configuration {
    /// The first configuration: what runs and the initial values.
    pub fn first(sheet: &Sheet) -> Self {
        Configuration { program: Prog::what_runs(sheet), state: State::initial(sheet) }
    }

    /// Final, by the remaining program's outermost kind.
    pub fn is_final(&self, sheet: &Sheet) -> bool {
        Moment::new(sheet, self.state).is_final(&self.program)
    }

    /// Trans: every transition in listed order.
    pub fn transitions(&self, sheet: &Sheet) -> Vec<Transition> {
        Moment::new(sheet, self.state).transitions(&self.program)
    }
}

/// A state, with the truth of every formula that was asked for in it.
pub struct Moment<'a> {
    sheet: &'a Sheet,
    state: State,
    /// Of all formulas for each pair of values put in; or once, where no formula has kind 8, so that values do not matter.
    truths: Vec<Cell<Option<bool>>>,
}

/// A holding effect: the fluent, and the value that it gives.
struct Given {
    fluent: usize,
    value: u8,
}

/// A number alone is the action or formula with 0 put in for both placeholders.
impl<'a> Moment<'a> {
    pub fn new(sheet: &'a Sheet, state: State) -> Self {
        let values_matter = sheet.formulas.iter().any(|formula| matches!(formula, Formula::Matches(..)));
        let pairs = if values_matter { 16 * 16 } else { 1 };
        Moment { sheet, state, truths: vec![Cell::new(None); pairs * sheet.formulas.len()] }
    }

    /// Whether a formula holds; it is evaluated once.
    pub fn holds(&self, formula: impl Into<Instance>) -> bool {
        let formula = formula.into();
        let [p0, p1] = formula.values.map(usize::from);
        let place = (p0 + 16 * p1) * self.sheet.formulas.len() + formula.number;
        let known = &self.truths[place % self.truths.len()];
        known.get().unwrap_or_else(|| {
            let truth = self.truth(formula);
            known.set(Some(truth));
            truth
        })
    }

    /// By the formula's kind; what it is made of has the same values put in, but for the one that a quantifier puts in.
    fn truth(&self, formula: Instance) -> bool {
        let value = |x: usize| usize::from(self.state.values[x]);
        let part = |number| self.holds(formula.part(number));
        let part_with = |number, placeholder, value| self.holds(formula.part(number).put(placeholder, value));
        match self.sheet.formulas[formula.number] {
            Formula::True => true,
            Formula::False => false,
            Formula::Is(x, a) => value(x) == a,
            Formula::Less(x, a) => value(x) < a,
            Formula::Equal(x, y) => value(x) == value(y),
            Formula::Not(a) => !part(a),
            Formula::And(a, b) => part(a) && part(b),
            Formula::Or(a, b) => part(a) || part(b),
            Formula::Matches(x, placeholder) => value(x) == usize::from(formula.values[placeholder]),
            Formula::ForSome(values, a, placeholder) => (0..values).any(|value| part_with(a, placeholder, value)),
            Formula::ForEvery(values, a, placeholder) => (0..values).all(|value| part_with(a, placeholder, value)),
        }
    }

    /// An action is possible when its precondition holds, its effects agree, and the values that they give are inside
    /// their domains.
    pub fn possible(&self, action: impl Into<Instance>) -> bool {
        let action = action.into();
        let precondition = action.part(self.sheet.actions[action.number].precondition);
        self.holds(precondition) && self.effects_agree(action) && self.effects_inside(action)
    }

    /// Its effects whose conditions hold in the old values, with the values put in.
    fn holding(&self, action: Instance) -> Vec<Given> {
        let effects = self.sheet.effects[self.sheet.actions[action.number].effects.clone()].iter();
        let holding = effects.filter(|effect| self.holds(action.part(effect.condition)));
        holding.map(|effect| Given { fluent: effect.fluent, value: action.resolved(effect.value) }).collect()
    }

    /// Document 02, F-2: "An action with two holding effects that give one fluent different values is now impossible,
    /// like one whose precondition fails; equal values are fine."
    fn effects_agree(&self, action: Instance) -> bool {
        let given = self.holding(action);
        let differ = |one: &Given, other: &Given| one.fluent == other.fluent && one.value != other.value;
        !given.iter().any(|one| given.iter().any(|other| differ(one, other)))
    }

    /// Document 02, F-6: "a holding effect whose value is outside its domain makes the action impossible".
    fn effects_inside(&self, action: Instance) -> bool {
        self.holding(action).iter().all(|given| given.value < self.sheet.fluents[given.fluent].size)
    }

    /// For each fluent, the first effect in the action's range that names it and whose condition holds in the old
    /// values gives the new value; without one the value stays.
    pub fn perform(&self, action: impl Into<Instance>) -> State {
        let action = action.into();
        let mut next = self.state;
        let holding = self.holding(action);
        for fluent in 0..self.sheet.fluents.len() {
            if let Some(given) = holding.iter().find(|given| given.fluent == fluent) {
                next.values[fluent] = given.value;
            }
        }
        next
    }

    /// Final of the paper; start and stop are actions and so never final.
    pub fn is_final(&self, program: &Prog) -> bool {
        use Prog::*;
        match program {
            Nil => true,
            Act(_) | Start | Stop | Test(_) => false,
            Sequence(a, b) => self.is_final(a) && self.is_final(b),
            Choice(a, b) => self.is_final(a) || self.is_final(b),
            Star(_) => true,
            If(c, a, b) => self.is_final(if self.holds(*c) { a } else { b }),
            While(c, a) => !self.holds(*c) || self.is_final(a),
            Together(a, b) => self.is_final(a) && self.is_final(b),
            Over(a, b) => self.is_final(a) && self.is_final(b),
            Iteration(_) => true,
            Interrupt(c, a) => !self.state.interrupts || (self.holds(*c) && self.is_final(a)),
            Pick(values, a, placeholder) => (0..*values).any(|value| self.is_final(&a.put(*placeholder, value))),
        }
    }

    /// Trans of the paper: hands `found` each transition in listed order, those of a before those of b, those for
    /// smaller values first, and once for each branch that yields it, until `found` breaks off.
    pub fn each<B>(&self, program: &Rc<Prog>, found: &mut dyn FnMut(Transition) -> ControlFlow<B>) -> ControlFlow<B> {
        use Prog::*;
        let this = || program.clone();
        match &**program {
            Nil => Continue(()),
            Act(a) if self.possible(*a) => found(leave_nil(Some(a.entry()), self.perform(*a))),
            Act(_) => Continue(()),
            Start => found(leave_nil(Some(START), State { interrupts: true, ..self.state })),
            Stop => found(leave_nil(Some(STOP), State { interrupts: false, ..self.state })),
            Test(f) if self.holds(*f) => found(leave_nil(None, self.state)),
            Test(_) => Continue(()),
            Sequence(a, b) => {
                self.each(a, &mut |step| found(step.inside(|rest| Sequence(rest, b.clone()))))?;
                if self.is_final(a) {
                    self.each(b, found)?;
                }
                Continue(())
            }
            Choice(a, b) => {
                self.each(a, found)?;
                self.each(b, found)
            }
            Star(a) => self.each(a, &mut |step| found(step.inside(|rest| Sequence(rest, this())))),
            If(c, a, b) => self.each(if self.holds(*c) { a } else { b }, found),
            While(c, a) if self.holds(*c) => {
                self.each(a, &mut |step| found(step.inside(|rest| Sequence(rest, this()))))
            }
            While(..) => Continue(()),
            Together(a, b) => {
                self.each(a, &mut |step| found(step.inside(|rest| Together(rest, b.clone()))))?;
                self.each(b, &mut |step| found(step.inside(|rest| Together(a.clone(), rest))))
            }
            Over(a, b) => {
                let mut a_has_a_step = false;
                self.each(a, &mut |step| {
                    a_has_a_step = true;
                    found(step.inside(|rest| Over(rest, b.clone())))
                })?;
                if !a_has_a_step {
                    self.each(b, &mut |step| found(step.inside(|rest| Over(a.clone(), rest))))?;
                }
                Continue(())
            }
            Iteration(a) => self.each(a, &mut |step| found(step.inside(|rest| Together(rest, this())))),
            Interrupt(c, a) if self.state.interrupts && self.holds(*c) => {
                self.each(a, &mut |step| found(step.inside(|rest| Sequence(rest, this()))))
            }
            Interrupt(..) => Continue(()),
            Pick(values, a, placeholder) => {
                for value in 0..*values {
                    self.each(&a.put(*placeholder, value), found)?;
                }
                Continue(())
            }
        }
    }

    /// The same as a list.
    pub fn transitions(&self, program: &Rc<Prog>) -> Vec<Transition> {
        let mut list = vec![];
        let _ = self.each::<()>(program, &mut |step| {
            list.push(step);
            Continue(())
        });
        list
    }

    pub fn has_a_step(&self, program: &Rc<Prog>) -> bool {
        self.each(program, &mut |_| Break(())).is_break()
    }
}

/// The transition that leaves nil.
fn leave_nil(entry: Option<u16>, state: State) -> Transition {
    Transition { entry, to: Configuration { program: Rc::new(Prog::Nil), state } }
}

impl Transition {
    /// The same transition with its remaining program put into a larger one.
    fn inside(mut self, larger: impl Fn(Rc<Prog>) -> Prog) -> Self {
        self.to.program = Rc::new(larger(self.to.program));
        self
    }
}
