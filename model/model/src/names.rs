//! Document 02, F-5: the set of the fluents that a formula names, "through all its subformulas"; of an action "the union
//! for its precondition and its effects' conditions", of a sheet "the union over its formula table".

use crate::sheet::{Formula, Sheet};
use std::collections::BTreeSet;

impl Formula {
    /// The fluents that it names itself.
    fn fluents(&self) -> Vec<usize> {
        use Formula::*;
        match *self {
            True | False => vec![],
            Is(x, _) | Less(x, _) => vec![x],
            Equal(x, y) => vec![x, y],
            Not(_) | And(..) | Or(..) => vec![],
            Matches(x, _) => vec![x],
            ForSome(..) | ForEvery(..) => vec![],
        }
    }

    /// The formulas that it is made of.
    fn parts(&self) -> Vec<usize> {
        use Formula::*;
        match *self {
            True | False | Is(..) | Less(..) | Equal(..) | Matches(..) => vec![],
            Not(a) | ForSome(_, a, _) | ForEvery(_, a, _) => vec![a],
            And(a, b) | Or(a, b) => vec![a, b],
        }
    }
}

/// Sets have 32 bits: bit x for fluent x.
impl Sheet {
    pub fn formula_names(&self, formula: usize) -> u32 {
        self.named_by([formula])
    }

    /// All effects of the range count, whether they hold or not; the fluents that they give values do not.
    pub fn action_names(&self, action: usize) -> u32 {
        let action = &self.actions[action];
        let conditions = self.effects[action.effects.clone()].iter().map(|effect| effect.condition);
        self.named_by(conditions.chain([action.precondition]))
    }

    /// Every formula counts, whether anything uses it or not.
    pub fn names(&self) -> u32 {
        self.named_by(0..self.formulas.len())
    }

    /// What these formulas name. A formula that is met again is passed over, so that shared ones cost nothing.
    fn named_by(&self, formulas: impl IntoIterator<Item = usize>) -> u32 {
        let mut open: Vec<usize> = formulas.into_iter().collect();
        let mut met = vec![false; self.formulas.len()];
        let mut fluents = BTreeSet::new();
        while let Some(number) = open.pop() {
            if !met[number] {
                met[number] = true;
                fluents.extend(self.formulas[number].fluents());
                open.extend(self.formulas[number].parts());
            }
        }
        fluents.into_iter().map(|x| 1 << x).sum()
    }
}
