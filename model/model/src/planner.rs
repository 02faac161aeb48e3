//! Verdicts, replay and plans: "Work area" and numbers 10, 11, 13 and 14 of "Who can cause which number"; which plan is
//! the first: document 02, F-1.

use crate::meaning::{Configuration, Moment, Transition};
use crate::refusal::Refusal;
use crate::sheet::Sheet;
use std::collections::{HashMap, HashSet};
use std::mem;
use std::ops::ControlFlow::{self, Break, Continue};

/// Numbers 10 and 11: the entries of trace (none for replay) and the words of work that the caller lends.
pub fn lent(sheet: &Sheet, trace: Option<usize>, work: usize) -> Result<(), Refusal> {
    if trace.is_some_and(|entries| entries < sheet.bound) {
        return Err(Refusal::number(10));
    }
    if work < sheet.work() {
        return Err(Refusal::number(11));
    }
    Ok(())
}

/// The configurations that are reached in exactly so many transitions.
type Layer = HashSet<Configuration>;

/// The layers of 0, 1, .. t - 1 transitions and that of t, the first that has a final configuration; or 13 or 14, from
/// those of 0 to D + 1.
fn layers(sheet: &Sheet) -> Result<(Vec<Layer>, Layer), Refusal> {
    let mut before = vec![];
    let mut layer = HashSet::from([Configuration::first(sheet)]);
    for _ in 0..=sheet.bound {
        if layer.iter().any(|configuration| configuration.is_final(sheet)) {
            return Ok((before, layer));
        }
        let steps = layer.iter().flat_map(|configuration| configuration.transitions(sheet));
        let next = steps.map(|step| step.to).collect();
        before.push(mem::replace(&mut layer, next));
    }
    Err(Refusal::number(if layer.is_empty() { 13 } else { 14 }))
}

/// Whether a plan exists, or else 13 or 14.
pub fn verdict(sheet: &Sheet) -> Result<(), Refusal> {
    layers(sheet).map(|_| ())
}

/// The lengths, from 0 to D in rising order, of the runs with this history that end final.
pub fn lengths(sheet: &Sheet, history: &[u16]) -> Vec<usize> {
    let mut lengths = vec![];
    // Reached in exactly `length` transitions, with the number of entries made so far.
    let mut layer = HashSet::from([(Configuration::first(sheet), 0)]);
    for length in 0..=sheet.bound {
        if layer.iter().any(|(configuration, made)| *made == history.len() && configuration.is_final(sheet)) {
            lengths.push(length);
        }
        let mut next = HashSet::new();
        for (configuration, made) in &layer {
            for step in configuration.transitions(sheet) {
                match step.entry {
                    None => next.insert((step.to, *made)),
                    Some(entry) if history.get(*made) == Some(&entry) => next.insert((step.to, made + 1)),
                    Some(_) => false,
                };
            }
        }
        layer = next;
    }
    lengths
}

/// Replay: whether some run of at most D transitions with this history ends final. An unknown entry, of 16,384 and more
/// or with an action number that is not below A, is the entry of no transition, and so means no.
pub fn replay(sheet: &Sheet, history: &[u16]) -> bool {
    !lengths(sheet, history).is_empty()
}

/// Whether `history` and `transitions` are a plan: some run of exactly that many transitions, at most D, with that
/// history ends final.
pub fn judge(sheet: &Sheet, history: &[u16], transitions: usize) -> bool {
    lengths(sheet, history).contains(&transitions)
}

/// A plan: the history of a run of at most D transitions that ends final, and the number of its transitions.
#[derive(Clone, Debug, PartialEq, Eq)]
pub struct Plan {
    pub history: Vec<u16>,
    pub transitions: usize,
}

/// Of each configuration of a layer from which runs lead to a final one of the last layer, the least history of them.
type Suffixes = HashMap<Configuration, Vec<u16>>;

/// Planning: the first plan, "fewest transitions, and among those the history that is smaller at the first differing
/// entry, a proper beginning counting as smaller" (F-1). This order on histories is just Rust's on `Vec<u16>`.
///
/// The history is found from its end, layer by layer, since an entry in front of two histories keeps their order. One
/// behind them does not: `[1]` is smaller than `[1, 0]`, but `[1, 2]` is larger than `[1, 0, 2]`. So the least
/// beginning that leads to a configuration is not what counts.
pub fn plan(sheet: &Sheet) -> Result<Plan, Refusal> {
    let (before, last) = layers(sheet)?;
    let transitions = before.len();
    let finals = last.into_iter().filter(|configuration| configuration.is_final(sheet));
    let mut suffixes: Suffixes = finals.map(|configuration| (configuration, vec![])).collect();
    for layer in before.into_iter().rev() {
        let with_suffix = |from| least_suffix(sheet, &from, &suffixes).map(|suffix| (from, suffix));
        suffixes = layer.into_iter().filter_map(with_suffix).collect();
    }
    let history = suffixes.remove(&Configuration::first(sheet)).expect("a run leads to the last layer");
    Ok(Plan { history, transitions })
}

/// The least of each transition's entry, if it has one, in front of the least suffix of where it leads.
fn least_suffix(sheet: &Sheet, from: &Configuration, suffixes: &Suffixes) -> Option<Vec<u16>> {
    let through = |step: Transition| {
        let rest = suffixes.get(&step.to)?;
        Some(step.entry.into_iter().chain(rest.iter().copied()).collect())
    };
    from.transitions(sheet).into_iter().filter_map(through).min()
}

/// The plain search: depth first to at most D transitions, with no memory of configurations. It has the same verdict as
/// [`plan`]; its plan is whichever comes first in listed order, of few transitions or many. The benchmark measures the
/// library against it.
pub fn depth_first(sheet: &Sheet) -> Result<Plan, Refusal> {
    let mut search = DepthFirst { sheet, history: vec![], longer: false };
    match search.from(&Configuration::first(sheet), 0) {
        Break(transitions) => Ok(Plan { history: search.history, transitions }),
        Continue(()) => Err(Refusal::number(if search.longer { 14 } else { 13 })),
    }
}

struct DepthFirst<'a> {
    sheet: &'a Sheet,
    /// The entries on the way to the configuration that is explored.
    history: Vec<u16>,
    /// Whether a run of D + 1 transitions was seen.
    longer: bool,
}

impl DepthFirst<'_> {
    /// Explores a configuration that was reached by `made` transitions, and breaks off with the length of the first
    /// run through it, of at most D, that ends final.
    fn from(&mut self, configuration: &Configuration, made: usize) -> ControlFlow<usize> {
        let moment = Moment::new(self.sheet, configuration.state);
        if moment.is_final(&configuration.program) {
            return Break(made);
        }
        if made == self.sheet.bound {
            self.longer = self.longer || moment.has_a_step(&configuration.program);
            return Continue(());
        }
        moment.each(&configuration.program, &mut |step| {
            let entries = self.history.len();
            self.history.extend(step.entry);
            self.from(&step.to, made + 1)?;
            self.history.truncate(entries);
            Continue(())
        })
    }
}
