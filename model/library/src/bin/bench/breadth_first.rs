//! What a programmer would write instead of the library: breadth first, with a set of the configurations seen.

use model::meaning::Configuration;
use model::planner::Plan;
use model::sheet::Sheet;
use std::collections::HashSet;

/// A configuration where it is first reached.
struct Reached {
    configuration: Configuration,
    /// The place in the list of the one before it, and the entry that leads here from there.
    from: usize,
    entry: Option<u16>,
    /// The number of transitions.
    made: usize,
}

/// What the search comes to.
pub struct Searched {
    /// A plan, unless there is none within the bound.
    pub plan: Option<Plan>,
    /// How many configurations were reached.
    pub configurations: usize,
}

/// Goes on from each configuration once, where it is reached by the fewest transitions. So a plan has as many as the
/// first (document 02, F-1), but may have another history.
///
/// Without a plan it does not tell 13 from 14: a run of D + 1 transitions may come to configurations that were seen, and
/// is not followed there. To tell them, links to what was seen would have to be kept, and a longest run sought in them.
pub fn breadth_first(sheet: &Sheet) -> Searched {
    let first = Configuration::first(sheet);
    let mut seen = HashSet::from([first.clone()]);
    let mut list = vec![Reached { configuration: first, from: 0, entry: None, made: 0 }];
    let mut next = 0;
    while let Some(Reached { configuration, made, .. }) = list.get(next) {
        let transitions = *made;
        if configuration.is_final(sheet) {
            let plan = Some(Plan { history: history(&list, next), transitions });
            return Searched { plan, configurations: list.len() };
        }
        if transitions < sheet.bound {
            for step in configuration.transitions(sheet) {
                if seen.insert(step.to.clone()) {
                    let made = transitions + 1;
                    list.push(Reached { configuration: step.to, from: next, entry: step.entry, made });
                }
            }
        }
        next += 1;
    }
    Searched { plan: None, configurations: list.len() }
}

/// The entries on the way to the one at this place.
fn history(list: &[Reached], mut at: usize) -> Vec<u16> {
    let mut entries = vec![];
    while at > 0 {
        entries.extend(list[at].entry);
        at = list[at].from;
    }
    entries.reverse();
    entries
}
