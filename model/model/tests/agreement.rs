//! The model against itself on random sheets.

use model::meaning::Configuration;
use model::planner::{depth_first, judge, lengths, plan, replay, verdict, Plan};
use model::sheet::{Action, Effect, Fluent, Formula, Program, Sheet, Value};
use sheets::random::{near_miss, run, searchable, Random};
use std::collections::BTreeSet;

/// Every run of at most D transitions that ends final, as its length and history, by plain recursion. The first plan is
/// the least of them.
fn plans(sheet: &Sheet) -> BTreeSet<(usize, Vec<u16>)> {
    fn collect(
        sheet: &Sheet,
        configuration: &Configuration,
        history: &[u16],
        length: usize,
        plans: &mut BTreeSet<(usize, Vec<u16>)>,
    ) {
        if configuration.is_final(sheet) {
            plans.insert((length, history.to_vec()));
        }
        if length < sheet.bound {
            for step in configuration.transitions(sheet) {
                let mut longer = history.to_vec();
                longer.extend(step.entry);
                collect(sheet, &step.to, &longer, length + 1, plans);
            }
        }
    }
    let mut plans = BTreeSet::new();
    collect(sheet, &Configuration::first(sheet), &[], 0, &mut plans);
    plans
}

#[test]
fn the_plan_is_the_first_of_all() {
    let mut random = Random::with_placeholders(2, 2);
    for _ in 0..3000 {
        let (_, sheet) = searchable(&mut random, 3000);
        let first = plans(&sheet).pop_first().map(|(transitions, history)| Plan { history, transitions });
        assert_eq!(plan(&sheet).ok(), first);
    }
}

#[test]
fn the_plain_search_has_the_same_verdict() {
    let mut random = Random::with_placeholders(12, 2);
    for _ in 0..3000 {
        let (_, sheet) = searchable(&mut random, 3000);
        let found = depth_first(&sheet);
        assert_eq!(found.clone().map(|_| ()), verdict(&sheet));
        if let Ok(plan) = found {
            assert!(plan.transitions <= sheet.bound);
            assert!(judge(&sheet, &plan.history, plan.transitions));
        }
    }
}

#[test]
fn layers_and_plain_recursion_agree() {
    let mut random = Random::with_placeholders(3, 2);
    for _ in 0..1000 {
        let (_, sheet) = searchable(&mut random, 300);
        let plans = plans(&sheet);
        assert_eq!(plans.is_empty(), verdict(&sheet).is_err());
        let mut histories: BTreeSet<Vec<u16>> = plans.iter().map(|(_, history)| history.clone()).collect();
        histories.insert(run(&mut random, &sheet).0);
        for history in histories.clone() {
            histories.insert(near_miss(&mut random, &sheet, &history));
        }
        for history in histories {
            let expected: Vec<usize> =
                (0..=sheet.bound).filter(|&length| plans.contains(&(length, history.clone()))).collect();
            assert_eq!(lengths(&sheet, &history), expected);
            assert_eq!(replay(&sheet, &history), !expected.is_empty());
        }
    }
}

#[test]
fn a_raised_bound_keeps_the_very_plan_and_keeps_13() {
    let mut random = Random::with_placeholders(4, 2);
    for _ in 0..3000 {
        let (_, sheet) = searchable(&mut random, 300);
        let raised = Sheet { bound: random.between(sheet.bound, 64), ..sheet.clone() };
        match plan(&sheet) {
            Err(refusal) if refusal.number == 14 => {}
            kept => assert_eq!(plan(&raised), kept),
        }
    }
}

/// The paper's own reading of interrupts (section 5): an interrupt is while r do if c then a else false?, with a fluent
/// r that start and stop set. Start and stop become the last two actions.
fn without_interrupts(sheet: &Sheet) -> Sheet {
    let mut sheet = sheet.clone();
    let running = sheet.fluents.len();
    sheet.fluents.push(Fluent { size: 2, initial: 0 });
    let formulas = sheet.formulas.len();
    sheet.formulas.extend([Formula::True, Formula::False, Formula::Is(running, 1)]);
    let [yes, no, runs] = [formulas, formulas + 1, formulas + 2];
    let (actions, effects) = (sheet.actions.len(), sheet.effects.len());
    for (number, value) in [(effects, 1), (effects + 1, 0)] {
        sheet.effects.push(Effect { condition: yes, fluent: running, value: Value::Is(value) });
        sheet.actions.push(Action { precondition: yes, effects: number..number + 1 });
    }

    // Where each old record now lies.
    let mut at: Vec<usize> = vec![];
    let mut programs = vec![Program::Test(no)];
    for program in &sheet.programs {
        use Program::*;
        let next = match *program {
            Sequence(a, b) => Sequence(at[a], at[b]),
            Choice(a, b) => Choice(at[a], at[b]),
            Star(a) => Star(at[a]),
            If(c, a, b) => If(c, at[a], at[b]),
            While(c, a) => While(c, at[a]),
            Together(a, b) => Together(at[a], at[b]),
            Over(a, b) => Over(at[a], at[b]),
            Iteration(a) => Iteration(at[a]),
            Interrupt(c, a) => {
                programs.push(If(c, at[a], 0));
                While(runs, programs.len() - 1)
            }
            leaf => leaf,
        };
        programs.push(next);
        at.push(programs.len() - 1);
    }
    let root = programs.len() - 1;
    programs.extend([
        Program::Act(actions),
        Program::Act(actions + 1),
        Program::Over(root, root + 2),
        Program::Sequence(root + 1, root + 3),
    ]);
    Sheet { programs, ..sheet }
}

#[test]
fn interrupts_are_the_loops_of_the_paper() {
    let mut random = Random::with_placeholders(11, 0);
    let mut interrupted = 0;
    while interrupted < 500 {
        let (_, sheet) = searchable(&mut random, 3000);
        if !sheet.has_interrupt() || sheet.fluents.len() == 32 {
            continue;
        }
        interrupted += 1;
        let start = sheet.actions.len() as u16;
        let by_loops = plan(&without_interrupts(&sheet)).map(|mut plan| {
            for entry in plan.history.iter_mut().filter(|entry| **entry >= start) {
                *entry = *entry - start + 65534;
            }
            plan
        });
        assert_eq!(plan(&sheet), by_loops);
    }
}

/// F-2 said by preconditions: of effects that would conflict no two hold. And an effect holds only where no earlier one
/// on its fluent does, so that none conflict.
fn without_conflicts(sheet: &Sheet) -> Sheet {
    let mut said = Sheet { effects: vec![], ..sheet.clone() };
    let mut formula = |formula| {
        said.formulas.push(formula);
        said.formulas.len() - 1
    };
    for action in &mut said.actions {
        let effects = &sheet.effects[action.effects.clone()];
        let first = said.effects.len();
        for (number, effect) in effects.iter().enumerate() {
            let mut condition = effect.condition;
            for earlier in effects[..number].iter().filter(|earlier| earlier.fluent == effect.fluent) {
                if earlier.value != effect.value {
                    let both = formula(Formula::And(earlier.condition, effect.condition));
                    let not_both = formula(Formula::Not(both));
                    action.precondition = formula(Formula::And(action.precondition, not_both));
                }
                let not_earlier = formula(Formula::Not(earlier.condition));
                condition = formula(Formula::And(condition, not_earlier));
            }
            said.effects.push(Effect { condition, ..*effect });
        }
        action.effects = first..said.effects.len();
    }
    said
}

#[test]
fn a_conflict_is_like_a_precondition_that_fails() {
    let mut random = Random::with_placeholders(15, 0);
    for _ in 0..3000 {
        let (_, sheet) = searchable(&mut random, 3000);
        assert_eq!(plan(&sheet), plan(&without_conflicts(&sheet)));
    }
}
