//! Planning by the verified library and by the model in two ways, on the same sheets in the same run:
//! `cargo run --release --package library --bin bench`. Each takes a sheet's bytes, checks them and plans.
//!
//! - Plain is the model's depth-first search without memory (`depth_first`).
//! - Sets is the model's search over sets of configurations, one for each number of transitions (`plan`).
//! - Breadth, beside an index, is what a programmer would write instead (`breadth_first`).
//!
//! Sheets without a plan end in 14, so that all of the search is made. Where there is a plan, the library and sets give
//! the same, the first (document 02, F-1): n, t and trace. There plain is left out: it gives another plan, mostly one
//! of D transitions, and its time says only how soon it comes upon one in listed order.
//!
//! The families of `index` are measured at several lengths of the lent index (document 02, F-4), which the others do
//! without; what does not end in time is left out there. Then comes replay. Last comes what the test program
//! `timed_cases` measures of the verified code alone, as one pass over an action's effects against its test copy.
//!
//! Words behind `--` choose among the parts `searches`, `index`, `replay` and `timed`; without a word all are shown.

#![forbid(unsafe_code)]

mod breadth_first;
mod in_time;
mod index;
mod replay;

use library::Answer;
use model::planner::{self, Plan};
use model::refusal::Refusal;
use model::sheet::{self, check, Formula, Sheet};
use sheets::runs;
use sheets::source::*;
use sheets::write::Records;
use std::env;
use std::hint::black_box;
use std::path::Path;
use std::process::Command;
use std::time::{Duration, Instant};

/// The time that one sheet gets.
const TIME: Duration = Duration::from_millis(600);

/// A family of sheets by growing size.
struct Family {
    name: &'static str,
    sheets: Vec<(String, Vec<u8>)>,
}

/// Of each sheet the bound is such that some thousand transitions are followed.
fn without_plan() -> Vec<Family> {
    let acts = [(4, 7), (16, 4), (64, 2), (256, 2)];
    vec![
        Family {
            name: "regrouping a full quay",
            sheets: [(2, 13), (3, 8), (4, 6), (5, 5), (6, 5), (7, 4)]
                .map(|(ships, bound)| (format!("{ships} ships"), full_quay(ships, bound)))
                .into(),
        },
        Family {
            name: "branching, acts of their own",
            sheets: acts.map(|(acts, bound)| (format!("{acts} acts"), branching(acts, 64, bound))).into(),
        },
        Family {
            name: "branching, an end in doubt",
            sheets: acts.map(|(acts, bound)| (format!("{acts} acts"), in_doubt(acts, bound))).into(),
        },
        Family {
            name: "branching, one act shared",
            sheets: acts.map(|(acts, bound)| (format!("{acts} acts"), branching(acts, 1, bound))).into(),
        },
        Family {
            name: "concurrent iteration",
            sheets: [6, 7, 8, 9, 10].map(|bound| (format!("bound {bound}"), concurrent_iteration(bound))).into(),
        },
        Family {
            name: "interrupts",
            sheets: [(2, 14), (3, 9), (4, 7), (6, 6), (8, 5)]
                .map(|(count, bound)| (format!("{count} interrupts"), interrupts(count, bound)))
                .into(),
        },
        Family {
            name: "ten choices, then one act",
            sheets: [12, 16, 32, 64].map(|bound| (format!("bound {bound}"), choices_then_act(bound))).into(),
        },
        Family {
            name: "shared formulas",
            sheets: [8, 64, 512].map(|count| (format!("{count} formulas"), shared_formulas(count, 6))).into(),
        },
    ]
}

/// Ranges of up to as many effects as a sheet may have.
fn long_ranges() -> Vec<Family> {
    let counts = [16, 128, 512];
    vec![
        Family {
            name: "long effect ranges",
            sheets: counts.map(|count| (format!("{count} effects"), long_effects(count, FALSE, 9))).into(),
        },
        Family {
            name: "the same, all hold",
            sheets: counts.map(|count| (format!("{count} effects"), long_effects(count, TRUE, 9))).into(),
        },
        Family {
            name: "long conflicting ranges",
            sheets: counts.map(|count| (format!("{count} effects"), long_conflicts(count, false, 9))).into(),
        },
        Family {
            name: "the same, exclusive",
            sheets: counts.map(|count| (format!("{count} effects"), long_conflicts(count, true, 9))).into(),
        },
    ]
}

/// In the first three families the bound grows, from t on, and the plan stays; in the others the bound is t.
fn with_plan() -> Vec<Family> {
    use Listed::*;
    let acts = |ships| (format!("{ships} ships, 3 acts each"), side_by_side(ships, 3));
    vec![
        Family {
            name: "few moves, 2 ships on 6",
            sheets: [2, 8, 16, 32, 64]
                .map(|bound| (format!("bound {bound}"), regrouping([2, 6], 2, Rising, bound)))
                .into(),
        },
        Family {
            name: "few moves, 3 ships on 8",
            sheets: [3, 8, 16, 32, 64]
                .map(|bound| (format!("bound {bound}"), regrouping([3, 8], 3, Rising, bound)))
                .into(),
        },
        Family {
            name: "left or right, the last way",
            sheets: [11, 12, 13, 14, 15, 64].map(|bound| (format!("bound {bound}"), ways(10, bound))).into(),
        },
        Family {
            name: "two like acts",
            sheets: [4, 8, 10, 12].map(|times| (format!("{times} times"), like_acts(2, times, Rising))).into(),
        },
        Family { name: "side by side, in any order", sheets: [2, 3, 4, 6].map(acts).into() },
        Family {
            name: "side by side, acts and tests",
            sheets: [4, 6, 8].map(|acts| (format!("{acts} acts, {acts} tests"), beside_tests(acts))).into(),
        },
        Family { name: "side by side, in turn", sheets: vec![("16 ships, 4 acts each".into(), in_turn(16, 4))] },
        Family {
            name: "listed against the numbers",
            sheets: vec![
                ("3 ships on 8".into(), regrouping([3, 8], 3, Falling, 3)),
                ("5 ships on 10".into(), regrouping([5, 10], 3, Falling, 3)),
                ("16 like acts, 3 times".into(), like_acts(16, 3, Falling)),
                ("30 like acts, 3 times".into(), like_acts(30, 3, Falling)),
            ],
        },
    ]
}

/// How a choice lists acts: by their actions' numbers, or against them.
enum Listed {
    Rising,
    Falling,
}

impl Listed {
    fn choice(self, mut acts: Vec<Program>) -> Program {
        if let Listed::Falling = self {
            acts.reverse();
        }
        choice(acts)
    }
}

/// Ships on the first sections, and the shifts of each to every section, possible where that is free.
fn quay(source: &mut Source, ships: usize, sections: usize) -> (Vec<Fluent>, Vec<Program>) {
    let places: Vec<Fluent> =
        (0..ships).map(|ship| source.fluent(&format!("ship {ship}"), sections as u8, ship as u8)).collect();
    let mut shifts = vec![];
    for (ship, place) in places.iter().enumerate() {
        for section in 0..sections {
            let free = all(places.iter().map(|other| !other.is(section)));
            shifts.push(source.action(&format!("ship {ship} to {section}"), free, [place.gets(section)]));
        }
    }
    (places, shifts)
}

/// Ships on all sections but one are shifted, towards an order that no quay has.
fn full_quay(ships: usize, bound: u16) -> Vec<u8> {
    let mut source = Source::new("regrouping", bound);
    let (places, shifts) = quay(&mut source, ships, ships + 1);
    let goal = all(places.iter().map(|place| place.is(0)));
    source.sheet(&sequence([star(choice(shifts)), test(goal)]))
}

/// The first ships are shifted to the last sections, which are free: each by one move, in any order.
fn regrouping([ships, sections]: [usize; 2], moved: usize, listed: Listed, bound: u16) -> Vec<u8> {
    let mut source = Source::new("regrouping", bound);
    let (places, shifts) = quay(&mut source, ships, sections);
    let goal = all(places.iter().take(moved).zip(sections - moved..).map(|(place, section)| place.is(section)));
    source.sheet(&repeat_while(!goal, listed.choice(shifts)))
}

/// A star of a choice between acts that count, all alike, and a test that it was done so many times.
fn like_acts(acts: usize, times: usize, listed: Listed) -> Vec<u8> {
    let mut source = Source::new("like acts", times as u16 + 1);
    let done = source.fluent("times done", 16, 0);
    let acts = (0..acts).map(|number| source.action(&format!("do it, way {number}"), TRUE, done.goes_up())).collect();
    source.sheet(&sequence([star(listed.choice(acts)), test(done.is(times))]))
}

/// So many times left or right, and a test that it was always right: of all ways the last in listed order is the plan.
fn ways(times: usize, bound: u16) -> Vec<u8> {
    let mut source = Source::new("left or right", bound);
    let done = source.fluent("times done", 16, 0);
    let right = source.fluent("always right", 2, 1);
    let mut to_left = done.goes_up();
    to_left.push(right.gets(0));
    let acts = [source.action("left", TRUE, to_left), source.action("right", TRUE, done.goes_up())];
    source.sheet(&sequence([star(choice(acts)), test(done.is(times) & right.is(1))]))
}

/// One act so many times beside as many tests, which have no entry: all orders have the same history.
fn beside_tests(times: usize) -> Vec<u8> {
    let mut source = Source::new("acts and tests", 2 * times as u16);
    let value = source.fluent("value", 2, 0);
    let act = source.action("set it", TRUE, [value.gets(1)]);
    source.sheet(&together([sequence(vec![act; times]), sequence(vec![test(TRUE); times])]))
}

/// Ships with so many acts each, one after the other: all orders of different ships' acts are plans.
fn side_by_side(ships: usize, acts: usize) -> Vec<u8> {
    let mut source = Source::new("side by side", (ships * acts) as u16);
    let mut unloaded = vec![];
    for ship in 0..ships {
        let done = source.fluent(&format!("acts of ship {ship}"), acts as u8 + 1, 0);
        let mut act = |number| source.action(&format!("act {number} of ship {ship}"), TRUE, [done.gets(number + 1)]);
        unloaded.push(sequence((0..acts).map(&mut act)));
    }
    source.sheet(&together(unloaded))
}

/// The same where an act is possible only in its ship's turn, which goes round: there is one plan.
fn in_turn(ships: usize, acts: usize) -> Vec<u8> {
    let mut source = Source::new("in turn", (ships * acts) as u16);
    let turn = source.fluent("turn", ships as u8, 0);
    let mut unloaded = vec![];
    for ship in 0..ships {
        let next = turn.gets((ship + 1) % ships);
        let mut act = |number| source.action(&format!("act {number} of ship {ship}"), turn.is(ship), [next.clone()]);
        unloaded.push(sequence((0..acts).map(&mut act)));
    }
    source.sheet(&together(unloaded))
}

/// A star of a choice between so many acts, of which so many differ.
fn branching(acts: usize, different: usize, bound: u16) -> Vec<u8> {
    let mut source = Source::new("branching", bound);
    let value = source.fluent("value", 16, 0);
    let actions: Vec<_> =
        (0..acts.min(different)).map(|i| source.action("set it", TRUE, [value.gets(i % 16)])).collect();
    let choices = choice(actions.iter().cycle().take(acts).cloned());
    source.sheet(&sequence([star(choices), test(FALSE)]))
}

/// The same with a loop at the end that ends in some state, but in none that is reached: nothing can be left out, so
/// every transition is made.
fn in_doubt(acts: usize, bound: u16) -> Vec<u8> {
    let mut source = Source::new("branching", bound);
    let value = source.fluent("value", 16, 0);
    let actions: Vec<_> = (0..acts.min(64)).map(|i| source.action("set it", TRUE, [value.gets(i % 15)])).collect();
    let choices = choice(actions.iter().cycle().take(acts).cloned());
    source.sheet(&sequence([star(choices), repeat_while(!value.is(15), test(FALSE))]))
}

/// The iteration of two acts in sequence: every copy that was begun can go on.
fn concurrent_iteration(bound: u16) -> Vec<u8> {
    let mut source = Source::new("concurrent iteration", bound);
    let value = source.fluent("value", 2, 0);
    let begin = source.action("begin", TRUE, [value.gets(1)]);
    let end = source.action("end", TRUE, [value.gets(0)]);
    source.sheet(&sequence([iteration(sequence([begin, end])), test(FALSE)]))
}

/// Interrupts side by side, each with enough to do for every round.
fn interrupts(count: usize, bound: u16) -> Vec<u8> {
    let mut source = Source::new("interrupts", bound);
    let mut all = vec![];
    for number in 0..count {
        let done = source.fluent(&format!("done by {number}"), 16, 0);
        let go_on = source.action(&format!("go on with {number}"), TRUE, done.goes_up());
        all.push(interrupt(done.below(15), go_on));
    }
    source.sheet(&together(all))
}

/// Ten choices of two, and then one act again and again: behind the choices a higher bound costs little more.
fn choices_then_act(bound: u16) -> Vec<u8> {
    let mut source = Source::new("choices, then one act", bound);
    let value = source.fluent("value", 2, 0);
    let acts = [0, 1].map(|number| source.action("set it", TRUE, [value.gets(number)]));
    let choices = vec![choice(acts.clone()); 10];
    source.sheet(&sequence(choices.into_iter().chain([star(acts[0].clone()), test(FALSE)])))
}

/// Formula n is the conjunction of n - 1 with itself; the last is the precondition of four actions.
fn shared_formulas(count: usize, bound: u16) -> Vec<u8> {
    use sheet::Program::*;
    let mut records = Records { bound, ..Records::default() };
    records.fluent(4, 0);
    records.formula(Formula::False);
    records.formula(Formula::True);
    for number in 2..count {
        records.formula(Formula::And(number - 1, number - 1));
    }
    for value in 0..4 {
        records.effect(1, 0, value);
        records.action(count - 1, usize::from(value), 1);
    }
    let acts: Vec<usize> = (0..4).map(|action| records.program(Act(action))).collect();
    let one = records.program(Choice(acts[0], acts[1]));
    let other = records.program(Choice(acts[2], acts[3]));
    let any = records.program(Choice(one, other));
    let star = records.program(Star(any));
    let never = records.program(Test(0));
    records.program(Sequence(star, never));
    records.bytes()
}

/// An action with a long range of effects over all fluents, no two of which give different values, and the choice of it
/// twice. The effects hold where the condition does.
fn long_effects(count: usize, condition: Condition, bound: u16) -> Vec<u8> {
    let mut source = Source::new("long effect ranges", bound);
    let fluents: Vec<Fluent> = (0..32).map(|number| source.fluent(&format!("fluent {number}"), 2, 0)).collect();
    let effects = fluents.iter().cycle().take(count).map(|fluent| fluent.gets(1).when(condition.clone()));
    let long = source.action("the long range", TRUE, effects);
    source.sheet(&sequence([star(choice([long.clone(), long])), test(FALSE)]))
}

/// Two actions with long ranges, of all effects but the last and of all but the first, and the choice of each twice.
/// Fluents are named again and again, each to get the value that the next one does not have. In each state one action
/// conflicts, by the first and the last effect of its range that hold, and the other is possible. The model compares
/// every two holding effects, so that its time grows with the square. Where the ranges are exclusive, no two of their
/// effects that hold differ, by conditions that one fluent has a value, and the preconditions choose the action: what is
/// left of the library's time is that of performing.
fn long_conflicts(count: usize, exclusive: bool, bound: u16) -> Vec<u8> {
    use sheet::Program::*;
    let mut records = Records { bound, ..Records::default() };
    let [never, always] = [Formula::False, Formula::True].map(|formula| records.formula(formula));
    for _ in 0..32 {
        records.fluent(2, 0);
    }
    let mut is_0_or_not = |fluent| {
        if exclusive {
            return [0, 1].map(|value| records.formula(Formula::Is(fluent, value)));
        }
        let is_0 = records.formula(Formula::Less(fluent, 1));
        [is_0, records.formula(Formula::Not(is_0))]
    };
    let conditions: Vec<[usize; 2]> = (0..30).map(&mut is_0_or_not).collect();
    let ends = |records: &mut Records, value| {
        records.effect(conditions[0][0], 30, value);
        records.effect(conditions[0][1], 31, value);
    };
    ends(&mut records, 1);
    let named = (count - 4) / 2;
    for fluent in (0..30).cycle().take(named) {
        let [is_0, is_not] = conditions[(fluent + 1) % named.min(30)];
        records.effect(is_0, fluent, 1);
        records.effect(is_not, fluent, 0);
    }
    ends(&mut records, u8::from(exclusive));
    let preconditions = if exclusive { [conditions[0][1], conditions[0][0]] } else { [always; 2] };
    let acts = [0, 1].map(|first| records.action(preconditions[first], first, count - 1));
    let twice = acts.map(|action| {
        let act = records.program(Act(action));
        records.program(Choice(act, act))
    });
    let any = records.program(Choice(twice[0], twice[1]));
    let star = records.program(Star(any));
    let never = records.program(Test(never));
    records.program(Sequence(star, never));
    records.bytes()
}

/// What planning gives.
type Found = Result<Plan, Refusal>;

/// A way of the model to plan.
type Way = fn(&Sheet) -> Found;

/// What one way gives, and its least time.
struct Measured {
    found: Found,
    time: Duration,
}

impl Measured {
    fn ms(&self) -> f64 {
        ms(self.time)
    }
}

fn ms(time: Duration) -> f64 {
    time.as_secs_f64() * 1e3
}

/// The library's areas. Filling them with garbage before a call is not timed.
struct Areas {
    work: Vec<u32>,
    trace: Vec<u16>,
    index: Vec<u32>,
}

impl Areas {
    fn new(sheet: &Sheet, index: usize) -> Self {
        Areas { work: vec![0; sheet.work()], trace: vec![0; sheet.bound], index: vec![0; index] }
    }

    /// Planning with so many words of the index.
    fn plan(&mut self, bytes: &[u8], length: usize) -> Measured {
        let Areas { work, trace, index } = self;
        let index = &mut index[..length];
        work.fill(0xa5a5_a5a5);
        trace.fill(0xa5a5);
        index.fill(0xa5a5_a5a5);
        let (answer, time) = timed(|| library::plan(black_box(bytes), work, trace, index));
        let found = match answer.into_result() {
            Ok([n, transitions]) => Ok(Plan { history: trace[..n].to_vec(), transitions }),
            Err(refusal) => Err(Refusal { number: refusal.number as u8, place: refusal.place }),
        };
        Measured { found, time }
    }

    fn replay(&mut self, bytes: &[u8], history: &[u16]) -> (Answer<1>, Duration) {
        self.work.fill(0xa5a5_a5a5);
        timed(|| library::replay(black_box(bytes), history, &mut self.work))
    }
}

fn by_model(bytes: &[u8], way: Way) -> Measured {
    let (found, time) = timed(|| way(&check(black_box(bytes)).expect("the sheet is accepted")));
    Measured { found, time }
}

fn timed<T>(call: impl FnOnce() -> T) -> (T, Duration) {
    let begun = Instant::now();
    let result = black_box(call());
    (result, begun.elapsed())
}

/// Calls the library and these ways of the model in turn until the time is up.
fn measure<const N: usize>(bytes: &[u8], sheet: &Sheet, ways: [Way; N]) -> (Measured, [Measured; N]) {
    let mut areas = Areas::new(sheet, 0);
    let begun = Instant::now();
    let mut library = areas.plan(bytes, 0);
    let mut model = ways.map(|way| by_model(bytes, way));
    while begun.elapsed() < TIME {
        library.time = library.time.min(areas.plan(bytes, 0).time);
        for (measured, way) in model.iter_mut().zip(ways) {
            measured.time = measured.time.min(by_model(bytes, way).time);
        }
    }
    (library, model)
}

/// A family whose sheets end in 14.
fn print_without_plan(Family { name, sheets }: Family) {
    println!();
    println!(
        "{name:30} {:>11} {:>11} {:>9} {:>9} {:>7} {:>7} {:>14} {:>7}",
        "transitions", "library ms", "plain ms", "sets ms", "/plain", "/sets", "ns/transition", "growth"
    );
    let mut first = None;
    for (size, bytes) in sheets {
        let sheet = check(&bytes).expect("the sheet is accepted");
        let followed = runs::count(&sheet, sheet.bound, usize::MAX).expect("no limit is set") - 1;
        let (library, [plain, sets]) = measure(&bytes, &sheet, [planner::depth_first, planner::plan]);
        for measured in [&library, &plain, &sets] {
            assert_eq!(measured.found, Err(Refusal::number(14)), "{name}, {size}");
        }
        let [ms, plain, sets] = [library, plain, sets].map(|measured| measured.ms());
        let one = ms * 1e6 / followed as f64;
        let growth = one / *first.get_or_insert(one);
        let [to_plain, to_sets] = [ms / plain, ms / sets];
        println!(
            "  {size:28} {followed:>11} {ms:>11.3} {plain:>9.3} {sets:>9.3} {to_plain:>7.2} {to_sets:>7.2} {one:>14.1} \
             {growth:>7.2}"
        );
    }
}

/// A family whose sheets have plans: the library gives the model's first.
fn print_with_plan(Family { name, sheets }: Family) {
    println!();
    println!(
        "{name:30} {:>4} {:>4} {:>4} {:>11} {:>9} {:>7} {:>9}",
        "n", "t", "D", "library ms", "sets ms", "/sets", "to first"
    );
    let mut first = None;
    for (size, bytes) in sheets {
        let sheet = check(&bytes).expect("the sheet is accepted");
        let (library, [sets]) = measure(&bytes, &sheet, [planner::plan]);
        assert_eq!(library.found, sets.found, "{name}, {size}");
        let [ms, sets_ms] = [&library, &sets].map(|measured| measured.ms());
        let Plan { history, transitions } = sets.found.expect("the sheet has a plan");
        let to_first = ms / *first.get_or_insert(ms);
        println!(
            "  {size:28} {:>4} {transitions:>4} {:>4} {ms:>11.3} {sets_ms:>9.3} {:>7.2} {to_first:>9.2}",
            history.len(),
            sheet.bound,
            ms / sets_ms
        );
    }
}

/// Every family that is measured without an index.
fn print_searches() {
    println!("/plain, /sets: the library's time over that of the model's plain search, and of the model's sets.");
    println!();
    println!("Without a plan: 14. Transitions: those that the plain search follows. Growth: the library's time for");
    println!("one of them, the family's first row being 1.");
    without_plan().into_iter().chain(long_ranges()).for_each(print_without_plan);
    println!();
    println!("With a plan, the same by the library and by sets: n moves, t transitions, under the bound D. The plain");
    println!("search gives another and is left out. To first: the library's time, the family's first row being 1.");
    with_plan().into_iter().for_each(print_with_plan);
}

/// The times that the test program tells.
fn print_timed_cases() {
    println!("What the test program measures of the verified code alone. Effects: 512, none of which holds, with 32");
    println!("fluents.");
    let program = Path::new(env!("CARGO_MANIFEST_DIR")).join("../../target/bin/timed_cases");
    match Command::new(program).output() {
        Ok(output) => print!("{}", String::from_utf8_lossy(&output.stderr)),
        Err(error) => println!("{error}: `scripts/build timed_cases` in the repository's root makes the program"),
    }
}

/// A part, and what prints it.
type Part = (&'static str, fn());

const PARTS: [Part; 4] =
    [("searches", print_searches), ("index", index::print), ("replay", replay::print), ("timed", print_timed_cases)];

fn main() {
    let words: Vec<String> = env::args().skip(1).collect();
    if let Some(("call", rest)) = words.split_first().map(|(word, rest)| (word.as_str(), rest)) {
        return in_time::call(rest);
    }
    for word in &words {
        assert!(PARTS.iter().any(|(name, _)| name == word), "no part is called {word}");
    }
    println!("Buffers are not cleared before a call of the library: they hold garbage. Putting it there is not timed;");
    println!("the zeros that the library leaves are its own work, and are timed. The least time of all calls counts.");
    for (name, print) in PARTS {
        if words.is_empty() || words.iter().any(|word| word == name) {
            println!();
            print();
        }
    }
}
