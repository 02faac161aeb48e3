//! Replay of like moves through like programs side by side: many runs for one history.

use crate::{in_time, ms, timed, Areas};
use library::Answer;
use model::planner;
use model::sheet::check;
use sheets::source::*;
use std::hint::black_box;
use std::time::Duration;

/// The time that one history gets.
const TIME: Duration = Duration::from_millis(300);

/// Four like stars side by side, nested two deep, and a test that no longer holds after a move.
fn four_stars(bound: u16) -> Vec<u8> {
    let mut source = Source::new("like moves", bound);
    let done = source.fluent("times done", 16, 0);
    let act = source.action("do it", TRUE, done.goes_up());
    source.sheet(&sequence([together(vec![star(act); 4]), test(done.is(0))]))
}

/// A history of so many like moves, which is refused only at its end.
fn print_moves(moves: usize) {
    let bytes = four_stars(moves as u16 + 1);
    let sheet = check(&bytes).expect("the sheet is accepted");
    let history = vec![0; moves];
    let (yes, mut model) = timed(|| planner::replay(&check(black_box(&bytes)).expect("it is accepted"), &history));
    assert!(!yes, "{moves} moves");
    if !in_time::replays(&bytes, &history) {
        println!("  {:28} {:>11} {:>9.3} {:>7}", format!("{moves} moves"), "-", ms(model), "-");
        return;
    }
    let mut areas = Areas::new(&sheet, 0);
    let (mut library, mut spent) = (Duration::MAX, Duration::ZERO);
    while spent < TIME {
        let (answer, time) = areas.replay(&bytes, &history);
        assert_eq!(answer, Answer { number: 0, place: 0, results: [0] }, "{moves} moves");
        let (_, again) = timed(|| planner::replay(&check(black_box(&bytes)).expect("it is accepted"), &history));
        (library, model) = (library.min(time), model.min(again));
        spent += time + again;
    }
    let [library, model] = [library, model].map(ms);
    println!("  {:28} {library:>11.3} {model:>9.3} {:>7.2}", format!("{moves} moves"), library / model);
}

pub fn print() {
    println!(
        "Replay, refused at the history's end; sets: the model's, of configurations with the entries made. A dash:"
    );
    println!("the call took over {} seconds (LIMIT sets another limit).", in_time::limit().as_secs_f64());
    println!();
    println!("{:30} {:>11} {:>9} {:>7}", "like moves through four stars", "library ms", "sets ms", "/sets");
    [3, 6, 9, 12, 15].into_iter().for_each(print_moves);
}
