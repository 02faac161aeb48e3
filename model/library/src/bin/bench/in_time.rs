//! Whether a call of the library ends in time. It cannot be broken off, so it is tried in a process of its own: this
//! program with the word `call`, what to call, and the sheet on standard input.

use crate::Areas;
use model::sheet::check;
use std::io::{self, Read, Write};
use std::process::{exit, Command, Stdio};
use std::time::Duration;
use std::{env, thread};

/// The seconds that a call gets, unless LIMIT says otherwise.
const LIMIT: f64 = 3.0;

/// The status of a process whose time is up.
const TOO_LONG: i32 = 3;

pub fn limit() -> Duration {
    let seconds = match env::var("LIMIT") {
        Ok(text) => text.parse().unwrap_or_else(|_| panic!("LIMIT is no number of seconds: {text}")),
        Err(_) => LIMIT,
    };
    Duration::from_secs_f64(seconds)
}

/// Whether planning with so many words of index ends in time.
pub fn plans(bytes: &[u8], length: usize) -> bool {
    ends(bytes, "plan", vec![length.to_string()])
}

/// Whether the replay of this history ends in time.
pub fn replays(bytes: &[u8], history: &[u16]) -> bool {
    ends(bytes, "replay", history.iter().map(|entry| entry.to_string()).collect())
}

fn ends(bytes: &[u8], call: &str, arguments: Vec<String>) -> bool {
    let mut command = Command::new(env::current_exe().expect("this program"));
    let mut process =
        command.args(["call", call]).args(arguments).stdin(Stdio::piped()).spawn().expect("it runs again");
    process.stdin.take().expect("it is piped").write_all(bytes).expect("it reads all");
    let status = process.wait().expect("it ends");
    assert!(status.success() || status.code() == Some(TOO_LONG), "{call}: {status}");
    status.success()
}

/// What that process does. Its own clock ends it, whatever becomes of the one that waits.
pub fn call(words: &[String]) {
    let limit = limit();
    thread::spawn(move || {
        thread::sleep(limit);
        exit(TOO_LONG)
    });
    let mut bytes = vec![];
    io::stdin().read_to_end(&mut bytes).expect("a sheet");
    let sheet = check(&bytes).expect("the sheet is accepted");
    let (call, arguments) = words.split_first().expect("a call");
    let numbers: Vec<usize> = arguments.iter().map(|word| word.parse().expect("a number")).collect();
    match (call.as_str(), &numbers[..]) {
        ("plan", &[length]) => {
            Areas::new(&sheet, length).plan(&bytes, length);
        }
        ("replay", entries) => {
            let history: Vec<u16> = entries.iter().map(|&entry| entry as u16).collect();
            Areas::new(&sheet, 0).replay(&bytes, &history);
        }
        _ => panic!("no such call: {words:?}"),
    }
}
