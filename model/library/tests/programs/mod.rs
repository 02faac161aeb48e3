//! Programs of target/bin, and what they print.

use sheets::cases::Case;
use std::io::{self, Write};
use std::path::{Path, PathBuf};
use std::process::{Command, ExitCode, Stdio};
use std::{env, thread};

/// Runs target/bin/NAME of the repository, or the file that the variable names, on each sheet, and compares what it
/// prints.
pub fn compare(name: &str, variable: &str, cases: Vec<Case>) -> ExitCode {
    let built = Path::new(env!("CARGO_MANIFEST_DIR")).join("../../target/bin").join(name);
    let program = env::var_os(variable).map_or(built, PathBuf::from);
    if !program.is_file() {
        eprintln!("there is no {}", program.display());
        eprintln!("run `scripts/build {name}` in the repository's root, or name the program by {variable}");
        return ExitCode::FAILURE;
    }
    let (mut passed, mut failed) = (0, 0);
    for Case { name, sheet, printed } in cases {
        let got = run(&program, sheet).unwrap_or_else(|error| error.to_string());
        if got == printed {
            passed += 1;
        } else {
            failed += 1;
            eprintln!("{name}, {}", first_difference(&printed, &got));
        }
    }
    println!("{name}: {passed} outputs as expected, {failed} not");
    if failed == 0 {
        ExitCode::SUCCESS
    } else {
        ExitCode::FAILURE
    }
}

/// The first line that differs; none where there are no more.
fn first_difference(expected: &str, got: &str) -> String {
    let [mut expected, mut got] = [expected, got].map(|text| text.split('\n'));
    for line in 1.. {
        let (expected, got) = (expected.next(), got.next());
        if expected != got {
            return format!("line {line}: expected {expected:?}, got {got:?}");
        }
    }
    unreachable!("the texts differ")
}

/// What the program prints on standard output and standard error for this input, where it ends with status 0.
fn run(program: &Path, input: Vec<u8>) -> io::Result<String> {
    let mut child =
        Command::new(program).stdin(Stdio::piped()).stdout(Stdio::piped()).stderr(Stdio::piped()).spawn()?;
    let mut stdin = child.stdin.take().expect("it is piped");
    // A program that ends before it has read all is judged by what it printed.
    let writer = thread::spawn(move || drop(stdin.write_all(&input)));
    let output = child.wait_with_output()?;
    writer.join().expect("the writer does not panic");
    if !output.status.success() {
        return Err(io::Error::other(output.status.to_string()));
    }
    Ok([output.stdout, output.stderr].map(|bytes| String::from_utf8_lossy(&bytes).into_owned()).concat())
}
