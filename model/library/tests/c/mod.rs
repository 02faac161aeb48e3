//! C programs over include/planner.h, compiled and linked as it says, with every warning an error.

use std::io::{self, Write};
use std::path::{Path, PathBuf};
use std::process::{Command, Output, Stdio};
use std::{env, fs};

pub const WARNINGS: [&str; 4] = ["-Wall", "-Wextra", "-Werror", "-pedantic"];

pub fn repository() -> PathBuf {
    Path::new(env!("CARGO_MANIFEST_DIR")).join("../..")
}

/// The program of a source, which is named from the repository's root.
pub fn compiled(source: &str, options: &[&str]) -> PathBuf {
    let program = Path::new(env!("CARGO_TARGET_TMPDIR")).join(source.replace('/', "-")).with_extension("");
    let folder = env::var_os("PLANNER_LIB_DIR").map_or(repository().join("target/staticlib"), PathBuf::from);
    let archive = fs::canonicalize(folder.join("libplanner_c.a")).expect("the archive, which the build found");
    let mut compiler = Command::new("cc");
    compiler.current_dir(repository()).arg("-std=c99").args(WARNINGS).args(["-Iinclude", source]);
    let status = compiler.arg(archive).args(options).arg("-o").arg(&program).status();
    assert!(status.expect("cc runs").success(), "{source} does not compile");
    program
}

/// Runs a program on this standard input, of which it reads all.
pub fn run(program: &Path, arguments: &[String], input: &[u8]) -> io::Result<Output> {
    let mut command = Command::new(program);
    command.args(arguments).stdin(Stdio::piped()).stdout(Stdio::piped()).stderr(Stdio::piped());
    let mut child = command.spawn()?;
    child.stdin.take().expect("it is piped").write_all(input)?;
    child.wait_with_output()
}
