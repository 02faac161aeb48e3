//! Writes the examples' sheets into a folder: `cargo run --bin build_examples -- FOLDER`.

#![forbid(unsafe_code)]

use sheets::examples::examples;
use std::path::{Path, PathBuf};
use std::process::ExitCode;
use std::{env, fs, io};

fn write(folder: &Path) -> io::Result<()> {
    fs::create_dir_all(folder)?;
    for example in examples() {
        fs::write(folder.join(example.name).with_extension("sheet"), example.sheet)?;
    }
    Ok(())
}

fn main() -> ExitCode {
    let Some(folder) = env::args_os().nth(1).map(PathBuf::from) else {
        eprintln!("usage: build_examples FOLDER");
        return ExitCode::from(2);
    };
    match write(&folder) {
        Ok(()) => ExitCode::SUCCESS,
        Err(error) => {
            eprintln!("{}: {error}", folder.display());
            ExitCode::FAILURE
        }
    }
}
