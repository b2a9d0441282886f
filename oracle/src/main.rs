//! The oracle: what Aiken's own exhaustiveness module says of files of frames.

mod answer;
mod ast;
mod batch;
mod block;
mod pattern;
mod reader;
mod table;
mod tipo;

use std::{env, ffi::OsString, fs, io, process::ExitCode};

/// Answers one file or a stream of them; where there is no answer, says why and exits with 2.
fn main() -> ExitCode {
    let arguments: Vec<OsString> = env::args_os().skip(1).collect();
    let done = match arguments.as_slice() {
        [batch] if batch == "--batch" => answer_stream(),
        [file] => answer_file(file),
        _ => Err("usage: oracle FILE | oracle --batch".to_string()),
    };
    match done {
        Ok(()) => ExitCode::SUCCESS,
        Err(why) => {
            eprintln!("oracle: {why}");
            ExitCode::from(2)
        }
    }
}

/// Prints the lines for one file.
fn answer_file(name: &OsString) -> Result<(), String> {
    let file = fs::read(name).map_err(|error| format!("{}: {error}", name.display()))?;
    let lines = answer::answer(file).map_err(|why| format!("{}: {why}", name.display()))?;
    print!("{lines}");
    Ok(())
}

/// Answers the stream of files on standard input.
fn answer_stream() -> Result<(), String> {
    batch::run(&mut io::stdin().lock(), &mut io::stdout().lock())
        .map_err(|error| format!("batch: {error}"))
}
