//! A second reading of the scope document: a whole checker, written from that document alone.
//!
//! usage: reading FILE | reading --batch | reading --figures [FILE...] | reading --costs [FILE]

mod batch;
mod block;
mod check;
mod costs;
mod cursor;
mod declaration;
mod judge;
mod limits;
mod lines;
mod matrix;
mod meter;
mod missing;
mod names;
mod paste;
mod pattern;
mod pretty;
mod refusal;
mod report;
mod simplify;
mod syntax;
mod table;
mod useful;

use std::io::{self, BufReader, BufWriter, Write};
use std::process::ExitCode;
use std::{env, fs, thread};

const STACK_BYTES: usize = 256 << 20;
const BUFFER_BYTES: usize = 1 << 16;

/// Walks go some thousands of calls deep, so everything runs on a stack of its own.
fn main() -> ExitCode {
    let arguments: Vec<String> = env::args().skip(1).collect();
    let run = move || run(&arguments);
    let running = thread::Builder::new()
        .stack_size(STACK_BYTES)
        .spawn(run)
        .expect("a thread starts");
    match running.join().expect("the run ends") {
        Ok(()) => ExitCode::SUCCESS,
        Err(error) => {
            eprintln!("reading: {error}");
            ExitCode::from(2)
        }
    }
}

/// What the words of the command line ask for.
fn run(arguments: &[String]) -> io::Result<()> {
    let input = BufReader::with_capacity(BUFFER_BYTES, io::stdin());
    let mut output = BufWriter::with_capacity(BUFFER_BYTES, io::stdout());
    match arguments {
        [option] if option == "--batch" => batch::answer_all(input, output, check::printed),
        [option] if option == "--figures" => batch::answer_all(input, output, |file| {
            format!("{}\n", check::figures(file)).into_bytes()
        }),
        [option, files @ ..] if option == "--figures" => {
            for name in files {
                writeln!(output, "{name} {}", check::figures(&fs::read(name)?))?;
            }
            output.flush()
        }
        [option] if option == "--costs" => batch::answer_all(input, output, check::costs),
        [option, name] if option == "--costs" => {
            output.write_all(&check::costs(&fs::read(name)?))?;
            output.flush()
        }
        [name] => {
            output.write_all(&check::printed(&fs::read(name)?))?;
            output.flush()
        }
        _ => Err(io::Error::other(
            "usage: reading FILE | reading --batch | reading --figures [FILE...] | reading --costs [FILE]",
        )),
    }
}
