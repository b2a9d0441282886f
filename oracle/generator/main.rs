//! Random files of frames: the same seed, kind and number give the same file.
//!
//! usage: generate --seed S --count N [--from K] [--kind well|damaged|mixed|NAME] (--stream | --dir DIR)

mod block;
mod building;
mod damage;
mod edges;
mod families;
#[path = "../reading/limits.rs"]
mod limits;
mod names;
mod rng;
mod trees;
mod types;
mod weights;
mod writer;

use rng::Rng;
use std::io::{self, BufWriter, Write};
use std::path::PathBuf;
use std::process::ExitCode;
use std::{env, fs};

const USAGE: &str = "usage: generate --seed S --count N [--from K] [--kind well|damaged|mixed|NAME] (--stream | --dir DIR)";
const DAMAGED_OF_MIXED: usize = 40;

/// Where the files go.
enum Target {
    Stream,
    Folder(PathBuf),
}

struct Options {
    seed: String,
    kind: String,
    from: u64,
    count: u64,
    target: Target,
}

/// The options that the words give.
fn options(mut words: impl Iterator<Item = String>) -> Option<Options> {
    let (mut seed, mut count, mut target) = (None, None, None);
    let (mut kind, mut from) = ("mixed".to_string(), 1);
    while let Some(word) = words.next() {
        match word.as_str() {
            "--seed" => seed = Some(words.next()?),
            "--count" => count = Some(words.next()?.parse().ok()?),
            "--from" => from = words.next()?.parse().ok()?,
            "--kind" => kind = words.next()?,
            "--stream" => target = Some(Target::Stream),
            "--dir" => target = Some(Target::Folder(words.next()?.into())),
            _ => return None,
        }
    }
    Some(Options {
        seed: seed?,
        kind,
        from,
        count: count?,
        target: target?,
    })
}

/// One file of a kind, which may be the name of a family or of a fault.
fn make(seed: &str, kind: &str, number: u64) -> Option<Vec<u8>> {
    let mut rng = Rng::new(seed, kind, number);
    match kind {
        "well" => Some(weights::well(&mut rng)),
        "damaged" => Some(weights::damaged(&mut rng)),
        "mixed" if rng.percent(DAMAGED_OF_MIXED) => make(seed, "damaged", number),
        "mixed" => make(seed, "well", number),
        name => weights::by_name(&mut rng, name),
    }
}

/// Makes the files and writes them.
fn run(options: &Options) -> io::Result<()> {
    let mut stream = BufWriter::with_capacity(1 << 16, io::stdout());
    for number in options.from..options.from + options.count {
        let file = make(&options.seed, &options.kind, number)
            .ok_or_else(|| io::Error::other("no such kind"))?;
        match &options.target {
            Target::Stream => {
                writeln!(stream, "{}", file.len())?;
                stream.write_all(&file)?;
            }
            Target::Folder(folder) => {
                fs::create_dir_all(folder)?;
                fs::write(
                    folder.join(format!("{}-{number:06}.hex", options.kind)),
                    file,
                )?;
            }
        }
    }
    stream.flush()
}

fn main() -> ExitCode {
    let Some(options) = options(env::args().skip(1)) else {
        eprintln!("{USAGE}");
        return ExitCode::from(2);
    };
    match run(&options) {
        Ok(()) => ExitCode::SUCCESS,
        Err(error) => {
            eprintln!("generate: {error}");
            ExitCode::from(2)
        }
    }
}
