//! Times each service of the proved library beside the same algorithm in plain Rust, over all rules and by the same index
//! of rules, on the same files, in one run.
//!
//!     bench [--quick] [--docs] [--out DIR] [--before BENCH]
//!
//! Prints a table, and writes bench.csv and bench.svg into DIR: target/bench of the repository unless given, docs/ with
//! `--docs`. A time is processor time, the best of several short rounds; the sides take turns. BENCH is this program
//! built with another archive (GAFFMEDLAR_LIB_DIR), or, where that archive lacks a function, as it was when the archive was made:
//! its library takes turns with the others. It is asked for services by their places, so it answers for what then stood in the place of
//! one; a place that it doesn't have it isn't asked for. One from before request 2.7 doesn't tell its places: it isn't asked for files with
//! names above 63, nor for counts of readings and reading k. Some places are there only for what an older one calls at them.

mod clock;
mod counted;
mod index;
mod measure;
mod other;
mod pair_states;
mod plain;
mod plot;
mod report;
mod sides;
mod workloads;

use measure::Rounds;
use other::Other;
use std::fs::File;
use std::io::Write as _;
use std::path::{Path, PathBuf};
use std::process::ExitCode;

const USAGE: &str = "usage: bench [--quick] [--docs] [--out DIR] [--before BENCH]
       bench --help | --version

Prints a table of times, and writes bench.csv and bench.svg into target/bench. It takes two to three minutes.

  --quick          short rounds, for a try
  --docs           writes into docs/, whose files are under version control
  --out DIR        writes into DIR
  --before BENCH   times another library too: that of BENCH, this program built with another archive or an older
                   one; from before request 2.7 neither on wide names nor for counts of readings and reading k
  --places         tells the places of the services that this bench has: what --before asks first
  --answer         makes the rounds that another bench asks for on standard input: what --before calls";

const VERSION: &str = concat!("gaffmedlar ", env!("CARGO_PKG_VERSION"));

struct Options {
    quick: bool,
    folder: PathBuf,
    before: Option<PathBuf>,
}

enum Task {
    Say(&'static str),
    Measure(Options),
    Places,
    Answer,
}

fn task() -> Result<Task, String> {
    let root = PathBuf::from(env!("CARGO_MANIFEST_DIR")).join("../..");
    let mut options = Options {
        quick: false,
        folder: root.join("target/bench"),
        before: None,
    };
    let mut words = std::env::args_os().skip(1);
    while let Some(word) = words.next() {
        match word.to_str() {
            Some("--quick") => options.quick = true,
            Some("--docs") => options.folder = root.join("docs"),
            Some("--out") => options.folder = words.next().ok_or("--out needs a folder")?.into(),
            Some("--before") => {
                let program = words.next().ok_or("--before needs a program")?;
                options.before = Some(program.into());
            }
            Some("--places") => return Ok(Task::Places),
            Some("--answer") => return Ok(Task::Answer),
            Some("-h" | "--help") => return Ok(Task::Say(USAGE)),
            Some("--version") => return Ok(Task::Say(VERSION)),
            _ => return Err(format!("{} is no option\n{USAGE}", word.to_string_lossy())),
        }
    }
    Ok(Task::Measure(options))
}

/// The two files, opened before anything is measured, so that a place that can't be written is found at once. What they
/// held stays until there is something to put in its place.
struct Outputs {
    csv: Output,
    svg: Output,
}

struct Output {
    path: PathBuf,
    file: File,
}

impl Output {
    fn open(path: PathBuf) -> Result<Output, String> {
        let file = File::options().append(true).create(true).open(&path);
        let file = file.map_err(|error| format!("{}: {error}", path.display()))?;
        Ok(Output { path, file })
    }

    fn put(&mut self, text: &str) -> Result<(), String> {
        let written = self.file.set_len(0);
        let written = written.and_then(|()| self.file.write_all(text.as_bytes()));
        written.map_err(|error| format!("{}: {error}", self.path.display()))?;
        println!("wrote {}", self.path.display());
        Ok(())
    }
}

impl Outputs {
    fn open(folder: &Path) -> Result<Outputs, String> {
        let made = std::fs::create_dir_all(folder).and_then(|()| folder.canonicalize());
        let folder = made.map_err(|error| format!("{}: {error}", folder.display()))?;
        Ok(Outputs {
            csv: Output::open(folder.join("bench.csv"))?,
            svg: Output::open(folder.join("bench.svg"))?,
        })
    }
}

fn measure(options: &Options) -> Result<(), String> {
    let mut outputs = Outputs::open(&options.folder)?;
    let mut other = options.before.as_deref().map(Other::start).transpose()?;
    let rounds = Rounds::of(options.quick);
    let rows = measure::run(rounds, &mut other)?;
    for (side, name) in [(1, "over all rules"), (2, "with the index")] {
        let ratio = |row: &measure::Row| row.times[0] / row.times[side];
        let mut ratios: Vec<f64> = rows.iter().map(ratio).collect();
        ratios.sort_by(f64::total_cmp);
        println!(
            "ratio proved to plain Rust {name}: smallest {:.2}, median {:.2}, largest {:.2}",
            ratios[0],
            ratios[ratios.len() / 2],
            ratios[ratios.len() - 1]
        );
    }
    outputs.csv.put(&report::csv(&rows))?;
    outputs.svg.put(&report::plot(&rows, rounds.count))
}

fn main() -> ExitCode {
    let done = match task() {
        Ok(Task::Say(text)) => {
            println!("{text}");
            Ok(())
        }
        Ok(Task::Measure(options)) => measure(&options),
        Ok(Task::Places) => {
            other::tell();
            Ok(())
        }
        Ok(Task::Answer) => other::answer(),
        Err(text) => {
            eprintln!("{text}");
            return ExitCode::from(2);
        }
    };
    if let Err(error) = done {
        eprintln!("{error}");
        return ExitCode::FAILURE;
    }
    ExitCode::SUCCESS
}
