//! Runs the proved library and the reference on the same cases and compares every answer and every element of every
//! lent buffer, and the elements around them.
//!
//!     difftest [--cases N] [--long] [--seed S] [--self-test]
//!     difftest --help
//!
//! A case is a grammar file and a history file, with which every service is called once, and a list of calls made; that the count
//! beside the sets is the choice count and that there is a choice exactly where there is more than one reading is seen to, and the
//! bytes of a step are asked for at a position. Readings
//! are counted, in all and with a rule at a position, where the counts of all rules add up; and one is asked for by its number,
//! behind which the next one by its number is the one that a step leads to. Some files have counts around 2^64. The
//! writers are called with elements, what they write is read back, and both files are written again from their numbers. Half of
//! the grammars say their start. Names are up to 65,535, and many differ in their high bits alone.
//! `--long` runs ten million cases. `--self-test` plants a fault after the other in the library's answers and sees that
//! each is found and made small. How far it is goes to stderr.

mod case;
mod cut_names;
mod damage;
mod elements;
mod faults;
mod grammars;
mod heads;
mod histories;
mod kept;
mod make;
mod miscount;
mod misnumber;
mod misread;
mod misset;
mod names;
mod near_top;
mod numbered;
mod progress;
mod random;
mod rows;
mod seen;
mod seen_counts;
mod shrink;
mod sweeps;
mod tally;
mod writing;

use case::{compare, hex, Case, Difference, Service};
use faults::Fault;
use progress::Progress;
use random::Random;
use seen::Seen;
use std::process::ExitCode;
use std::time::Instant;
use writing::Writing;

const CASES: u64 = 200_000;
const LONG: u64 = 10_000_000;
/// One case in so many stands at a limit.
const LIMIT_EVERY: usize = 200;
/// The reference is held against itself in one case of so many.
const SELF_EVERY: u64 = 8;

const USAGE: &str = "usage: difftest [--cases N] [--long] [--seed S] [--self-test]
       difftest --help | --version

Compares the proved library with the reference, on 200,000 cases unless told.

  --cases N      on N cases
  --long         on ten million
  --seed S       on other cases; the same for the same S, which is 1 unless given
  --self-test    plants faults in the library's answers and sees that each is found

Status: 0 no difference, 1 a difference or an answer, a start, a name, a set or a count that was not met, 2 wrong words.";

struct Options {
    cases: u64,
    seed: u64,
    self_test: bool,
    said: Option<&'static str>,
}

fn options() -> Result<Options, String> {
    let mut options = Options {
        cases: CASES,
        seed: 1,
        self_test: false,
        said: None,
    };
    let mut words = std::env::args().skip(1);
    while let Some(word) = words.next() {
        let mut number = || -> Result<u64, String> {
            let text = words.next().ok_or(format!("{word} needs a number"))?;
            text.parse().map_err(|_| format!("{text} is no number"))
        };
        match &word[..] {
            "--cases" => options.cases = number()?,
            "--seed" => options.seed = number()?,
            "--long" => options.cases = LONG,
            "--self-test" => options.self_test = true,
            "-h" | "--help" => options.said = Some(USAGE),
            "--version" => options.said = Some(concat!("gaffmedlar ", env!("CARGO_PKG_VERSION"))),
            _ => return Err(format!("{word} is no option\n{USAGE}")),
        }
    }
    Ok(options)
}

fn show_writing(writing: &Writing) {
    println!("  elements {:?}", writing.elements);
    println!("  lent     {}", hex(&writing.buffer));
}

fn show(case: &Case, difference: &Difference) {
    println!("  grammar  {}", hex(&case.grammar));
    println!("  history  {}", hex(&case.history));
    match difference.service {
        Service::FirstReading => println!("  lent     {}", hex(&case.first)),
        Service::NextReading => println!("  lent     {}", hex(&case.next)),
        Service::RunCalls => {
            println!("  calls    {}", hex(&case.calls));
            println!("  answers  {}", hex(&case.answers));
            println!("  lent     {}", hex(&case.buffer));
        }
        Service::Sets | Service::SameCount => println!("  lent     {} words", case.words.len()),
        Service::StopMarks => println!("  lent     {}", hex(&case.marks)),
        Service::StepBytes => println!("  position {}", case.position),
        Service::ReadingCountAt | Service::CountsAddUp => {
            println!("  position {}", case.numbered.position);
            println!("  rule     {}", case.numbered.rule);
        }
        Service::ReadingAt | Service::NextOfNumbered => {
            println!("  k        {}", case.numbered.k);
            println!("  lent     {}", hex(&case.numbered.reading));
        }
        Service::WriteGrammar => show_writing(&case.write_grammar),
        Service::WriteHistory => show_writing(&case.write_history),
        _ => {}
    }
    println!("  library    {}", difference.library.in_words());
    println!("  reference  {}", difference.reference.in_words());
}

/// Prints the case on which both sides differ, and the smallest one found from it.
fn tell(case: &Case, difference: &Difference, fault: Option<Fault>) -> Case {
    println!("DIFFERENCE in {:?}", difference.service);
    show(case, difference);
    let small = shrink::shrink(case, fault);
    let difference = compare(&small, fault, |_, _| {}).expect("a shrunk case differs still");
    println!("smallest case found, in {:?}", difference.service);
    show(&small, &difference);
    small
}

/// The random case of a number.
fn case_of(options: &Options, number: u64) -> Case {
    let mut random = Random::new(options.seed.wrapping_mul(0x1000_0000_0000) ^ number);
    make::case(&mut random, LIMIT_EVERY)
}

/// Whether there is no difference on any random case.
fn compare_cases(options: &Options, seen: &mut Seen) -> bool {
    let mut progress = Progress::new(options.cases);
    for number in 0..options.cases {
        progress.at(number);
        let case = case_of(options, number);
        let found = compare(&case, None, |service, outcome| {
            seen.outcome(&case, service, outcome);
        });
        if let Some(difference) = found {
            println!("case {number} of seed {}", options.seed);
            tell(&case, &difference, None);
            return false;
        }
        if number % SELF_EVERY == 0 && !seen.work(&case) {
            println!("the reference differs from itself");
            println!("  grammar  {}", hex(&case.grammar));
            println!("  history  {}", hex(&case.history));
            return false;
        }
    }
    progress.end();
    true
}

fn compare_all(options: &Options) -> bool {
    let start = Instant::now();
    if let Some((case, difference)) = sweeps::all(options.seed) {
        tell(&case, &difference, None);
        return false;
    }
    let mut seen = Seen::new();
    if !compare_cases(options, &mut seen) {
        return false;
    }
    let whole = seen.report();
    println!(
        "{} cases, {} calls, {}, seed {}: no difference, {:.1} s",
        options.cases,
        seen.calls,
        sweeps::in_words(),
        options.seed,
        start.elapsed().as_secs_f64()
    );
    if !whole {
        println!("an answer, a start, a name, a set or a count was not met: more cases are needed");
    }
    whole
}

fn self_test(options: &Options) -> bool {
    let faults = faults::all();
    for &fault in &faults {
        let found = (0..options.cases).find_map(|number| {
            let case = case_of(options, number);
            let difference = compare(&case, Some(fault), |_, _| {})?;
            Some((number, case, difference))
        });
        let Some((number, case, difference)) = found else {
            println!("{fault:?}: NOT FOUND");
            return false;
        };
        println!("{fault:?}: found at case {number}");
        let small = tell(&case, &difference, Some(fault));
        let before = case.grammar.len() + case.history.len();
        let after = small.grammar.len() + small.history.len();
        println!("{fault:?}: {before} bytes of files made {after}");
    }
    println!("{} planted faults, each found", faults.len());
    true
}

fn run() -> ExitCode {
    let well = match options() {
        Ok(Options {
            said: Some(text), ..
        }) => {
            println!("{text}");
            true
        }
        Ok(options) if options.self_test => self_test(&options),
        Ok(options) => compare_all(&options),
        Err(text) => {
            eprintln!("{text}");
            return ExitCode::from(2);
        }
    };
    if well {
        ExitCode::SUCCESS
    } else {
        ExitCode::FAILURE
    }
}

fn main() -> ExitCode {
    // the reference recurses as deep as a history is long
    let worker = std::thread::Builder::new().stack_size(256 << 20).spawn(run);
    worker
        .expect("a thread")
        .join()
        .unwrap_or(ExitCode::FAILURE)
}
