//! Another bench, built with another archive: it is asked for a round at a time, so that both libraries take turns.
use crate::measure::Calls;
use crate::sides::{again, Side, SERVICES};
use crate::workloads::{workloads, Workload};
use std::hash::{DefaultHasher, Hash, Hasher};
use std::io::{BufRead, BufReader, Write};
use std::path::Path;
use std::process::{Child, ChildStdin, ChildStdout, Command, Stdio};
use std::time::Duration;

pub struct Other {
    child: Child,
    questions: ChildStdin,
    answers: BufReader<ChildStdout>,
    name: String,
    /// The places of its services, where it tells them.
    places: Option<Vec<usize>>,
}

/// So many services had a bench at most that doesn't tell their places.
const UNTOLD: usize = 14;

impl Other {
    pub fn start(program: &Path) -> Result<Other, String> {
        let name = program.display().to_string();
        let places = told(program).map_err(|error| format!("{name}: {error}"))?;
        let child = Command::new(program)
            .arg("--answer")
            .stdin(Stdio::piped())
            .stdout(Stdio::piped())
            .spawn();
        let mut child = child.map_err(|error| format!("{name}: {error}"))?;
        let questions = child.stdin.take().expect("a pipe was asked for");
        let answers = child.stdout.take().expect("a pipe was asked for");
        Ok(Other {
            child,
            questions,
            answers: BufReader::new(answers),
            name,
            places,
        })
    }

    /// Whether it can be asked for the service of this place. One that tells its places counts readings and reads wide names; any other
    /// is asked for what every older library has.
    pub fn has(&self, place: usize, old: bool) -> bool {
        match &self.places {
            Some(places) => places.contains(&place),
            None => old && place < UNTOLD,
        }
    }

    /// Its times of one round, by piece.
    pub fn round(&mut self, question: &Question) -> Result<Vec<f64>, String> {
        let mut line = String::new();
        let Question {
            workload,
            service,
            micros,
            files,
        } = question;
        writeln!(self.questions, "{workload} {service} {micros} {files}")
            .and_then(|()| self.answers.read_line(&mut line))
            .map_err(|error| format!("{}: {error}", self.name))?;
        let times: Option<Vec<f64>> = line
            .split(' ')
            .map(|time| time.trim().parse().ok())
            .collect();
        times.ok_or(format!("{} does not answer as a bench does", self.name))
    }
}

/// The places of a bench's services: None from one that is older than the question, which takes it for a wrong word.
fn told(program: &Path) -> std::io::Result<Option<Vec<usize>>> {
    let output = Command::new(program).arg("--places").output()?;
    let text = String::from_utf8_lossy(&output.stdout);
    let places: Option<Vec<usize>> = text
        .split_whitespace()
        .map(|place| place.parse().ok())
        .collect();
    Ok(places.filter(|places| output.status.success() && !places.is_empty()))
}

/// The other end of that: those at which something else is called than at all earlier ones.
pub fn tell() {
    let places = (0..SERVICES.len()).filter(|&place| !again(place));
    let places: Vec<String> = places.map(|place| place.to_string()).collect();
    println!("{}", places.join(" "));
}

impl Drop for Other {
    fn drop(&mut self) {
        let _ = self.child.kill();
        let _ = self.child.wait();
    }
}

/// The place of a workload, that of a service, the length of a round, and a number made of the files: both have to time
/// the same ones.
pub struct Question {
    workload: usize,
    service: usize,
    micros: u64,
    files: u64,
}

impl Question {
    pub fn of(all: &[Workload], workload: usize, service: usize, least: Duration) -> Question {
        Question {
            workload,
            service,
            micros: least.as_micros() as u64,
            files: digest(&all[workload]),
        }
    }

    fn read(line: &str) -> Option<Question> {
        let mut words = line.split(' ');
        let question = Question {
            workload: words.next()?.parse().ok()?,
            service: words.next()?.parse().ok()?,
            micros: words.next()?.parse().ok()?,
            files: words.next()?.parse().ok()?,
        };
        words.next().is_none().then_some(question)
    }

    /// The calls asked for, and how many times over they fill a round.
    fn calls<'a>(&self, all: &'a [Workload]) -> Option<(Calls<'a>, u32)> {
        let workload = all.get(self.workload)?;
        let (service, _) = SERVICES.get(self.service)?;
        if digest(workload) != self.files {
            return None;
        }
        let mut calls = Calls::of(*service, workload);
        let times = calls.times(Side::Library, Duration::from_micros(self.micros));
        Some((calls, times))
    }
}

fn digest(workload: &Workload) -> u64 {
    let mut hasher = DefaultHasher::new();
    (&workload.grammar, &workload.histories).hash(&mut hasher);
    hasher.finish()
}

/// The other end: a round of the library for each line, until there are no more.
pub fn answer() -> Result<(), String> {
    let all = workloads();
    let mut ready: Option<(String, (Calls, u32))> = None;
    for line in std::io::stdin().lines() {
        let line = line.map_err(|error| format!("standard input: {error}"))?;
        let (mut calls, times) = match ready.take() {
            Some((same, calls)) if same == line => calls,
            _ => Question::read(&line)
                .and_then(|question| question.calls(&all))
                .ok_or(format!("no question about this bench's files: {line}"))?,
        };
        let pieces = calls.round(Side::Library, times);
        let pieces: Vec<String> = pieces.iter().map(f64::to_string).collect();
        let written = writeln!(std::io::stdout(), "{}", pieces.join(" "));
        written.map_err(|error| format!("standard output: {error}"))?;
        ready = Some((line, (calls, times)));
    }
    Ok(())
}
