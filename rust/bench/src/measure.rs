//! Microseconds for one call of a service: on each side here, and with the library of another bench.
use crate::clock;
use crate::other::{Other, Question};
use crate::sides::{again, call, Buffers, History, Service, Side, SERVICES, SIDES};
use crate::workloads::{workloads, Workload};
use gaffmedlar::raw;
use std::hint::black_box;
use std::time::Duration;

pub struct Row {
    pub group: &'static str,
    pub size: usize,
    pub files: String,
    pub histories: usize,
    pub service: &'static str,
    /// In the order of [`SIDES`].
    pub times: [f64; 3],
    /// The library of the other bench.
    pub before: Option<f64>,
}

/// How long a round on one history is at least, and how many rounds there are.
#[derive(Clone, Copy)]
pub struct Rounds {
    pub least: Duration,
    pub count: usize,
}

impl Rounds {
    pub fn of(quick: bool) -> Rounds {
        let (micros, count) = if quick { (200, 1) } else { (1000, 30) };
        Rounds {
            least: Duration::from_micros(micros),
            count,
        }
    }
}

/// So many histories are timed together, where there are many: the clock is then a small part.
const TOGETHER: usize = 8;

/// A service on the files of a workload, ready to be timed.
pub struct Calls<'a> {
    service: Service,
    grammar: &'a [u8],
    histories: Vec<History<'a>>,
    to: Buffers,
}

impl<'a> Calls<'a> {
    /// All sides give the same on every history: that is seen to first.
    pub fn of(service: Service, workload: &'a Workload) -> Calls<'a> {
        let grammar = &workload.grammar[..];
        let n = raw::history_check(&workload.histories[0]).tokens.into();
        let mut histories = Vec::new();
        for file in &workload.histories {
            let mut first = vec![0; n + 1];
            raw::first_reading(grammar, file, &mut first);
            let reply = raw::reading_count(grammar, file);
            let count = if reply.answer == 0 {
                reply.count
            } else {
                u64::MAX
            };
            histories.push(History { file, first, count });
        }
        for history in &histories {
            let [proved, scan, indexed] = SIDES.map(|side| {
                let mut to = Buffers::of(service, n);
                (call(side, service, grammar, history, &mut to), to)
            });
            let same = proved == scan && proved == indexed;
            assert!(same, "all sides give the same on {}", workload.name);
        }
        Calls {
            service,
            grammar,
            histories,
            to: Buffers::of(service, n),
        }
    }

    /// How many times over the calls fill a round: once where there are many histories.
    pub fn times(&mut self, side: Side, least: Duration) -> u32 {
        let mut times = 1;
        if self.histories.len() == 1 {
            while self.round(side, times)[0] * f64::from(times) < least.as_secs_f64() * 1e6 {
                times *= 2;
            }
        }
        times
    }

    /// Microseconds for one call, for each piece of the histories.
    pub fn round(&mut self, side: Side, times: u32) -> Vec<f64> {
        let mut pieces = Vec::new();
        for histories in self.histories.chunks(TOGETHER) {
            let start = clock::now();
            for _ in 0..times {
                for history in histories {
                    let (grammar, history) = (black_box(self.grammar), black_box(history));
                    black_box(call(side, self.service, grammar, history, &mut self.to));
                }
            }
            let calls = f64::from(times) * histories.len() as f64;
            pieces.push((clock::now() - start).as_secs_f64() * 1e6 / calls);
        }
        pieces
    }
}

/// The best time of each piece so far.
#[derive(Default)]
struct Best(Vec<f64>);

impl Best {
    fn add(&mut self, pieces: Vec<f64>) {
        self.0.resize(pieces.len(), f64::INFINITY);
        for (best, time) in self.0.iter_mut().zip(pieces) {
            *best = best.min(time);
        }
    }

    fn mean(&self) -> f64 {
        self.0.iter().sum::<f64>() / self.0.len() as f64
    }
}

/// The sides take turns, round by round, and the other bench with them.
fn timed(
    mut calls: Calls,
    rounds: Rounds,
    mut other: impl FnMut() -> Result<Option<Vec<f64>>, String>,
) -> Result<([f64; 3], Option<f64>), String> {
    let times = SIDES.map(|side| calls.times(side, rounds.least));
    let mut best = SIDES.map(|_| Best::default());
    let mut before = None;
    for _ in 0..rounds.count {
        for ((best, side), times) in best.iter_mut().zip(SIDES).zip(times) {
            best.add(calls.round(side, times));
        }
        if let Some(pieces) = other()? {
            before.get_or_insert_with(Best::default).add(pieces);
        }
    }
    Ok((best.map(|best| best.mean()), before.map(|best| best.mean())))
}

fn print(row: &Row) {
    let [proved, scan, index] = row.times;
    let (before, faster) = match row.before {
        Some(time) => (format!("{time:.2}"), format!("{:.2}", time / proved)),
        None => ("-".into(), "-".into()),
    };
    println!(
        "{:26} {:>9} {:21} {before:>10} {proved:10.2} {scan:10.2} {index:10.2} {faster:>7} {:7.2}",
        row.files,
        row.histories,
        row.service,
        proved / index
    );
}

fn print_heads() {
    println!(
        "{:26} {:>9} {:21} {:>10} {:>10} {:>10} {:>10} {:>7} {:>7}",
        "files",
        "histories",
        "service",
        "before, us",
        "proved",
        "scan",
        "index",
        "faster",
        "/index"
    );
}

/// Measures everything and prints each time as it comes.
pub fn run(rounds: Rounds, other: &mut Option<Other>) -> Result<Vec<Row>, String> {
    print_heads();
    let mut rows = Vec::new();
    let all = workloads();
    for (place, workload) in all.iter().enumerate() {
        for (number, &(service, name)) in SERVICES.iter().enumerate() {
            let old = workload.for_older() && service.for_older();
            let asked = other.as_ref().is_some_and(|other| other.has(number, old));
            if !service.timed_on(workload) || again(number) && !asked {
                continue;
            }
            let calls = Calls::of(service, workload);
            let question = Question::of(&all, place, number, rounds.least);
            let (times, before) = timed(calls, rounds, || {
                let other = other.as_mut().filter(|_| asked);
                other.map(|other| other.round(&question)).transpose()
            })?;
            let row = Row {
                group: workload.group,
                size: workload.size,
                files: workload.name.clone(),
                histories: workload.histories.len(),
                service: name,
                times,
                before,
            };
            print(&row);
            rows.push(row);
        }
    }
    Ok(rows)
}
