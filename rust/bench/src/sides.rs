//! The services, called on each of the three sides: the proved library, plain Rust over all rules, plain Rust by the index.
use crate::index::{Classes, Index, Scan};
use crate::workloads::Workload;
use crate::{counted, pair_states, plain};
use gaffmedlar::raw;

#[derive(Clone, Copy, PartialEq, Eq)]
pub enum Service {
    GrammarCheck,
    HistoryCheck,
    FirstReading,
    NextReading,
    TenCalls,
    ThousandCalls,
    Sets,
    ChoiceCount,
    StopMarks,
    ReadingCount,
    /// At the middle position, with the rule that the first reading has there.
    ReadingCountAt,
    /// The first, the one in the middle, and the last; of a count that is over, 2^64 - 1 are taken.
    ReadingFirst,
    ReadingMiddle,
    ReadingLast,
}

/// The older ones first, so that their places stay. At the last one an older bench calls for the sets and then for the choice count;
/// since the sets' call gives both, it is that call once more.
pub const SERVICES: [(Service, &str); 15] = [
    (Service::GrammarCheck, "grammar check"),
    (Service::HistoryCheck, "history check"),
    (Service::FirstReading, "first reading"),
    (Service::NextReading, "next reading"),
    (Service::TenCalls, "list of 10 calls"),
    (Service::ThousandCalls, "list of 1000 calls"),
    (Service::Sets, "sets"),
    (Service::ChoiceCount, "choice count"),
    (Service::StopMarks, "stop marks"),
    (Service::ReadingCount, "reading count"),
    (Service::ReadingCountAt, "reading count at"),
    (Service::ReadingFirst, "reading 1"),
    (Service::ReadingMiddle, "reading k: middle"),
    (Service::ReadingLast, "reading k: last"),
    (Service::Sets, "sets and choice count"),
];

/// Whether what is called at a place is called at an earlier one too. Then its times are wanted beside those of a bench that calls for
/// something else there, and not by themselves.
pub fn again(place: usize) -> bool {
    let (service, _) = SERVICES[place];
    let mut earlier = SERVICES[..place].iter();
    earlier.any(|&(other, _)| other == service)
}

impl Service {
    /// What does not go by the history, and lists of calls, are timed on one history alone; the long list once. That the time for
    /// reading k is the same for every k is seen on few files.
    pub fn timed_on(self, workload: &Workload) -> bool {
        match self {
            Service::GrammarCheck | Service::TenCalls => workload.histories.len() == 1,
            Service::ThousandCalls => workload.group == "listing",
            Service::ReadingFirst | Service::ReadingMiddle => {
                ["workload", "listing"].contains(&workload.group)
            }
            _ => true,
        }
    }

    /// Whether a library has it that doesn't count readings.
    pub fn for_older(self) -> bool {
        !matches!(
            self,
            Service::ReadingCount
                | Service::ReadingCountAt
                | Service::ReadingFirst
                | Service::ReadingMiddle
                | Service::ReadingLast
        )
    }
}

#[derive(Clone, Copy, PartialEq, Eq)]
pub enum Side {
    Library,
    Scan,
    Indexed,
}

pub const SIDES: [Side; 3] = [Side::Library, Side::Scan, Side::Indexed];

/// A history, its first reading, and how many it has.
pub struct History<'a> {
    pub file: &'a [u8],
    pub first: Vec<u8>,
    /// 2^64 - 1 where there are more.
    pub count: u64,
}

impl History<'_> {
    /// Which reading is asked for.
    fn number(&self, service: Service) -> u64 {
        match service {
            Service::ReadingFirst => 1,
            Service::ReadingMiddle => self.count / 2 + 1,
            _ => self.count,
        }
    }

    /// The middle position and its rule in the first reading.
    fn middle(&self) -> (usize, usize) {
        let position = self.first.len() / 2;
        (
            position,
            self.first.get(position).copied().unwrap_or(0).into(),
        )
    }
}

/// The outputs of all sides, kept from call to call.
#[derive(Clone, PartialEq, Eq)]
pub struct Buffers {
    pub bytes: Vec<u8>,
    pub words: Vec<u32>,
    pub answers: Vec<u8>,
    pub calls: Vec<u8>,
}

impl Buffers {
    /// For histories of n tokens; no side writes 77 everywhere.
    pub fn of(service: Service, n: usize) -> Buffers {
        let calls = match service {
            Service::ThousandCalls => 1000,
            _ => 10,
        };
        let mut buffers = Buffers {
            bytes: vec![77; n + 1],
            words: vec![77; 4 * (n + 1)],
            answers: vec![77; calls],
            calls: vec![1; calls],
        };
        buffers.calls[0] = 0;
        buffers
    }
}

pub fn call(
    side: Side,
    service: Service,
    grammar: &[u8],
    history: &History,
    to: &mut Buffers,
) -> u32 {
    match side {
        Side::Library => library(service, grammar, history, to),
        Side::Scan if service == Service::StopMarks => {
            pair_states::by_contexts(grammar, history.file, &mut to.bytes).into()
        }
        Side::Scan => in_rust::<Scan>(service, grammar, history, to),
        Side::Indexed => in_rust::<Classes>(service, grammar, history, to),
    }
}

fn library(service: Service, grammar: &[u8], history: &History, to: &mut Buffers) -> u32 {
    let file = history.file;
    match service {
        Service::GrammarCheck => raw::grammar_check(grammar).rules.into(),
        Service::HistoryCheck => raw::history_check(file).tokens.into(),
        Service::FirstReading => raw::first_reading(grammar, file, &mut to.bytes).into(),
        Service::NextReading => {
            to.bytes.copy_from_slice(&history.first);
            raw::next_reading(grammar, file, &mut to.bytes).into()
        }
        Service::TenCalls | Service::ThousandCalls => {
            raw::run_calls(grammar, file, &to.calls, &mut to.answers, &mut to.bytes).into()
        }
        Service::Sets => counted_beside(raw::sets(grammar, file, &mut to.words), to),
        Service::ChoiceCount => raw::choice_count(grammar, file).count,
        Service::StopMarks => raw::stop_marks(grammar, file, &mut to.bytes).into(),
        Service::ReadingCount => told(raw::reading_count(grammar, file), to),
        Service::ReadingCountAt => {
            let (position, rule) = history.middle();
            told(raw::reading_count_at(grammar, file, position, rule), to)
        }
        Service::ReadingFirst | Service::ReadingMiddle | Service::ReadingLast => {
            raw::reading_at(grammar, file, history.number(service), &mut to.bytes).into()
        }
    }
}

/// The count; the answer goes into the first of those for calls.
fn counted_beside(reply: raw::CountReply, to: &mut Buffers) -> u32 {
    to.answers[0] = reply.answer;
    reply.count
}

/// The answer; the count goes into the first two words.
fn told(reply: raw::ReadingsReply, to: &mut Buffers) -> u32 {
    to.words[..2].copy_from_slice(&[reply.count as u32, (reply.count >> 32) as u32]);
    reply.answer.into()
}

fn reply_of(told: Result<Option<u64>, u8>) -> raw::ReadingsReply {
    let (answer, count) = match told {
        Ok(Some(count)) => (0, count),
        Ok(None) => (reference::OVER, 0),
        Err(number) => (number, 0),
    };
    raw::ReadingsReply { answer, count }
}

fn in_rust<I: Index>(service: Service, grammar: &[u8], history: &History, to: &mut Buffers) -> u32 {
    let file = history.file;
    match service {
        Service::GrammarCheck => reference::grammar_check(grammar).unwrap_or((0, 0)).1.into(),
        Service::HistoryCheck => reference::history_check(file).unwrap_or(0).into(),
        Service::FirstReading => plain::first_reading::<I>(grammar, file, &mut to.bytes).into(),
        Service::NextReading => {
            to.bytes.copy_from_slice(&history.first);
            plain::next_reading::<I>(grammar, file, &mut to.bytes).into()
        }
        Service::TenCalls | Service::ThousandCalls => {
            plain::run_calls::<I>(grammar, file, &to.calls, &mut to.answers, &mut to.bytes).into()
        }
        Service::Sets => {
            let (answer, count) = match plain::sets::<I>(grammar, file, &mut to.words) {
                Ok(count) => (0, count),
                Err(number) => (number, 0),
            };
            counted_beside(raw::CountReply { answer, count }, to)
        }
        Service::ChoiceCount => plain::choice_count::<I>(grammar, file).unwrap_or(0),
        Service::StopMarks => pair_states::by_currents(grammar, file, &mut to.bytes).into(),
        Service::ReadingCount => told(reply_of(counted::reading_count::<I>(grammar, file)), to),
        Service::ReadingCountAt => {
            let (position, rule) = history.middle();
            let counted = counted::reading_count_at::<I>(grammar, file, position, rule);
            told(reply_of(counted), to)
        }
        Service::ReadingFirst | Service::ReadingMiddle | Service::ReadingLast => {
            let k = history.number(service);
            counted::reading_at::<I>(grammar, file, k, &mut to.bytes).into()
        }
    }
}

#[cfg(test)]
mod tests {
    use super::*;
    use frames::choices::{self, EITHER};
    use frames::sets::CALLS;
    use frames::{g_from, wide, Example, G, G_EXCHANGED};

    /// What a side gives: the first reading if there is one, what "next reading" answers after it, the sets' first words,
    /// the choice count, and the stop marks.
    type Given = (Vec<u8>, u32, Vec<u32>, u32, Vec<u8>);

    fn given(side: Side, grammar: &[u8], file: &[u8]) -> Given {
        let n = reference::history_check(file).unwrap().into();
        let first = vec![77; n + 1];
        let count = 0;
        let mut history = History { file, first, count };
        let mut made = |service| {
            let mut to = Buffers::of(service, n);
            let answer = call(side, service, grammar, &history, &mut to);
            if (service, answer) == (Service::FirstReading, 0) {
                history.first.clone_from(&to.bytes);
            }
            (answer, to)
        };
        let (answer, to) = made(Service::FirstReading);
        let first = if answer == 0 { to.bytes } else { vec![] };
        let (next, _) = made(Service::NextReading);
        let (with_sets, to) = made(Service::Sets);
        let words = to.words.chunks(4).map(|words| words[0]).collect();
        let (choices, _) = made(Service::ChoiceCount);
        assert_eq!((with_sets, to.answers[0]), (choices, 0));
        let (_, to) = made(Service::StopMarks);
        (first, next, words, choices, to.bytes)
    }

    /// Every side goes by the start that the file says.
    #[test]
    fn other_starts() {
        let from_1 = &g_from(1)[..];
        let step = &[3, 1, 0, 2];
        let none = (vec![], 16, vec![0; 4], 0, vec![1, 0, 0, 0]);
        let two = vec![1, 3, 4, 0];
        let two = (two, 0, vec![6, 40, 80, 1], 1, vec![1, 0, 0, 1]);
        let cases: [(&[u8], &[u8], Given); 4] = [
            (from_1, &[0], (vec![4], 101, vec![16], 0, vec![1])),
            (
                from_1,
                &[2, 0, 0],
                (vec![3, 3, 4], 101, vec![8, 8, 16], 0, vec![1; 3]),
            ),
            (from_1, step, none),
            (&G_EXCHANGED, step, two),
        ];
        for (grammar, history, due) in cases {
            for side in SIDES {
                assert_eq!(given(side, grammar, history), due);
            }
        }
    }

    fn due(example: &Example) -> Given {
        let readings = example.readings;
        let first = readings.first().map_or(vec![], |first| first.to_vec());
        let next = match readings.len() {
            0 => 16,
            1 => 101,
            _ => 0,
        };
        let bit = |rule: u8| 1u32 << rule;
        let word = |place: usize| {
            readings
                .iter()
                .fold(0, |set, rules| set | bit(rules[place]))
        };
        let words: Vec<u32> = (0..example.marks.len()).map(word).collect();
        let choices = example.choices.len() as u32;
        (first, next, words, choices, example.marks.to_vec())
    }

    fn each_side_gives(examples: &[Example]) {
        for example in examples {
            for side in SIDES {
                let given = given(side, example.grammar, example.history);
                assert_eq!(given, due(example));
            }
        }
    }

    /// Plain Rust writes the words and counts in one call, refuses as the library does, and then writes nothing.
    #[test]
    fn sets_with_their_count() {
        for call in &CALLS {
            for sets in [plain::sets::<Scan>, plain::sets::<Classes>] {
                let mut words = call.before();
                assert_eq!(sets(call.grammar, call.history, &mut words), call.due());
                assert_eq!(words, call.after());
            }
        }
    }

    /// One place alone is there for older benches.
    #[test]
    fn places() {
        let names: Vec<&str> = (0..SERVICES.len())
            .filter(|&place| again(place))
            .map(|place| SERVICES[place].1)
            .collect();
        assert_eq!(names, ["sets and choice count"]);
    }

    /// No side loses a bit of a name.
    #[test]
    fn wide_names() {
        each_side_gives(&wide::EXAMPLES);
    }

    /// Every side counts two rules of one stage, and not those of different stages.
    #[test]
    fn choices_of_examples() {
        each_side_gives(&choices::EXAMPLES);
        let counted = |side, grammar, file: &[u8]| {
            let (first, count) = (vec![], 0);
            let history = History { file, first, count };
            let mut to = Buffers::of(Service::ChoiceCount, 0);
            call(side, Service::ChoiceCount, grammar, &history, &mut to)
        };
        for side in SIDES {
            assert_eq!(counted(side, &EITHER, &choices::marks(1024)), 1024);
            assert_eq!(counted(side, &G, &choices::steps(512)), 512);
        }
    }
}
