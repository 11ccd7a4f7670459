//! One case: two files, the lent buffers of every service, a position, what is asked of counts and what the writers are called
//! with; and the comparison of both sides on it.
use crate::faults::{spoiled, Fault};
use crate::numbered::{self, Numbered};
use crate::writing::{self, Kind, Writing};
use gaffmedlar::raw;
use reference::Work;
use std::fmt::Write;

#[derive(Clone, PartialEq, Eq, Default)]
pub struct Case {
    pub grammar: Vec<u8>,
    pub history: Vec<u8>,
    /// Lent to "first reading".
    pub first: Vec<u8>,
    /// Lent to "next reading".
    pub next: Vec<u8>,
    /// Lent to "sets".
    pub words: Vec<u32>,
    /// Lent to "stop marks".
    pub marks: Vec<u8>,
    /// A list of calls, room for its answers, and its buffer.
    pub calls: Vec<u8>,
    pub answers: Vec<u8>,
    pub buffer: Vec<u8>,
    /// Where a step is asked for.
    pub position: usize,
    pub numbered: Numbered,
    pub write_grammar: Writing,
    pub write_history: Writing,
}

impl Case {
    pub fn writing(&mut self, kind: Kind) -> &mut Writing {
        match kind {
            Kind::Grammar => &mut self.write_grammar,
            Kind::History => &mut self.write_history,
        }
    }
}

#[derive(Clone, Copy, PartialEq, Eq, Debug)]
pub enum Service {
    GrammarCheck,
    HistoryCheck,
    FirstReading,
    NextReading,
    RunCalls,
    Sets,
    ChoiceCount,
    /// Whether the count beside the sets is the choice count: by the library, called for both.
    SameCount,
    /// Whether there is more than one reading: by the library there is exactly when it counts a choice.
    SeveralReadings,
    StopMarks,
    ReadingCount,
    ReadingCountAt,
    ReadingAt,
    /// Reading k and the one that "next reading" makes of it; and reading k stepped to.
    NextOfNumbered,
    /// The counts of all rules at a position, added up.
    CountsAddUp,
    /// Both functions: where the part is, and the number.
    StepBytes,
    /// The writers, and what they write read back.
    WriteGrammar,
    WriteHistory,
    /// A file of the case that passes, written from its own numbers, twice; and the sets by such a grammar.
    GrammarAgain,
    HistoryAgain,
}

pub const SERVICES: [Service; 20] = [
    Service::GrammarCheck,
    Service::HistoryCheck,
    Service::FirstReading,
    Service::NextReading,
    Service::RunCalls,
    Service::Sets,
    Service::ChoiceCount,
    Service::SameCount,
    Service::SeveralReadings,
    Service::StopMarks,
    Service::ReadingCount,
    Service::ReadingCountAt,
    Service::ReadingAt,
    Service::NextOfNumbered,
    Service::CountsAddUp,
    Service::StepBytes,
    Service::WriteGrammar,
    Service::WriteHistory,
    Service::GrammarAgain,
    Service::HistoryAgain,
];

/// What a service gave: its number, its counts, and its buffers afterwards.
#[derive(Clone, PartialEq, Eq, Debug)]
pub struct Outcome {
    pub answer: u8,
    pub counts: Vec<u64>,
    pub lent: Vec<Vec<u8>>,
    pub words: Vec<u32>,
}

impl Outcome {
    pub fn of(answer: u8, counts: &[u64], lent: &[&[u8]], words: &[u32]) -> Outcome {
        Outcome {
            answer,
            counts: counts.to_vec(),
            lent: lent.iter().map(|bytes| bytes.to_vec()).collect(),
            words: words.to_vec(),
        }
    }

    pub fn in_words(&self) -> String {
        let mut text = format!("answer {}", self.answer);
        if !self.counts.is_empty() {
            write!(text, ", counts {:?}", self.counts).unwrap();
        }
        for bytes in &self.lent {
            write!(text, ", bytes {}", hex(bytes)).unwrap();
        }
        if !self.words.is_empty() {
            let words: Vec<String> = self.words.iter().map(|w| format!("{w:x}")).collect();
            write!(text, ", words {}", words.join(" ")).unwrap();
        }
        text
    }
}

pub struct Difference {
    pub service: Service,
    pub library: Outcome,
    pub reference: Outcome,
}

pub fn hex(bytes: &[u8]) -> String {
    if bytes.is_empty() {
        return "(empty)".into();
    }
    bytes.iter().map(|byte| format!("{byte:02x}")).collect()
}

/// Elements that stand before and behind a lent buffer and belong to nobody.
const AROUND: usize = 8;

/// A buffer with elements around it, to see that they stay.
pub struct Lent<T>(Vec<T>);

impl<T: Copy + PartialEq> Lent<T> {
    pub fn new(content: &[T], guard: T) -> Lent<T> {
        let mut all = vec![guard; AROUND];
        all.extend_from_slice(content);
        all.extend([guard; AROUND]);
        Lent(all)
    }

    pub fn part(&mut self) -> &mut [T] {
        let end = self.0.len() - AROUND;
        &mut self.0[AROUND..end]
    }

    pub fn checked(&mut self, guard: T) -> Vec<T> {
        let end = self.0.len() - AROUND;
        let around = self.0[..AROUND].iter().chain(&self.0[end..]);
        assert!(
            around.clone().all(|&element| element == guard),
            "the library wrote outside a lent buffer"
        );
        self.part().to_vec()
    }
}

pub const BYTE: u8 = 0xa5;
const WORD: u32 = 0xa5a5_a5a5;

/// A call that writes bytes, on a buffer with guards around it.
pub fn into_bytes(content: &[u8], call: impl FnOnce(&mut [u8]) -> u8) -> Outcome {
    let mut lent = Lent::new(content, BYTE);
    let answer = call(lent.part());
    Outcome::of(answer, &[], &[&lent.checked(BYTE)], &[])
}

/// What the library gives.
pub fn library(case: &Case, service: Service) -> Outcome {
    let (grammar, history) = (&case.grammar[..], &case.history[..]);
    match service {
        Service::GrammarCheck | Service::HistoryCheck => library_check(case, service),
        Service::FirstReading => into_bytes(&case.first, |part| {
            raw::first_reading(grammar, history, part)
        }),
        Service::NextReading => {
            into_bytes(&case.next, |part| raw::next_reading(grammar, history, part))
        }
        Service::RunCalls => library_calls(case),
        Service::Sets => library_sets(case),
        Service::ChoiceCount => {
            let reply = raw::choice_count(grammar, history);
            Outcome::of(reply.answer, &[reply.count.into()], &[], &[])
        }
        Service::SameCount => library_same(case),
        Service::SeveralReadings => {
            let reply = raw::choice_count(grammar, history);
            Outcome::of(reply.answer, &[u64::from(reply.count > 0)], &[], &[])
        }
        Service::StopMarks => {
            into_bytes(&case.marks, |part| raw::stop_marks(grammar, history, part))
        }
        Service::StepBytes => library_step(history, case.position),
        Service::WriteGrammar => writing::library(&case.write_grammar, Kind::Grammar),
        Service::WriteHistory => writing::library(&case.write_history, Kind::History),
        Service::GrammarAgain => writing::library_grammar_again(grammar, history),
        Service::HistoryAgain => writing::library_again(history, Kind::History),
        counted => numbered::library(case, counted),
    }
}

fn library_check(case: &Case, service: Service) -> Outcome {
    if service == Service::GrammarCheck {
        let reply = raw::grammar_check(&case.grammar);
        let counts = [reply.stages.into(), reply.rules.into()];
        return Outcome::of(reply.answer, &counts, &[], &[]);
    }
    let reply = raw::history_check(&case.history);
    Outcome::of(reply.answer, &[reply.tokens.into()], &[], &[])
}

fn library_sets(case: &Case) -> Outcome {
    let mut words = Lent::new(&case.words, WORD);
    let reply = raw::sets(&case.grammar, &case.history, words.part());
    let words = words.checked(WORD);
    Outcome::of(reply.answer, &[reply.count.into()], &[], &words)
}

/// Both counts, where the sets are not refused.
fn library_same(case: &Case) -> Outcome {
    let (grammar, history) = (&case.grammar, &case.history);
    let sets = raw::sets(grammar, history, &mut case.words.clone());
    if sets.answer != 0 {
        return Outcome::of(sets.answer, &[0], &[], &[]);
    }
    let choices = raw::choice_count(grammar, history);
    let same = u64::from(sets.count == choices.count);
    Outcome::of(choices.answer, &[same], &[], &[])
}

fn library_calls(case: &Case) -> Outcome {
    let mut answers = Lent::new(&case.answers, BYTE);
    let mut buffer = Lent::new(&case.buffer, BYTE);
    let (grammar, history) = (&case.grammar, &case.history);
    let answer = raw::run_calls(grammar, history, &case.calls, answers.part(), buffer.part());
    let lent = [&answers.checked(BYTE)[..], &buffer.checked(BYTE)];
    Outcome::of(answer, &[], &lent, &[])
}

pub fn library_step(history: &[u8], position: usize) -> Outcome {
    let part = raw::step_bytes(history, position);
    let number = raw::step_refusal(history, position);
    Outcome::of(number, &[part.start as u64, part.length as u64], &[], &[])
}

/// What the reference counts, or as many zeros beside its number.
fn counts_due<const N: usize>(counts: Result<[u64; N], u8>) -> Outcome {
    match counts {
        Ok(counts) => Outcome::of(0, &counts, &[], &[]),
        Err(number) => Outcome::of(number, &[0; N], &[], &[]),
    }
}

/// What the reference writes.
pub fn bytes_due(content: &[u8], call: impl FnOnce(&mut [u8]) -> u8) -> Outcome {
    let mut lent = content.to_vec();
    let answer = call(&mut lent);
    Outcome::of(answer, &[], &[&lent], &[])
}

/// What is due by the reference.
pub fn due(case: &Case, work: &Work, service: Service) -> Outcome {
    match service {
        Service::GrammarCheck => counts_due(
            reference::grammar_check(&case.grammar)
                .map(|(stages, rules)| [stages.into(), rules.into()]),
        ),
        Service::HistoryCheck => {
            counts_due(reference::history_check(&case.history).map(|tokens| [tokens.into()]))
        }
        Service::FirstReading => bytes_due(&case.first, |lent| work.first_reading(lent)),
        Service::NextReading => bytes_due(&case.next, |lent| work.next_reading(lent)),
        Service::RunCalls => {
            let (mut answers, mut buffer) = (case.answers.clone(), case.buffer.clone());
            let answer = work.run_calls(&case.calls, &mut answers, &mut buffer);
            Outcome::of(answer, &[], &[&answers, &buffer], &[])
        }
        Service::Sets => {
            let mut words = case.words.clone();
            let counted = work.sets(&mut words).map(|count| [count.into()]);
            Outcome {
                words,
                ..counts_due(counted)
            }
        }
        Service::ChoiceCount => counts_due(work.choice_count().map(|count| [count.into()])),
        Service::SameCount => counts_due(work.sets(&mut case.words.clone()).map(|_| [1])),
        Service::SeveralReadings => counts_due(work.several_readings().map(|yes| [yes.into()])),
        Service::StopMarks => bytes_due(&case.marks, |lent| work.stop_marks(lent)),
        Service::StepBytes => counts_due(
            reference::step_bytes(&case.history, case.position)
                .map(|part| [part.start as u64, part.len() as u64]),
        ),
        Service::WriteGrammar => writing::due(&case.write_grammar, Kind::Grammar),
        Service::WriteHistory => writing::due(&case.write_history, Kind::History),
        Service::GrammarAgain => writing::due_grammar_again(&case.grammar, work),
        Service::HistoryAgain => writing::due_again(&case.history, Kind::History),
        counted => numbered::due(case, work, counted),
    }
}

/// Both sides on every service; the first difference, if there is one. `seen` is told each answer of the library.
pub fn compare(
    case: &Case,
    fault: Option<Fault>,
    mut seen: impl FnMut(Service, &Outcome),
) -> Option<Difference> {
    let work = Work::new(&case.grammar, &case.history);
    for service in SERVICES {
        let mut given = library(case, service);
        if let Some(fault) = fault {
            given = spoiled(fault, case, service, given);
        }
        seen(service, &given);
        let reference = due(case, &work, service);
        if given != reference {
            return Some(Difference {
                service,
                library: given,
                reference,
            });
        }
    }
    None
}
