//! The writers in a case: what the library gives for elements and a buffer, and what is due; and a file written again from
//! its own numbers, twice.
use crate::case::{Lent, Outcome, BYTE};
use crate::faults::Fault;
use crate::heads;
use frames::numbers_file;
use gaffmedlar::{raw, NotWritten};
use reference::Work;

/// What a writer is called with: the numbers of a file, one element each, and the buffer.
#[derive(Clone, PartialEq, Eq, Default)]
pub struct Writing {
    pub elements: Vec<u32>,
    pub buffer: Vec<u8>,
}

/// One of the two files.
#[derive(Clone, Copy, PartialEq, Eq, Debug)]
pub enum Kind {
    Grammar,
    History,
}

impl Kind {
    /// The answer of the library's check, and the counts.
    fn check(self, file: &[u8]) -> (u8, Vec<u64>) {
        match self {
            Kind::Grammar => {
                let reply = raw::grammar_check(file);
                (reply.answer, vec![reply.stages.into(), reply.rules.into()])
            }
            Kind::History => {
                let reply = raw::history_check(file);
                (reply.answer, vec![reply.tokens.into()])
            }
        }
    }

    fn write(self, elements: &[u32], buffer: &mut [u8]) -> raw::WriteReply {
        match self {
            Kind::Grammar => raw::write_grammar(elements, buffer),
            Kind::History => raw::write_history(elements, buffer),
        }
    }

    fn write_whole(self, elements: &[u32]) -> Result<Vec<u8>, NotWritten> {
        match self {
            Kind::Grammar => gaffmedlar::write_grammar(elements),
            Kind::History => gaffmedlar::write_history(elements),
        }
    }

    /// The length of the file that is due, or the number; the buffer is filled.
    pub fn due(self, elements: &[u32], buffer: &mut [u8]) -> Result<usize, u8> {
        match self {
            Kind::Grammar => reference::write_grammar(elements, buffer),
            Kind::History => reference::write_history(elements, buffer),
        }
    }

    /// The numbers of the file that is written from these: a grammar's with the start.
    pub fn written(self, elements: &[u32]) -> Vec<u32> {
        match (self, elements) {
            (Kind::History, _) | (_, [] | [0, ..]) => elements.to_vec(),
            (Kind::Grammar, [stages, rest @ ..]) => [&[0, *stages, 0], rest].concat(),
        }
    }

    /// The counts among the numbers of such a file.
    fn counts(self, written: &[u32]) -> Vec<u64> {
        let counts: &[usize] = match self {
            Kind::Grammar => &[1, 3],
            Kind::History => &[0],
        };
        counts.iter().map(|&place| written[place].into()).collect()
    }
}

/// What the library's writer gives. A file that was written is checked and read back: the counts are its length, the
/// check's answer and counts, the words its numbers. Of elements that are refused it is counted whether the wrapper names one.
pub fn library(writing: &Writing, kind: Kind) -> Outcome {
    let mut guarded = Lent::new(&writing.buffer, BYTE);
    let reply = kind.write(&writing.elements, guarded.part());
    let bytes = guarded.checked(BYTE);
    let mut counts = vec![reply.length as u64];
    let mut words = vec![];
    if let (0, Some(file)) = (reply.answer, bytes.get(..reply.length)) {
        let (answer, of_file) = kind.check(file);
        counts.push(answer.into());
        counts.extend(of_file);
        words = gaffmedlar::numbers(file);
    }
    if reply.answer != 0 {
        let refused = kind.write_whole(&writing.elements).err();
        let named = refused.is_some_and(|refused| refused.element.is_some());
        counts.push(named.into());
    }
    Outcome::of(reply.answer, &counts, &[&bytes], &words)
}

/// What is due by the reference; a file that was written passes and has the numbers that it was written from, and its start.
pub fn due(writing: &Writing, kind: Kind) -> Outcome {
    let mut buffer = writing.buffer.clone();
    match kind.due(&writing.elements, &mut buffer) {
        Ok(length) => {
            let numbers = kind.written(&writing.elements);
            let mut counts = vec![length as u64, 0];
            counts.extend(kind.counts(&numbers));
            Outcome::of(0, &counts, &[&buffer], &numbers)
        }
        Err(number) => Outcome::of(number, &[0, (number != 15).into()], &[&buffer], &[]),
    }
}

/// A file that the library lets through, written again from its numbers, and what was written once more; or the number of its
/// check.
pub fn library_again(file: &[u8], kind: Kind) -> Outcome {
    let again = |file: &[u8]| kind.write_whole(&gaffmedlar::numbers(file));
    match kind.check(file) {
        (0, _) => match again(file).and_then(|once| Ok([again(&once)?, once])) {
            Ok([twice, once]) => Outcome::of(0, &[], &[&once, &twice], &[]),
            Err(refused) => Outcome::of(refused.refusal.number(), &[], &[], &[]),
        },
        (number, _) => Outcome::of(number, &[], &[], &[]),
    }
}

/// It is the same, byte for byte; a grammar that doesn't say its start alone has the start 0 put in, and then stays.
pub fn due_again(file: &[u8], kind: Kind) -> Outcome {
    let refused = match kind {
        Kind::Grammar => reference::grammar_check(file).err(),
        Kind::History => reference::history_check(file).err(),
    };
    match (refused, kind) {
        (Some(number), _) => Outcome::of(number, &[], &[], &[]),
        (None, Kind::Grammar) if !heads::says_start(file) => {
            let longer = [&[0, file[0], 0], &file[1..]].concat();
            Outcome::of(0, &[], &[&longer, &longer], &[])
        }
        (None, _) => Outcome::of(0, &[], &[file, file], &[]),
    }
}

/// And a grammar keeps its meaning: the words and the count are the history's sets and choices by what was written.
pub fn library_grammar_again(grammar: &[u8], history: &[u8]) -> Outcome {
    let mut outcome = library_again(grammar, Kind::Grammar);
    if let Some(written) = outcome.lent.first() {
        if let Ok(sets) = gaffmedlar::sets(written, history) {
            outcome.words = sets.words().to_vec();
            outcome.counts = vec![sets.choices() as u64];
        }
    }
    outcome
}

/// They are those by the grammar itself.
pub fn due_grammar_again(grammar: &[u8], work: &Work) -> Outcome {
    let mut outcome = due_again(grammar, Kind::Grammar);
    if let Some(positions) = work.positions() {
        outcome.words = vec![0; 4 * positions];
        let count = work.sets(&mut outcome.words).expect("room for all words");
        outcome.counts = vec![count.into()];
    }
    outcome
}

/// A writer's true outcome turned into a wrong one, where the planted fault shows.
pub fn spoiled(fault: Fault, writing: &Writing, kind: Kind, outcome: Outcome) -> Outcome {
    let mut wrong = outcome;
    let numbers = kind.written(&writing.elements);
    match fault {
        Fault::FifteenFirst if wrong.answer != 0 && writing.buffer.len() < length(&numbers) => {
            wrong.answer = 15;
        }
        Fault::RefusalWrites if wrong.answer != 0 => {
            if let (Some(byte), Some(&number)) = (wrong.lent[0].first_mut(), numbers.first()) {
                *byte = number as u8;
            }
        }
        Fault::BehindCleared if wrong.answer == 0 => {
            let length = wrong.counts[0] as usize;
            wrong.lent[0].get_mut(length..).unwrap_or_default().fill(0);
        }
        Fault::LengthOneMore if wrong.answer == 0 => wrong.counts[0] += 1,
        Fault::WideInOneByte if wrong.answer == 0 => {
            let bytes: Vec<u8> = numbers.iter().map(|&number| number as u8).collect();
            fill(&mut wrong, writing, &bytes);
        }
        Fault::RestIgnored if wrong.answer == 9 => {
            let elements = passing(&writing.elements, kind).to_vec();
            let buffer = writing.buffer.clone();
            return library(&Writing { elements, buffer }, kind);
        }
        _ if kind == Kind::Grammar => spoil_start(fault, writing, &mut wrong),
        _ => {}
    }
    wrong
}

/// A grammar's writer that doesn't put the start in, has no room for it in mind, or puts in another.
fn spoil_start(fault: Fault, writing: &Writing, wrong: &mut Outcome) {
    let elements = &writing.elements;
    let room = writing.buffer.len();
    match fault {
        Fault::ShortKept if wrong.answer == 0 => {
            fill(wrong, writing, &numbers_file(elements));
            wrong.words.clone_from(elements);
        }
        Fault::FifteenByShort if wrong.answer == 15 && length(elements) <= room => {
            let longer = numbers_file(&Kind::Grammar.written(elements));
            wrong.answer = 0;
            fill(wrong, writing, &longer);
        }
        Fault::StartLost if wrong.answer == 0 => {
            wrong.lent[0][2] = 0;
            wrong.words[2] = 0;
        }
        _ => {}
    }
}

/// The buffer with a file in it, as far as there is room, and the file's length told.
pub fn fill(wrong: &mut Outcome, writing: &Writing, file: &[u8]) {
    wrong.lent[0].clone_from(&writing.buffer);
    for (byte, due) in wrong.lent[0].iter_mut().zip(file) {
        *byte = *due;
    }
    wrong.counts[0] = file.len() as u64;
}

fn length(numbers: &[u32]) -> usize {
    numbers_file(numbers).len()
}

/// Elements that are too many, without those behind the last one.
fn passing(elements: &[u32], kind: Kind) -> &[u32] {
    let mut fewer = elements;
    while kind.due(fewer, &mut []) == Err(9) {
        fewer = &fewer[..fewer.len() - 1];
    }
    fewer
}
