//! Planted faults: what a wrong library would give, made of what the right one gives, to see that each is found.
use crate::case::{library, library_step, Case, Outcome, Service};
use crate::cut_names::{self, CutName};
use crate::heads;
use crate::miscount::{self, Miscount};
use crate::misnumber::{self, Misnumber};
use crate::misread::{self, Misread};
use crate::misset::{self, Misset};
use crate::writing::{self, Kind};
use frames::Token;
use reference::Work;

/// A wrong library.
#[derive(Clone, Copy, PartialEq, Eq, Debug)]
pub enum Fault {
    /// "No further" after the second reading.
    StopsAfterTwo,
    /// "None" answered as written.
    NoneAsWritten,
    /// One more element written than is due.
    WritesOneMore,
    /// The last rule of a set with two or more is lost.
    SetLoses,
    /// A mark at the end alone.
    MarksTheEndOnly,
    /// 14 answered as 13.
    FourteenAsThirteen,
    /// 15 only where the buffer is two elements short.
    FifteenLate,
    /// A step ends at the first close behind its open.
    FirstCloseEnds,
    /// 17 for a history that is refused.
    SeventeenEarly,
    /// A position of which the low 32 bits count alone.
    PositionCut,
    /// The start that the grammar says isn't gone by, but stage 0: in one service each.
    FirstFromStage0,
    NextFromStage0,
    CallsFromStage0,
    SetsFromStage0,
    ChoicesFromStage0,
    MarksFromStage0,
    CountFromStage0,
    CountAtFromStage0,
    NumberedFromStage0,
    /// A start that is no stage gets 3.
    StartAsThree,
    /// A start that equals the stage count is taken.
    StartAtCount,
    /// The start is judged behind the rule count.
    StartLate,
    /// A stage count of 0 behind the leading 0 is let through, and no start is below it.
    NoStageAsSix,
    /// A leading 0 in two bytes is taken.
    WideZero,
    /// A leading 0 is a wrong stage count.
    ZeroAsThree,
    /// A writer's 15 before the number of what it is to write.
    FifteenFirst,
    /// A writer that is refused has written a byte.
    RefusalWrites,
    /// A writer clears what is behind the file in the buffer.
    BehindCleared,
    /// A writer tells one byte more than the file has.
    LengthOneMore,
    /// Every number is written in one byte.
    WideInOneByte,
    /// Elements behind the last one don't count.
    RestIgnored,
    /// A grammar that doesn't say its start is written as it is.
    ShortKept,
    /// 15 goes by the length of the elements as they are, without the start.
    FifteenByShort,
    /// The start 0 is written for every other.
    StartLost,
    /// A step's bytes counted as if no number had more than two.
    StepOfTwoBytes,
    /// Choices counted in a wrong way.
    Miscount(Miscount),
    /// The words, the count and the refusal of the sets' call don't go together.
    Misset(Misset),
    /// Readings counted, numbered or refused in a wrong way.
    Misnumber(Misnumber),
    /// A name of which the low bits count alone.
    CutName(CutName),
    /// A number read or written in a wrong way, or a wrong limit of names.
    Misread(Misread),
}

/// Every fault.
pub fn all() -> Vec<Fault> {
    let choices = miscount::all().into_iter().map(Fault::Miscount);
    let sets = misset::ALL.into_iter().map(Fault::Misset);
    let names = cut_names::all().into_iter().map(Fault::CutName);
    let numbers = misread::all().into_iter().map(Fault::Misread);
    let readings = misnumber::all().into_iter().map(Fault::Misnumber);
    let drawn_up = choices.chain(sets).chain(readings);
    let drawn_up = drawn_up.chain(names).chain(numbers);
    FAULTS.into_iter().chain(drawn_up).collect()
}

const FAULTS: [Fault; 35] = [
    Fault::StopsAfterTwo,
    Fault::NoneAsWritten,
    Fault::WritesOneMore,
    Fault::SetLoses,
    Fault::MarksTheEndOnly,
    Fault::FourteenAsThirteen,
    Fault::FifteenLate,
    Fault::FirstCloseEnds,
    Fault::SeventeenEarly,
    Fault::PositionCut,
    Fault::FirstFromStage0,
    Fault::NextFromStage0,
    Fault::CallsFromStage0,
    Fault::SetsFromStage0,
    Fault::ChoicesFromStage0,
    Fault::MarksFromStage0,
    Fault::CountFromStage0,
    Fault::CountAtFromStage0,
    Fault::NumberedFromStage0,
    Fault::StartAsThree,
    Fault::StartAtCount,
    Fault::StartLate,
    Fault::NoStageAsSix,
    Fault::WideZero,
    Fault::ZeroAsThree,
    Fault::FifteenFirst,
    Fault::RefusalWrites,
    Fault::BehindCleared,
    Fault::LengthOneMore,
    Fault::WideInOneByte,
    Fault::RestIgnored,
    Fault::ShortKept,
    Fault::FifteenByShort,
    Fault::StartLost,
    Fault::StepOfTwoBytes,
];

/// Each service that goes by a grammar's start, and the fault that it goes by stage 0.
const FROM_STAGE_0: [(Fault, Service); 9] = [
    (Fault::FirstFromStage0, Service::FirstReading),
    (Fault::NextFromStage0, Service::NextReading),
    (Fault::CallsFromStage0, Service::RunCalls),
    (Fault::SetsFromStage0, Service::Sets),
    (Fault::ChoicesFromStage0, Service::ChoiceCount),
    (Fault::MarksFromStage0, Service::StopMarks),
    (Fault::CountFromStage0, Service::ReadingCount),
    (Fault::CountAtFromStage0, Service::ReadingCountAt),
    (Fault::NumberedFromStage0, Service::ReadingAt),
];

/// A true outcome turned into a wrong one, where the planted fault shows.
pub fn spoiled(fault: Fault, case: &Case, service: Service, outcome: Outcome) -> Outcome {
    match fault {
        Fault::Miscount(miscount) => return miscount.spoiled(case, service, outcome),
        Fault::Misset(misset) => return misset.spoiled(case, service, outcome),
        Fault::Misnumber(misnumber) => return misnumber.spoiled(case, service, outcome),
        Fault::CutName(cut) => return cut.spoiled(case, service, outcome),
        Fault::Misread(misread) => return misread.spoiled(case, service, outcome),
        _ => {}
    }
    if FROM_STAGE_0.contains(&(fault, service)) {
        let grammar = heads::from_stage_0(&case.grammar);
        return library(
            &Case {
                grammar,
                ..case.clone()
            },
            service,
        );
    }
    match service {
        Service::GrammarCheck => spoiled_head(fault, &case.grammar, outcome),
        Service::HistoryCheck if (fault, outcome.answer) == (Fault::FourteenAsThirteen, 14) => {
            Outcome {
                answer: 13,
                ..outcome
            }
        }
        Service::StepBytes => spoiled_step(fault, case, outcome),
        Service::WriteGrammar => {
            writing::spoiled(fault, &case.write_grammar, Kind::Grammar, outcome)
        }
        Service::WriteHistory => {
            writing::spoiled(fault, &case.write_history, Kind::History, outcome)
        }
        _ => spoiled_reading(fault, case, service, outcome),
    }
}

fn spoiled_reading(fault: Fault, case: &Case, service: Service, outcome: Outcome) -> Outcome {
    let mut wrong = outcome;
    let work = Work::new(&case.grammar, &case.history);
    match (fault, service) {
        (Fault::StopsAfterTwo, Service::NextReading) if wrong.answer == 0 => {
            let second = work.reading_at(&reference::big::Big::new(1));
            if second.is_some_and(|second| case.next.starts_with(&second)) {
                wrong.answer = reference::NO_FURTHER;
                wrong.lent[0] = case.next.clone();
            }
        }
        (Fault::NoneAsWritten, Service::FirstReading) if wrong.answer == reference::NO_READING => {
            wrong.answer = 0;
        }
        (Fault::WritesOneMore, Service::FirstReading) if wrong.answer == 0 => {
            let after = work.positions().expect("both files passed");
            if let Some(byte) = wrong.lent[0].get_mut(after) {
                *byte = 0;
            }
        }
        (Fault::SetLoses, Service::Sets) if wrong.answer == 0 => {
            let two_of_few = |word: &&mut u32| word.count_ones() == 2 && **word < 64;
            if let Some(word) = wrong.words.iter_mut().find(two_of_few) {
                *word &= *word - 1;
            }
        }
        (Fault::MarksTheEndOnly, Service::StopMarks) if wrong.answer == 0 => {
            let positions = work.positions().expect("both files passed");
            wrong.lent[0][..positions - 1].fill(0);
        }
        (Fault::FifteenLate, Service::FirstReading) if wrong.answer == 15 => {
            if work.positions() == Some(case.first.len() + 1) {
                wrong.answer = 0;
            }
        }
        _ => {}
    }
    wrong
}

/// A check that takes the beginning of a grammar for another. The stage count and the start stand in a byte each wherever they
/// are in order.
fn spoiled_head(fault: Fault, grammar: &[u8], outcome: Outcome) -> Outcome {
    let mut wrong = outcome;
    let check = |grammar: Vec<u8>| {
        let case = Case {
            grammar,
            ..Case::default()
        };
        library(&case, Service::GrammarCheck)
    };
    match (fault, grammar) {
        (Fault::StartAsThree, [0, stages @ 1..=32, start, ..]) if start >= stages => {
            if wrong.answer == 6 {
                wrong.answer = 3;
            }
        }
        (Fault::StartAtCount, [0, stages @ 1..=32, start, ..]) if start == stages => {
            return check(heads::with_start(grammar, stages - 1));
        }
        (Fault::StartLate, [0, stages @ 1..=32, start @ ..=127, ..]) if start >= stages => {
            let judged = check(heads::with_start(grammar, 0));
            if judged.answer == 4 {
                return judged;
            }
        }
        (Fault::NoStageAsSix, [0, 0, _, ..]) => wrong.answer = 6,
        (Fault::WideZero, [128, 0, ..]) => return check([&[0], &grammar[2..]].concat()),
        (Fault::ZeroAsThree, [0, ..]) => return Outcome::of(3, &[0, 0], &[], &[]),
        _ => {}
    }
    wrong
}

fn spoiled_step(fault: Fault, case: &Case, outcome: Outcome) -> Outcome {
    let mut wrong = outcome;
    match fault {
        Fault::FirstCloseEnds if wrong.answer == 0 => {
            wrong.counts[1] = first_close_end(&case.history, case.position) - wrong.counts[0];
        }
        Fault::SeventeenEarly if wrong.answer != 0 => wrong.answer = 17,
        Fault::PositionCut => return library_step(&case.history, case.position as u32 as usize),
        Fault::StepOfTwoBytes if wrong.answer == 0 => {
            let (start, length) = (wrong.counts[0] as usize, wrong.counts[1] as usize);
            let (before, from) = case.history.split_at(start);
            wrong.counts[0] -= of_three_bytes(before);
            wrong.counts[1] -= of_three_bytes(&from[..length]);
        }
        _ => {}
    }
    wrong
}

/// How many numbers of three bytes stand in this part of a file that passed.
fn of_three_bytes(part: &[u8]) -> u64 {
    let numbers = part.split_inclusive(|&byte| byte < 128);
    numbers.filter(|bytes| bytes.len() == 3).count() as u64
}

/// Where the first close behind the open at a position ends: it closes the last step that was opened before it.
fn first_close_end(history: &[u8], position: usize) -> u64 {
    let tokens = reference::parse_history(history).expect("the history passed");
    let closes = |token: &Token| matches!(token, Token::Close(_));
    let inside = tokens[position..].iter().take_while(|token| !closes(token));
    let opens = |(_, token): &(usize, &Token)| matches!(token, Token::Open(_));
    let (further, _) = inside.enumerate().filter(opens).last().expect("an open");
    let step = reference::step_bytes(history, position + further);
    step.expect("a step").end as u64
}
