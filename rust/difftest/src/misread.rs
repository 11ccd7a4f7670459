//! Planted faults in numbers: how their bytes are read and written, and which names are taken.
use crate::case::{library, Case, Outcome, Service};
use crate::writing::{self, Kind, Writing};
use frames::{numbers_file, Token};
use reference::{parse_grammar, parse_history};

/// What is wrong with a number.
#[derive(Clone, Copy, PartialEq, Eq, Debug)]
enum Wrong {
    /// A last byte of 0 is taken: behind one byte, behind two.
    SecondZero,
    ThirdZero,
    /// A third byte with its top bit set is taken, as if that weren't set.
    ThirdTop,
    /// The third group is worth half of what it is.
    ThirdHalf,
    /// No number has more than two bytes.
    TwoBytes,
    /// Where the bytes end behind two of a number, that is a wrong form.
    CutAsForm,
    /// 65,536 is taken as a name, and so 262,144 to 262,146 as tokens.
    NameAbove,
    /// 65,535 is no name.
    NameBelow,
    /// No name is above 63.
    SmallNames,
    /// Numbers of three bytes are written into two.
    IntoTwo,
    /// Numbers of three bytes are written as the largest of two.
    LargestOfTwo,
}

/// It, in the service that reads a file or writes it.
#[derive(Clone, Copy, PartialEq, Eq, Debug)]
pub struct Misread {
    wrong: Wrong,
    service: Service,
}

/// Every one that is planted.
pub fn all() -> Vec<Misread> {
    let forms = [
        Wrong::SecondZero,
        Wrong::ThirdZero,
        Wrong::ThirdTop,
        Wrong::ThirdHalf,
        Wrong::TwoBytes,
        Wrong::CutAsForm,
    ];
    let names = [Wrong::NameAbove, Wrong::NameBelow, Wrong::SmallNames];
    let written = [Wrong::IntoTwo, Wrong::LargestOfTwo];
    let in_service = |wrong: &[Wrong], service| {
        let misread = |&wrong: &Wrong| Misread { wrong, service };
        wrong.iter().map(misread).collect::<Vec<_>>()
    };
    let mut all = Vec::new();
    for service in [Service::GrammarCheck, Service::HistoryCheck] {
        all.extend(in_service(&forms, service));
        all.extend(in_service(&names, service));
    }
    for service in [Service::WriteGrammar, Service::WriteHistory] {
        all.extend(in_service(&written, service));
        all.extend(in_service(&names, service));
    }
    all
}

impl Misread {
    /// A true outcome turned into a wrong one, where the fault shows.
    pub fn spoiled(&self, case: &Case, service: Service, outcome: Outcome) -> Outcome {
        if service != self.service {
            return outcome;
        }
        match service {
            Service::GrammarCheck => self.read(Kind::Grammar, &case.grammar, outcome),
            Service::HistoryCheck => self.read(Kind::History, &case.history, outcome),
            Service::WriteGrammar => self.written(Kind::Grammar, &case.write_grammar, outcome),
            _ => self.written(Kind::History, &case.write_history, outcome),
        }
    }

    fn read(&self, kind: Kind, file: &[u8], outcome: Outcome) -> Outcome {
        if self.wrong.refuses(kind, file) {
            let counts: &[u64] = match kind {
                Kind::Grammar => &[0, 0],
                Kind::History => &[0],
            };
            return Outcome::of(refusal(kind), counts, &[], &[]);
        }
        let reread = self.wrong.reread(kind, file);
        if reread == file {
            return outcome;
        }
        let case = Case {
            grammar: reread.clone(),
            history: reread,
            ..Case::default()
        };
        library(&case, self.service)
    }

    fn written(&self, kind: Kind, writing: &Writing, outcome: Outcome) -> Outcome {
        let mut room = [0; gaffmedlar::HISTORY_BYTES_MAX];
        let whole = kind.due(&writing.elements, &mut room);
        if whole.is_ok_and(|length| self.wrong.refuses(kind, &room[..length])) {
            return Outcome::of(refusal(kind), &[0], &[&writing.buffer], &[]);
        }
        match self.wrong {
            Wrong::NameAbove if outcome.answer == refusal(kind) => {
                let elements = writing.elements.iter().map(|&n| without_above(kind, n));
                let (elements, buffer) = (elements.collect(), writing.buffer.clone());
                writing::library(&Writing { elements, buffer }, kind)
            }
            Wrong::IntoTwo if outcome.answer == 0 => refilled(kind, writing, outcome, into_two),
            Wrong::LargestOfTwo if outcome.answer == 0 => {
                refilled(kind, writing, outcome, |n| numbers_file(&[n.min(16_383)]))
            }
            _ => outcome,
        }
    }
}

/// By which a name that is no name is refused.
fn refusal(kind: Kind) -> u8 {
    match kind {
        Kind::Grammar => 7,
        Kind::History => 11,
    }
}

/// A number that is just too large for a name, or for a token, as one that is not.
fn without_above(kind: Kind, number: u32) -> u32 {
    match (kind, number) {
        (Kind::Grammar, 65_536) => 65_535,
        (Kind::History, 262_144..=262_146) => number - 4,
        _ => number,
    }
}

fn into_two(number: u32) -> Vec<u8> {
    match number {
        16_384.. => vec![(number % 128) as u8 | 128, (number / 128) as u8],
        _ => numbers_file(&[number]),
    }
}

/// What was written, with other bytes for each number.
fn refilled(
    kind: Kind,
    writing: &Writing,
    outcome: Outcome,
    bytes: impl Fn(u32) -> Vec<u8>,
) -> Outcome {
    let mut wrong = outcome;
    let numbers = kind.written(&writing.elements);
    let file: Vec<u8> = numbers.into_iter().flat_map(bytes).collect();
    writing::fill(&mut wrong, writing, &file);
    wrong
}

/// The names of a file that passes, else none.
fn names_of(kind: Kind, file: &[u8]) -> Vec<u32> {
    let tokens = match kind {
        Kind::History => parse_history(file).unwrap_or_default(),
        Kind::Grammar => {
            let rules = parse_grammar(file).map(|grammar| grammar.rules);
            let rules = rules.unwrap_or_default();
            rules.iter().flat_map(|rule| rule.tokens()).collect()
        }
    };
    tokens.into_iter().map(Token::name).collect()
}

impl Wrong {
    /// Whether a file is refused that passes, for one of its names.
    fn refuses(self, kind: Kind, file: &[u8]) -> bool {
        let largest = match self {
            Wrong::NameBelow => 65_534,
            Wrong::SmallNames => 63,
            _ => return false,
        };
        names_of(kind, file).iter().any(|&name| name > largest)
    }

    /// How many of the bytes are a number, and bytes that a right library takes for what a wrong one takes these for. None where
    /// both take them alike.
    fn number(self, kind: Kind, bytes: &[u8]) -> Option<(usize, Vec<u8>)> {
        let group = |byte: u8| u32::from(byte % 128);
        let two = |one, two| group(one) + 128 * group(two);
        let (length, number) = match (self, bytes) {
            (Wrong::SecondZero, &[one @ 128..=255, 0, ..]) => (2, group(one)),
            (Wrong::ThirdZero, &[one @ 128..=255, mid @ 128..=255, 0, ..]) => (3, two(one, mid)),
            (Wrong::ThirdTop, &[one @ 128..=255, mid @ 128..=255, top @ 128..=255, ..]) => {
                (3, two(one, mid) + 16_384 * group(top))
            }
            (Wrong::ThirdHalf, &[one @ 128..=255, mid @ 128..=255, last @ 1..=127, ..]) => {
                (3, two(one, mid) + 8192 * group(last))
            }
            (Wrong::NameAbove, &[one @ 128..=255, mid @ 128..=255, last @ 1..=127, ..]) => {
                let number = two(one, mid) + 16_384 * group(last);
                (3, without_above(kind, number))
            }
            (Wrong::TwoBytes, [128..=255, 128..=255, ..])
            | (Wrong::CutAsForm, [128..=255, 128..=255]) => {
                return Some((2, vec![128, 0]));
            }
            _ => return None,
        };
        Some((length, numbers_file(&[number])))
    }

    /// A file that a right library reads as a wrong one reads the given one. What is behind a number that is refused doesn't
    /// matter.
    fn reread(self, kind: Kind, file: &[u8]) -> Vec<u8> {
        let mut out = Vec::new();
        let mut rest = file;
        while !rest.is_empty() {
            let as_it_is = || {
                let end = rest.iter().position(|&byte| byte < 128);
                let length = end.map_or(rest.len(), |last| last + 1);
                (length, rest[..length].to_vec())
            };
            let (length, bytes) = self.number(kind, rest).unwrap_or_else(as_it_is);
            out.extend(bytes);
            rest = &rest[length..];
        }
        out
    }
}
