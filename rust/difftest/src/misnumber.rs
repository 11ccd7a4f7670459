//! Planted faults in counts of readings and in reading k: a library that counts, numbers or refuses in a wrong way.
use crate::case::{library, Case, Outcome, Service};
use crate::tally::{Slip, Tally};
use frames::{Rule, Token};
use reference::{parse_grammar, parse_history, Grammar, Work, OVER};

/// What is wrong.
#[derive(Clone, Copy, PartialEq, Eq, Debug)]
enum Wrong {
    /// In how readings are counted or found.
    Slip(Slip),
    /// 2^64 - 1 is over already.
    OverAtTop,
    /// A count that is over is told as 2^64 - 1.
    OverAsTop,
    /// A count at a position is over wherever the total is.
    OverByTotal,
    /// Any rule may stand at the position.
    RuleNotAlone,
    /// Only the level that the position is in is counted, and no step around it.
    AroundLeftOut,
    /// A rule number of which 8 bits count, a position of which 16 do, a k of which 32 do.
    RuleCut,
    PositionCut,
    NumberCut,
    /// The position behind the last token is refused.
    LastPositionRefused,
    /// A number that is no rule's is refused, and one that is no rule's is looked at before the position.
    NoRuleRefused,
    RuleBeforePosition,
    /// Readings are counted from 0.
    FromZero,
    /// A k above the count is served by the last reading.
    AboveServed,
    /// A k of 2^63 or above is refused.
    HighRefused,
    /// 18 before 15.
    EighteenFirst,
    /// Where there is no reading, every k is answered by "none".
    NoReadingAsNone,
    /// What is refused by 18 has written a byte.
    RefusalWrites,
    /// A byte behind the reading is written.
    OneMoreWritten,
}

/// It, in one service.
#[derive(Clone, Copy, PartialEq, Eq, Debug)]
pub struct Misnumber {
    wrong: Wrong,
    service: Service,
}

/// In any count.
const COUNTED: [Wrong; 4] = [
    Wrong::Slip(Slip::ZeroTimesOver),
    Wrong::Slip(Slip::BeginsAgain),
    Wrong::OverAtTop,
    Wrong::OverAsTop,
];

/// In a count at a position.
const AT: [Wrong; 8] = [
    Wrong::OverByTotal,
    Wrong::RuleNotAlone,
    Wrong::AroundLeftOut,
    Wrong::RuleCut,
    Wrong::PositionCut,
    Wrong::LastPositionRefused,
    Wrong::NoRuleRefused,
    Wrong::RuleBeforePosition,
];

/// In reading k.
const NUMBERED: [Wrong; 13] = [
    Wrong::Slip(Slip::NonePassedOver),
    Wrong::Slip(Slip::LastRuleLeftOut),
    Wrong::Slip(Slip::InsideFirst),
    Wrong::Slip(Slip::LastRuleFirst),
    Wrong::Slip(Slip::BehindStays),
    Wrong::NumberCut,
    Wrong::FromZero,
    Wrong::AboveServed,
    Wrong::HighRefused,
    Wrong::EighteenFirst,
    Wrong::NoReadingAsNone,
    Wrong::RefusalWrites,
    Wrong::OneMoreWritten,
];

/// Every one that is planted.
pub fn all() -> Vec<Misnumber> {
    let planted: [(Service, &[Wrong]); 6] = [
        (Service::ReadingCount, &COUNTED),
        (Service::ReadingCountAt, &COUNTED),
        (Service::ReadingCountAt, &AT),
        (Service::ReadingAt, &NUMBERED),
        (Service::NextOfNumbered, &[Wrong::FromZero]),
        (Service::CountsAddUp, &[Wrong::RuleNotAlone]),
    ];
    let in_service = |(service, wrong): (Service, &[Wrong])| {
        let misnumber = |&wrong: &Wrong| Misnumber { wrong, service };
        wrong.iter().map(misnumber).collect::<Vec<_>>()
    };
    planted.into_iter().flat_map(in_service).collect()
}

/// The files of a case that pass.
type Files = (Grammar, Vec<Token>);

impl Misnumber {
    /// A true outcome turned into a wrong one, where the fault shows.
    pub fn spoiled(&self, case: &Case, service: Service, outcome: Outcome) -> Outcome {
        let files = || {
            Some((
                parse_grammar(&case.grammar).ok()?,
                parse_history(&case.history).ok()?,
            ))
        };
        match files() {
            Some(files) if service == self.service => self.given(case, files, outcome),
            _ => outcome,
        }
    }

    fn given(&self, case: &Case, files: Files, outcome: Outcome) -> Outcome {
        if self.wrong == Wrong::OverAtTop && outcome.counts == [u64::MAX] {
            return told(None);
        }
        if self.wrong == Wrong::OverAsTop && outcome.answer == OVER {
            return told(Some(u64::MAX));
        }
        match self.service {
            Service::ReadingCount => counted(self.wrong, files, outcome),
            Service::ReadingCountAt => counted_at(self.wrong, case, files, outcome),
            Service::ReadingAt => numbered(self.wrong, case, files, outcome),
            Service::NextOfNumbered => asked(case, self.service, |case| {
                case.numbered.k = case.numbered.k.wrapping_add(1);
            }),
            _ => times_rules(files, outcome),
        }
    }
}

fn told(count: Option<u64>) -> Outcome {
    let answer = if count.is_none() { OVER } else { 0 };
    Outcome::of(answer, &[count.unwrap_or(0)], &[], &[])
}

/// What the library gives where something else is asked of it.
fn asked(case: &Case, service: Service, change: impl Fn(&mut Case)) -> Outcome {
    let mut other = case.clone();
    change(&mut other);
    library(&other, service)
}

fn counted(wrong: Wrong, (grammar, tokens): Files, outcome: Outcome) -> Outcome {
    match wrong {
        Wrong::Slip(slip) => told(Tally::new(grammar, tokens, Some(slip)).total()),
        _ => outcome,
    }
}

fn counted_at(wrong: Wrong, case: &Case, files: Files, outcome: Outcome) -> Outcome {
    let (position, rule) = (case.numbered.position, case.numbered.rule);
    let (grammar, tokens) = files;
    let (rules, last) = (grammar.rules.len(), tokens.len());
    let within = position <= last && rule < rules;
    let ask = |change: fn(&mut Case)| asked(case, Service::ReadingCountAt, change);
    let total = || library(case, Service::ReadingCount);
    match wrong {
        Wrong::Slip(slip) if within => {
            let tally = Tally::new(grammar, tokens, Some(slip));
            told(tally.only(position, rule).total())
        }
        Wrong::OverByTotal if within && outcome.counts != [0] && total().answer == OVER => {
            told(None)
        }
        Wrong::RuleNotAlone if within => total(),
        Wrong::AroundLeftOut if within => in_its_level(&grammar, &tokens, position, rule, outcome),
        Wrong::RuleCut => ask(|case| case.numbered.rule &= 0xff),
        Wrong::PositionCut => ask(|case| case.numbered.position &= 0xffff),
        Wrong::LastPositionRefused if position == last => Outcome::of(18, &[0], &[], &[]),
        Wrong::NoRuleRefused if rule >= rules => Outcome::of(18, &[0], &[], &[]),
        Wrong::RuleBeforePosition if rule >= rules => told(Some(0)),
        _ => outcome,
    }
}

/// The count of a rule in the inside of the innermost step that the position is in, from each stage that a rule which may stand at
/// the step's open has inside.
fn in_its_level(
    grammar: &Grammar,
    tokens: &[Token],
    position: usize,
    rule: usize,
    outcome: Outcome,
) -> Outcome {
    let partner = reference::files::partners(tokens);
    let is_open = |place: &usize| matches!(tokens[*place], Token::Open(_));
    let around = |place: &usize| is_open(place) && position <= partner[*place];
    let Some(open) = (0..position).rev().find(around) else {
        return outcome;
    };
    let shut = partner[open];
    let all = Work::of(grammar.clone(), tokens.to_vec());
    let mut starts: Vec<u16> = Vec::new();
    for (number, at_open) in grammar.rules.iter().enumerate() {
        if let Rule::Steps { inside, .. } = *at_open {
            let stands = all.reading_count_at(open, number) != Ok(Some(0));
            if stands && !starts.contains(&inside) {
                starts.push(inside);
            }
        }
    }
    let level = |start: u16| {
        let grammar = Grammar {
            start,
            ..grammar.clone()
        };
        let tally = Tally::new(grammar, tokens[open + 1..shut].to_vec(), None);
        tally.only(position - open - 1, rule).total()
    };
    let mut counts = starts.into_iter().map(level);
    told(counts.try_fold(0u64, |sum, count| sum.checked_add(count?)))
}

fn numbered(wrong: Wrong, case: &Case, (grammar, tokens): Files, outcome: Outcome) -> Outcome {
    let k = case.numbered.k;
    let mut given = outcome;
    let refused = |answer| Outcome::of(answer, &[], &[&case.numbered.reading], &[]);
    let ask = |k: u64| asked(case, Service::ReadingAt, |case| case.numbered.k = k);
    let right = Tally::new(grammar.clone(), tokens.clone(), None);
    let positions = tokens.len() + 1;
    match wrong {
        Wrong::Slip(slip) if given.answer == 0 => {
            let reading = Tally::new(grammar, tokens, Some(slip)).reading(k);
            given.lent[0][..positions].copy_from_slice(&reading);
        }
        Wrong::NumberCut => return ask(k & 0xffff_ffff),
        Wrong::FromZero => return ask(k.wrapping_add(1)),
        Wrong::AboveServed if given.answer == 18 => {
            return ask(k.min(right.total().unwrap_or(k)));
        }
        Wrong::HighRefused if given.answer == 0 && k >= 1 << 63 => return refused(18),
        Wrong::EighteenFirst if given.answer == 15 && !right.has(k) => return refused(18),
        Wrong::NoReadingAsNone if given.answer == 18 && right.total() == Some(0) => {
            return refused(reference::NO_READING);
        }
        Wrong::RefusalWrites if given.answer == 18 => given.lent[0][0] = 0,
        Wrong::OneMoreWritten if given.answer == 0 => {
            if let Some(byte) = given.lent[0].get_mut(positions) {
                *byte = 0;
            }
        }
        _ => {}
    }
    given
}

/// A sum of as many totals as there are rules.
fn times_rules((grammar, _): Files, outcome: Outcome) -> Outcome {
    let rules = grammar.rules.len() as u64;
    match outcome.answer {
        0 => told(outcome.counts[0].checked_mul(rules)),
        _ => outcome,
    }
}
