//! Counts of readings and readings by their numbers: what a case asks of them, how it is drawn, and what both sides give.
use crate::case::{bytes_due, into_bytes, Case, Outcome, Service, BYTE};
use crate::random::Random;
use gaffmedlar::raw;
use reference::big::Big;
use reference::{Work, NO_FURTHER, OVER};

/// A reading by its number, and a rule at a position.
#[derive(Clone, PartialEq, Eq, Default)]
pub struct Numbered {
    pub k: u64,
    /// Lent to "reading k".
    pub reading: Vec<u8>,
    pub position: usize,
    pub rule: usize,
}

/// Reading k is stepped to where k isn't above this one.
const STEPPED: u64 = 6;
/// The counts at a position are added up for so many rules and so many bytes of a history at most.
const RULES_ADDED: u16 = 24;
const BYTES_ADDED: usize = 300;

fn outcome_of(told: Result<Option<u64>, u8>) -> Outcome {
    match told {
        Ok(Some(count)) => Outcome::of(0, &[count], &[], &[]),
        Ok(None) => Outcome::of(OVER, &[0], &[], &[]),
        Err(number) => Outcome::of(number, &[0], &[], &[]),
    }
}

/// What the library gives.
pub fn library(case: &Case, service: Service) -> Outcome {
    let (grammar, history, asked) = (&case.grammar[..], &case.history[..], &case.numbered);
    let outcome = |reply: raw::ReadingsReply| Outcome::of(reply.answer, &[reply.count], &[], &[]);
    match service {
        Service::ReadingCount => outcome(raw::reading_count(grammar, history)),
        Service::ReadingCountAt => {
            let (position, rule) = (asked.position, asked.rule);
            outcome(raw::reading_count_at(grammar, history, position, rule))
        }
        Service::ReadingAt => into_bytes(&asked.reading, |part| {
            raw::reading_at(grammar, history, asked.k, part)
        }),
        Service::NextOfNumbered => library_next(grammar, history, asked.k),
        Service::CountsAddUp => library_sum(grammar, history, asked.position),
        _ => unreachable!("a service of another subject"),
    }
}

/// What is due by the reference.
pub fn due(case: &Case, work: &Work, service: Service) -> Outcome {
    let asked = &case.numbered;
    match service {
        Service::ReadingCount => outcome_of(work.reading_count()),
        Service::ReadingCountAt => outcome_of(work.reading_count_at(asked.position, asked.rule)),
        Service::ReadingAt => bytes_due(&asked.reading, |lent| work.kth_reading(asked.k, lent)),
        Service::NextOfNumbered => due_next(work, asked.k),
        Service::CountsAddUp => outcome_of(work.reading_count()),
        _ => unreachable!("a service of another subject"),
    }
}

/// Reading k; the one behind it by "next reading", whose answer is given; and where k is small, reading k by a list of calls.
fn library_next(grammar: &[u8], history: &[u8], k: u64) -> Outcome {
    let tokens = usize::from(raw::history_check(history).tokens);
    let mut reading = vec![BYTE; tokens + 1];
    let answer = raw::reading_at(grammar, history, k, &mut reading);
    if answer != 0 {
        return Outcome::of(answer, &[], &[], &[]);
    }
    let mut next = reading.clone();
    let answer = raw::next_reading(grammar, history, &mut next);
    let mut stepped = reading.clone();
    if k <= STEPPED {
        let mut calls = vec![1; k as usize];
        calls[0] = 0;
        stepped.fill(BYTE);
        raw::run_calls(
            grammar,
            history,
            &calls,
            &mut [0; STEPPED as usize],
            &mut stepped,
        );
    }
    Outcome::of(answer, &[], &[&reading, &next, &stepped], &[])
}

fn due_next(work: &Work, k: u64) -> Outcome {
    let mut reading = vec![BYTE; work.positions().unwrap_or(0)];
    let answer = work.kth_reading(k, &mut reading);
    if answer != 0 {
        return Outcome::of(answer, &[], &[], &[]);
    }
    let mut next = reading.clone();
    let answer = match k.checked_add(1).map(|k| work.kth_reading(k, &mut next)) {
        Some(0) => 0,
        Some(_) => NO_FURTHER,
        None => work.next_reading(&mut next),
    };
    Outcome::of(answer, &[], &[&reading, &next, &reading], &[])
}

/// What the counts of all rules come to at a position, or at the last where there is no such one; with many rules or a long history
/// the count of all readings.
fn library_sum(grammar: &[u8], history: &[u8], position: usize) -> Outcome {
    let total = raw::reading_count(grammar, history);
    let (rules, tokens) = (
        raw::grammar_check(grammar).rules,
        raw::history_check(history).tokens,
    );
    let mut sum = total.count;
    if total.answer == 0 && rules <= RULES_ADDED && history.len() <= BYTES_ADDED {
        let position = position.min(tokens.into());
        let count = |rule| raw::reading_count_at(grammar, history, position, rule);
        let counts: Vec<raw::ReadingsReply> = (0..rules.into()).map(count).collect();
        if let Some(other) = counts.iter().find(|reply| reply.answer != 0) {
            return Outcome::of(other.answer, &[other.count], &[], &[]);
        }
        // a sum above the top is that of a wrong count, and differs from every total by its answer
        let added: u128 = counts.iter().map(|reply| u128::from(reply.count)).sum();
        match u64::try_from(added) {
            Ok(added) => sum = added,
            Err(_) => return Outcome::of(OVER, &[0], &[], &[]),
        }
    }
    Outcome::of(total.answer, &[sum], &[], &[])
}

/// Any of these, for files with so many readings and rules; `held` begins with a reading or doesn't, and `reading` is lent.
pub fn asked(
    random: &mut Random,
    work: &Work,
    rules: usize,
    held: &[u8],
    reading: Vec<u8>,
) -> Numbered {
    let last = work.positions().map_or(3, |positions| positions - 1);
    let total = work.total();
    // at the ends all readings of a large count may have one rule
    let position = match total > Big::of_u64(u64::MAX >> 1) && random.percent(40) {
        true => random.one(&[0, last]),
        false => position(random, last),
    };
    Numbered {
        k: k(random, &total),
        reading,
        position,
        rule: rule(random, rules, held.get(position).copied()),
    }
}

/// Around 0, the count and what fewer bits hold; most often one that is served.
fn k(random: &mut Random, total: &Big) -> u64 {
    let count = total.small().unwrap_or(u64::MAX);
    let served = 1 + random.next() % count.max(1);
    match random.below(16) {
        0 => 0,
        1 | 2 => 1,
        3 | 4 => count,
        5 => count.saturating_add(1),
        6 => 1 << 63,
        7 => u64::MAX,
        8 => random.next() >> random.below(64),
        9 => (1 << random.within(8, 63)) + random.below(3) as u64,
        10 => served.wrapping_add(1 << 32),
        11 => count / 2 + random.below(3) as u64,
        _ => served,
    }
}

/// From 0 to the last position most often; else one behind it, or a large one, which isn't above it if its high bits are lost.
fn position(random: &mut Random, last: usize) -> usize {
    let any = random.below(last + 1);
    match random.below(16) {
        0 | 1 => 0,
        2 | 3 => last,
        4 => last + 1,
        5 => last + random.below(4),
        6 => any + (1 << random.one(&[8, 10, 16, 16, 32, 63])),
        7 => usize::MAX - random.below(last + 4),
        _ => any,
    }
}

/// One that stands at the position in a reading, where there is one; any rule; or a number that is none, many of which are a
/// rule's if their high bits are lost.
fn rule(random: &mut Random, rules: usize, held: Option<u8>) -> usize {
    let any = random.below(rules.max(1));
    let held = held.map_or(any, usize::from);
    match random.below(16) {
        0 => rules,
        1 => random.one(&[127, 128, 129, 255, 256]),
        2 | 3 => held.saturating_add(1 << random.one(&[7, 8, 8, 16, 32, 63])),
        4 => usize::MAX - random.below(3),
        5 => rules.saturating_sub(1),
        6 | 7 => any,
        _ => held,
    }
}
