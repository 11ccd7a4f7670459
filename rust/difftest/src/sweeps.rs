//! What is tried whole before the random cases: short files, every number of three bytes and every name, beginnings of grammars,
//! stages in a set, values of elements, counts at every position, lengths of buffers.
use crate::case::{self, compare, Case, Difference, Service};
use crate::heads;
use crate::make;
use crate::numbered::Numbered;
use crate::random::Random;
use crate::rows;
use crate::writing::{Kind, Writing};
use frames::{counts, grammar_file, history_file, Rule, Token};
use gaffmedlar::raw;
use reference::Work;

/// Every length of every buffer is tried on so many files.
const LENGTHS: u64 = 60;
/// A grammar with a rule of each form, without its start and with it, and a history with a token of each kind, names of one to
/// three bytes.
const GRAMMAR_NUMBERS: [u32; 14] = [3, 3, 0, 1, 1, 0, 200, 2, 2, 1, 40_000, 0, 7, 2];
const LONGER_NUMBERS: [u32; 16] = [0, 3, 1, 3, 0, 1, 1, 0, 200, 2, 2, 1, 40_000, 0, 7, 2];
const HISTORY_NUMBERS: [u32; 7] = [6, 1, 0, 160_001, 252, 262_142, 2];

/// All of it; the first difference, if there is one.
pub fn all(seed: u64) -> Option<(Case, Difference)> {
    short_files()
        .or_else(three_bytes)
        .or_else(all_names)
        .or_else(all_heads)
        .or_else(all_rows)
        .or_else(all_elements)
        .or_else(all_counts)
        .or_else(|| all_lengths(seed))
}

/// What that was.
pub fn in_words() -> String {
    format!(
        "all files of three bytes at most, all tokens and names of three, {} names told apart, {} beginnings of grammars, {} rows of stages in a set, {} elements at all places, {} files with counts up to the largest and above at all positions, {LENGTHS} files at all lengths of buffers and all positions",
        NAMES,
        heads::all().count(),
        rows::all().count(),
        element_values().count(),
        counts::examples().len()
    )
}

/// Some services alone.
fn compare_some(case: &Case, services: &[Service]) -> Option<Difference> {
    compare_with(case, &Work::new(&case.grammar, &case.history), services)
}

/// The same, where the files of the case were read before.
fn compare_with(case: &Case, work: &Work, services: &[Service]) -> Option<Difference> {
    services.iter().find_map(|&service| {
        let library = case::library(case, service);
        let reference = case::due(case, work, service);
        (library != reference).then_some(Difference {
            service,
            library,
            reference,
        })
    })
}

/// Every file of at most two bytes, and every one of three that begins with a 0.
fn short_bytes() -> impl Iterator<Item = Vec<u8>> {
    let two = (0..=u16::MAX).map(|number| number.to_be_bytes());
    let one = (0..=u8::MAX).map(|byte| vec![byte]);
    let three = two.clone().map(|[first, second]| vec![0, first, second]);
    let none = [vec![]].into_iter();
    none.chain(one).chain(two.map(Vec::from)).chain(three)
}

/// These, for both checks, a step and the writers.
fn short_files() -> Option<(Case, Difference)> {
    let services = [
        Service::GrammarCheck,
        Service::HistoryCheck,
        Service::StepBytes,
        Service::GrammarAgain,
        Service::HistoryAgain,
    ];
    let mut case = Case::default();
    for bytes in short_bytes() {
        case.grammar.clone_from(&bytes);
        case.history = bytes;
        if let Some(difference) = compare_some(&case, &services) {
            return Some((case, difference));
        }
    }
    None
}

/// Whether the two checks alone agree on a grammar and a history: without what an outcome of each costs.
fn same_checks(grammar: &[u8], history: &[u8]) -> bool {
    let reply = raw::grammar_check(grammar);
    let (answer, stages, rules) = match reference::grammar_check(grammar) {
        Ok((stages, rules)) => (0, stages, rules),
        Err(number) => (number, 0, 0),
    };
    let of_grammar = (reply.answer, reply.stages, reply.rules) == (answer, stages, rules);
    let reply = raw::history_check(history);
    let (answer, tokens) = match reference::history_check(history) {
        Ok(tokens) => (0, tokens),
        Err(number) => (number, 0),
    };
    of_grammar && (reply.answer, reply.tokens) == (answer, tokens)
}

/// Every three bytes: as a file, and where both bytes before the last have their top bit set, as a token alone and as the mark of
/// a rule alone.
fn three_bytes() -> Option<(Case, Difference)> {
    let differs = |grammar: &[u8], history: &[u8]| {
        let (grammar, history) = (grammar.to_vec(), history.to_vec());
        let case = Case {
            grammar,
            history,
            ..Case::default()
        };
        let services = [Service::GrammarCheck, Service::HistoryCheck];
        let difference = compare_some(&case, &services).expect("the checks differ");
        Some((case, difference))
    };
    for number in 0..1u32 << 24 {
        let [_, one, two, three] = number.to_be_bytes();
        let file = [one, two, three];
        if !same_checks(&file, &file) {
            return differs(&file, &file);
        }
        if one >= 128 && two >= 128 {
            let (rule, token) = ([1, 1, 1, 0, one, two, three, 0], [1, one, two, three]);
            if !same_checks(&rule, &token) {
                return differs(&rule, &token);
            }
        }
    }
    None
}

/// So many names can pass.
const NAMES: u32 = 65_536;

/// A rule that makes a token of a kind with this name, and such tokens; kinds are 0 to 2, as in a file.
fn named(kind: u32, name: u32) -> (Rule, Vec<Token>) {
    let (open, close) = if kind == 1 { (name, 5) } else { (5, name) };
    match kind {
        0 => {
            let (from, mark, then) = (0, name, 0);
            (Rule::Marks { from, mark, then }, vec![Token::Mark(name)])
        }
        _ => {
            let rule = Rule::Steps {
                from: 0,
                open,
                inside: 0,
                close,
                then: 0,
            };
            (rule, vec![Token::Open(open), Token::Close(close)])
        }
    }
}

/// Every name of every kind, in a grammar that has another one too, which differs from it in one bit: a history with both.
fn all_names() -> Option<(Case, Difference)> {
    let services = [Service::FirstReading, Service::Sets, Service::StopMarks];
    let mut case = Case {
        first: vec![77; 5],
        words: vec![77; 20],
        marks: vec![77; 5],
        ..Case::default()
    };
    for (name, kind) in (0..NAMES).flat_map(|name| [(name, 0), (name, 1), (name, 2)]) {
        let (one, tokens) = named(kind, name);
        let (other, more) = named(kind, name ^ 1 << (name / 7 % 16));
        case.grammar = grammar_file(1, None, &[Rule::Ends { from: 0 }, one, other]);
        case.history = history_file(&[tokens, more].concat());
        if let Some(difference) = compare_some(&case, &services) {
            return Some((case, difference));
        }
    }
    None
}

/// The beginnings of grammars, as files and as elements.
fn all_heads() -> Option<(Case, Difference)> {
    let services = [
        Service::GrammarCheck,
        Service::WriteGrammar,
        Service::GrammarAgain,
    ];
    let mut case = Case::default();
    case.write_grammar.buffer = vec![170; 10];
    for head in heads::all() {
        case.grammar = frames::numbers_file(&head);
        case.write_grammar.elements = head;
        if let Some(difference) = compare_some(&case, &services) {
            return Some((case, difference));
        }
    }
    None
}

/// Stages in a set, in every order.
fn all_rows() -> Option<(Case, Difference)> {
    let services = [
        Service::Sets,
        Service::ChoiceCount,
        Service::SameCount,
        Service::SeveralReadings,
    ];
    let mut case = Case {
        history: rows::HISTORY.to_vec(),
        words: vec![77; 12],
        ..Case::default()
    };
    for grammar in rows::all() {
        case.grammar = grammar;
        if let Some(difference) = compare_some(&case, &services) {
            return Some((case, difference));
        }
    }
    None
}

/// Every element up to some that are too large for a name, many up to some that are too large for a token, and those around
/// each power of two.
fn element_values() -> impl Iterator<Item = u32> {
    let tokens = (66_001..262_000).step_by(13).chain(262_000..262_300);
    let powers = (19..32).flat_map(|k| [(1 << k) - 1, 1 << k, (1 << k) + 1]);
    let large = powers.chain([u32::MAX - 1, u32::MAX]);
    (0..=66_000).chain(tokens).chain(large)
}

/// All these values at one place among the numbers of a file.
fn values_at(kind: Kind, numbers: &[u32], place: usize) -> Option<(Case, Difference)> {
    let service = match kind {
        Kind::Grammar => Service::WriteGrammar,
        Kind::History => Service::WriteHistory,
    };
    let mut case = Case::default();
    *case.writing(kind) = Writing {
        elements: numbers.to_vec(),
        buffer: vec![170; 24],
    };
    for value in element_values() {
        case.writing(kind).elements[place] = value;
        if let Some(difference) = compare_some(&case, &[service]) {
            return Some((case, difference));
        }
    }
    None
}

/// And so at every place of both files.
fn all_elements() -> Option<(Case, Difference)> {
    let files: [(Kind, &[u32]); 3] = [
        (Kind::Grammar, &GRAMMAR_NUMBERS),
        (Kind::Grammar, &LONGER_NUMBERS),
        (Kind::History, &HISTORY_NUMBERS),
    ];
    files.into_iter().find_map(|(kind, numbers)| {
        (0..numbers.len()).find_map(|place| values_at(kind, numbers, place))
    })
}

/// Around every power of two and at both ends.
fn many_numbers() -> impl Iterator<Item = u64> {
    let powers = (1..64).map(|exponent| 1 << exponent);
    let around = powers.flat_map(|power: u64| [power - 1, power, power + 1]);
    around.chain([0, 1, u64::MAX - 2, u64::MAX - 1, u64::MAX])
}

/// The files with counts up to the largest and above: every position and rule, some behind the last ones, and many k.
fn all_counts() -> Option<(Case, Difference)> {
    counts::examples().into_iter().find_map(counts_of)
}

fn counts_of(example: counts::Example) -> Option<(Case, Difference)> {
    let work = Work::new(&example.grammar, &example.history);
    let positions = work.positions().expect("files that pass");
    let rules: usize = raw::grammar_check(&example.grammar).rules.into();
    let mut case = Case {
        grammar: example.grammar,
        history: example.history,
        numbered: Numbered {
            reading: vec![77; positions + 1],
            ..Numbered::default()
        },
        ..Case::default()
    };
    for k in many_numbers().chain(example.total) {
        case.numbered.k = k;
        let services = [Service::ReadingAt, Service::NextOfNumbered];
        if let Some(difference) = compare_with(&case, &work, &services) {
            return Some((case, difference));
        }
    }
    for (position, rule) in (0..positions + 2).flat_map(|p| (0..rules + 2).map(move |r| (p, r))) {
        (case.numbered.position, case.numbered.rule) = (position, rule);
        if let Some(difference) = compare_with(&case, &work, &[Service::ReadingCountAt]) {
            return Some((case, difference));
        }
    }
    let difference = compare_with(&case, &work, &[Service::ReadingCount])?;
    Some((case, difference))
}

/// Every length of every buffer from nothing to a few elements more than needed, and every position from 0 to some behind
/// the last one, for some files.
fn all_lengths(seed: u64) -> Option<(Case, Difference)> {
    for number in 0..LENGTHS {
        let mut random = Random::new(seed.wrapping_mul(0x1000_0000_0000) ^ !number);
        let mut whole = make::case(&mut random, usize::MAX);
        whole.write_grammar.elements = gaffmedlar::numbers(&whole.grammar);
        whole.write_history.elements = gaffmedlar::numbers(&whole.history);
        let positions = Work::new(&whole.grammar, &whole.history).positions();
        let positions = positions.unwrap_or(4);
        // a grammar is written in two bytes more where it doesn't say its start
        let files = whole.history.len().max(whole.grammar.len() + 2);
        for length in 0..(4 * positions + 7).max(files + 5) {
            let mut case = whole.clone();
            let bytes = [
                &mut case.first,
                &mut case.next,
                &mut case.marks,
                &mut case.buffer,
                &mut case.numbered.reading,
            ];
            for bytes in bytes {
                bytes.resize(length.min(positions + 5), length as u8);
            }
            case.words
                .resize(length.min(4 * positions + 6), 0x1234_5678);
            case.write_grammar.buffer.resize(length, 170);
            case.write_history.buffer.resize(length, 170);
            case.position = length;
            case.numbered.position = length;
            case.numbered.rule = length / 2;
            case.numbered.k = length as u64 / 4;
            case.answers.resize(length.min(case.calls.len() + 5), 77);
            if let Some(difference) = compare(&case, None, |_, _| {}) {
                return Some((case, difference));
            }
        }
    }
    None
}
