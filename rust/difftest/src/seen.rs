//! What a run has met: every answer of every service, every kind of start, names of every width, every kind of set, and counts of
//! every size.
use crate::case::{self, Case, Outcome, Service};
use crate::kept::{kept, Kept};
use crate::seen_counts::SeenCounts;
use frames::{history_numbers, numbers_file, Token};
use reference::{parse_grammar, parse_history, Work};
use std::collections::HashSet;

/// How often each was met.
pub struct Seen {
    pub calls: u64,
    /// The answers of each service.
    answers: Vec<[u64; 256]>,
    /// Answers within lists of calls.
    listed: [u64; 256],
    /// Of the cases that the reference was held against itself on, those where both files pass, by what the grammar says of
    /// its start: in how many the history has no reading, and in how many it has one.
    starts: [[u64; 2]; STARTS.len()],
    /// The same by the names of both files.
    names: [[u64; 2]; NAMES.len()],
    /// The sets of these cases.
    sets: [u64; SETS.len()],
    counts: SeenCounts,
}

/// What a grammar can say of its start.
const STARTS: [&str; 3] = ["unsaid", "said, stage 0", "said, another stage"];

/// What names can be: how many bytes the longest takes, and whether two of a kind differ above some bit alone.
const NAMES: [&str; 8] = [
    "in a grammar, one byte",
    "two bytes",
    "three bytes",
    "in a history, one byte",
    "two bytes",
    "three bytes",
    "apart above bit 8 alone",
    "apart above bit 14 alone",
];

/// What a set can be by the stages of its rules. The last ones are choices.
const SETS: [&str; 8] = [
    "empty",
    "one rule",
    "rules of different stages",
    "two rules of one stage, next to each other",
    "two rules of one stage, only with another stage's between them",
    "two rules of one stage, only in different words",
    "three rules of one stage",
    "two rules of each of two stages",
];

impl Seen {
    pub fn new() -> Seen {
        Seen {
            calls: 0,
            answers: vec![[0; 256]; case::SERVICES.len()],
            listed: [0; 256],
            starts: [[0; 2]; STARTS.len()],
            names: [[0; 2]; NAMES.len()],
            sets: [0; SETS.len()],
            counts: SeenCounts::default(),
        }
    }

    pub fn outcome(&mut self, case: &Case, service: Service, outcome: &Outcome) {
        self.calls += 1;
        self.answers[service as usize][usize::from(outcome.answer)] += 1;
        self.counts.outcome(service, outcome);
        if service == Service::RunCalls && outcome.answer == 0 {
            for &answer in &outcome.lent[0][..case.calls.len()] {
                self.listed[usize::from(answer)] += 1;
                self.calls += 1;
            }
        }
    }

    /// Whether the reference agrees with itself on a case, whose start, names and sets are counted.
    pub fn work(&mut self, case: &Case) -> bool {
        let work = Work::new(&case.grammar, &case.history);
        if work.positions().is_some() {
            let start = match case.grammar[..] {
                [0, _, 0, ..] => 1,
                [0, ..] => 2,
                _ => 0,
            };
            let some = usize::from(!work.total().is_zero());
            self.starts[start][some] += 1;
            for name in names_met(case) {
                self.names[name][some] += 1;
            }
            for set in kept(&case.grammar, &case.history) {
                for kind in kinds_of(&set) {
                    self.sets[kind] += 1;
                }
            }
        }
        work.agrees_with_itself()
    }

    /// Each of them has to be met.
    fn report_kinds(what: &str, kinds: &[&str], met: &[[u64; 2]]) -> bool {
        println!("{what} met (no reading, readings)");
        for (name, [none, some]) in kinds.iter().zip(met) {
            println!("  {name}  {none}, {some}");
        }
        met.iter().flatten().all(|&count| count > 0)
    }

    /// What has to be met at least once, and nothing else: every refusal that a service can give, and its other answers.
    fn needed(service: Service) -> Vec<u8> {
        let grammar = 1..=9;
        let history = [1, 2, 9, 10, 11, 12, 13, 14];
        let both = 0..=14;
        match service {
            Service::GrammarCheck => [0].into_iter().chain(grammar).collect(),
            Service::HistoryCheck => [0].into_iter().chain(history).collect(),
            Service::FirstReading => both.chain([15, 100]).collect(),
            Service::NextReading => both.chain([15, 16, 101]).collect(),
            Service::Sets | Service::SameCount | Service::StopMarks | Service::RunCalls => {
                both.chain([15]).collect()
            }
            Service::ChoiceCount | Service::SeveralReadings => both.collect(),
            Service::ReadingCount | Service::CountsAddUp => both.chain([102]).collect(),
            Service::ReadingCountAt => both.chain([18, 102]).collect(),
            Service::ReadingAt => both.chain([15, 18]).collect(),
            Service::NextOfNumbered => both.chain([18, 101]).collect(),
            Service::StepBytes => [0].into_iter().chain(history).chain([17]).collect(),
            // elements have no form, so 2 is never given
            Service::WriteGrammar => [0, 1].into_iter().chain(3..=9).chain([15]).collect(),
            Service::WriteHistory => [0, 1].into_iter().chain(9..=15).collect(),
            Service::GrammarAgain => Seen::needed(Service::GrammarCheck),
            Service::HistoryAgain => Seen::needed(Service::HistoryCheck),
        }
    }

    /// Prints all of it, and says whether nothing is missing.
    pub fn report(&self) -> bool {
        self.report_answers()
            & Seen::report_kinds("starts", &STARTS, &self.starts)
            & Seen::report_kinds("names", &NAMES, &self.names)
            & self.report_sets()
            & self.counts.report()
    }

    fn report_sets(&self) -> bool {
        println!("sets met");
        for (name, count) in SETS.iter().zip(self.sets) {
            println!("  {name}  {count}");
        }
        self.sets.iter().all(|&count| count > 0)
    }

    fn report_answers(&self) -> bool {
        let mut whole = true;
        println!("answers met (answer: times)");
        let mut line = |name: String, needed: Vec<u8>, counts: &[u64; 256]| {
            let shown: Vec<String> = (0..=255u8)
                .filter(|&answer| counts[usize::from(answer)] > 0 || needed.contains(&answer))
                .map(|answer| format!("{answer}: {}", counts[usize::from(answer)]))
                .collect();
            println!("  {name}  {}", shown.join("  "));
            for answer in 0..=255u8 {
                let met = counts[usize::from(answer)] > 0;
                if met != needed.contains(&answer) {
                    let fault = if met { "NEVER DUE" } else { "NOT MET" };
                    println!("  {fault}: {name} {answer}");
                    whole = false;
                }
            }
        };
        for service in case::SERVICES {
            line(
                format!("{service:?}"),
                Seen::needed(service),
                &self.answers[service as usize],
            );
        }
        let listed = (0..=16).chain([100, 101]).collect();
        line("calls in lists".into(), listed, &self.listed);
        whole
    }
}

/// Which of [`SETS`] hold of a set.
fn kinds_of(set: &[Kept]) -> Vec<usize> {
    let held = |stage: u16| set.iter().filter(|kept| kept.stage == stage).count();
    let stages: HashSet<u16> = set.iter().map(|kept| kept.stage).collect();
    let repeated = stages.iter().filter(|&&stage| held(stage) > 1).count();
    if repeated == 0 {
        return vec![set.len().min(2)];
    }
    let apart = set.windows(2).all(|two| two[0].stage != two[1].stage);
    let by_word: HashSet<(u16, usize)> = set
        .iter()
        .map(|kept| (kept.stage, kept.rule / 32))
        .collect();
    let mut kinds = vec![if apart { 4 } else { 3 }];
    kinds.extend((by_word.len() == set.len()).then_some(5));
    kinds.extend(stages.iter().any(|&stage| held(stage) > 2).then_some(6));
    kinds.extend((repeated > 1).then_some(7));
    kinds
}

/// Which of [`NAMES`] hold of a case whose files pass.
fn names_met(case: &Case) -> Vec<usize> {
    let rules = parse_grammar(&case.grammar).map(|grammar| grammar.rules);
    let made = rules.unwrap_or_default().into_iter();
    let made: Vec<Token> = made.flat_map(|rule| rule.tokens()).collect();
    let tokens = parse_history(&case.history).unwrap_or_default();
    let longest = |numbers: Vec<u32>| {
        let lengths = numbers.iter().map(|&number| numbers_file(&[number]).len());
        lengths.max()
    };
    let in_grammar = longest(made.iter().map(|token| token.name()).collect());
    let in_history = longest(history_numbers(&tokens)[1..].to_vec());
    let mut met = Vec::new();
    met.extend(in_grammar.map(|bytes| bytes - 1));
    met.extend(in_history.map(|bytes| bytes + 2));
    let all: HashSet<Token> = made.into_iter().chain(tokens).collect();
    for (place, bits) in [(6, 8), (7, 14)] {
        let cut = |token: &Token| token.named(token.name() % (1 << bits));
        if all.iter().map(cut).collect::<HashSet<_>>().len() < all.len() {
            met.push(place);
        }
    }
    met
}
