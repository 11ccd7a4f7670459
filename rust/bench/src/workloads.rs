//! The files that are timed: a grammar, and one history or many in turn. No grammar says its start, and only those of the group
//! "wide" have names above 63: so a library that is older than such files can be timed beside this one on all others.
use frames::{grammar_file, history_file, Rule, Token, G};

pub struct Workload {
    /// What it is compared with, and where it stands there: by tokens, by rules, or by names, small or wide.
    pub group: &'static str,
    pub size: usize,
    pub name: String,
    pub grammar: Vec<u8>,
    /// All with the same number of tokens.
    pub histories: Vec<Vec<u8>>,
}

impl Workload {
    /// Whether a library can read it that knows no name above 63.
    pub fn for_older(&self) -> bool {
        self.group != "wide"
    }
}

/// Histories in turn: with one alone the processor learns its branches.
const IN_TURN: u64 = 64;

fn steps(count: usize) -> Vec<u8> {
    let step = [Token::Open(0), Token::Mark(0), Token::Close(0)];
    history_file(&step.repeat(count))
}

/// `count` rules over a fourth as many stages: each stage ends, goes on by a mark to two stages, and makes a step.
fn many_rules(count: usize) -> Vec<u8> {
    let stages = (count / 4) as u16;
    let rules = staged(stages, |_, later, other| {
        [0, u32::from(later == other), 0, 0]
    });
    grammar_file(stages, None, &rules)
}

/// 128 rules with so many names dealt out to them; `name` gives the name of a number.
fn named_rules(names: u32, name: impl Fn(u32) -> u32) -> Vec<Rule> {
    staged(32, |from, _, _| {
        let from = u32::from(from);
        [2 * from, 2 * from + 1, from, 3 * from].map(|number| name(number % names))
    })
}

/// Four rules to a stage; `names` gives the two marks, the open and the close of one.
fn staged(stages: u16, names: impl Fn(u16, u16, u16) -> [u32; 4]) -> Vec<Rule> {
    let each = |from: u16| {
        let (later, other) = ((from + 1) % stages, (from + stages / 2) % stages);
        let [mark, other_mark, open, close] = names(from, later, other);
        [
            Rule::Ends { from },
            Rule::Marks {
                from,
                mark,
                then: later,
            },
            Rule::Marks {
                from,
                mark: other_mark,
                then: other,
            },
            Rule::Steps {
                from,
                open,
                inside: later,
                close,
                then: other,
            },
        ]
    };
    (0..stages).flat_map(each).collect()
}

/// Marks and steps in turn, some steps inside others.
fn mixed(count: usize) -> Vec<u8> {
    let block = [
        Token::Open(0),
        Token::Mark(0),
        Token::Open(0),
        Token::Close(0),
        Token::Mark(0),
        Token::Close(0),
        Token::Mark(0),
        Token::Mark(0),
    ];
    history_file(&block.repeat(count / 8))
}

/// Numbers that look random, the same in every run.
struct Numbers(u64);

impl Numbers {
    fn below(&mut self, bound: usize) -> usize {
        self.0 ^= self.0 << 13;
        self.0 ^= self.0 >> 7;
        self.0 ^= self.0 << 17;
        (self.0 >> 20) as usize % bound
    }
}

/// A history of n tokens that has a reading, by rules taken at random. Every stage has an empty rule.
fn walked(rules: &[Rule], n: usize, seed: u64) -> Vec<u8> {
    let mut numbers = Numbers(seed.wrapping_mul(0x9E37_79B9_7F4A_7C15) | 1);
    let mut tokens = Vec::new();
    let mut pending: Vec<(u32, u16)> = Vec::new();
    let mut stage = 0;
    while tokens.len() < n {
        let left = n - tokens.len() - pending.len();
        let of_stage: Vec<&Rule> = rules.iter().filter(|rule| rule.from() == stage).collect();
        match *of_stage[numbers.below(of_stage.len())] {
            Rule::Marks { mark, then, .. } if left >= 1 => {
                tokens.push(Token::Mark(mark));
                stage = then;
            }
            Rule::Steps {
                open,
                inside,
                close,
                then,
                ..
            } if left >= 2 && pending.len() < 128 => {
                tokens.push(Token::Open(open));
                pending.push((close, then));
                stage = inside;
            }
            Rule::Ends { .. } => {
                if let Some((close, then)) = pending.pop() {
                    tokens.push(Token::Close(close));
                    stage = then;
                }
            }
            _ => {}
        }
    }
    history_file(&tokens)
}

/// S ends or makes a step.
const BRACKETS: [Rule; 2] = [
    Rule::Steps {
        from: 0,
        open: 0,
        inside: 0,
        close: 0,
        then: 0,
    },
    Rule::Ends { from: 0 },
];

/// S ends or goes on by a mark.
const MARKS: [Rule; 2] = [
    Rule::Marks {
        from: 0,
        mark: 0,
        then: 0,
    },
    Rule::Ends { from: 0 },
];

/// Each over one history.
fn repeated() -> Vec<Workload> {
    let mut all = Vec::new();
    let mut add = |group, size, name: String, grammar, history| {
        all.push(Workload {
            group,
            size,
            name,
            grammar,
            histories: vec![history],
        });
    };
    let marks = history_file(&[Token::Mark(0); 1000]);
    let name = "1,000 marks, one reading".into();
    add("workload", 2, name, grammar_file(1, None, &MARKS), marks);
    for (group, count) in [("workload", 16), ("listing", 340)] {
        let name = format!("{count} ambiguous steps");
        add(group, 7, name, G.to_vec(), steps(count));
    }
    for tokens in [64, 128, 256, 512, 1024] {
        let name = format!("{tokens} tokens, 32 rules");
        add("tokens", tokens, name, many_rules(32), mixed(tokens));
    }
    for rules in [8, 16, 32, 64, 128] {
        let name = format!("{rules} rules, 1,024 tokens");
        add("rules", rules, name, many_rules(rules), mixed(1024));
    }
    all
}

/// Over so many histories.
fn walked_by(
    (group, size): (&'static str, u32),
    name: String,
    rules: &[Rule],
    histories: u64,
) -> Workload {
    let stages = rules.iter().map(Rule::from).max().unwrap_or(0) + 1;
    Workload {
        group,
        size: size as usize,
        name,
        grammar: grammar_file(stages, None, rules),
        histories: (1..=histories).map(|k| walked(rules, 1024, k)).collect(),
    }
}

/// By names below 64.
fn by_names(histories: u64) -> Vec<Workload> {
    let mut all = Vec::new();
    for names in [64, 16, 4, 1] {
        let rules = named_rules(names, |name| name);
        let name = format!("128 rules, names: {names}");
        all.push(walked_by(("names", names), name, &rules, histories));
    }
    let name = "2 rules, names: 1".into();
    all.push(walked_by(("names", 1), name, &BRACKETS, histories));
    all
}

/// By names that take three bytes in either file: side by side, 64 apart, and all in one class of the index.
fn by_wide_names(histories: u64) -> Vec<Workload> {
    let mut all = Vec::new();
    let mut add = |names, name: &str, of_number: fn(u32) -> u32| {
        let rules = named_rules(names, of_number);
        let name = format!("128 rules, {name}");
        all.push(walked_by(("wide", names), name, &rules, histories));
    };
    for (names, name) in [(64, "wide names: 64"), (4, "wide names: 4")] {
        add(names, name, |number| 40_000 + number);
    }
    add(64, "64 apart: 64", |number| 40_000 + 64 * number);
    add(64, "one class: 64", of_one_class);
    all
}

/// Names that share a class of the index, from 40,000 on: the low six bits make up for those above.
fn of_one_class(number: u32) -> u32 {
    let high = 40_000 / 64 + number;
    64 * high + (64 - (high + high / 64) % 64) % 64
}

/// The older ones first, so that their places stay.
pub fn workloads() -> Vec<Workload> {
    let mut all = repeated();
    all.extend(by_names(1));
    all.extend(by_names(IN_TURN));
    all.extend(by_wide_names(1));
    all.extend(by_wide_names(IN_TURN));
    all
}

#[cfg(test)]
mod tests {
    use super::*;
    use crate::index::spread;
    use reference::{history_check, parse_grammar};
    use std::collections::HashSet;

    #[test]
    fn classes() {
        let side_by_side: HashSet<u32> = (40_000..40_064).map(spread).collect();
        let apart: HashSet<u32> = (0..64).map(|number| spread(40_000 + 64 * number)).collect();
        assert_eq!((side_by_side.len(), apart.len()), (64, 63));
        assert!((0..64).all(|number| spread(of_one_class(number)) == 0));
        let names: HashSet<u32> = (0..64).map(of_one_class).collect();
        assert_eq!(names.len(), 64);
    }

    /// Every number of a name is one byte in the older grammars, and at most two in their histories; in the wide ones each takes
    /// three.
    #[test]
    fn widths() {
        for workload in workloads() {
            let numbers = |file: &[u8]| file.iter().filter(|&&byte| byte < 128).count();
            let grammar = parse_grammar(&workload.grammar).expect("a grammar that passes");
            let made = grammar.rules.iter().flat_map(|rule| rule.tokens());
            let names: Vec<u32> = made.map(|token| token.name()).collect();
            let wide = !workload.for_older();
            assert!(names.iter().all(|&name| (name >= 16_384) == wide));
            for history in &workload.histories {
                let tokens = usize::from(history_check(history).expect("one that passes"));
                assert_eq!(numbers(history), tokens + 1);
                assert!(!wide || history.len() == 2 + 3 * tokens);
            }
        }
    }
}
