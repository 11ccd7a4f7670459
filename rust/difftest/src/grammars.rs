//! Makes grammars: rules over some stages, and the start that the file says, or none.
use crate::names;
use crate::random::Random;
use frames::{grammar_numbers, Rule, Token, G};
use reference::parse_grammar;

/// How large a grammar and its history get.
pub struct Size {
    pub stages: usize,
    pub rules: usize,
    /// Those that marks, opens and closes alike are named by.
    pub names: Vec<u32>,
    pub tokens: usize,
    pub ends_percent: usize,
}

/// The names of G's marks, opens and closes.
#[derive(Clone, Copy)]
pub struct StepNames {
    pub mark: u32,
    pub open: u32,
    pub close: u32,
}

impl StepNames {
    /// Any three of these names.
    pub fn of(random: &mut Random, names: &[u32]) -> StepNames {
        StepNames {
            mark: random.one(names),
            open: random.one(names),
            close: random.one(names),
        }
    }

    /// A rule with these names.
    fn instead(&self, rule: &Rule) -> Rule {
        rule.renamed(|token| match token {
            Token::Mark(_) => self.mark,
            Token::Open(_) => self.open,
            Token::Close(_) => self.close,
        })
    }

    /// A step with a mark in it.
    pub fn step(&self) -> [Token; 3] {
        [
            Token::Open(self.open),
            Token::Mark(self.mark),
            Token::Close(self.close),
        ]
    }
}

/// A grammar, and the start where its file says one.
pub struct Made {
    pub stages: u16,
    pub said: Option<u16>,
    pub rules: Vec<Rule>,
}

impl Made {
    pub fn start(&self) -> u16 {
        self.said.unwrap_or(0)
    }

    pub fn numbers(&self) -> Vec<u32> {
        grammar_numbers(self.stages, self.said, &self.rules)
    }

    /// Any rules. Half of the grammars say their start.
    pub fn any(random: &mut Random, size: &Size) -> Made {
        let said = match random.below(20) {
            0..=9 => None,
            10 => Some(0),
            _ => Some(random.below(size.stages) as u16),
        };
        let made = Made {
            stages: size.stages as u16,
            said,
            rules: rules(random, size),
        };
        if said.is_some() && random.percent(30) {
            return made.reordered(random);
        }
        made
    }

    /// Document 01's grammar, with these names: as it is, with a start that may be another, or with its stages in another order.
    pub fn g(random: &mut Random, names: StepNames) -> Made {
        let said = match random.below(6) {
            0 | 1 => None,
            2 => Some(0),
            _ => Some(random.below(3) as u16),
        };
        let g = parse_grammar(&G).expect("G passes");
        let made = Made {
            stages: g.stages,
            said,
            rules: g.rules.iter().map(|rule| names.instead(rule)).collect(),
        };
        if random.percent(40) {
            return made.reordered(random);
        }
        made
    }

    /// 128 rules of ten bytes, with the largest names.
    pub fn longest(said: Option<u16>) -> Made {
        let rule = |number: u16| Rule::Steps {
            from: number % 32,
            open: 65_535 - u32::from(number),
            inside: 31,
            close: 65_535,
            then: 0,
        };
        Made {
            stages: 32,
            said,
            rules: (0..128).map(rule).collect(),
        }
    }

    /// The stages get other numbers, and the start with them, so that it has to be said.
    pub fn reordered(self, random: &mut Random) -> Made {
        let numbers = random.order(self.stages.into());
        let number = |stage: u16| numbers[usize::from(stage)] as u16;
        Made {
            stages: self.stages,
            said: Some(number(self.start())),
            rules: self
                .rules
                .iter()
                .map(|rule| rule.renumbered(number))
                .collect(),
        }
    }
}

fn rule(random: &mut Random, size: &Size) -> Rule {
    let stage = |random: &mut Random| random.below(size.stages) as u16;
    let from = stage(random);
    match random.below(8) {
        0 => Rule::Ends { from },
        1..=3 => Rule::Marks {
            from,
            mark: random.one(&size.names),
            then: stage(random),
        },
        _ => Rule::Steps {
            from,
            open: random.one(&size.names),
            inside: stage(random),
            close: random.one(&size.names),
            then: stage(random),
        },
    }
}

fn rules(random: &mut Random, size: &Size) -> Vec<Rule> {
    let mut rules: Vec<Rule> = Vec::new();
    for from in 0..size.stages as u16 {
        if rules.len() < size.rules && random.percent(size.ends_percent) {
            rules.push(Rule::Ends { from });
        }
    }
    for _ in 0..8 * size.rules {
        if rules.len() >= size.rules {
            break;
        }
        let rule = rule(random, size);
        if !rules.contains(&rule) {
            let place = random.below(rules.len() + 1);
            rules.insert(place, rule);
        }
    }
    if rules.is_empty() {
        rules.push(Rule::Ends { from: 0 });
    }
    if rules.len() < 128 && random.percent(20) {
        add_twin(random, &mut rules);
    }
    rules
}

/// A rule that is there is put in once more, with a name or both that differ from its own in high bits alone.
fn add_twin(random: &mut Random, rules: &mut Vec<Rule>) {
    let bits = names::twin(random, 0);
    let (first, second) = random.one(&[(true, true), (true, false), (false, true)]);
    let twin = random.one(rules).renamed(|token| match token {
        Token::Mark(name) | Token::Open(name) if first => name ^ bits,
        Token::Close(name) if second => name ^ bits,
        other => other.name(),
    });
    let place = random.below(rules.len() + 1);
    if !rules.contains(&twin) {
        rules.insert(place, twin);
    }
}
