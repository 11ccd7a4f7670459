//! Every reading written down, by recursion over the history.
use crate::files::{partners, Grammar};
use frames::{Rule, Token};
use std::collections::HashMap;
use std::rc::Rc;

type Words = Rc<Vec<Vec<u8>>>;

/// All readings of the history, in order.
pub fn readings(grammar: &Grammar, tokens: &[Token]) -> Vec<Vec<u8>> {
    let mut lister = Lister {
        grammar,
        tokens,
        partner: partners(tokens),
        known: HashMap::new(),
    };
    lister.from(grammar.start, 0, tokens.len()).to_vec()
}

struct Lister<'a> {
    grammar: &'a Grammar,
    tokens: &'a [Token],
    partner: Vec<usize>,
    known: HashMap<(u16, usize), Words>,
}

impl Lister<'_> {
    /// The rule numbers, for the positions `start` to `end`, of each derivation of the tokens from `start` up to and not
    /// with `end` from `stage`. `end` is the end of the level that `start` stands in.
    fn from(&mut self, stage: u16, start: usize, end: usize) -> Words {
        if let Some(words) = self.known.get(&(stage, start)) {
            return words.clone();
        }
        let mut words = Vec::new();
        for (number, rule) in self.grammar.rules.iter().enumerate() {
            let number = number as u8;
            if rule.from() != stage {
                continue;
            }
            match *rule {
                Rule::Ends { .. } => {
                    if start == end {
                        words.push(vec![number]);
                    }
                }
                Rule::Marks { mark, then, .. } => {
                    if start < end && self.tokens[start] == Token::Mark(mark) {
                        for rest in self.from(then, start + 1, end).iter() {
                            words.push([&[number], &rest[..]].concat());
                        }
                    }
                }
                Rule::Steps {
                    open,
                    inside,
                    close,
                    then,
                    ..
                } => {
                    if start < end && self.tokens[start] == Token::Open(open) {
                        let shut = self.partner[start];
                        if self.tokens[shut] == Token::Close(close) {
                            let insides = self.from(inside, start + 1, shut);
                            if insides.is_empty() {
                                continue;
                            }
                            let rests = self.from(then, shut + 1, end);
                            for inner in insides.iter() {
                                for rest in rests.iter() {
                                    words.push([&[number], &inner[..], &rest[..]].concat());
                                }
                            }
                        }
                    }
                }
            }
        }
        let words = Rc::new(words);
        self.known.insert((stage, start), words.clone());
        words
    }
}
