//! Stop marks: each beginning of the history is recognised by itself.
use crate::files::{partners, Grammar};
use frames::{Rule, Token};
use std::collections::HashMap;

/// For each i from 0 to n whether the first i tokens alone have a reading.
pub fn stop_marks(grammar: &Grammar, tokens: &[Token]) -> Vec<bool> {
    let partner = partners(tokens);
    let fitting = (0..tokens.len())
        .map(|place| {
            let fits = |rule: &&Rule| match **rule {
                Rule::Ends { .. } => false,
                Rule::Marks { mark, .. } => tokens[place] == Token::Mark(mark),
                Rule::Steps { open, close, .. } => {
                    tokens[place] == Token::Open(open)
                        && tokens[partner[place]] == Token::Close(close)
                }
            };
            grammar.rules.iter().filter(fits).copied().collect()
        })
        .collect();
    let mut insides = Insides {
        grammar,
        tokens,
        partner,
        fitting,
        known: HashMap::new(),
    };
    (0..=tokens.len())
        .map(|length| matched(&tokens[..length]) && insides.beginning(length))
        .collect()
}

fn matched(tokens: &[Token]) -> bool {
    let mut open = 0usize;
    for token in tokens {
        match token {
            Token::Mark(_) => {}
            Token::Open(_) => open += 1,
            Token::Close(_) if open == 0 => return false,
            Token::Close(_) => open -= 1,
        }
    }
    open == 0
}

struct Insides<'a> {
    grammar: &'a Grammar,
    tokens: &'a [Token],
    partner: Vec<usize>,
    /// The rules that can make the token at a position, by names alone.
    fitting: Vec<Vec<Rule>>,
    /// Whether a stage derives the inside of the step that opens at a position. Known once for all beginnings.
    known: HashMap<(u16, usize), bool>,
}

impl Insides<'_> {
    /// Whether the start stage derives the first `length` tokens, which are well matched.
    fn beginning(&mut self, length: usize) -> bool {
        self.level(self.grammar.start, 0, length)
    }

    fn inside(&mut self, stage: u16, open: usize) -> bool {
        if let Some(&answer) = self.known.get(&(stage, open)) {
            return answer;
        }
        let answer = self.level(stage, open + 1, self.partner[open]);
        self.known.insert((stage, open), answer);
        answer
    }

    /// Whether a stage derives the tokens from `start` to `end`: from the end back, the list of stages that derive what
    /// is left of the level.
    fn level(&mut self, stage: u16, start: usize, end: usize) -> bool {
        let mut elements = Vec::new();
        let mut place = start;
        while place < end {
            elements.push(place);
            place = match self.tokens[place] {
                Token::Open(_) => self.partner[place] + 1,
                _ => place + 1,
            };
        }
        let mut able: Vec<u16> = self
            .grammar
            .rules
            .iter()
            .filter(|rule| matches!(rule, Rule::Ends { .. }))
            .map(Rule::from)
            .collect();
        for &place in elements.iter().rev() {
            if able.is_empty() {
                return false;
            }
            let mut earlier = Vec::new();
            for number in 0..self.fitting[place].len() {
                let rule = self.fitting[place][number];
                let fits = match rule {
                    Rule::Ends { .. } => false,
                    Rule::Marks { then, .. } => able.contains(&then),
                    Rule::Steps { inside, then, .. } => {
                        able.contains(&then) && self.inside(inside, place)
                    }
                };
                if fits && !earlier.contains(&rule.from()) {
                    earlier.push(rule.from());
                }
            }
            able = earlier;
        }
        able.contains(&stage)
    }
}
