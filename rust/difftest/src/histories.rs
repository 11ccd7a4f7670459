//! Makes histories: tokens that a grammar's rules make, any that are well matched, and long ones.
use crate::grammars::Made;
use crate::names;
use crate::random::Random;
use frames::{Rule, Token};

/// No more steps may be open together.
const DEEPEST: usize = 128;

/// Tokens that the rules make from the start, now and then from another stage, as far as they lead; what is begun is closed in
/// any case.
pub fn derived(random: &mut Random, made: &Made, most: usize) -> Vec<Token> {
    let from = match random.below(8) {
        0 => random.below(made.stages.into()) as u16,
        _ => made.start(),
    };
    let mut walk = Walk {
        random,
        rules: &made.rules,
        tokens: Vec::new(),
    };
    walk.level(from, most, 0);
    walk.tokens
}

struct Walk<'a> {
    random: &'a mut Random,
    rules: &'a [Rule],
    tokens: Vec<Token>,
}

impl Walk<'_> {
    fn level(&mut self, stage: u16, most: usize, deep: usize) {
        let mut stage = stage;
        while let Some(rule) = self.rule(stage, most) {
            match rule {
                Rule::Ends { .. } => {}
                Rule::Marks { mark, then, .. } => {
                    self.tokens.push(Token::Mark(mark));
                    stage = then;
                }
                Rule::Steps { .. } if deep == DEEPEST => return,
                Rule::Steps {
                    open,
                    inside,
                    close,
                    then,
                    ..
                } => {
                    self.tokens.push(Token::Open(open));
                    self.level(inside, most - 1, deep + 1);
                    self.tokens.push(Token::Close(close));
                    stage = then;
                }
            }
        }
    }

    /// A rule of the stage, at a level that may reach so many tokens; None where the level ends here.
    fn rule(&mut self, stage: u16, most: usize) -> Option<Rule> {
        let of_stage = self.rules.iter().filter(|rule| rule.from() == stage);
        let of_stage: Vec<Rule> = of_stage.copied().collect();
        let is_end = |rule: &Rule| matches!(rule, Rule::Ends { .. });
        let may_end = of_stage.iter().any(is_end);
        let full = self.tokens.len() + 2 > most;
        if of_stage.is_empty() || full || (may_end && self.random.percent(5)) {
            return None;
        }
        let rule = self.random.one(&of_stage);
        let ends = is_end(&rule) && (of_stage.len() == 1 || self.random.percent(10));
        (!ends).then_some(rule)
    }
}

/// Any well-matched tokens.
pub fn matched(random: &mut Random, count: usize, names: &[u32]) -> Vec<Token> {
    let mut tokens = Vec::new();
    let mut open = 0;
    while tokens.len() + open < count {
        let name = random.one(names);
        match random.below(3) {
            0 => tokens.push(Token::Mark(name)),
            1 if tokens.len() + open + 2 <= count && open < DEEPEST => {
                tokens.push(Token::Open(name));
                open += 1;
            }
            _ if open > 0 => {
                tokens.push(Token::Close(name));
                open -= 1;
            }
            _ => tokens.push(Token::Mark(name)),
        }
    }
    tokens.extend((0..open).map(|_| Token::Close(random.one(names))));
    tokens
}

/// Steps one inside the other, as many as may be open together, or one less or more.
pub fn nested(random: &mut Random, names: &[u32]) -> Vec<Token> {
    let deep = random.one(&[DEEPEST - 1, DEEPEST, DEEPEST, DEEPEST + 1]);
    let (open, close) = (random.one(names), random.one(names));
    [
        vec![Token::Open(open); deep],
        vec![Token::Close(close); deep],
    ]
    .concat()
}

/// Marks alone.
pub fn marks(random: &mut Random, count: usize, names: &[u32]) -> Vec<Token> {
    (0..count).map(|_| Token::Mark(random.one(names))).collect()
}

/// These tokens over and over, so many in all.
pub fn repeated(tokens: &[Token], count: usize) -> Vec<Token> {
    tokens.iter().copied().cycle().take(count).collect()
}

/// One of the tokens gets a name that differs from its own in high bits alone.
pub fn rename_one(random: &mut Random, tokens: &mut [Token]) {
    if tokens.is_empty() {
        return;
    }
    let token = &mut tokens[random.below(tokens.len())];
    *token = token.named(names::twin(random, token.name()));
}
