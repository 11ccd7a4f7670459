//! Readings counted, not written down: how many there are, the place of one in the order, and the one at a place.
use crate::big::Big;
use crate::files::{partners, Grammar};
use frames::{Rule, Token};
use std::cell::RefCell;
use std::collections::{HashMap, HashSet};
use std::rc::Rc;

pub struct Counter {
    grammar: Grammar,
    tokens: Vec<Token>,
    partner: Vec<usize>,
    by_stage: Vec<Vec<u8>>,
    known: RefCell<HashMap<(u16, usize), Rc<Big>>>,
}

/// What a rule leaves to derive: the inside of a step, if it makes one, and what follows on the level.
pub(crate) enum Parts {
    Nothing,
    Level(u16, usize),
    Step {
        inside: (u16, usize),
        shut: usize,
        then: (u16, usize),
    },
}

impl Counter {
    pub fn new(grammar: Grammar, tokens: Vec<Token>) -> Counter {
        let mut by_stage = vec![Vec::new(); grammar.stages.into()];
        for (number, rule) in grammar.rules.iter().enumerate() {
            by_stage[usize::from(rule.from())].push(number as u8);
        }
        let partner = partners(&tokens);
        Counter {
            grammar,
            tokens,
            partner,
            by_stage,
            known: RefCell::new(HashMap::new()),
        }
    }

    pub fn grammar(&self) -> &Grammar {
        &self.grammar
    }

    pub fn tokens(&self) -> &[Token] {
        &self.tokens
    }

    /// The rules of a stage, smaller numbers first.
    pub(crate) fn rules_of(&self, stage: u16) -> &[u8] {
        &self.by_stage[usize::from(stage)]
    }

    /// What is left if the rule is used at `start` of a level that ends at `end`; None where it doesn't fit there.
    pub(crate) fn parts(&self, number: u8, start: usize, end: usize) -> Option<Parts> {
        match self.grammar.rules[usize::from(number)] {
            Rule::Ends { .. } => (start == end).then_some(Parts::Nothing),
            Rule::Marks { mark, then, .. } => (start < end
                && self.tokens[start] == Token::Mark(mark))
            .then_some(Parts::Level(then, start + 1)),
            Rule::Steps {
                open,
                inside,
                close,
                then,
                ..
            } => {
                if start == end || self.tokens[start] != Token::Open(open) {
                    return None;
                }
                let shut = self.partner[start];
                (self.tokens[shut] == Token::Close(close)).then_some(Parts::Step {
                    inside: (inside, start + 1),
                    shut,
                    then: (then, shut + 1),
                })
            }
        }
    }

    /// How many derivations of the tokens from `start` to the level's `end` there are from `stage`.
    pub(crate) fn ways(&self, stage: u16, start: usize, end: usize) -> Rc<Big> {
        if let Some(count) = self.known.borrow().get(&(stage, start)) {
            return count.clone();
        }
        let mut sum = Big::new(0);
        for &number in &self.by_stage[usize::from(stage)] {
            sum = sum.plus(&self.ways_by(number, start, end));
        }
        let sum = Rc::new(sum);
        self.known.borrow_mut().insert((stage, start), sum.clone());
        sum
    }

    pub(crate) fn ways_by(&self, number: u8, start: usize, end: usize) -> Big {
        match self.parts(number, start, end) {
            None => Big::new(0),
            Some(Parts::Nothing) => Big::new(1),
            Some(Parts::Level(then, next)) => (*self.ways(then, next, end)).clone(),
            Some(Parts::Step { inside, shut, then }) => {
                let inner = self.ways(inside.0, inside.1, shut);
                if inner.is_zero() {
                    return Big::new(0);
                }
                inner.times(&self.ways(then.0, then.1, end))
            }
        }
    }

    /// How many readings the history has.
    pub fn total(&self) -> Rc<Big> {
        self.ways(self.grammar.start, 0, self.tokens.len())
    }

    /// Whether no part of the history has more derivations than `most` from any stage that was looked at for the total.
    pub fn few(&self, most: u64) -> bool {
        self.total();
        let known = self.known.borrow();
        known
            .values()
            .all(|ways| ways.small().is_some_and(|ways| ways <= most))
    }

    /// The reading at a place of the order, counted from 0 and below the total.
    pub fn reading_at(&self, place: &Big) -> Vec<u8> {
        let mut out = Vec::new();
        let whole = self.tokens.len();
        self.write_at(self.grammar.start, 0, whole, place.clone(), &mut out);
        out
    }

    fn write_at(&self, stage: u16, start: usize, end: usize, place: Big, out: &mut Vec<u8>) {
        let mut place = place;
        for &number in &self.by_stage[usize::from(stage)] {
            let ways = self.ways_by(number, start, end);
            if place >= ways {
                place = place.minus(&ways);
                continue;
            }
            out.push(number);
            match self.parts(number, start, end) {
                None => unreachable!("no way by a rule that doesn't fit"),
                Some(Parts::Nothing) => {}
                Some(Parts::Level(then, next)) => self.write_at(then, next, end, place, out),
                Some(Parts::Step { inside, shut, then }) => {
                    let (inner, later) = place.divided(&self.ways(then.0, then.1, end));
                    self.write_at(inside.0, inside.1, shut, inner, out);
                    self.write_at(then.0, then.1, end, later, out);
                }
            }
            return;
        }
        unreachable!("a place below the number of ways");
    }

    /// The place of a reading in the order, from 0; None where the bytes are no reading.
    pub fn place_of(&self, reading: &[u8]) -> Option<Big> {
        if reading.len() != self.tokens.len() + 1 {
            return None;
        }
        self.place(self.grammar.start, 0, self.tokens.len(), reading)
    }

    fn place(&self, stage: u16, start: usize, end: usize, reading: &[u8]) -> Option<Big> {
        let used = reading[start];
        let rules = &self.by_stage[usize::from(stage)];
        if !rules.contains(&used) {
            return None;
        }
        let within = match self.parts(used, start, end)? {
            Parts::Nothing => Big::new(0),
            Parts::Level(then, next) => self.place(then, next, end, reading)?,
            Parts::Step { inside, shut, then } => {
                let inner = self.place(inside.0, inside.1, shut, reading)?;
                let later = self.place(then.0, then.1, end, reading)?;
                inner.times(&self.ways(then.0, then.1, end)).plus(&later)
            }
        };
        let mut before = Big::new(0);
        for &number in rules.iter().take_while(|&&number| number < used) {
            before = before.plus(&self.ways_by(number, start, end));
        }
        Some(before.plus(&within))
    }

    /// The set of rules at each position: those that a walk from the start stage over the parts of readings meets.
    pub fn sets(&self) -> Vec<HashSet<u8>> {
        let mut sets = vec![HashSet::new(); self.tokens.len() + 1];
        let mut met = HashSet::new();
        let mut due = vec![(self.grammar.start, 0, self.tokens.len())];
        while let Some((stage, start, end)) = due.pop() {
            if !met.insert((stage, start)) {
                continue;
            }
            for &number in &self.by_stage[usize::from(stage)] {
                if self.ways_by(number, start, end).is_zero() {
                    continue;
                }
                sets[start].insert(number);
                match self.parts(number, start, end) {
                    Some(Parts::Level(then, next)) => due.push((then, next, end)),
                    Some(Parts::Step { inside, shut, then }) => {
                        due.push((inside.0, inside.1, shut));
                        due.push((then.0, then.1, end));
                    }
                    _ => {}
                }
            }
        }
        sets
    }
}
