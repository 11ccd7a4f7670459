//! Counts readings in 64 bits and finds one by its number, with a fault planted or with none: what a wrong library would give.
use frames::{Rule, Token};
use reference::files::partners;
use reference::Grammar;
use std::cell::RefCell;
use std::collections::HashMap;

/// What is wrong with it.
#[derive(Clone, Copy, PartialEq, Eq, Debug)]
pub enum Slip {
    /// 0 times a count that is over is over.
    ZeroTimesOver,
    /// A count that doesn't fit begins at 0 again.
    BeginsAgain,
    /// No rule is passed over, whatever k is.
    NonePassedOver,
    /// The last rule of a stage is never come to: the last reading by the one before it is taken.
    LastRuleLeftOut,
    /// The inside of a step changes from one reading to the next, and what is behind it stays.
    InsideFirst,
    /// The rules of a stage are tried from the last to the first.
    LastRuleFirst,
    /// In a step with an inside that is over, what is behind it stays at its first reading.
    BehindStays,
}

/// How many; None where it is over.
type Count = Option<u64>;

pub struct Tally {
    grammar: Grammar,
    tokens: Vec<Token>,
    partner: Vec<usize>,
    slip: Option<Slip>,
    /// The one rule that is counted at a position.
    only: Option<(usize, usize)>,
    known: RefCell<HashMap<(u16, usize), Count>>,
}

/// What a rule leaves to derive: levels, each by its stage, its place and its end. Of two the first is a step's inside.
type Levels = Vec<(u16, usize, usize)>;

impl Tally {
    pub fn new(grammar: Grammar, tokens: Vec<Token>, slip: Option<Slip>) -> Tally {
        Tally {
            partner: partners(&tokens),
            grammar,
            tokens,
            slip,
            only: None,
            known: RefCell::new(HashMap::new()),
        }
    }

    /// The same, with no other rule than this one at the position.
    pub fn only(self, position: usize, rule: usize) -> Tally {
        Tally {
            only: Some((position, rule)),
            ..self
        }
    }

    fn levels(&self, rule: usize, start: usize, end: usize) -> Option<Levels> {
        let here = self.tokens[..end].get(start);
        match self.grammar.rules[rule] {
            Rule::Ends { .. } => here.is_none().then(Vec::new),
            Rule::Marks { mark, then, .. } => {
                (here == Some(&Token::Mark(mark))).then(|| vec![(then, start + 1, end)])
            }
            Rule::Steps {
                open,
                inside,
                close,
                then,
                ..
            } => {
                let shut = (here == Some(&Token::Open(open))).then(|| self.partner[start])?;
                let fits = self.tokens[shut] == Token::Close(close);
                fits.then(|| vec![(inside, start + 1, shut), (then, shut + 1, end)])
            }
        }
    }

    fn plus(&self, one: Count, other: Count) -> Count {
        match self.slip {
            Some(Slip::BeginsAgain) => Some(one?.wrapping_add(other?)),
            _ => one?.checked_add(other?),
        }
    }

    fn times(&self, one: Count, other: Count) -> Count {
        let zero = one == Some(0) || other == Some(0);
        match self.slip {
            Some(Slip::BeginsAgain) => Some(one?.wrapping_mul(other?)),
            Some(Slip::ZeroTimesOver) => one?.checked_mul(other?),
            _ if zero => Some(0),
            _ => one?.checked_mul(other?),
        }
    }

    fn ways(&self, (stage, start, end): (u16, usize, usize)) -> Count {
        if let Some(count) = self.known.borrow().get(&(stage, start)) {
            return *count;
        }
        let mut sum = Some(0);
        for rule in self.rules_of(stage) {
            sum = self.plus(sum, self.ways_by(rule, start, end));
        }
        self.known.borrow_mut().insert((stage, start), sum);
        sum
    }

    fn rules_of(&self, stage: u16) -> Vec<usize> {
        let rules = 0..self.grammar.rules.len();
        rules
            .filter(|&rule| self.grammar.rules[rule].from() == stage)
            .collect()
    }

    fn ways_by(&self, rule: usize, start: usize, end: usize) -> Count {
        if matches!(self.only, Some((position, only)) if position == start && only != rule) {
            return Some(0);
        }
        let Some(levels) = self.levels(rule, start, end) else {
            return Some(0);
        };
        let mut product = Some(1);
        for level in levels {
            product = self.times(product, self.ways(level));
        }
        product
    }

    pub fn total(&self) -> Count {
        self.ways((self.grammar.start, 0, self.tokens.len()))
    }

    /// Whether there is a k-th reading.
    pub fn has(&self, k: u64) -> bool {
        k > 0 && self.total().is_none_or(|total| k <= total)
    }

    /// The k-th reading, counted from 1 and not above the total.
    pub fn reading(&self, k: u64) -> Vec<u8> {
        let mut out = Vec::new();
        self.write((self.grammar.start, 0, self.tokens.len()), k - 1, &mut out);
        out
    }

    /// The rules of a stage in the order in which they are tried.
    fn tried(&self, stage: u16, start: usize, end: usize) -> Vec<usize> {
        let mut rules = self.rules_of(stage);
        rules.retain(|&rule| self.ways_by(rule, start, end) != Some(0));
        match self.slip {
            Some(Slip::LastRuleFirst) => rules.reverse(),
            Some(Slip::NonePassedOver) => rules.truncate(1),
            Some(Slip::LastRuleLeftOut) if rules.len() > 1 => {
                rules.pop();
            }
            _ => {}
        }
        rules
    }

    /// Writes the reading of a level at a place, counted from 0. A place behind all that are tried is that of the last one.
    fn write(&self, (stage, start, end): (u16, usize, usize), place: u64, out: &mut Vec<u8>) {
        let mut place = place;
        let tried = self.tried(stage, start, end);
        for (number, &rule) in tried.iter().enumerate() {
            let ways = self.ways_by(rule, start, end);
            if let Some(ways) = ways.filter(|&ways| place >= ways) {
                if number + 1 < tried.len() {
                    place -= ways;
                    continue;
                }
                place = ways - 1;
            }
            out.push(rule as u8);
            match self.levels(rule, start, end).unwrap_or_default()[..] {
                [] => {}
                [level] => self.write(level, place, out),
                [inside, behind, ..] => self.write_step(inside, behind, place, out),
            }
            return;
        }
    }

    fn write_step(
        &self,
        inside: (u16, usize, usize),
        behind: (u16, usize, usize),
        place: u64,
        out: &mut Vec<u8>,
    ) {
        // a count that is over is above every place
        let split = |ways: Count| ways.map_or((0, place), |ways| (place / ways, place % ways));
        let (mut inner, mut later) = split(self.ways(behind));
        match self.slip {
            Some(Slip::InsideFirst) => (later, inner) = split(self.ways(inside)),
            Some(Slip::BehindStays) if self.ways(inside).is_none() => later = 0,
            _ => {}
        }
        if let Some(ways) = self.ways(inside) {
            inner = inner.min(ways - 1);
        }
        self.write(inside, inner, out);
        self.write(behind, later, out);
    }
}

#[cfg(test)]
mod tests {
    use super::*;
    use frames::counts::{examples, step_of, POWER_INSIDE};
    use reference::{parse_grammar, parse_history};

    fn tally(grammar: &[u8], history: &[u8], slip: Option<Slip>) -> Tally {
        let grammar = parse_grammar(grammar).unwrap();
        Tally::new(grammar, parse_history(history).unwrap(), slip)
    }

    /// Without a slip it gives what is due.
    #[test]
    fn by_hand() {
        for example in examples() {
            let right = || tally(&example.grammar, &example.history, None);
            assert_eq!(right().total(), example.total);
            for &(position, rule, due) in &example.at {
                if let Ok(due) = due {
                    assert_eq!(right().only(position, rule).total(), due);
                }
            }
            for (k, due) in &example.readings {
                if let Ok(due) = due {
                    assert_eq!(right().reading(*k), *due);
                }
            }
        }
    }

    #[test]
    fn slips() {
        let total = |behind: &[u32], slip| tally(&POWER_INSIDE, &step_of(70, behind), slip).total();
        assert_eq!(total(&[0], Some(Slip::ZeroTimesOver)), None);
        assert_eq!(total(&[], Some(Slip::BeginsAgain)), Some(0));
        let third = |slip| tally(&frames::G, &[4, 1, 2, 1, 2], slip).reading(3);
        assert_eq!(third(None), [2, 6, 1, 4, 0]);
        assert_eq!(third(Some(Slip::NonePassedOver)), [1, 4, 1, 4, 0]);
        assert_eq!(third(Some(Slip::LastRuleLeftOut)), [1, 4, 1, 4, 0]);
        assert_eq!(third(Some(Slip::LastRuleFirst)), [1, 4, 2, 6, 0]);
    }
}
