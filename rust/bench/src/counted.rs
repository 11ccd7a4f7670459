//! Counts of readings and reading k in plain Rust, over all rules or by an index, as crates/count_rows and crates/kth_run have them:
//! backward how many derivations of the rest of its level each stage has, forward the rule of each position.
use crate::index::Index;
use crate::plain::{has, levels, Levels};
use frames::Rule;

/// How many; None where it is over.
type Count = Option<u64>;

fn times(one: Count, other: Count) -> Count {
    if one == Some(0) || other == Some(0) {
        return Some(0);
    }
    one?.checked_mul(other?)
}

/// For each position 32 counts, one for each stage, and the stages whose count is over.
struct Rows {
    counts: Vec<u64>,
    overs: Vec<u32>,
}

impl Rows {
    fn new(positions: usize) -> Rows {
        Rows {
            counts: vec![0; 32 * (positions + 1)],
            overs: vec![0; positions + 1],
        }
    }

    fn at(&self, place: usize, stage: u16) -> Count {
        let exact = !has(self.overs[place], stage);
        exact.then(|| self.counts[32 * place + usize::from(stage)])
    }

    fn add(&mut self, place: usize, stage: u16, more: Count) {
        let held = self.at(place, stage).zip(more);
        match held.and_then(|(held, more)| held.checked_add(more)) {
            Some(sum) => self.counts[32 * place + usize::from(stage)] = sum,
            None => self.overs[place] |= 1 << stage,
        }
    }

    /// In how many ways a rule that can stand at a place is gone on with; `close` is the first pending one behind it.
    fn parts(&self, rule: &Rule, place: usize, close: usize) -> Count {
        match *rule {
            Rule::Ends { .. } => Some(1),
            Rule::Marks { then, .. } => self.at(place + 1, then),
            Rule::Steps { inside, then, .. } => {
                times(self.at(place + 1, inside), self.at(close + 1, then))
            }
        }
    }
}

/// All counts, where a rule may be the only one at a position.
struct Counted<I> {
    levels: Levels<I>,
    rows: Rows,
}

impl<I: Index> Counted<I> {
    fn of(levels: Levels<I>, alone: Option<(usize, usize)>) -> Counted<I> {
        let positions = levels.read.tokens.len() + 1;
        let rows = Rows::new(positions);
        let mut counted = Counted { levels, rows };
        for place in (0..positions).rev() {
            let alone = alone.filter(|&(position, _)| position == place);
            counted.fill(place, alone.map(|(_, rule)| rule));
        }
        counted
    }

    fn fill(&mut self, place: usize, alone: Option<usize>) {
        let allowed = |rule: usize| alone.is_none_or(|alone| alone == rule);
        if let Some(ends) = self.levels.ends_at(place) {
            let mut left = ends.stages;
            while left != 0 {
                let stage = left.trailing_zeros() as u16;
                left &= left - 1;
                if allowed(ends.rule[usize::from(stage)].into()) {
                    self.rows.add(place, stage, Some(1));
                }
            }
            return;
        }
        let close = self.levels.close[place];
        for (number, rule) in self.levels.rules_at(place) {
            if allowed(number) && self.levels.applies(rule, place) {
                let parts = self.rows.parts(rule, place, close);
                self.rows.add(place, rule.from(), parts);
            }
        }
    }

    fn total(&self) -> Count {
        self.rows.at(0, self.levels.read.start)
    }

    /// The rule at a place of the reading with this number, from 0, among those that have come there in the same way; the number
    /// becomes that among those which have the rule. `due` is how many readings each derivation of the level's rest has behind it.
    fn rule_at(&self, place: usize, stage: u16, due: Count, number: &mut u64) -> usize {
        if self.levels.ends_at(place).is_some() {
            return self.levels.smallest(stage, place);
        }
        let close = self.levels.close[place];
        let rules = self.levels.rules_at(place);
        for (found, rule) in rules.filter(|(_, rule)| self.levels.fits(rule, stage, place)) {
            match times(self.rows.parts(rule, place, close), due) {
                Some(size) if *number >= size => *number -= size,
                _ => return found,
            }
        }
        unreachable!("a number below the count");
    }

    fn write(&self, number: u64, out: &mut [u8]) {
        let Levels { read, close, .. } = &self.levels;
        let mut behind = vec![0; close.len()];
        let mut dues = vec![Some(1); close.len()];
        let (mut stage, mut due, mut number) = (read.start, Some(1), number);
        for (place, &close) in close.iter().enumerate() {
            let found = self.rule_at(place, stage, due, &mut number);
            out[place] = found as u8;
            let rule = &read.rules[found];
            if let Rule::Steps { then, .. } = *rule {
                dues[close] = times(self.rows.at(close + 1, then), due);
            }
            stage = self.levels.go_on(rule, place, &mut behind);
            due = dues[close];
        }
    }
}

/// The count, where it isn't over, or the number of the refusal.
pub fn reading_count<I: Index>(grammar: &[u8], history: &[u8]) -> Result<Count, u8> {
    let levels = levels::<I>(grammar, history, 0, |_| 0)?;
    Ok(Counted::of(levels, None).total())
}

/// The same with a rule at a position.
pub fn reading_count_at<I: Index>(
    grammar: &[u8],
    history: &[u8],
    position: usize,
    rule: usize,
) -> Result<Count, u8> {
    let levels = levels::<I>(grammar, history, 0, |_| 0)?;
    if position > levels.read.tokens.len() {
        return Err(18);
    }
    Ok(Counted::of(levels, Some((position, rule))).total())
}

pub fn reading_at<I: Index>(grammar: &[u8], history: &[u8], k: u64, out: &mut [u8]) -> u8 {
    let levels = match levels::<I>(grammar, history, out.len(), |positions| positions) {
        Ok(levels) => levels,
        Err(number) => return number,
    };
    let counted = Counted::of(levels, None);
    if k == 0 || counted.total().is_some_and(|total| k > total) {
        return 18;
    }
    counted.write(k - 1, out);
    0
}

#[cfg(test)]
mod tests {
    use super::*;
    use crate::index::{Classes, Scan};
    use frames::counts::{examples, Example};

    fn by_hand<I: Index>(example: &Example) {
        let Example {
            grammar, history, ..
        } = example;
        assert_eq!(reading_count::<I>(grammar, history), Ok(example.total));
        for &(position, rule, due) in &example.at {
            let given = reading_count_at::<I>(grammar, history, position, rule);
            assert_eq!(given, due);
        }
        for (k, due) in &example.readings {
            let positions = gaffmedlar::history_check(history).unwrap() + 1;
            let mut out = vec![77; positions];
            let answer = reading_at::<I>(grammar, history, *k, &mut out);
            let given = if answer == 0 { Ok(out) } else { Err(answer) };
            assert_eq!(given, *due);
        }
    }

    #[test]
    fn on_both_sides() {
        for example in &examples() {
            by_hand::<Scan>(example);
            by_hand::<Classes>(example);
        }
    }
}
