//! How many readings have a rule at a position: the ways to come to the rule's stage there, counted from the start on and inward,
//! times the ways to go on by the rule.
use crate::big::Big;
use crate::counted::{Counter, Parts};

/// Where a walk inward stands: a place, the end of its level, and for each stage in how many ways all tokens but those from the
/// place to that end can be derived around the stage.
struct Around {
    place: usize,
    end: usize,
    ways: Vec<Big>,
}

impl Around {
    fn start(counter: &Counter) -> Around {
        let grammar = counter.grammar();
        let mut ways = vec![Big::new(0); grammar.stages.into()];
        ways[usize::from(grammar.start)] = Big::new(1);
        Around {
            place: 0,
            end: counter.tokens().len(),
            ways,
        }
    }

    /// One token nearer to a position behind the place: into the step that opens here, where the position is in it, else past the
    /// mark or the step.
    fn nearer(self, counter: &Counter, position: usize) -> Around {
        let mut next = Around {
            place: self.place + 1,
            end: self.end,
            ways: vec![Big::new(0); self.ways.len()],
        };
        for (stage, ways) in self.ways.iter().enumerate() {
            if ways.is_zero() {
                continue;
            }
            for &number in counter.rules_of(stage as u16) {
                match counter.parts(number, self.place, self.end) {
                    None | Some(Parts::Nothing) => {}
                    Some(Parts::Level(then, _)) => next.add(then, ways),
                    Some(Parts::Step { inside, shut, then }) if position <= shut => {
                        next.end = shut;
                        let later = counter.ways(then.0, then.1, self.end);
                        next.add(inside.0, &ways.times(&later));
                    }
                    Some(Parts::Step { inside, shut, then }) => {
                        next.place = shut + 1;
                        let inner = counter.ways(inside.0, inside.1, shut);
                        next.add(then.0, &ways.times(&inner));
                    }
                }
            }
        }
        next
    }

    fn add(&mut self, stage: u16, more: &Big) {
        let ways = &mut self.ways[usize::from(stage)];
        *ways = ways.plus(more);
    }

    fn of(counter: &Counter, position: usize) -> Around {
        let mut around = Around::start(counter);
        while around.place < position && around.ways.iter().any(|ways| !ways.is_zero()) {
            around = around.nearer(counter, position);
        }
        around
    }
}

/// For each rule how many readings have it at the position.
pub fn counts_at(counter: &Counter, position: usize) -> Vec<Big> {
    let around = Around::of(counter, position);
    let rules = 0..counter.grammar().rules.len();
    rules.map(|rule| around.with(counter, rule)).collect()
}

/// The same for one rule.
pub fn count_at(counter: &Counter, position: usize, rule: usize) -> Big {
    Around::of(counter, position).with(counter, rule)
}

impl Around {
    fn with(&self, counter: &Counter, rule: usize) -> Big {
        let stage = counter.grammar().rules[rule].from();
        let ways = &self.ways[usize::from(stage)];
        if ways.is_zero() {
            return Big::new(0);
        }
        ways.times(&counter.ways_by(rule as u8, self.place, self.end))
    }
}

#[cfg(test)]
mod tests {
    use super::*;
    use crate::{parse_grammar, parse_history};
    use frames::counts::examples;

    /// Whatever the total is, the counts at a position add up to it.
    #[test]
    fn add_up() {
        for example in examples() {
            let grammar = parse_grammar(&example.grammar).unwrap();
            let tokens = parse_history(&example.history).unwrap();
            let counter = Counter::new(grammar, tokens);
            assert_eq!(counter.total().small(), example.total);
            for position in 0..=counter.tokens().len() {
                let counts = counts_at(&counter, position);
                let sum = counts
                    .iter()
                    .fold(Big::new(0), |sum, count| sum.plus(count));
                assert_eq!(sum, *counter.total());
            }
        }
    }
}
