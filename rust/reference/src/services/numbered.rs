//! How many readings there are, how many with a rule at a position, and the k-th of them. A count is None where it is over.
use super::{Served, Work};
use crate::around;
use crate::big::Big;

impl Work {
    /// The count of readings, or the refusal.
    pub fn reading_count(&self) -> Result<Option<u64>, u8> {
        let served = self.served(|_| 0, 0)?;
        Ok(match served.few() {
            Some(few) => Some(few.len() as u64),
            None => served.counter.total().small(),
        })
    }

    /// The count of readings with the rule at the position, or the refusal.
    pub fn reading_count_at(&self, position: usize, rule: usize) -> Result<Option<u64>, u8> {
        let served = self.served(|_| 0, 0)?;
        if position >= served.positions() {
            return Err(18);
        }
        if rule >= served.counter.grammar().rules.len() {
            return Ok(Some(0));
        }
        Ok(match served.few() {
            Some(few) => Some(with(few, position, rule)),
            None => around::count_at(&served.counter, position, rule).small(),
        })
    }

    /// Writes the k-th reading, counted from 1.
    pub fn kth_reading(&self, k: u64, reading: &mut [u8]) -> u8 {
        let served = match self.served(|positions| positions, reading.len()) {
            Ok(served) => served,
            Err(number) => return number,
        };
        let k = Big::of_u64(k);
        if k.is_zero() || k > *served.counter.total() {
            return 18;
        }
        let place = k.minus(&Big::new(1));
        reading[..served.positions()].copy_from_slice(&served.reading_at(&place));
        0
    }
}

/// How many of these readings have the rule at the position.
fn with(readings: &[Vec<u8>], position: usize, rule: usize) -> u64 {
    let has = |reading: &&Vec<u8>| usize::from(reading[position]) == rule;
    readings.iter().filter(has).count() as u64
}

/// A long history is looked at in so many of its positions.
const LOOKED_AT: usize = 4;

impl Served {
    /// Whether the counts at a position add up to the total, and are those of the listed readings where these are few.
    pub(super) fn counts_agree(&self) -> bool {
        let last = self.positions() - 1;
        let apart = match self.few() {
            Some(_) => 1,
            None => (last / LOOKED_AT).max(1),
        };
        (0..=last).step_by(apart).all(|position| {
            let counts = around::counts_at(&self.counter, position);
            let sum = counts.iter().fold(Big::new(0), |sum, more| sum.plus(more));
            sum == *self.counter.total() && self.are_listed(&counts, position)
        })
    }

    fn are_listed(&self, counts: &[Big], position: usize) -> bool {
        let Some(few) = self.few() else { return true };
        let mut counts = counts.iter().enumerate();
        counts.all(|(rule, count)| count.small() == Some(with(few, position, rule)))
    }
}

#[cfg(test)]
mod tests {
    use super::*;
    use frames::counts::examples;
    use frames::{g_from, G};

    #[test]
    fn by_hand() {
        for example in examples() {
            let work = Work::new(&example.grammar, &example.history);
            assert_eq!(work.reading_count(), Ok(example.total));
            for (position, rule, due) in example.at {
                assert_eq!(work.reading_count_at(position, rule), due);
            }
            let positions = work.positions().unwrap();
            for (k, due) in example.readings {
                let mut lent = vec![77; positions + 2];
                let answer = work.kth_reading(k, &mut lent);
                let reading = due.clone().unwrap_or(vec![77; positions]);
                assert_eq!(answer, due.err().unwrap_or(0));
                assert_eq!(lent, [reading, vec![77; 2]].concat());
            }
            assert!(work.agrees_with_itself());
        }
    }

    /// The files come first, then the buffer, then k; the position comes before the rule.
    #[test]
    fn refusals() {
        let step = [3, 1, 0, 2];
        let kth = |grammar: &[u8], history: &[u8], k, lent: usize| {
            let mut reading = vec![77; lent];
            let answer = Work::new(grammar, history).kth_reading(k, &mut reading);
            assert!(answer == 0 || reading == vec![77; lent]);
            answer
        };
        assert_eq!(kth(&[1, 0], &[1, 1], 0, 0), 4);
        assert_eq!(kth(&G, &[1, 1], 0, 0), 13);
        assert_eq!([0, 1, 3].map(|k| kth(&G, &step, k, 3)), [15; 3]);
        assert_eq!([0, 1, 3].map(|k| kth(&G, &step, k, 4)), [18, 0, 18]);
        assert_eq!(Work::new(&[1, 0], &step).reading_count(), Err(4));
        let work = Work::new(&G, &[1, 1]);
        assert_eq!(work.reading_count_at(9, 9), Err(13));
        assert_eq!(Work::new(&G, &step).reading_count_at(4, 7), Err(18));
    }

    /// The start that the file says is gone by.
    #[test]
    fn from_another_stage() {
        let work = Work::new(&g_from(2), &[2, 0, 0]);
        assert_eq!(work.reading_count(), Ok(Some(1)));
        assert_eq!(work.reading_count_at(0, 5), Ok(Some(1)));
        assert_eq!(work.reading_count_at(0, 3), Ok(Some(0)));
        let mut reading = [77; 3];
        assert_eq!(work.kth_reading(1, &mut reading), 0);
        assert_eq!(reading, [5, 5, 6]);
    }
}
