//! What a run has met of counts: how large they were, and what a count at a position was of the total.
use crate::case::{Outcome, Service};
use reference::OVER;

/// How often each was met.
#[derive(Default)]
pub struct SeenCounts {
    totals: [u64; TOTALS.len()],
    at: [u64; AT.len()],
    /// The count of all readings of the case that is looked at; None where it is over.
    total: Option<u64>,
}

/// What a total can be.
const TOTALS: [&str; 7] = [
    "none",
    "one",
    "up to 2^32",
    "up to 2^63",
    "up to 2^64 - 2",
    "2^64 - 1",
    "over",
];

/// What a count at a position can be.
const AT: [&str; 6] = [
    "none where there are readings",
    "a part",
    "all where there are some",
    "exact where the total is over",
    "2^64 - 1",
    "over",
];

fn kind_of_total(total: Option<u64>) -> usize {
    match total {
        Some(0) => 0,
        Some(1) => 1,
        Some(count) if count <= 1 << 32 => 2,
        Some(count) if count <= 1 << 63 => 3,
        Some(count) if count < u64::MAX => 4,
        Some(_) => 5,
        None => 6,
    }
}

/// Which of [`AT`] hold of a count, of which there may be none.
fn kinds_at(count: Option<u64>, total: Option<u64>) -> Vec<usize> {
    let mut kinds = Vec::new();
    match (count, total) {
        (None, _) => kinds.push(5),
        (Some(0), Some(0)) => {}
        (Some(0), _) => kinds.push(0),
        (Some(_), None) => kinds.push(3),
        (some, all) if some == all => kinds.push(2),
        _ => kinds.push(1),
    }
    kinds.extend((count == Some(u64::MAX)).then_some(4));
    kinds
}

impl SeenCounts {
    pub fn outcome(&mut self, service: Service, outcome: &Outcome) {
        let count = match outcome.answer {
            0 => outcome.counts.first().copied(),
            OVER => None,
            _ => return,
        };
        match service {
            Service::ReadingCount => {
                self.total = count;
                self.totals[kind_of_total(count)] += 1;
            }
            // the total of the same case was told just before
            Service::ReadingCountAt => {
                for kind in kinds_at(count, self.total) {
                    self.at[kind] += 1;
                }
            }
            _ => {}
        }
    }

    /// Prints all of it, and says whether nothing is missing.
    pub fn report(&self) -> bool {
        let tables = [
            ("counts of readings met", &TOTALS[..], &self.totals[..]),
            ("counts at a position met", &AT, &self.at),
        ];
        for (what, kinds, met) in tables {
            println!("{what}");
            for (name, count) in kinds.iter().zip(met) {
                println!("  {name}  {count}");
            }
        }
        self.totals.iter().chain(&self.at).all(|&count| count > 0)
    }
}

#[cfg(test)]
mod tests {
    use super::*;

    #[test]
    fn kinds() {
        let sizes = [0, 1, 2, 1 << 32, (1 << 32) + 1, 1 << 63, u64::MAX - 1];
        let met = sizes.map(|size| kind_of_total(Some(size)));
        assert_eq!(met, [0, 1, 2, 2, 3, 3, 4]);
        assert_eq!([Some(u64::MAX), None].map(kind_of_total), [5, 6]);
        assert_eq!(kinds_at(Some(0), Some(0)), []);
        assert_eq!(kinds_at(Some(0), None), [0]);
        assert_eq!(kinds_at(Some(3), Some(4)), [1]);
        assert_eq!(kinds_at(Some(4), Some(4)), [2]);
        assert_eq!(kinds_at(Some(u64::MAX), None), [3, 4]);
        assert_eq!(kinds_at(None, None), [5]);
    }
}
