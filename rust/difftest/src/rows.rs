//! Grammars with rules of up to three stages in one set, in every order: the first mark of [`HISTORY`] leads to these stages, and at
//! the second each rule goes on to an end of its own.
use frames::{grammar_file, Rule};

/// Two marks.
pub const HISTORY: [u8; 3] = [2, 0, 0];

/// A set has up to so many rules.
const LONGEST: u32 = 5;
const STAGES: u16 = 32;
/// Stages beside those of a row, which are 0, 8 and 16: the start, one that no reading comes to, and the first of the ends.
const START: u16 = 1;
const UNUSED: u16 = 2;
const END: u16 = 3;

/// Every row of up to five numbers below 3.
fn rows() -> impl Iterator<Item = Vec<u16>> {
    let of_length = |length: u32| {
        let digit = |number: u16, place: u32| number / 3u16.pow(place) % 3;
        let row = move |number| (0..length).map(|place| digit(number, place)).collect();
        (0..3u16.pow(length)).map(row)
    };
    (1..=LONGEST).flat_map(of_length)
}

fn mark(from: u16, mark: u32, then: u16) -> Rule {
    Rule::Marks { from, mark, then }
}

/// The grammar of a row. All stages are moved up by `moved`, and three times as many rules that no reading has stand before those
/// of the row, so that the row begins in any word of a set and goes on in the next.
fn grammar(row: &[u16], moved: u16) -> Vec<u8> {
    let stage = |number: u16| (moved + number) % STAGES;
    let unused = (0..3 * moved).map(|n| mark(stage(UNUSED), 1 + u32::from(n), stage(UNUSED)));
    let of_row = |(place, number): (u16, &u16)| mark(stage(8 * number), 0, stage(END + place));
    let met = (0..3).filter(|number| row.contains(number));
    let to_row = met.map(|number| mark(stage(START), 0, stage(8 * number)));
    let ends = (0..row.len() as u16).map(|place| Rule::Ends {
        from: stage(END + place),
    });
    let row_itself = (0..).zip(row).map(of_row);
    let rules = unused.chain(row_itself).chain(to_row).chain(ends);
    let rules: Vec<Rule> = rules.collect();
    grammar_file(STAGES, Some(stage(START)), &rules)
}

/// Every row, at all stages.
pub fn all() -> impl Iterator<Item = Vec<u8>> {
    rows().flat_map(|row| (0..STAGES).map(move |moved| grammar(&row, moved)))
}

#[cfg(test)]
mod tests {
    use super::*;
    use crate::kept::kept;

    #[test]
    fn every_row() {
        let all: Vec<Vec<u16>> = rows().collect();
        assert_eq!(all.len(), 3 + 9 + 27 + 81 + 243);
        for row in [&[0][..], &[2], &[0, 0], &[0, 1, 0], &[2, 1, 0, 1, 2]] {
            assert!(all.iter().any(|other| other == row), "{row:?}");
        }
    }

    /// The set at the second mark is the row, behind the rules that no reading has.
    #[test]
    fn sets() {
        for (row, moved) in [(vec![0, 1, 0], 0), (vec![2, 0, 2, 1], 10), (vec![1], 31)] {
            let sets = kept(&grammar(&row, moved), &HISTORY);
            let stages: Vec<u16> = sets[1].iter().map(|kept| kept.stage).collect();
            let due = row.iter().map(|number| (8 * number + moved) % STAGES);
            assert_eq!(stages, due.collect::<Vec<_>>());
            assert_eq!(sets[1][0].rule, 3 * usize::from(moved));
        }
    }
}
