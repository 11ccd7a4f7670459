//! The beginning of a grammar, which says its start or doesn't: damaged in every way, listed whole, and changed.
use crate::random::Random;
use frames::numbers_file;

/// Numbers that are too large for a stage, or just not.
const LARGE: [u32; 12] = [
    31, 32, 33, 63, 64, 127, 128, 255, 256, 16_383, 16_384, 65_536,
];

/// Whether a grammar, by its numbers or its bytes, says its start.
pub fn says_start<T: PartialEq + From<u8>>(numbers: &[T]) -> bool {
    numbers.first() == Some(&T::from(0))
}

/// A file that says its start in one byte, with another start.
pub fn with_start(grammar: &[u8], start: u8) -> Vec<u8> {
    let mut changed = grammar.to_vec();
    changed[2] = start;
    changed
}

/// A grammar that passes and says its start, with stage 0 in its place; any other file as it is.
pub fn from_stage_0(grammar: &[u8]) -> Vec<u8> {
    if says_start(grammar) && reference::grammar_check(grammar).is_ok() {
        return with_start(grammar, 0);
    }
    grammar.to_vec()
}

/// One fault among the first numbers: a count or the start wrong, two of them exchanged, one left out or put in, or the end
/// behind one of them.
pub fn damage(random: &mut Random, numbers: &mut Vec<u32>) {
    let said = says_start(numbers);
    let (stages, rules) = if said { (1, 3) } else { (0, 1) };
    if numbers.len() <= rules {
        return;
    }
    match random.below(13) {
        0 | 1 => numbers.truncate(random.within(0, rules + 1)),
        2 => numbers[stages] = 0,
        3 => numbers[stages] = random.one(&LARGE),
        4 => numbers[rules] = random.one(&[0, 129, 255, 16_384]),
        5 => numbers.swap(rules - 1, rules),
        6 => numbers.insert(0, 0),
        7 if said => {
            numbers.remove(0);
        }
        7 => numbers.insert(1, 0),
        8 | 9 if said => numbers[2] = numbers[1],
        10 if said => numbers[2] = random.one(&LARGE),
        11 if said => {
            numbers.remove(2);
        }
        _ => numbers.swap(0, 1),
    }
}

/// One of the first bytes has its top bit set: with nothing behind it, or with bytes that make the number's form wrong, or that
/// make it large.
fn damage_bytes(random: &mut Random, bytes: &mut Vec<u8>) {
    let place = random.below(bytes.len().min(4));
    bytes[place] |= 128;
    let behind: &[&[u8]] = match random.below(6) {
        0 => {
            bytes.truncate(place + 1);
            &[&[], &[128], &[255]]
        }
        1 => &[&[1], &[2], &[127]],
        2 => &[&[128, 1], &[129, 2], &[255, 127]],
        3 => &[&[128], &[129], &[255], &[128, 128], &[255, 255]],
        4 => &[&[128, 0], &[255, 0], &[128, 128, 0], &[128, 128, 1]],
        _ => &[&[0]],
    };
    let behind = random.one(behind);
    bytes.splice(place + 1..place + 1, behind.iter().copied());
}

/// The bytes of a grammar's numbers with a fault at their beginning.
pub fn damaged(random: &mut Random, numbers: &[u32]) -> Vec<u8> {
    let mut numbers = numbers.to_vec();
    if random.percent(65) {
        damage(random, &mut numbers);
        return numbers_file(&numbers);
    }
    let mut bytes = numbers_file(&numbers);
    damage_bytes(random, &mut bytes);
    bytes
}

/// Every beginning with a start: all stage counts and starts up to some that are too large, each with several rule counts, two
/// rules behind them, and cut behind each number.
pub fn all() -> impl Iterator<Item = Vec<u32>> {
    let large = [127, 128, 255, 256, 16_383, 16_384, 65_536, 2_097_151];
    let counts = move || (0..=34).chain(large).chain([1 << 21, u32::MAX]);
    let rules = [0, 1, 2, 3, 128, 129];
    let heads = counts().flat_map(move |stages| {
        counts().flat_map(move |start| rules.map(|rules| [0, stages, start, rules, 0, 0, 0, 1]))
    });
    heads.flat_map(|head| (1..=head.len()).map(move |end| head[..end].to_vec()))
}

#[cfg(test)]
mod tests {
    use super::*;
    use std::collections::HashSet;

    /// Two rules behind the beginning, which stay as they are.
    fn with_rules(head: &[u8]) -> Vec<u8> {
        [head, &[0, 0, 0, 1]].concat()
    }

    fn made_of(numbers: &[u32]) -> HashSet<Vec<u8>> {
        (0..5000)
            .map(|seed| damaged(&mut Random::new(seed), numbers))
            .collect()
    }

    #[test]
    fn damage_where_the_start_is_said() {
        let made = made_of(&[0, 3, 1, 2, 0, 0, 0, 1]);
        for cut in [&[][..], &[0], &[0, 3], &[0, 3, 1], &[0, 3, 1, 2]] {
            assert!(made.contains(cut), "cut to {cut:?}");
        }
        for cut in [&[128][..], &[128, 128], &[0, 131, 255], &[0, 3, 1, 130]] {
            assert!(made.contains(cut), "cut inside {cut:?}");
        }
        let heads: [&[u8]; 17] = [
            // no stage, too many, no rule
            &[0, 0, 1, 2],
            &[0, 33, 1, 2],
            &[0, 3, 1, 0],
            // the start is the stage count, above it, in two bytes, in a form that is too long
            &[0, 3, 3, 2],
            &[0, 3, 33, 2],
            &[0, 3, 129, 1, 2],
            &[0, 3, 129, 0, 2],
            // in three bytes: 16,385, too long, with a top bit, and four
            &[0, 3, 129, 128, 1, 2],
            &[0, 3, 129, 128, 0, 2],
            &[0, 3, 129, 128, 128, 2],
            &[0, 3, 129, 128, 128, 1, 2],
            // the start and the rule count exchanged, the start left out
            &[0, 3, 2, 1],
            &[0, 3, 2],
            // the 0 left out, twice, in two bytes, behind the stage count
            &[3, 1, 2],
            &[0, 0, 3, 1, 2],
            &[128, 0, 3, 1, 2],
            &[3, 0, 1, 2],
        ];
        for head in heads {
            assert!(made.contains(&with_rules(head)), "{head:?}");
        }
    }

    #[test]
    fn damage_where_it_is_not() {
        let made = made_of(&[3, 2, 0, 0, 0, 1]);
        for cut in [&[][..], &[3], &[3, 2]] {
            assert!(made.contains(cut), "cut to {cut:?}");
        }
        // a 0 without a start, a start without the 0, no stage, both counts exchanged, forms that are too long
        let heads: [&[u8]; 6] = [
            &[0, 3, 2],
            &[3, 0, 2],
            &[0, 2],
            &[2, 3],
            &[131, 0, 2],
            &[131, 128, 0, 2],
        ];
        for head in heads {
            assert!(made.contains(&with_rules(head)), "{head:?}");
        }
    }
}
