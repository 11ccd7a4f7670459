//! Damages files: their numbers, their bytes, and the form of a number.
use crate::random::Random;
use std::ops::Range;

/// Numbers at the ends of ranges: of stages, rules, names, tokens and token counts, and of what one to four bytes hold.
const ENDS: [u32; 43] = [
    0,
    1,
    2,
    3,
    4,
    7,
    31,
    32,
    33,
    62,
    63,
    64,
    127,
    128,
    129,
    252,
    253,
    254,
    255,
    256,
    257,
    1023,
    1024,
    1025,
    16_383,
    16_384,
    16_385,
    65_534,
    65_535,
    65_536,
    65_537,
    262_139,
    262_140,
    262_141,
    262_142,
    262_143,
    262_144,
    262_145,
    262_146,
    262_148,
    2_097_151,
    2_097_152,
    u32::MAX,
];

/// One number changed, put in, taken out or repeated; ranges' ends come often.
pub fn numbers(random: &mut Random, numbers: &mut Vec<u32>) {
    if numbers.is_empty() {
        return;
    }
    let place = random.below(numbers.len());
    match random.below(9) {
        0 => {
            numbers.remove(place);
        }
        1 => numbers.insert(place, random.one(&ENDS)),
        2 => numbers.insert(place, numbers[place]),
        3 => numbers[place] = numbers[place].saturating_add(1),
        4 => numbers[place] = numbers[place].saturating_sub(1),
        // one of which the low bits alone are the number
        5 => numbers[place] = numbers[place].wrapping_add(1 << random.one(&[7, 8, 14, 16, 18, 21])),
        _ => numbers[place] = random.one(&ENDS),
    }
}

/// One byte changed, put in or taken out, or the end elsewhere.
pub fn bytes(random: &mut Random, bytes: &mut Vec<u8>) {
    let place = random.below(bytes.len() + 1);
    match random.below(8) {
        0 => bytes.truncate(place),
        1 => bytes.push(random.next() as u8),
        2 => {
            bytes.pop();
        }
        3 => bytes.insert(place, random.next() as u8),
        4 if place < bytes.len() => {
            bytes.remove(place);
        }
        5 if place < bytes.len() => bytes[place] ^= 1 << random.below(8),
        6 if place < bytes.len() => bytes[place] |= 128,
        _ if place < bytes.len() => {
            bytes[place] = random.one(&[0, 1, 2, 3, 63, 64, 127, 128, 129, 255]);
        }
        _ => {}
    }
}

/// Where each number stands; the bytes may end inside the last one.
fn spans(bytes: &[u8]) -> Vec<Range<usize>> {
    let mut end = 0;
    let groups = bytes.split_inclusive(|&byte| byte < 128);
    groups
        .map(|groups| {
            end += groups.len();
            end - groups.len()..end
        })
        .collect()
}

/// One number, often one of several bytes, gets a form that is too long or too short, or the bytes end inside it.
pub fn form(random: &mut Random, bytes: &mut Vec<u8>) {
    let all = spans(bytes);
    let long: Vec<Range<usize>> = all.iter().filter(|span| span.len() > 1).cloned().collect();
    let among = if long.is_empty() || random.percent(30) {
        &all
    } else {
        &long
    };
    if among.is_empty() {
        return;
    }
    let Range { start, end } = among[random.below(among.len())].clone();
    let last = end - 1;
    match random.below(8) {
        // the end inside the number, or behind it
        0 => bytes.truncate(random.within(start + 1, end)),
        // the same number, in one byte more and in two
        1 => longer(bytes, end, &[0]),
        2 => longer(bytes, end, &[128, 0]),
        // another number, in one byte more, whose top bit may be set
        3 => longer(bytes, end, &[random.next() as u8]),
        4 => bytes[last] |= 128,
        5 => bytes[last] = 0,
        6 => bytes[(start + 1).min(last)] = 0,
        _ => bytes[(start + 1).min(last)] &= 127,
    }
}

/// More bytes behind those of a number.
fn longer(bytes: &mut Vec<u8>, end: usize, more: &[u8]) {
    bytes[end - 1] |= 128;
    bytes.splice(end..end, more.iter().copied());
}

#[cfg(test)]
mod tests {
    use super::*;
    use std::collections::HashSet;

    fn made_of(bytes: &[u8]) -> HashSet<Vec<u8>> {
        let damaged = |seed| {
            let mut damaged = bytes.to_vec();
            form(&mut Random::new(seed), &mut damaged);
            damaged
        };
        (0..5000).map(damaged).collect()
    }

    #[test]
    fn numbers_of_three_bytes() {
        let made = made_of(&[1, 252, 255, 15]);
        let due: [&[u8]; 11] = [
            &[1],
            &[1, 252],
            &[1, 252, 255],
            // the third byte 0, with its top bit set, with another byte behind it
            &[1, 252, 255, 0],
            &[1, 252, 255, 143],
            &[1, 252, 255, 143, 0],
            &[1, 252, 255, 143, 1],
            &[1, 252, 255, 143, 128, 0],
            // the second byte 0, or the last
            &[1, 252, 0, 15],
            &[1, 252, 127, 15],
            &[129, 0, 252, 255, 15],
        ];
        for bytes in due {
            assert!(made.contains(bytes), "{bytes:?}");
        }
    }

    #[test]
    fn numbers_of_one_and_two_bytes() {
        let made = made_of(&[1, 161, 1]);
        let due: [&[u8]; 7] = [
            &[1, 161],
            &[1, 161, 0],
            &[1, 161, 129],
            // the same number in three bytes, another one, and four
            &[1, 161, 129, 0],
            &[1, 161, 129, 1],
            &[1, 161, 129, 128, 0],
            &[129, 128, 0, 161, 1],
        ];
        for bytes in due {
            assert!(made.contains(bytes), "{bytes:?}");
        }
        assert_eq!(made_of(&[]), HashSet::from([vec![]]));
        assert!(made_of(&[128, 128]).contains(&[128][..]));
    }
}
