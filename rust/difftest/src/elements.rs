//! Makes the elements that a writer is called with: the numbers of a file as they are, changed at one place, or any numbers.
use crate::grammars::Made;
use crate::heads;
use crate::random::Random;
use crate::writing::Kind;

/// Numbers at the ends of ranges: of stages, rules, token counts, names and tokens.
const ENDS: [u32; 34] = [
    0, 1, 2, 3, 4, 31, 32, 33, 62, 63, 64, 127, 128, 129, 255, 256, 1023, 1024, 1025, 16_383,
    16_384, 16_385, 65_534, 65_535, 65_536, 65_537, 262_139, 262_140, 262_141, 262_142, 262_143,
    262_144, 262_145, 262_146,
];
/// Numbers that are too large for every place, around what three bytes and a cast to fewer bits hold.
const LARGE: [u32; 10] = [
    262_144,
    262_148,
    2_097_148,
    2_097_151,
    2_097_152,
    1 << 24,
    1 << 31,
    u32::MAX - 3,
    u32::MAX - 1,
    u32::MAX,
];

/// Elements for the writer of such a file.
pub fn elements(random: &mut Random, file: &[u8], kind: Kind) -> Vec<u32> {
    if random.percent(5) {
        return any(random);
    }
    let mut elements = match random.below(400) {
        0 => longest(random, kind),
        _ => gaffmedlar::numbers(file),
    };
    match (kind, random.below(100)) {
        (Kind::Grammar, 0..=14) => heads::damage(random, &mut elements),
        (_, 15..=69) => change(random, &mut elements),
        _ => {}
    }
    elements
}

/// 128 rules of ten bytes, with or without the start, or 1,024 tokens of three bytes each: no file has more bytes.
fn longest(random: &mut Random, kind: Kind) -> Vec<u32> {
    match kind {
        Kind::Grammar => {
            let made = Made::longest(random.one(&[None, Some(0), Some(31)]));
            made.numbers()
        }
        Kind::History => frames::wide::longest_history().0,
    }
}

fn any(random: &mut Random) -> Vec<u32> {
    (0..random.below(12))
        .map(|_| match random.below(8) {
            0 => random.next() as u32,
            1 => random.one(&LARGE),
            2 | 3 => random.one(&ENDS),
            _ => random.below(4) as u32,
        })
        .collect()
}

/// One change: a number moved by one or made large, or elements dropped, added or exchanged.
fn change(random: &mut Random, elements: &mut Vec<u32>) {
    if elements.is_empty() {
        return elements.push(random.one(&ENDS));
    }
    let place = random.below(elements.len());
    let element = &mut elements[place];
    match random.below(10) {
        0 => *element = element.wrapping_add(1),
        1 => *element = element.wrapping_sub(1),
        2 => *element = random.one(&ENDS),
        3 => *element = random.one(&LARGE),
        // one of which the low bits alone are the number
        4 => *element = element.wrapping_add(1 << random.one(&[7, 8, 14, 16, 18, 21, 24, 31])),
        5 => {
            elements.remove(place);
        }
        6 => elements.push(random.one(&ENDS)),
        7 => {
            let other = random.below(elements.len());
            elements.swap(place, other);
        }
        8 => elements.truncate(place),
        _ => {
            let more = random.one(&[2, 3, 255, 256, 1024, 1026, 5000]);
            elements.resize(elements.len() + more, random.below(3) as u32);
        }
    }
}
