//! The writers of both files, by document 02's words: the elements are judged one after the other by document 01's table,
//! and then written, a grammar always with its start. Nothing of the reader is used.
use std::ops::RangeInclusive;
use std::slice::Iter;

/// Writes a grammar file into the buffer and gives its length, or the number of the refusal.
pub fn write_grammar(elements: &[u32], buffer: &mut [u8]) -> Result<usize, u8> {
    judge_grammar(elements)?;
    fill(&with_start(elements), buffer)
}

/// Writes a history file into the buffer and gives its length, or the number of the refusal.
pub fn write_history(elements: &[u32], buffer: &mut [u8]) -> Result<usize, u8> {
    judge_history(elements)?;
    fill(elements, buffer)
}

/// The next element, where it is one of those allowed: 1 where there is none, else the number that is due for others.
fn next(rest: &mut Iter<u32>, allowed: RangeInclusive<u32>, number: u8) -> Result<u32, u8> {
    match rest.next() {
        None => Err(1),
        Some(element) if allowed.contains(element) => Ok(*element),
        Some(_) => Err(number),
    }
}

/// Whether the elements of a grammar say its start.
fn says_start(elements: &[u32]) -> bool {
    elements.first() == Some(&0)
}

/// A grammar's elements in the longer form: where they don't say the start, a 0 goes before the stage count and one behind it.
fn with_start(elements: &[u32]) -> Vec<u32> {
    let mut longer = elements.to_vec();
    if !says_start(elements) {
        longer.insert(1, 0);
        longer.insert(0, 0);
    }
    longer
}

fn judge_grammar(elements: &[u32]) -> Result<(), u8> {
    let mut rest = elements.iter();
    if says_start(elements) {
        rest.next();
    }
    let stages = next(&mut rest, 1..=32, 3)?;
    if says_start(elements) {
        next(&mut rest, 0..=stages - 1, 6)?;
    }
    let count = next(&mut rest, 1..=128, 4)?;
    let mut earlier: Vec<&[u32]> = Vec::new();
    for _ in 0..count {
        let from = rest.as_slice();
        judge_rule(&mut rest, stages)?;
        let rule = &from[..from.len() - rest.len()];
        if earlier.contains(&rule) {
            return Err(8);
        }
        earlier.push(rule);
    }
    none_left(rest)
}

/// A form, a stage, and for each token that the form makes its name and a stage.
fn judge_rule(rest: &mut Iter<u32>, stages: u32) -> Result<(), u8> {
    let tokens = next(rest, 0..=2, 5)?;
    next(rest, 0..=stages - 1, 6)?;
    for _ in 0..tokens {
        next(rest, 0..=65_535, 7)?;
        next(rest, 0..=stages - 1, 6)?;
    }
    Ok(())
}

fn judge_history(elements: &[u32]) -> Result<(), u8> {
    let mut rest = elements.iter();
    let count = next(&mut rest, 0..=1024, 10)?;
    let mut open = 0;
    for _ in 0..count {
        let kind = next(&mut rest, 0..=262_143, 11)? % 4;
        open = match (kind, open) {
            (0, _) => open,
            (1, 128) => return Err(14),
            (1, _) => open + 1,
            (2, 0) => return Err(12),
            (2, _) => open - 1,
            _ => return Err(11),
        };
    }
    if open > 0 {
        return Err(13);
    }
    none_left(rest)
}

fn none_left(rest: Iter<u32>) -> Result<(), u8> {
    match rest.len() {
        0 => Ok(()),
        _ => Err(9),
    }
}

/// The elements that passed, into the buffer's first bytes; or 15.
fn fill(elements: &[u32], buffer: &mut [u8]) -> Result<usize, u8> {
    let file: Vec<u8> = elements.iter().flat_map(|&number| groups(number)).collect();
    let room = buffer.get_mut(..file.len()).ok_or(15)?;
    room.copy_from_slice(&file);
    Ok(file.len())
}

/// A number in groups of seven bits, lowest group first, each byte but the last with its top bit set.
fn groups(number: u32) -> Vec<u8> {
    let low = (number & 0x7f) as u8;
    match number >> 7 {
        0 => vec![low],
        higher => [vec![low | 0x80], groups(higher)].concat(),
    }
}

#[cfg(test)]
mod tests {
    use super::*;
    use frames::{g_from, wide, G, G_EXCHANGED};

    type Writer = fn(&[u32], &mut [u8]) -> Result<usize, u8>;

    /// The buffer is filled with 170 before.
    fn due(write: Writer, elements: &[u32], room: usize, due: Result<&[u8], u8>) {
        let mut buffer = vec![170; room];
        let mut after = buffer.clone();
        if let Ok(file) = due {
            after[..file.len()].copy_from_slice(file);
        }
        assert_eq!(write(elements, &mut buffer), due.map(|file| file.len()));
        assert_eq!(buffer, after);
    }

    #[test]
    fn examples_of_grammars() {
        let g = G.map(u32::from);
        let longer = [&[0, 3, 0, 7], &G[2..]].concat();
        due(write_grammar, &g, 30, Ok(&longer));
        due(write_grammar, &g, 40, Ok(&longer));
        // the short form would have room
        due(write_grammar, &g, 29, Err(15));
        due(write_grammar, &g, 28, Err(15));
        for room in [0, 28, 30] {
            due(write_grammar, &g[..27], room, Err(1));
            due(write_grammar, &[&g[..], &[5]].concat(), room, Err(9));
            due(write_grammar, &[1, 1, 1, 0, 70_000, 0], room, Err(7));
            due(write_grammar, &[1, 128, 0, 0, 0, 0], room, Err(8));
            due(write_grammar, &[], room, Err(1));
            due(write_grammar, &[u32::MAX], room, Err(3));
        }
    }

    #[test]
    fn examples_of_grammars_with_a_start() {
        for file in [g_from(0), g_from(1), g_from(2), G_EXCHANGED.to_vec()] {
            let elements: Vec<u32> = file.iter().map(|&number| number.into()).collect();
            due(write_grammar, &elements, 30, Ok(&file));
            due(write_grammar, &elements, 33, Ok(&file));
            due(write_grammar, &elements, 29, Err(15));
            due(write_grammar, &elements[..29], 30, Err(1));
            due(write_grammar, &[&elements[..], &[0]].concat(), 30, Err(9));
        }
        let heads: [(&[u32], u8); 12] = [
            (&[0], 1),
            (&[0, 0], 3),
            (&[0, 0, 0, 0], 3),
            (&[0, 33, 0, 1, 0, 0], 3),
            (&[0, 1 << 16, 0, 1, 0, 0], 3),
            (&[0, 1], 1),
            (&[0, 1, 1], 6),
            (&[0, 32, 32, 0], 6),
            (&[0, 32, 1 << 16, 1, 0, 0], 6),
            (&[0, 1, u32::MAX, 129], 6),
            (&[0, 1, 0], 1),
            (&[0, 1, 0, 0], 4),
        ];
        for (elements, number) in heads {
            due(write_grammar, elements, 0, Err(number));
            due(write_grammar, elements, 30, Err(number));
        }
    }

    #[test]
    fn examples_of_histories() {
        due(write_history, &[2, 161, 134], 5, Ok(&[2, 161, 1, 134, 1]));
        due(write_history, &[2, 161, 134], 9, Ok(&[2, 161, 1, 134, 1]));
        due(write_history, &[2, 161, 134], 4, Err(15));
        due(write_history, &[0], 0, Err(15));
        due(write_history, &[0], 1, Ok(&[0]));
        for room in [0, 9] {
            due(write_history, &[2, 1, 1, 0], room, Err(13));
            due(write_history, &[1, 0, 0], room, Err(9));
            due(write_history, &[1, 262_144], room, Err(11));
            due(write_history, &[1025], room, Err(10));
            due(write_history, &[], room, Err(1));
        }
    }

    /// Names and tokens up to the largest, and what is above.
    #[test]
    fn wide_names() {
        let marks = &[0, 1, 0, 1, 1, 0, 255, 255, 3, 0];
        due(write_grammar, &[1, 1, 1, 0, 65_535, 0], 10, Ok(marks));
        due(write_grammar, &[1, 1, 1, 0, 65_535, 0], 9, Err(15));
        let step = [1, 1, 2, 0, 40_000, 0, 32_767, 0];
        let file = &[0, 1, 0, 1, 2, 0, 192, 184, 2, 0, 255, 255, 1, 0];
        due(write_grammar, &step, 14, Ok(file));
        for place in [4, 6] {
            for name in [65_536, 65_537, 131_071, 1 << 21, 1 << 31, u32::MAX] {
                let mut above = step;
                above[place] = name;
                due(write_grammar, &above, 20, Err(7));
            }
        }
        let tokens: [(u32, &[u8]); 4] = [
            (16_380, &[1, 252, 127]),
            (16_384, &[1, 128, 128, 1]),
            (160_000, &[1, 128, 226, 9]),
            (262_140, &[1, 252, 255, 15]),
        ];
        for (token, file) in tokens {
            due(write_history, &[1, token], file.len(), Ok(file));
            due(write_history, &[1, token], file.len() - 1, Err(15));
        }
        let step = &[2, 253, 255, 15, 254, 255, 15];
        due(write_history, &[2, 262_141, 262_142], 7, Ok(step));
        let refused = [(262_141, 13), (262_142, 12), (16_383, 11), (65_535, 11)];
        let above = [262_143, 262_144, 262_145, 1 << 21, u32::MAX - 3];
        for (token, number) in refused.into_iter().chain(above.map(|token| (token, 11))) {
            due(write_history, &[1, token], 9, Err(number));
        }
    }

    #[test]
    fn longest_files() {
        for says_start in [false, true] {
            let (numbers, file) = wide::longest_grammar(says_start);
            due(write_grammar, &numbers, 1285, Ok(&file));
            due(write_grammar, &numbers, 1284, Err(15));
        }
        let (numbers, file) = wide::longest_history();
        due(write_history, &numbers, 3080, Ok(&file));
        due(write_history, &numbers, 3073, Err(15));
    }

    /// Counts in two bytes, and the limits on their both sides.
    #[test]
    fn limits() {
        let marks = |count: u32| [vec![count], vec![0; count as usize]].concat();
        let full = [vec![128, 8], vec![0; 1024]].concat();
        due(write_history, &marks(1024), 1026, Ok(&full));
        due(write_history, &marks(1025), 2000, Err(10));
        let nested = |deep: usize| [vec![2 * deep as u32], vec![1; deep], vec![2; deep]].concat();
        let file = [vec![128, 2], vec![1; 128], vec![2; 128]].concat();
        due(write_history, &nested(128), 258, Ok(&file));
        due(write_history, &nested(129), 300, Err(14));
        let rules: Vec<u8> = (0..128).flat_map(|k| [1, 1, k, 0]).collect();
        let mut elements: Vec<u32> = rules.iter().map(|&number| number.into()).collect();
        elements.splice(0..0, [2, 128]);
        let file = [vec![0, 2, 0, 128, 1], rules].concat();
        due(write_grammar, &elements, 517, Ok(&file));
        due(write_grammar, &elements, 516, Err(15));
        elements[1] = 129;
        due(write_grammar, &elements, 517, Err(4));
        assert_eq!(groups(127), [127]);
        assert_eq!(groups(128), [128, 1]);
        assert_eq!(groups(16_383), [255, 127]);
        assert_eq!(groups(16_384), [128, 128, 1]);
        assert_eq!(groups(262_142), [254, 255, 15]);
    }
}
