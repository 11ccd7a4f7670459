//! Files with names of two and three bytes, and what is due for them, worked out by hand.
use crate::Example;

/// Stage 0 ends, or goes on by mark 1 (rule 1) or by mark 257 (rule 2), which differ above bit 8 alone.
pub const MARKS: [u8; 13] = [1, 3, 0, 0, 1, 0, 1, 0, 1, 0, 129, 2, 0];

/// Stage 0 ends, or makes a step of close 0 and open 1 (rule 1), 257 (rule 2) or 16,385 (rule 3).
pub const OPENS: [u8; 25] = [
    1, 4, 0, 0, 2, 0, 1, 0, 0, 0, 2, 0, 129, 2, 0, 0, 0, 2, 0, 129, 128, 1, 0, 0, 0,
];

/// Stage 0 ends, or makes a step of open 40,000 and close 65,535 (rule 1) or 32,767 (rule 2), which differ above bit 14 alone.
pub const CLOSES: [u8; 24] = [
    1, 3, 0, 0, 2, 0, 192, 184, 2, 0, 255, 255, 3, 0, 2, 0, 192, 184, 2, 0, 255, 255, 1, 0,
];

/// Stage 0 ends (rule 0), or goes on by mark 40,000 to itself (rule 1) or to stage 1 (rule 2), which ends (rule 3).
pub const TWO_WAYS: [u8; 18] = [2, 4, 0, 0, 1, 0, 192, 184, 2, 0, 1, 0, 192, 184, 2, 1, 0, 1];

/// The names that a grammar has, beside others that are equal to one of them in their low bits.
pub const EXAMPLES: [Example; 17] = [
    // marks 1 and 257; then 16,385, 65,281 and 513
    example(&MARKS, &[1, 4], &[&[1, 0]], &[1, 1]),
    example(&MARKS, &[1, 132, 8], &[&[2, 0]], &[1, 1]),
    example(&MARKS, &[1, 132, 128, 4], &[], &[1, 0]),
    example(&MARKS, &[1, 132, 248, 15], &[], &[1, 0]),
    example(&MARKS, &[2, 4, 132, 16], &[], &[1, 1, 0]),
    example(
        &MARKS,
        &[3, 132, 8, 4, 132, 8],
        &[&[2, 1, 2, 0]],
        &[1, 1, 1, 1],
    ),
    // opens 1, 257 and 16,385; then 65,281 and 32,769
    example(&OPENS, &[2, 5, 2], &[&[1, 0, 0]], &[1, 0, 1]),
    example(&OPENS, &[2, 133, 8, 2], &[&[2, 0, 0]], &[1, 0, 1]),
    example(&OPENS, &[2, 133, 128, 4, 2], &[&[3, 0, 0]], &[1, 0, 1]),
    example(&OPENS, &[2, 133, 248, 15, 2], &[], &[1, 0, 0]),
    example(&OPENS, &[2, 133, 128, 8, 2], &[], &[1, 0, 0]),
    // closes 65,535 and 32,767; then 65,279 and 16,383
    example(
        &CLOSES,
        &[2, 129, 226, 9, 254, 255, 15],
        &[&[1, 0, 0]],
        &[1, 0, 1],
    ),
    example(
        &CLOSES,
        &[2, 129, 226, 9, 254, 255, 7],
        &[&[2, 0, 0]],
        &[1, 0, 1],
    ),
    example(&CLOSES, &[2, 129, 226, 9, 254, 247, 15], &[], &[1, 0, 0]),
    example(&CLOSES, &[2, 129, 226, 9, 254, 255, 3], &[], &[1, 0, 0]),
    // mark 40,000, the second of which is a choice; then 23,616, whose low 14 bits are the same
    Example {
        choices: &[1],
        ..example(
            &TWO_WAYS,
            &[2, 128, 226, 9, 128, 226, 9],
            &[&[1, 1, 0], &[1, 2, 3]],
            &[1, 1, 1],
        )
    },
    example(&TWO_WAYS, &[2, 128, 226, 9, 128, 226, 5], &[], &[1, 1, 0]),
];

/// One without a choice.
const fn example(
    grammar: &'static [u8],
    history: &'static [u8],
    readings: &'static [&'static [u8]],
    marks: &'static [u8],
) -> Example {
    Example {
        grammar,
        history,
        readings,
        marks,
        choices: &[],
    }
}

/// Bytes with which a history and a grammar alike are refused, since the first number is.
pub const REFUSED_NUMBERS: [(&[u8], u8); 14] = [
    (&[128], 1),
    (&[128, 0], 2),
    (&[255, 0], 2),
    (&[128, 0, 0], 2),
    (&[128, 128], 1),
    (&[255, 255], 1),
    (&[128, 128, 0], 2),
    (&[129, 129, 0], 2),
    (&[255, 255, 0, 0], 2),
    (&[128, 128, 128], 2),
    (&[128, 128, 128, 0], 2),
    (&[128, 128, 128, 1], 2),
    (&[129, 128, 129], 2),
    (&[255, 255, 255, 127], 2),
];

/// Histories, and what is due for each: how many tokens, or the number of the refusal.
pub const HISTORIES: [(&[u8], Result<u16, u8>); 24] = [
    // marks 4,096 and 65,535, open and close 65,535
    (&[1, 128, 128, 1], Ok(1)),
    (&[1, 252, 255, 15], Ok(1)),
    (&[2, 253, 255, 15, 254, 255, 15], Ok(2)),
    // 16,383 leaves 3, and so do 65,535 and 262,143
    (&[1, 255, 127], Err(11)),
    (&[1, 255, 255, 3], Err(11)),
    (&[1, 255, 255, 15], Err(11)),
    // 262,144 and the three behind it: names of 65,536
    (&[1, 128, 128, 16], Err(11)),
    (&[1, 129, 128, 16], Err(11)),
    (&[1, 130, 128, 16], Err(11)),
    (&[1, 131, 128, 16], Err(11)),
    (&[1, 255, 255, 127], Err(11)),
    // open and close 65,535 alone
    (&[1, 253, 255, 15], Err(13)),
    (&[1, 254, 255, 15], Err(12)),
    // cut inside a token, in a form that is too long
    (&[1, 252, 255], Err(1)),
    (&[1, 252], Err(1)),
    (&[1, 128, 128, 0], Err(2)),
    (&[1, 252, 255, 143], Err(2)),
    (&[1, 252, 255, 143, 0], Err(2)),
    (&[2, 252, 255, 15], Err(1)),
    (&[1, 252, 255, 15, 0], Err(9)),
    // token counts of 16,384 and of 2,097,151; of 1,024 and of 0 in too many bytes
    (&[128, 128, 1], Err(10)),
    (&[255, 255, 127], Err(10)),
    (&[128, 136, 0], Err(2)),
    (&[128, 128, 0, 0], Err(2)),
];

/// Grammars, and what is due for each: how many stages and rules, or the number of the refusal.
pub const GRAMMARS: [(&[u8], Result<(u16, u16), u8>); 22] = [
    (&MARKS, Ok((1, 3))),
    (&OPENS, Ok((1, 4))),
    (&CLOSES, Ok((1, 3))),
    (&TWO_WAYS, Ok((2, 4))),
    // mark, open and close 65,535; 65,536
    (&[1, 1, 1, 0, 255, 255, 3, 0], Ok((1, 1))),
    (&[1, 1, 1, 0, 128, 128, 4, 0], Err(7)),
    (&[1, 1, 2, 0, 255, 255, 3, 0, 255, 255, 3, 0], Ok((1, 1))),
    (&[1, 1, 2, 0, 128, 128, 4, 0, 255, 255, 3, 0], Err(7)),
    (&[1, 1, 2, 0, 255, 255, 3, 0, 128, 128, 4, 0], Err(7)),
    (&[1, 1, 1, 0, 255, 255, 127, 0], Err(7)),
    // equal rules, and two that differ above bit 14 alone
    (&[1, 2, 1, 0, 129, 128, 1, 0, 1, 0, 129, 128, 1, 0], Err(8)),
    (
        &[1, 2, 1, 0, 129, 128, 1, 0, 1, 0, 129, 128, 3, 0],
        Ok((1, 2)),
    ),
    (&[1, 2, 1, 0, 129, 128, 1, 0, 1, 0, 1, 0], Ok((1, 2))),
    // cut inside a name, in a form that is too long
    (&[1, 1, 1, 0, 255, 255], Err(1)),
    (&[1, 1, 1, 0, 255], Err(1)),
    (&[1, 1, 1, 0, 255, 255, 0, 0], Err(2)),
    (&[1, 1, 1, 0, 255, 255, 131, 0], Err(2)),
    // 16,384 as the stage count, the start, the rule count, the form, a stage
    (&[128, 128, 1], Err(3)),
    (&[0, 1, 128, 128, 1], Err(6)),
    (&[1, 128, 128, 1], Err(4)),
    (&[1, 1, 128, 128, 1], Err(5)),
    (&[1, 1, 0, 128, 128, 1], Err(6)),
];

/// 128 rules of ten bytes, as numbers and as the file; no file of a grammar is longer. The file says the start, and the numbers
/// where they are to.
pub fn longest_grammar(says_start: bool) -> (Vec<u32>, Vec<u8>) {
    let start = if says_start { 31 } else { 0 };
    let mut numbers = match says_start {
        true => vec![0, 32, 31, 128],
        false => vec![32, 128],
    };
    let mut file = vec![0, 32, start, 128, 1];
    for rule in 0..128 {
        // opens from 65,535 down, close 65,535
        numbers.extend([2, rule % 32, 65_535 - rule, 31, 65_535, 0]);
        file.extend([
            2,
            rule as u8 % 32,
            255 - rule as u8,
            255,
            3,
            31,
            255,
            255,
            3,
            0,
        ]);
    }
    (numbers, file)
}

/// 512 steps of open 65,535 and close 65,534, as numbers and as the file; no file of a history is longer.
pub fn longest_history() -> (Vec<u32>, Vec<u8>) {
    (
        [vec![1024], [262_141, 262_138].repeat(512)].concat(),
        [vec![128, 8], [253, 255, 15, 250, 255, 15].repeat(512)].concat(),
    )
}

#[cfg(test)]
mod tests {
    use super::*;
    use crate::{grammar_file, history_file, numbers_file, Rule, Token};

    fn mark(mark: u32, then: u16) -> Rule {
        let from = 0;
        Rule::Marks { from, mark, then }
    }

    fn step(open: u32, close: u32) -> Rule {
        Rule::Steps {
            from: 0,
            open,
            inside: 0,
            close,
            then: 0,
        }
    }

    #[test]
    fn grammars_of_the_examples() {
        let ends = |from| Rule::Ends { from };
        let file = |stages, rules: &[Rule]| grammar_file(stages, None, rules);
        assert_eq!(file(1, &[ends(0), mark(1, 0), mark(257, 0)]), MARKS);
        let opens = [ends(0), step(1, 0), step(257, 0), step(16_385, 0)];
        assert_eq!(file(1, &opens), OPENS);
        let closes = [ends(0), step(40_000, 65_535), step(40_000, 32_767)];
        assert_eq!(file(1, &closes), CLOSES);
        let two_ways = [ends(0), mark(40_000, 0), mark(40_000, 1), ends(1)];
        assert_eq!(file(2, &two_ways), TWO_WAYS);
    }

    #[test]
    fn histories_of_the_examples() {
        use Token::{Close, Mark, Open};
        let tokens: [&[Token]; 17] = [
            &[Mark(1)],
            &[Mark(257)],
            &[Mark(16_385)],
            &[Mark(65_281)],
            &[Mark(1), Mark(513)],
            &[Mark(257), Mark(1), Mark(257)],
            &[Open(1), Close(0)],
            &[Open(257), Close(0)],
            &[Open(16_385), Close(0)],
            &[Open(65_281), Close(0)],
            &[Open(32_769), Close(0)],
            &[Open(40_000), Close(65_535)],
            &[Open(40_000), Close(32_767)],
            &[Open(40_000), Close(65_279)],
            &[Open(40_000), Close(16_383)],
            &[Mark(40_000), Mark(40_000)],
            &[Mark(40_000), Mark(23_616)],
        ];
        for (tokens, example) in tokens.into_iter().zip(&EXAMPLES) {
            assert_eq!(history_file(tokens), example.history);
            assert_eq!(example.marks.len(), tokens.len() + 1);
        }
    }

    #[test]
    fn longest_files() {
        for says_start in [false, true] {
            let (numbers, file) = longest_grammar(says_start);
            assert_eq!(file.len(), 1285);
            let start: &[u32] = if says_start { &[] } else { &[0] };
            let (head, rules) = numbers.split_at(numbers.len() - 769);
            let longer = [start, head, start, rules].concat();
            assert_eq!(numbers_file(&longer), file);
        }
        let (numbers, file) = longest_history();
        assert_eq!((numbers.len(), file.len()), (1025, 3074));
        assert_eq!(numbers_file(&numbers), file);
    }
}
