//! Files with several readings, and what is due for them, worked out by hand. A position is a choice when two rules of one and the
//! same stage stand there in readings; where readings differ and each has a stage of its own, it is none.
use crate::{history_file, Example, Token, G, G_EXCHANGED};

/// By mark 0 stage 0 goes on to stage 1 or 2 (rules 0 and 1), which end (rules 2 and 3).
pub const ECHO: [u8; 14] = [3, 4, 1, 0, 0, 1, 1, 0, 0, 2, 0, 1, 0, 2];

/// Stage 0 makes a step with stage 1 or 2 inside, and stage 3 behind it (rules 0 and 1). By mark 0 stage 1 goes on to stage 3 or to
/// itself (rules 2 and 3), and stage 2 to stage 3 (rule 5). Stages 1, 3 and 2 end (rules 4, 6 and 7).
pub const WITHIN: [u8; 32] = [
    4, 8, 2, 0, 0, 1, 0, 3, 2, 0, 0, 2, 0, 3, 1, 1, 0, 3, 1, 1, 0, 1, 0, 1, 1, 2, 0, 3, 0, 3, 0, 2,
];

/// By mark 0 stage 0 goes on to stage 1 or 2 (rules 0 and 1), stage 1 to stage 3 or to itself (rules 2 and 4), stage 2 to stage 3
/// (rule 3, between these two). Stages 3 and 1 end (rules 5 and 6).
pub const BETWEEN: [u8; 26] = [
    4, 7, 1, 0, 0, 1, 1, 0, 0, 2, 1, 1, 0, 3, 1, 2, 0, 3, 1, 1, 0, 1, 0, 3, 0, 1,
];

/// By mark 0 stage 0 goes on to stage 1, 2 or 3 (rules 0 to 2), which end (rules 3 to 5).
pub const THREE: [u8; 20] = [4, 6, 1, 0, 0, 1, 1, 0, 0, 2, 1, 0, 0, 3, 0, 1, 0, 2, 0, 3];

/// By mark 0 stage 0 goes on to stage 1 or 2 (rules 0 and 1), stage 1 to itself or to stage 3 (rules 2 and 4), stage 2 to itself or to
/// stage 3 (rules 3 and 5). Stages 1, 2 and 3 end (rules 6 to 8).
pub const TWO_PAIRS: [u8; 32] = [
    4, 9, 1, 0, 0, 1, 1, 0, 0, 2, 1, 1, 0, 1, 1, 2, 0, 2, 1, 1, 0, 3, 1, 2, 0, 3, 0, 1, 0, 2, 0, 3,
];

/// By mark 0 stages 0 and 1 each go on to stage 0 or 1, and both end: every mark is a choice.
pub const EITHER: [u8; 22] = [
    2, 6, 1, 0, 0, 0, 1, 0, 0, 1, 1, 1, 0, 0, 1, 1, 0, 1, 0, 0, 0, 1,
];

/// A mark, a step with a mark inside, two empty steps.
const MARK: [u8; 2] = [1, 0];
const STEP: [u8; 4] = [3, 1, 0, 2];
const TWO_STEPS: [u8; 5] = [4, 1, 2, 1, 2];

/// Each with its readings in order, its stop marks, and the positions that are choices.
pub const EXAMPLES: [Example; 12] = [
    example(&G, &[0], &[&[0]], &[1], &[]),
    example(&G, &MARK, &[], &[1, 0], &[]),
    example(&G, &[2, 1, 2], &[&[1, 4, 0], &[2, 6, 0]], &[1, 0, 1], &[0]),
    example(&G, &STEP, TWO_OF_A_STEP, &[1, 0, 0, 1], &[0]),
    example(&G_EXCHANGED, &STEP, TWO_OF_A_STEP, &[1, 0, 0, 1], &[0]),
    example(&G, &TWO_STEPS, FOUR_OF_TWO_STEPS, &[1, 0, 1, 0, 1], &[0, 2]),
    example(&ECHO, &MARK, &[&[0, 2], &[1, 3]], &[0, 1], &[0]),
    example(
        &WITHIN,
        &STEP,
        &[&[0, 2, 6, 6], &[0, 3, 4, 6], &[1, 5, 6, 6]],
        &[0, 0, 0, 1],
        &[0, 1],
    ),
    example(
        &BETWEEN,
        &[2, 0, 0],
        &[&[0, 2, 5], &[0, 4, 6], &[1, 3, 5]],
        &[0, 1, 1],
        &[0, 1],
    ),
    example(&THREE, &MARK, &[&[0, 3], &[1, 4], &[2, 5]], &[0, 1], &[0]),
    example(
        &TWO_PAIRS,
        &[2, 0, 0],
        &[&[0, 2, 6], &[0, 4, 8], &[1, 3, 7], &[1, 5, 8]],
        &[0, 1, 1],
        &[0, 1],
    ),
    example(
        &EITHER,
        &[2, 0, 0],
        &[&[0, 0, 4], &[0, 1, 5], &[1, 2, 4], &[1, 3, 5]],
        &[1, 1, 1],
        &[0, 1],
    ),
];

const TWO_OF_A_STEP: &[&[u8]] = &[&[1, 3, 4, 0], &[2, 5, 6, 0]];
const FOUR_OF_TWO_STEPS: &[&[u8]] = &[
    &[1, 4, 1, 4, 0],
    &[1, 4, 2, 6, 0],
    &[2, 6, 1, 4, 0],
    &[2, 6, 2, 6, 0],
];

const fn example(
    grammar: &'static [u8],
    history: &'static [u8],
    readings: &'static [&'static [u8]],
    marks: &'static [u8],
    choices: &'static [usize],
) -> Example {
    Example {
        grammar,
        history,
        readings,
        marks,
        choices,
    }
}

/// A folder of samples: its grammar, its history, and the positions that are choices.
pub type Sample = (&'static [u8], &'static [u8], &'static [usize]);

macro_rules! sample {
    ($folder:literal, $choices:expr) => {
        (
            include_bytes!(concat!("../../../samples/", $folder, "/grammar.bin")),
            include_bytes!(concat!("../../../samples/", $folder, "/history.bin")),
            $choices,
        )
    };
}

pub const SAMPLES: [Sample; 9] = [
    sample!("crop_inside", &[1]),
    sample!("document_01", &[0]),
    sample!("lens_twice", &[0, 3]),
    sample!("many_tools", &[1]),
    sample!("no_reading", &[]),
    sample!("one_reading", &[]),
    sample!("stages_reordered", &[0, 3]),
    sample!("two_lines_east", &[]),
    sample!("two_lines_west", &[0, 1]),
];

/// Mark 0, so many times.
pub fn marks(count: usize) -> Vec<u8> {
    history_file(&vec![Token::Mark(0); count])
}

/// Empty steps one behind the other: by [`G`] each is a choice.
pub fn steps(count: usize) -> Vec<u8> {
    history_file(&[Token::Open(0), Token::Close(0)].repeat(count))
}

#[cfg(test)]
mod tests {
    use super::*;
    use crate::{grammar_file, Rule};

    fn mark(from: u16, then: u16) -> Rule {
        let mark = 0;
        Rule::Marks { from, mark, then }
    }

    fn ends(from: u16) -> Rule {
        Rule::Ends { from }
    }

    fn step(inside: u16) -> Rule {
        Rule::Steps {
            from: 0,
            open: 0,
            inside,
            close: 0,
            then: 3,
        }
    }

    #[test]
    fn grammars_of_the_examples() {
        let file = |stages, rules: &[Rule]| grammar_file(stages, None, rules);
        let two = [mark(0, 1), mark(0, 2)];
        assert_eq!(file(3, &[&two[..], &[ends(1), ends(2)]].concat()), ECHO);
        let within = [step(1), step(2), mark(1, 3), mark(1, 1)];
        let rest = [ends(1), mark(2, 3), ends(3), ends(2)];
        assert_eq!(file(4, &[within, rest].concat()), WITHIN);
        let between = [mark(1, 3), mark(2, 3), mark(1, 1), ends(3), ends(1)];
        assert_eq!(file(4, &[&two[..], &between].concat()), BETWEEN);
        let three = [mark(0, 3), ends(1), ends(2), ends(3)];
        assert_eq!(file(4, &[&two[..], &three].concat()), THREE);
        let pairs = [mark(1, 1), mark(2, 2), mark(1, 3), mark(2, 3)];
        let all_end = [ends(1), ends(2), ends(3)];
        assert_eq!(file(4, &[&two[..], &pairs, &all_end].concat()), TWO_PAIRS);
        let either = [mark(0, 0), mark(0, 1), mark(1, 0), mark(1, 1)];
        assert_eq!(
            file(2, &[&either[..], &[ends(0), ends(1)]].concat()),
            EITHER
        );
    }

    #[test]
    fn histories() {
        assert_eq!(marks(1), MARK);
        assert_eq!(steps(2), TWO_STEPS);
        assert_eq!(marks(1024)[..3], [128, 8, 0]);
        for example in &EXAMPLES {
            let positions = example.marks.len();
            assert_eq!(usize::from(example.history[0]) + 1, positions);
            let mut readings = example.readings.iter();
            assert!(readings.all(|reading| reading.len() == positions));
        }
    }
}
