//! Makes files whose counts of readings are around 2^64: the largest exact count, just over it, and 0 beside one that is over.
use crate::grammars::{Made, StepNames};
use crate::histories::repeated;
use crate::names;
use crate::random::Random;
use frames::counts::{product, step_of, POWER_INSIDE, POWER_LESS_ONE};
use frames::{choices, Token};
use reference::{parse_grammar, parse_history};

/// A grammar and a history's tokens, with other names and often with other stages.
pub fn frame(random: &mut Random) -> (Made, Vec<Token>) {
    if random.below(4) == 0 {
        return steps_of_g(random);
    }
    let (grammar, history) = files(random);
    let names = names::some(random, 2);
    let name = |token: Token| names[token.name() as usize];
    let grammar = parse_grammar(&grammar).expect("a grammar that passes");
    let tokens = parse_history(&history).expect("a history that passes");
    let rules = grammar.rules.iter().map(|rule| rule.renamed(name));
    let made = Made {
        stages: grammar.stages,
        said: random.percent(30).then_some(0),
        rules: rules.collect(),
    };
    let tokens = tokens.iter().map(|&token| token.named(name(token)));
    let made = match random.percent(40) {
        true => made.reordered(random),
        false => made,
    };
    (made, tokens.collect())
}

/// With names 0 and 1: the files of the worked examples, and some with a mark more or less.
fn files(random: &mut Random) -> (Vec<u8>, Vec<u8>) {
    match random.below(3) {
        0 => {
            let count = random.one(&[63, 64, 64, 65, 65, 66, 130]);
            (POWER_LESS_ONE.to_vec(), choices::marks(count))
        }
        1 => {
            let inside = random.one(&[63, 64, 65, 70]);
            let behind: &[&[u32]] = &[&[], &[0], &[1], &[1, 1], &[1, 0]];
            (POWER_INSIDE.to_vec(), step_of(inside, random.one(behind)))
        }
        _ => {
            let exact = [(32, 32), (32, 32), (31, 33)];
            let other = [(32, 33), (33, 32), (66, 2), (0, 70), (70, 0)];
            let (inside, behind) = random.one(&[&exact[..], &other].concat());
            (product(), step_of(inside, &vec![0; behind]))
        }
    }
}

/// Steps of G one behind the other, empty or with a mark in each.
fn steps_of_g(random: &mut Random) -> (Made, Vec<Token>) {
    let names = names::some(random, 2);
    let names = StepNames::of(random, &names);
    let [open, mark, close] = names.step();
    let count = random.one(&[62, 63, 64, 64, 65, 66]);
    let tokens = match random.percent(70) {
        true => repeated(&[open, close], 2 * count),
        false => repeated(&[open, mark, close], 3 * count),
    };
    (Made::g(random, names), tokens)
}

#[cfg(test)]
mod tests {
    use super::*;
    use frames::{grammar_file, history_file};
    use reference::Work;
    use std::collections::HashSet;

    /// No reading, the largest exact count, and over are all met.
    #[test]
    fn counts() {
        let total = |seed| {
            let (made, tokens) = frame(&mut Random::new(seed));
            let grammar = grammar_file(made.stages, made.said, &made.rules);
            let work = Work::new(&grammar, &history_file(&tokens));
            work.reading_count().expect("files that pass")
        };
        let met: HashSet<Option<u64>> = (0..200).map(total).collect();
        for count in [Some(0), Some(1 << 63), Some(u64::MAX), None] {
            assert!(met.contains(&count), "{count:?}");
        }
    }
}
