//! Choices: the positions whose set holds two rules of one and the same stage. Found in two ways, neither of which is fast: from the
//! sets, and from the readings themselves.
use crate::files::Grammar;

/// How many rules of the stage are in the set, which has four words.
fn held(grammar: &Grammar, stage: u16, set: &[u32]) -> usize {
    let in_set = |number: usize| set[number / 32] >> (number % 32) & 1 == 1;
    let rules = grammar.rules.iter().enumerate();
    rules
        .filter(|(number, rule)| rule.from() == stage && in_set(*number))
        .count()
}

/// The positions at which some stage has more than one rule in the set; the sets are four words for each position.
pub fn of_sets(grammar: &Grammar, sets: &[u32]) -> Vec<usize> {
    let is_choice = |set: &[u32]| (0..grammar.stages).any(|stage| held(grammar, stage, set) > 1);
    let sets = sets.chunks(4).enumerate();
    sets.filter(|(_, set)| is_choice(set))
        .map(|(position, _)| position)
        .collect()
}

/// The positions at which two of the readings, which are all there are, have different rules of one stage.
pub fn of_readings(grammar: &Grammar, readings: &[Vec<u8>]) -> Vec<usize> {
    let stage = |rule: u8| grammar.rules[usize::from(rule)].from();
    let differ = |one: u8, other: u8| one != other && stage(one) == stage(other);
    let positions = readings.first().map_or(0, |reading| reading.len());
    (0..positions)
        .filter(|&p| {
            let any_other = |one: &Vec<u8>| readings.iter().any(|other| differ(one[p], other[p]));
            readings.iter().any(any_other)
        })
        .collect()
}

#[cfg(test)]
mod tests {
    use super::*;
    use crate::parse_grammar;
    use frames::choices::{self, BETWEEN, EITHER, WITHIN};
    use frames::{wide, Rule, G};

    /// Sets of rules below 32, by their first words.
    fn words(first: &[u32]) -> Vec<u32> {
        first.iter().flat_map(|&word| [word, 0, 0, 0]).collect()
    }

    fn in_sets(grammar: &[u8], first: &[u32]) -> Vec<usize> {
        of_sets(&parse_grammar(grammar).unwrap(), &words(first))
    }

    /// Two rules of one stage, whatever stands between them, and not two of different stages.
    #[test]
    fn sets_by_hand() {
        assert_eq!(in_sets(&G, &[6, 40, 80, 1]), [0]);
        assert_eq!(in_sets(&G, &[6, 80, 6, 80, 1]), [0, 2]);
        assert_eq!(in_sets(&G, &[0, 0]), []);
        assert_eq!(in_sets(&WITHIN, &[3, 44, 80, 64]), [0, 1]);
        assert_eq!(in_sets(&BETWEEN, &[3, 28, 96]), [0, 1]);
        // rules 2 and 3, 3 and 4, 2 and 4
        assert_eq!(in_sets(&BETWEEN, &[12, 24, 20]), [2]);
        assert_eq!(in_sets(&EITHER, &[1, 5, 15, 48]), [2]);
    }

    /// In other words of a set than the first, and in two of them.
    #[test]
    fn far_apart() {
        // rules 0, 70 and 127 are of stage 31, the others of stages below
        let rule = |number: u16| Rule::Marks {
            from: if [0, 70, 127].contains(&number) {
                31
            } else {
                number % 31
            },
            mark: number.into(),
            then: 0,
        };
        let grammar = Grammar {
            stages: 32,
            start: 31,
            rules: (0..128).map(rule).collect(),
        };
        let is_choice = |numbers: &[usize]| {
            let mut words = vec![0; 4];
            for &number in numbers {
                words[number / 32] |= 1 << (number % 32);
            }
            of_sets(&grammar, &words) == [0]
        };
        let choices: [&[usize]; 5] = [&[0, 127], &[0, 70], &[70, 127], &[0, 5, 40, 127], &[5, 36]];
        assert!(choices.into_iter().all(is_choice));
        let none: [&[usize]; 5] = [&[], &[127], &[0, 5, 40, 126], &[0, 31, 32], &[5, 37]];
        assert!(!none.into_iter().any(is_choice));
    }

    #[test]
    fn readings_by_hand() {
        for example in choices::EXAMPLES.iter().chain(&wide::EXAMPLES) {
            let grammar = parse_grammar(example.grammar).unwrap();
            let readings: Vec<Vec<u8>> = example.readings.iter().map(|r| r.to_vec()).collect();
            assert_eq!(of_readings(&grammar, &readings), example.choices);
        }
    }
}
