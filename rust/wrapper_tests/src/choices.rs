//! Choices: what is due by the readings and the left sides of their rules, and by hand.
use super::{example, reads};
use frames::choices::{marks, steps, EITHER, EXAMPLES, SAMPLES};
use frames::{grammar_file, wide, Rule, G};
use gaffmedlar::{choice_count, numbers, readings, sets, write_grammar, Refused};

/// The left side of each rule of a grammar that passes.
fn left_sides(grammar: &[u8]) -> Vec<u32> {
    let numbers = numbers(grammar);
    let mut rest = match numbers[0] {
        0 => &numbers[4..],
        _ => &numbers[2..],
    };
    let mut sides = Vec::new();
    while let [form, side, ..] = rest {
        sides.push(*side);
        rest = &rest[[2, 4, 6][*form as usize]..];
    }
    sides
}

/// The positions at which two of the readings, which are all there are, have different rules of one left side.
pub fn choices_of(grammar: &[u8], all: &[Vec<u8>]) -> Vec<usize> {
    let sides = left_sides(grammar);
    let side = |rule: u8| sides[usize::from(rule)];
    let positions = all.first().map_or(0, |reading| reading.len());
    let is_choice = |&p: &usize| {
        let differ = |one: u8, other: u8| one != other && side(one) == side(other);
        let any_other = |one: &Vec<u8>| all.iter().any(|other| differ(one[p], other[p]));
        all.iter().any(any_other)
    };
    (0..positions).filter(is_choice).collect()
}

/// How many choices there are: by the service that counts them, and by the sets, which are to tell the same.
fn counted(grammar: &[u8], history: &[u8]) -> Result<usize, Refused> {
    let count = choice_count(grammar, history);
    let with_sets = sets(grammar, history).map(|sets| sets.choices() as usize);
    assert_eq!(with_sets, count);
    count
}

/// Two rules of one stage are a choice, and different rules of different stages are none.
#[test]
fn by_hand() {
    for due in &EXAMPLES {
        let (grammar, history, readings, marks) = example(due);
        assert_eq!(choices_of(&grammar, &readings), due.choices);
        assert_eq!(counted(&grammar, &history), Ok(due.choices.len()));
        reads(&grammar, &history, &readings, &marks);
        let longer = write_grammar(&numbers(&grammar)).unwrap();
        reads(&longer, &history, &readings, &marks);
    }
    for due in &wide::EXAMPLES {
        let count = counted(due.grammar, due.history);
        assert_eq!(count, Ok(due.choices.len()));
    }
}

/// By the readings as the library lists them.
#[test]
fn of_samples() {
    for (grammar, history, due) in SAMPLES {
        let all: Vec<Vec<u8>> = readings(grammar, history).unwrap().collect();
        assert_eq!(choices_of(grammar, &all), due);
        assert_eq!(counted(grammar, history), Ok(due.len()));
        assert_eq!(all.len() > 1, !due.is_empty());
    }
}

/// As many choices as there are marks, or steps, up to the longest histories.
#[test]
fn many_choices() {
    for count in [0, 1, 2, 31, 32, 1023, 1024] {
        let marks = marks(count);
        assert_eq!(counted(&EITHER, &marks), Ok(count));
        let steps = steps(count / 2);
        assert_eq!(counted(&G, &steps), Ok(count / 2));
    }
}

/// Of any two stages one rule each stands at the second mark. That is no choice, and the first mark is one.
#[test]
fn of_two_stages() {
    let mark = |from, then| Rule::Marks {
        from,
        mark: 0,
        then,
    };
    for high in 1..32 {
        for low in 0..high {
            let mut others = (0..32).filter(|stage| ![low, high].contains(stage));
            let (start, end) = (others.next().unwrap(), others.next().unwrap());
            let to_both = [mark(start, low), mark(start, high)];
            let rest = [mark(low, end), mark(high, end), Rule::Ends { from: end }];
            let rules = [&to_both[..], &rest].concat();
            let grammar = grammar_file(32, Some(start), &rules);
            assert_eq!(counted(&grammar, &[2, 0, 0]), Ok(1));
            let all: Vec<Vec<u8>> = readings(&grammar, &[2, 0, 0]).unwrap().collect();
            assert_eq!(all, [[0, 2, 4], [1, 3, 4]]);
        }
    }
}

/// A grammar of 32 stages and 128 rules. Stage `start` goes on by mark 0 by the two rules with these numbers, to itself and to the
/// stage behind it, both of which end. All other rules make other marks.
fn two_among_128(start: u16, [low, high]: [usize; 2]) -> Vec<u8> {
    let behind = (start + 1) % 32;
    let mark = |then| Rule::Marks {
        from: start,
        mark: 0,
        then,
    };
    let other = |number: u16| Rule::Marks {
        from: number % 32,
        mark: 1 + u32::from(number),
        then: start,
    };
    let ends = [start, behind].map(|from| Rule::Ends { from });
    let mut rules: Vec<Rule> = ends.into_iter().chain((0..124).map(other)).collect();
    rules.insert(low, mark(start));
    rules.insert(high, mark(behind));
    grammar_file(32, Some(start), &rules)
}

/// The two rules of a choice in each word of a set, in two of them, and of each stage.
#[test]
fn in_all_words() {
    let history = [1, 0];
    for start in 0..32 {
        for (low, high) in [(0, 1), (0, 127), (31, 32), (40, 50), (63, 96), (126, 127)] {
            let grammar = two_among_128(start, [low, high]);
            assert_eq!(counted(&grammar, &history), Ok(1));
            let all: Vec<Vec<u8>> = readings(&grammar, &history).unwrap().collect();
            let first: Vec<u8> = all.iter().map(|reading| reading[0]).collect();
            assert_eq!(first, [low as u8, high as u8]);
        }
    }
}
