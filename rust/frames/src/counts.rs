//! Files with up to 2^64 - 1 readings and with more, and what is due for them, worked out by hand: how many there are, how many
//! have a rule at a position, and readings by their numbers.
use crate::choices::{marks, steps};
use crate::{grammar_file, history_file, Rule, Token, G};

/// How many readings; None where they are more than 2^64 - 1.
pub type Count = Option<u64>;

/// By mark 0 stage 0 goes on to itself or to stage 1 (rules 0 and 1), stages 1 and 2 each to either of these two (rules 2, 3, 5 and
/// 6), which end (rules 4 and 7). So m marks have 2^m - 1 readings.
pub const POWER_LESS_ONE: [u8; 30] = [
    3, 8, 1, 0, 0, 0, 1, 0, 0, 1, 1, 1, 0, 1, 1, 1, 0, 2, 0, 1, 1, 2, 0, 1, 1, 2, 0, 2, 0, 2,
];

/// Stage 0 makes a step with stage 1 inside and stage 2 behind it (rule 0). By mark 0 stages 1 and 3 each go on to either of these
/// two (rules 1, 2, 4 and 5), which end (rules 3 and 6). Stage 2 goes on by mark 1 (rule 7) and ends (rule 8). So a step with m
/// marks 0 in it and any marks 1 behind it has 2^m readings.
pub const POWER_INSIDE: [u8; 34] = [
    4, 9, 2, 0, 0, 1, 0, 2, 1, 1, 0, 1, 1, 1, 0, 3, 0, 1, 1, 3, 0, 1, 1, 3, 0, 3, 0, 3, 1, 2, 1, 2,
    0, 2,
];

/// Stage 0 makes a step with stage 1 inside and stage 4 behind it. By marks 0 stage 1 goes on as [`POWER_LESS_ONE`]'s stage 0
/// does. Stage 4 has 2^m readings of m marks above 0 by stages 5 and 6, and one more by stage 7. So m marks in a step and l behind
/// it have (2^m - 1)(2^l + 1) readings: for 32 and 32 these are 2^64 - 1.
pub fn product() -> Vec<u8> {
    let step = Rule::Steps {
        from: 0,
        open: 0,
        inside: 1,
        close: 0,
        then: 4,
    };
    let mark = |(from, then)| Rule::Marks {
        from,
        mark: 0,
        then,
    };
    let ends = |from| Rule::Ends { from };
    let inside = [(1, 1), (1, 2), (2, 2), (2, 3), (3, 2), (3, 3)].map(mark);
    let to_three = [(4, 5), (4, 6), (4, 7)].map(mark);
    let behind = [(5, 5), (5, 6), (6, 5), (6, 6), (7, 7)].map(mark);
    let mut rules = vec![step];
    rules.extend(inside);
    rules.extend([2, 3].map(ends));
    rules.extend(to_three.into_iter().chain(behind));
    rules.extend([5, 6, 7].map(ends));
    grammar_file(8, None, &rules)
}

/// A step with so many marks 0 in it, and these marks behind it.
pub fn step_of(inside: usize, behind: &[u32]) -> Vec<u8> {
    let mut tokens = vec![Token::Open(0)];
    tokens.extend(vec![Token::Mark(0); inside]);
    tokens.push(Token::Close(0));
    tokens.extend(behind.iter().map(|&name| Token::Mark(name)));
    history_file(&tokens)
}

/// Two files, and what is due for them. A refusal stands as its number.
pub struct Example {
    pub grammar: Vec<u8>,
    pub history: Vec<u8>,
    pub total: Count,
    /// At a position and with a rule.
    pub at: Vec<(usize, usize, Result<Count, u8>)>,
    /// By k.
    pub readings: Vec<(u64, Result<Vec<u8>, u8>)>,
}

const TOP: u64 = u64::MAX;

/// So many of a power of two.
fn power(exponent: u32) -> Result<Count, u8> {
    exactly(1 << exponent)
}

fn exactly(count: u64) -> Result<Count, u8> {
    Ok(Some(count))
}

const OVER: Result<Count, u8> = Ok(None);

/// Rules so many times each.
fn repeated(rules: &[(u8, usize)]) -> Result<Vec<u8>, u8> {
    let each = rules.iter().map(|&(rule, times)| vec![rule; times]);
    Ok(each.collect::<Vec<_>>().concat())
}

fn example(grammar: &[u8], history: Vec<u8>, total: Count) -> Example {
    Example {
        grammar: grammar.to_vec(),
        history,
        total,
        at: vec![],
        readings: vec![],
    }
}

/// All of them.
pub fn examples() -> Vec<Example> {
    let mut all = of_g();
    all.extend(many_of_g());
    all.extend(powers_less_one());
    all.extend(powers_inside());
    all.extend(products());
    all
}

/// A step, two steps, no reading.
fn of_g() -> Vec<Example> {
    let two = Example {
        at: vec![
            (0, 1, exactly(2)),
            (1, 6, exactly(2)),
            (2, 2, exactly(2)),
            (4, 0, exactly(4)),
        ],
        readings: vec![
            (2, Ok(vec![1, 4, 2, 6, 0])),
            (3, Ok(vec![2, 6, 1, 4, 0])),
            (5, Err(18)),
        ],
        ..example(&G, vec![4, 1, 2, 1, 2], Some(4))
    };
    let none = Example {
        at: vec![(0, 0, exactly(0)), (1, 0, exactly(0)), (2, 0, Err(18))],
        readings: vec![(0, Err(18)), (1, Err(18)), (TOP, Err(18))],
        ..example(&G, vec![1, 0], Some(0))
    };
    vec![one_step(), two, none]
}

/// Positions and numbers far above those that there are, too.
fn one_step() -> Example {
    Example {
        at: vec![
            (0, 0, exactly(0)),
            (0, 1, exactly(1)),
            (1, 5, exactly(1)),
            (2, 4, exactly(1)),
            (3, 0, exactly(2)),
            (0, 7, exactly(0)),
            (0, 128, exactly(0)),
            (0, 257, exactly(0)),
            (0, usize::MAX, exactly(0)),
            (4, 200, Err(18)),
            (65_536, 1, Err(18)),
            (usize::MAX, 0, Err(18)),
        ],
        readings: vec![
            (0, Err(18)),
            (1, Ok(vec![1, 3, 4, 0])),
            (2, Ok(vec![2, 5, 6, 0])),
            (3, Err(18)),
            ((1 << 32) + 1, Err(18)),
            (TOP, Err(18)),
        ],
        ..example(&G, vec![3, 1, 0, 2], Some(2))
    }
}

/// 63 empty steps and 64: each has two readings.
fn many_of_g() -> Vec<Example> {
    let of = |rules: [usize; 2]| -> Vec<u8> {
        let [first, then] = rules;
        [[1, 4].repeat(first), [2, 6].repeat(then)].concat()
    };
    let end = |rules: Vec<u8>| Ok([rules, vec![0]].concat());
    let less = Example {
        at: vec![(0, 1, power(62)), (125, 6, power(62)), (126, 0, power(63))],
        readings: vec![
            (1, end(of([63, 0]))),
            (1 << 62, end(of([1, 62]))),
            (1 << 63, end(of([0, 63]))),
            ((1 << 63) + 1, Err(18)),
        ],
        ..example(&G, steps(63), Some(1 << 63))
    };
    let more = Example {
        at: vec![
            (0, 1, power(63)),
            (0, 3, exactly(0)),
            (127, 4, power(63)),
            (128, 0, OVER),
            (128, 7, exactly(0)),
            (129, 0, Err(18)),
        ],
        readings: vec![
            (0, Err(18)),
            (1, end(of([64, 0]))),
            (1 << 63, end(of([1, 63]))),
            ((1 << 63) + 1, end([of([0, 1]), [1, 4].repeat(63)].concat())),
            (TOP, end([of([0, 63]), vec![1, 4]].concat())),
        ],
        ..example(&G, steps(64), None)
    };
    vec![less, more]
}

/// 64 marks have 2^64 - 1 readings, and 65 have so many by rule 0 at the first.
fn powers_less_one() -> Vec<Example> {
    let top = Example {
        at: vec![
            (0, 0, exactly((1 << 63) - 1)),
            (0, 1, power(63)),
            (63, 0, exactly(0)),
            (63, 1, exactly(1)),
            (64, 4, power(63)),
            (64, 7, exactly((1 << 63) - 1)),
        ],
        readings: vec![
            (1, repeated(&[(0, 63), (1, 1), (4, 1)])),
            (2, repeated(&[(0, 62), (1, 1), (2, 1), (4, 1)])),
            (
                (1 << 63) - 1,
                repeated(&[(0, 1), (1, 1), (3, 1), (6, 61), (7, 1)]),
            ),
            (1 << 63, repeated(&[(1, 1), (2, 63), (4, 1)])),
            (TOP, repeated(&[(1, 1), (3, 1), (6, 62), (7, 1)])),
        ],
        ..example(&POWER_LESS_ONE, marks(64), Some(TOP))
    };
    let over = Example {
        at: vec![
            (0, 0, exactly(TOP)),
            (0, 1, OVER),
            (64, 1, exactly(1)),
            (65, 4, OVER),
            (65, 7, exactly(TOP)),
        ],
        readings: vec![(TOP, repeated(&[(0, 1), (1, 1), (3, 1), (6, 62), (7, 1)]))],
        ..example(&POWER_LESS_ONE, marks(65), None)
    };
    vec![top, over]
}

/// 70 marks in a step are over, and with a mark 0 behind it there is no reading.
fn powers_inside() -> Vec<Example> {
    let alone = Example {
        at: vec![
            (0, 0, OVER),
            (1, 1, OVER),
            (72, 8, OVER),
            (72, 7, exactly(0)),
        ],
        readings: vec![
            (1, repeated(&[(0, 1), (1, 70), (3, 1), (8, 1)])),
            (2, repeated(&[(0, 1), (1, 69), (2, 1), (6, 1), (8, 1)])),
            (
                1 << 63,
                repeated(&[(0, 1), (1, 7), (2, 1), (5, 62), (6, 1), (8, 1)]),
            ),
        ],
        ..example(&POWER_INSIDE, step_of(70, &[]), None)
    };
    let times_0 = Example {
        at: vec![(0, 0, exactly(0)), (1, 1, exactly(0)), (73, 8, exactly(0))],
        readings: vec![(0, Err(18)), (1, Err(18)), (TOP, Err(18))],
        ..example(&POWER_INSIDE, step_of(70, &[0]), Some(0))
    };
    let and_a_mark = Example {
        at: vec![(72, 7, OVER), (73, 8, OVER), (74, 8, Err(18))],
        readings: vec![(1, repeated(&[(0, 1), (1, 70), (3, 1), (7, 1), (8, 1)]))],
        ..example(&POWER_INSIDE, step_of(70, &[1]), None)
    };
    vec![alone, times_0, and_a_mark]
}

/// (2^32 - 1)(2^32 + 1) is the largest exact count, and with a mark more it is over. A step whose inside is over, and a rest that
/// is, come to nothing where the other of the two has no reading.
fn products() -> Vec<Example> {
    let mut all = vec![product_at_the_top()];
    let over = [(33, 32, None), (32, 33, None)];
    for (inside, behind, total) in over.into_iter().chain([(0, 70, Some(0)), (70, 0, Some(0))]) {
        let none = total.map(|_| (1, Err(18)));
        all.push(Example {
            at: vec![(0, 0, Ok(total))],
            readings: none.into_iter().collect(),
            ..example(&product(), step_of(inside, &vec![0; behind]), total)
        });
    }
    all
}

fn product_at_the_top() -> Example {
    // the readings of the inside, close and all, that come first, second and last; and of what is behind it, first and last
    let first = [(1, 31), (2, 1), (7, 1)];
    let second = [(1, 30), (2, 1), (3, 1), (7, 1)];
    let last = [(2, 1), (4, 1), (6, 30), (8, 1)];
    let first_behind = [(9, 1), (12, 31), (17, 1)];
    let last_behind = [(11, 1), (16, 31), (19, 1)];
    let reading = |inside: &[(u8, usize)], behind: [(u8, usize); 3]| {
        repeated(&[&[(0, 1)], inside, &behind].concat())
    };
    Example {
        at: vec![
            (0, 0, exactly(TOP)),
            (1, 1, exactly(((1 << 31) - 1) * ((1 << 32) + 1))),
            (33, 8, exactly(((1 << 31) - 1) * ((1 << 32) + 1))),
            (34, 9, exactly(((1 << 32) - 1) << 31)),
            (34, 11, exactly((1 << 32) - 1)),
            (66, 19, exactly((1 << 32) - 1)),
        ],
        readings: vec![
            (1, reading(&first, first_behind)),
            ((1 << 32) + 1, reading(&first, last_behind)),
            ((1 << 32) + 2, reading(&second, first_behind)),
            (TOP, reading(&last, last_behind)),
        ],
        ..example(&product(), step_of(32, &[0; 32]), Some(TOP))
    }
}

#[cfg(test)]
mod tests {
    use super::*;

    fn mark(from: u16, mark: u32, then: u16) -> Rule {
        Rule::Marks { from, mark, then }
    }

    fn ends(from: u16) -> Rule {
        Rule::Ends { from }
    }

    #[test]
    fn grammars_of_the_examples() {
        let first = [mark(0, 0, 0), mark(0, 0, 1), mark(1, 0, 1), mark(1, 0, 2)];
        let rest = [ends(1), mark(2, 0, 1), mark(2, 0, 2), ends(2)];
        let file = grammar_file(3, None, &[first, rest].concat());
        assert_eq!(file, POWER_LESS_ONE);
        let step = Rule::Steps {
            from: 0,
            open: 0,
            inside: 1,
            close: 0,
            then: 2,
        };
        let inside = [step, mark(1, 0, 1), mark(1, 0, 3), ends(1), mark(3, 0, 1)];
        let rest = [mark(3, 0, 3), ends(3), mark(2, 1, 2), ends(2)];
        let file = grammar_file(4, None, &[&inside[..], &rest].concat());
        assert_eq!(file, POWER_INSIDE);
        // 20 rules, the first of form 2
        assert_eq!(product()[..8], [8, 20, 2, 0, 0, 1, 0, 4]);
    }

    #[test]
    fn histories() {
        assert_eq!(step_of(1, &[]), [3, 1, 0, 2]);
        assert_eq!(step_of(0, &[0, 1]), [4, 1, 2, 0, 4]);
        // each number ends by a byte below 128, and the first is the count; a reading has one rule for each position
        for example in examples() {
            let tokens = example.history.iter().filter(|&&byte| byte < 128).count() - 1;
            for (_, reading) in &example.readings {
                let positions = reading.as_ref().map(Vec::len);
                assert!(positions.is_err() || positions == Ok(tokens + 1));
            }
            for (position, _, due) in &example.at {
                assert_eq!(due.is_ok(), *position <= tokens);
            }
        }
    }
}
