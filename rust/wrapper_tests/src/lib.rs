//! The wrapper on examples: every service, both beginnings of a grammar, names of up to three bytes, refusals.
#![cfg(test)]
use choices::choices_of;
use frames::{g_from, wide, G, G_EXCHANGED};
use gaffmedlar::*;
use std::ops::Range;

mod choices;
mod counts;
mod numbers;
mod sets;
mod writers;

#[test]
fn numbers_and_words() {
    assert_eq!(REFUSALS.len(), 18);
    for (place, &refusal) in REFUSALS.iter().enumerate() {
        assert_eq!(usize::from(refusal.number()), place + 1);
        assert_eq!(Refusal::of_number(refusal.number()), Some(refusal));
    }
    for number in [0, 19, 100, 101, 102, 255] {
        assert_eq!(Refusal::of_number(number), None);
    }
    assert_eq!(
        Refusal::StillOpen.to_string(),
        "a step still open after the last token (13)"
    );
    assert_eq!(format!("{:?}", Refusal::StillOpen), "StillOpen");
    assert_eq!(Refusal::StillOpen.whose(), "whoever wrote the history");
}

#[test]
fn services() {
    let history = [3, 1, 0, 2];
    let counts = GrammarCounts {
        stages: 3,
        rules: 7,
    };
    assert_eq!(grammar_check(&G), Ok(counts));
    assert_eq!(history_check(&history), Ok(3));
    let all: Vec<Vec<u8>> = readings(&G, &history).unwrap().collect();
    assert_eq!(all, [vec![1, 3, 4, 0], vec![2, 5, 6, 0]]);
    let mut words = [9; 17];
    assert_eq!(sets_into(&G, &history, &mut words), Ok(1));
    assert_eq!(words, [6, 0, 0, 0, 40, 0, 0, 0, 80, 0, 0, 0, 1, 0, 0, 0, 9]);
    assert_eq!(choice_count(&G, &history), Ok(1));
    let mut marks = [9; 5];
    assert_eq!(stop_marks(&G, &history, &mut marks), Ok(()));
    assert_eq!(marks, [1, 0, 0, 1, 9]);
}

/// A grammar, a history, all its readings and its stop marks.
type Example = (Vec<u8>, Vec<u8>, Vec<Vec<u8>>, Vec<u8>);

fn example(example: &frames::Example) -> Example {
    let readings = example.readings.iter().map(|reading| reading.to_vec());
    (
        example.grammar.to_vec(),
        example.history.to_vec(),
        readings.collect(),
        example.marks.to_vec(),
    )
}

/// Names of two and three bytes, and others that are equal to them in their low bits.
fn examples_of_wide_names() -> Vec<Example> {
    wide::EXAMPLES.iter().map(example).collect()
}

/// G from stage 0, unsaid and said, and from stage 1; G with these stages exchanged, with its start and without it.
fn examples_of_starts() -> Vec<Example> {
    let step = vec![3, 1, 0, 2];
    let two = vec![vec![1, 3, 4, 0], vec![2, 5, 6, 0]];
    let unsaid = [&[3], &G_EXCHANGED[3..]].concat();
    let mut examples = vec![
        (g_from(1), vec![0], vec![vec![4]], vec![1]),
        (g_from(1), vec![2, 0, 0], vec![vec![3, 3, 4]], vec![1; 3]),
    ];
    for same in [G.to_vec(), g_from(0), G_EXCHANGED.to_vec()] {
        examples.push((same, step.clone(), two.clone(), vec![1, 0, 0, 1]));
    }
    for other in [g_from(1), g_from(2), unsaid] {
        examples.push((other, step.clone(), vec![], vec![1, 0, 0, 0]));
    }
    examples
}

/// Every service that goes by both files, on one of them.
fn reads(grammar: &[u8], history: &[u8], due: &[Vec<u8>], due_marks: &[u8]) {
    let positions = due_marks.len();
    assert_eq!(history_check(history), Ok(positions - 1));
    let all: Vec<Vec<u8>> = readings(grammar, history).unwrap().collect();
    assert_eq!(all, due);
    lists(grammar, history, due.len(), positions);
    let sets = sets(grammar, history).unwrap();
    assert_eq!(sets.positions(), positions);
    for position in 0..positions {
        let mut rules: Vec<u8> = due.iter().map(|reading| reading[position]).collect();
        rules.sort_unstable();
        rules.dedup();
        assert_eq!(sets.rules(position).collect::<Vec<_>>(), rules);
    }
    let choices = choice_count(grammar, history).unwrap();
    assert_eq!(choices, choices_of(grammar, due).len());
    assert_eq!(sets.choices() as usize, choices);
    assert_eq!(choices > 0, due.len() > 1);
    let mut marks = vec![9; positions];
    assert_eq!(stop_marks(grammar, history, &mut marks), Ok(()));
    assert_eq!(marks, due_marks);
}

/// A list of calls on a history with so many readings.
fn lists(grammar: &[u8], history: &[u8], readings: usize, positions: usize) {
    let calls = [Call::First, Call::Next, Call::Next];
    let not_one = CallAnswer::Refused(of_call(Refusal::NotAReading));
    let answers = match readings {
        0 => vec![CallAnswer::NoReading, not_one, not_one],
        m => {
            let mut answers = vec![CallAnswer::Written; m.min(3)];
            answers.resize(3, CallAnswer::NoFurther);
            answers
        }
    };
    // 255 is no rule
    let mut buffer = vec![255; positions];
    assert_eq!(run_calls(grammar, history, &calls, &mut buffer), answers);
}

/// The grammars as they are, and as the writer makes them of their numbers: these all say their start.
#[test]
fn starts() {
    for (grammar, history, readings, marks) in examples_of_starts() {
        let counts = grammar_check(&grammar).unwrap();
        assert_eq!((counts.stages, counts.rules), (3, 7));
        reads(&grammar, &history, &readings, &marks);
        let longer = write_grammar(&numbers(&grammar)).unwrap();
        assert_eq!((longer.len(), longer[0]), (30, 0));
        assert_eq!(grammar_check(&longer), Ok(counts));
        reads(&longer, &history, &readings, &marks);
    }
}

/// No service loses a bit of a name, and none is lost where a file is written again.
#[test]
fn wide_names() {
    for (grammar, history, readings, marks) in examples_of_wide_names() {
        reads(&grammar, &history, &readings, &marks);
        let longer = write_grammar(&numbers(&grammar)).unwrap();
        assert_eq!(longer, [&[0, grammar[0], 0], &grammar[1..]].concat());
        assert_eq!(write_history(&numbers(&history)), Ok(history.clone()));
        reads(&longer, &history, &readings, &marks);
    }
}

/// What reads one of these histories is no reading of another one.
#[test]
fn wide_names_of_another() {
    let examples = examples_of_wide_names();
    let pairs = examples
        .iter()
        .flat_map(|one| examples.iter().map(move |other| (one, other)));
    for ((grammar, history, due, marks), (of, _, others, _)) in pairs {
        let others = others.iter().filter(|other| other.len() == marks.len());
        for other in others.filter(|other| grammar == of && !due.contains(other)) {
            let mut buffer = other.clone();
            let refused = of_call(Refusal::NotAReading);
            assert_eq!(next_reading(grammar, history, &mut buffer), Err(refused));
            let answers = run_calls(grammar, history, &[Call::Next], &mut buffer);
            assert_eq!(answers, [CallAnswer::Refused(refused)]);
            assert_eq!(buffer, *other);
        }
    }
}

/// Numbers of three bytes, names and tokens at their limits and above.
#[test]
fn wide_numbers() {
    let number = |refused: Refused| refused.refusal.number();
    for (bytes, refusal) in wide::REFUSED_NUMBERS {
        assert_eq!(history_check(bytes).map_err(number), Err(refusal));
        assert_eq!(grammar_check(bytes).map_err(number), Err(refusal));
    }
    for (bytes, due) in wide::HISTORIES {
        let tokens = history_check(bytes).map_err(number);
        assert_eq!(tokens, due.map(usize::from), "{bytes:?}");
    }
    for (bytes, due) in wide::GRAMMARS {
        let counts = grammar_check(bytes).map_err(number);
        let due = due.map(|(stages, rules)| GrammarCounts {
            stages: stages.into(),
            rules: rules.into(),
        });
        assert_eq!(counts, due, "{bytes:?}");
    }
}

/// No file that passes is longer than these.
#[test]
fn longest_files() {
    let (_, grammar) = wide::longest_grammar(true);
    let (_, history) = wide::longest_history();
    assert_eq!(grammar.len(), GRAMMAR_BYTES_MAX);
    assert_eq!(history.len(), HISTORY_BYTES_MAX);
    assert_eq!(grammar_check(&grammar).map(|counts| counts.rules), Ok(128));
    assert_eq!(history_check(&history), Ok(1024));
    let mut marks = [9; READING_MAX];
    assert_eq!(stop_marks(&grammar, &history, &mut marks), Ok(()));
    // stage 31 has no rule that ends it
    assert_eq!(marks, [0; READING_MAX]);
}

/// Each number of a grammar's head is judged when it is read.
#[test]
fn refused_heads() {
    let heads: [(&[u8], Refusal); 17] = [
        (&[0], Refusal::BytesEnd),
        (&[0, 0], Refusal::StageCount),
        (&[0, 0, 0, 0], Refusal::StageCount),
        (&[0, 33], Refusal::StageCount),
        (&[0, 128, 0], Refusal::NumberForm),
        (&[128, 0], Refusal::NumberForm),
        (&[0, 1], Refusal::BytesEnd),
        (&[0, 1, 1], Refusal::Stage),
        (&[0, 1, 1, 0], Refusal::Stage),
        (&[0, 1, 128], Refusal::BytesEnd),
        (&[0, 1, 128, 1], Refusal::Stage),
        (&[0, 1, 128, 0], Refusal::NumberForm),
        (&[0, 1, 128, 128], Refusal::BytesEnd),
        (&[0, 1, 128, 128, 1], Refusal::Stage),
        (&[0, 1, 128, 128, 0], Refusal::NumberForm),
        (&[0, 1, 0], Refusal::BytesEnd),
        (&[0, 1, 0, 0], Refusal::RuleCount),
    ];
    for (grammar, refusal) in heads {
        assert_eq!(grammar_check(grammar), of_grammar(refusal));
        let first = first_reading(grammar, &[0], &mut [0]);
        assert_eq!(first, of_grammar(refusal));
    }
}

fn of_grammar<T>(refusal: Refusal) -> Result<T, Refused> {
    let file = Some(File::Grammar);
    Err(Refused { refusal, file })
}

fn of_history<T>(refusal: Refusal) -> Result<T, Refused> {
    let file = Some(File::History);
    Err(Refused { refusal, file })
}

fn of_call(refusal: Refusal) -> Refused {
    let file = None;
    Refused { refusal, file }
}

/// 1, 2 and 9 can be of either file, and the grammar comes first.
#[test]
fn which_file() {
    let refusals: [(Refusal, &[u8], &[u8]); 3] = [
        (Refusal::BytesEnd, &[1], &[1]),
        (Refusal::NumberForm, &[128, 0], &[128, 0]),
        (Refusal::BytesFollow, &[1, 1, 0, 0, 5], &[0, 5]),
    ];
    for (refusal, bad_grammar, bad_history) in refusals {
        assert_eq!(grammar_check(bad_grammar), of_grammar(refusal));
        assert_eq!(history_check(bad_history), of_history(refusal));
        for (grammar, due) in [
            (bad_grammar, of_grammar(refusal)),
            (&G, of_history(refusal)),
        ] {
            let buffer = &mut [0; 8];
            assert_eq!(
                first_reading(grammar, bad_history, buffer),
                due.map(|()| First::Written)
            );
            assert_eq!(
                next_reading(grammar, bad_history, buffer),
                due.map(|()| Next::Written)
            );
            assert_eq!(stop_marks(grammar, bad_history, buffer), due);
            assert_eq!(sets_into(grammar, bad_history, &mut []), due.map(|()| 0));
            assert_eq!(choice_count(grammar, bad_history), due.map(|()| 0));
            assert_eq!(readings(grammar, bad_history).err(), due.err());
            let answers = run_calls(grammar, bad_history, &[Call::Next], buffer);
            assert_eq!(answers, [CallAnswer::Refused(due.unwrap_err())]);
        }
        assert_eq!(
            first_reading(bad_grammar, &[0], &mut [0]),
            of_grammar(refusal)
        );
    }
    assert_eq!(
        grammar_check(&[1]).unwrap_err().to_string(),
        "the grammar: the bytes end inside a number or before one that is due (1)"
    );
    assert_eq!(
        sets(&G, &[1, 1]).unwrap_err().to_string(),
        "the history: a step still open after the last token (13)"
    );
}

/// The examples of one step's bytes: a history, a position, and the part of the file or the refusal.
fn step_examples() -> Vec<(Vec<u8>, usize, Result<Range<usize>, Refusal>)> {
    let one = vec![3, 1, 0, 2];
    let inside = vec![6, 1, 1, 2, 1, 2, 2];
    let (_, full) = wide::longest_history();
    let mut examples = vec![
        (one.clone(), 0, Ok(1..4)),
        (inside.clone(), 0, Ok(1..7)),
        (inside.clone(), 1, Ok(2..4)),
        (inside.clone(), 3, Ok(4..6)),
        (inside, 2, Err(Refusal::NotAnOpen)),
        (vec![5, 0, 161, 1, 252, 1, 134, 1, 0], 1, Ok(2..8)),
        (vec![3, 129, 226, 9, 172, 2, 254, 255, 15], 0, Ok(1..9)),
        (vec![1, 1], 5, Err(Refusal::StillOpen)),
        (vec![], 0, Err(Refusal::BytesEnd)),
        (full.clone(), 1022, Ok(3068..3074)),
        (full, 1024, Err(Refusal::NotAnOpen)),
    ];
    for position in [1, 2, 3, 4, 1 << 32, 1 << 63, usize::MAX] {
        examples.push((one.clone(), position, Err(Refusal::NotAnOpen)));
    }
    examples
}

#[test]
fn bytes_of_one_step() {
    for (history, position, due) in step_examples() {
        // a file with bytes around it that are not its own
        let around = [vec![1; 5], history.clone(), vec![2; 5]].concat();
        let lent = &around[5..5 + history.len()];
        let reply = raw::step_bytes(lent, position);
        let number = raw::step_refusal(lent, position);
        assert_eq!(step_range(lent, position), due);
        match due {
            Ok(range) => {
                let part = step_bytes(lent, position).unwrap();
                assert_eq!(part, &history[range.clone()]);
                // the caller's own bytes, not a copy
                assert_eq!(part.as_ptr(), around[5 + range.start..].as_ptr());
                assert_eq!((reply.start, reply.length), (range.start, range.len()));
                assert_eq!(number, 0);
            }
            Err(refusal) => {
                assert_eq!(step_bytes(lent, position), Err(refusal));
                assert_eq!((reply.start, reply.length), (0, 0));
                assert_eq!(number, refusal.number());
            }
        }
        assert_eq!(around, [vec![1; 5], history, vec![2; 5]].concat());
    }
}

/// A part lives as long as the file it is of, and steps can be looked at side by side.
#[test]
fn parts_of_one_file() {
    fn first_step(history: &[u8]) -> Option<&[u8]> {
        (0..history_check(history).ok()?).find_map(|p| step_bytes(history, p).ok())
    }
    let history = [7, 0, 1, 1, 2, 1, 2, 2];
    let outer = first_step(&history).unwrap();
    let inner = [2, 4].map(|position| step_bytes(&history, position).unwrap());
    assert_eq!(outer, [1, 1, 2, 1, 2, 2]);
    assert!(inner.iter().all(|part| *part == [1, 2]));
    assert_eq!(outer[1..5], inner.concat());
    assert_eq!(first_step(&[1, 0]), None);
}

/// The history is judged before the position: a file that ends early or goes on is refused by its own number.
#[test]
fn no_step_of_a_refused_history() {
    for (history, _, _) in step_examples().iter().take(7) {
        let mut more = history.clone();
        more.push(0);
        let ends = (0..history.len()).map(|end| history[..end].to_vec());
        for file in ends.chain([more]) {
            let due = history_check(&file).unwrap_err().refusal;
            for position in [0, 1, 2, 5, usize::MAX] {
                assert_eq!(step_bytes(&file, position), Err(due));
            }
        }
    }
    assert_eq!(
        step_bytes(&[1, 1], 0).unwrap_err().to_string(),
        "a step still open after the last token (13)"
    );
    let _: &dyn std::error::Error = &Refusal::NotAnOpen;
}

#[test]
fn refusals_and_other_answers() {
    let mut buffer = [7; 2];
    assert_eq!(
        first_reading(&G, &[1, 0], &mut buffer),
        Ok(First::NoReading)
    );
    assert_eq!(
        first_reading(&G, &[1, 0], &mut buffer[..1]),
        Err(of_call(Refusal::BufferShort))
    );
    assert_eq!(
        first_reading(&[1, 0], &[1, 1], &mut []),
        of_grammar(Refusal::RuleCount)
    );
    assert_eq!(
        sets_into(&G, &[1, 1], &mut []),
        of_history(Refusal::StillOpen)
    );
    let short = of_call(Refusal::BufferShort);
    assert_eq!(sets_into(&G, &[0], &mut []), Err(short));
    assert_eq!(
        short.to_string(),
        "a lent buffer shorter than its service writes or reads (15)"
    );
    assert_eq!(sets(&[1, 0], &[1, 1]), of_grammar(Refusal::RuleCount));
    assert_eq!(buffer, [7; 2]);
    let mut buffer = [9];
    let calls = [Call::Next, Call::First, Call::Next];
    assert_eq!(
        run_calls(&G, &[0], &calls, &mut buffer),
        [
            CallAnswer::Refused(of_call(Refusal::NotAReading)),
            CallAnswer::Written,
            CallAnswer::NoFurther
        ]
    );
    assert_eq!(buffer, [0]);
}
