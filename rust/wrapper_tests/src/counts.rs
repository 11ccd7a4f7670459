//! Counts of readings and the k-th of them: by hand, up to the largest exact count and over it, and by stepping.
use super::{of_call, of_grammar, of_history};
use frames::choices::{marks, steps, EXAMPLES, SAMPLES};
use frames::counts::{examples, Count, Example, POWER_LESS_ONE};
use frames::{g_from, grammar_file, wide, Rule, G};
use gaffmedlar::ReadingCount::{Exact, Over};
use gaffmedlar::{
    numbered_readings, raw, reading_at, reading_at_into, reading_count, reading_count_at, readings,
    ReadingCount, Refusal, Refused,
};

/// A count as this crate tells it.
fn told(count: Count) -> ReadingCount {
    count.map_or(Over, Exact)
}

fn out_of_range<T>(number: u8) -> Result<T, Refused> {
    assert_eq!(number, Refusal::OutOfRange.number());
    Err(of_call(Refusal::OutOfRange))
}

fn kth_by_hand(example: &Example) {
    let Example {
        grammar, history, ..
    } = example;
    for (k, due) in &example.readings {
        let due = due.clone().or_else(out_of_range);
        assert_eq!(reading_at(grammar, history, *k), due);
        let positions = gaffmedlar::history_check(history).unwrap() + 1;
        let mut lent = vec![77; positions + 3];
        let given = reading_at_into(grammar, history, *k, &mut lent);
        assert_eq!(given, due.clone().map(|_| ()));
        let reading = due.unwrap_or(vec![77; positions]);
        assert_eq!(lent, [reading, vec![77; 3]].concat());
        let short = reading_at_into(grammar, history, *k, &mut lent[..positions - 1]);
        assert_eq!(short, Err(of_call(Refusal::BufferShort)));
    }
}

#[test]
fn by_hand() {
    for example in &examples() {
        let Example {
            grammar, history, ..
        } = example;
        assert_eq!(reading_count(grammar, history), Ok(told(example.total)));
        for &(position, rule, due) in &example.at {
            let due = due.map(told).or_else(out_of_range);
            let given = reading_count_at(grammar, history, position, rule);
            assert_eq!(given, due, "position {position}, rule {rule}");
        }
        kth_by_hand(example);
    }
}

/// The numbers as the archive gives them: with a refusal and with "over" the count is 0.
#[test]
fn numbers_on_the_wire() {
    let pair = |reply: raw::ReadingsReply| (reply.answer, reply.count);
    let top = marks(64);
    assert_eq!(
        pair(raw::reading_count(&POWER_LESS_ONE, &top)),
        (0, u64::MAX)
    );
    let over = marks(65);
    assert_eq!(pair(raw::reading_count(&POWER_LESS_ONE, &over)), (102, 0));
    let at = |position, rule| {
        pair(raw::reading_count_at(
            &POWER_LESS_ONE,
            &over,
            position,
            rule,
        ))
    };
    assert_eq!(at(0, 0), (0, u64::MAX));
    assert_eq!(at(0, 1), (102, 0));
    assert_eq!(at(0, 8), (0, 0));
    assert_eq!(at(66, 1), (18, 0));
    assert_eq!(pair(raw::reading_count(&G, &[1, 1])), (13, 0));
    assert_eq!(pair(raw::reading_count_at(&[1, 0], &[1, 1], 9, 9)), (4, 0));
    let mut lent = [77; 4];
    let mut answer = |k, length| raw::reading_at(&G, &[3, 1, 0, 2], k, &mut lent[..length]);
    assert_eq!([answer(0, 3), answer(3, 3), answer(0, 4)], [15, 15, 18]);
    assert_eq!(lent, [77; 4]);
}

/// What is counted and numbered is what is listed.
fn is_listed(grammar: &[u8], history: &[u8]) {
    let listed: Vec<Vec<u8>> = readings(grammar, history).unwrap().collect();
    let all = numbered_readings(grammar, history).unwrap();
    assert_eq!(all.count(), Exact(listed.len() as u64));
    for (k, reading) in (1..).zip(&listed) {
        assert_eq!(all.get(k).as_ref(), Some(reading));
        let rest: Vec<Vec<u8>> = all.from(k).collect();
        assert_eq!(rest, listed[k as usize - 1..]);
    }
    assert_eq!((all.get(0), all.from(0).next()), (None, None));
    let above = listed.len() as u64 + 1;
    assert_eq!((all.get(above), all.from(above).next()), (None, None));
    assert_eq!(all.into_iter().collect::<Vec<_>>(), listed);
    for position in 0..=gaffmedlar::history_check(history).unwrap() {
        for rule in 0..=128 {
            let has = |reading: &&Vec<u8>| usize::from(reading[position]) == rule;
            let count = listed.iter().filter(has).count();
            assert_eq!(all.count_at(position, rule), Exact(count as u64));
        }
    }
}

#[test]
fn of_listed_readings() {
    for example in EXAMPLES.iter().chain(&wide::EXAMPLES) {
        is_listed(example.grammar, example.history);
    }
    for (grammar, history, _) in SAMPLES {
        is_listed(grammar, history);
    }
    for start in 0..3 {
        for history in [&[0][..], &[2, 0, 0], &[3, 1, 0, 2], &steps(4)] {
            is_listed(&g_from(start), history);
        }
    }
}

/// Each count where the total isn't over: at every position they add up to it.
#[test]
fn counts_add_up() {
    for example in examples() {
        let all = numbered_readings(&example.grammar, &example.history).unwrap();
        let Exact(total) = all.count() else { continue };
        for position in 0..=gaffmedlar::history_check(&example.history).unwrap() {
            let counts = (0..128).map(|rule| all.count_at(position, rule).exact());
            let sum: u64 = counts
                .map(|count| count.expect("not above the total"))
                .sum();
            assert_eq!(sum, total, "position {position}");
        }
    }
}

/// A page from the middle of more readings than can be stepped through: each is the next of the one before it.
#[test]
fn pages() {
    for (history, k) in [(steps(63), 1 << 62), (steps(512), u64::MAX - 9)] {
        let all = numbered_readings(&G, &history).unwrap();
        let page: Vec<Vec<u8>> = all.from(k).take(10).collect();
        let each: Vec<Vec<u8>> = (k..=k + 8).map(|k| all.get(k).unwrap()).collect();
        assert_eq!((page.len(), &page[..9]), (10, &each[..]));
    }
    // the last ones, and nothing behind them
    let history = marks(64);
    let all = numbered_readings(&POWER_LESS_ONE, &history).unwrap();
    let last: Vec<Vec<u8>> = all.from(u64::MAX - 2).collect();
    assert_eq!(last.len(), 3);
    assert_eq!(last.last(), all.get(u64::MAX).as_ref());
    assert_eq!(last[0], all.get(u64::MAX - 2).unwrap());
}

/// Rule numbers up to the last, and those that would be a rule's if high bits were lost.
#[test]
fn all_rule_numbers() {
    let mark = |number: u32| Rule::Marks {
        from: 0,
        mark: number,
        then: 0,
    };
    let rules: Vec<Rule> = [Rule::Ends { from: 0 }]
        .into_iter()
        .chain((1..128).map(mark))
        .collect();
    let grammar = grammar_file(1, None, &rules);
    for rule in 1..128 {
        let history = frames::history_file(&[frames::Token::Mark(rule as u32)]);
        let at = |position, rule| reading_count_at(&grammar, &history, position, rule);
        assert_eq!(at(0, rule), Ok(Exact(1)));
        for more in [128, 256, 1 << 16, 1 << 32, 1 << 63] {
            assert_eq!(at(0, rule + more), Ok(Exact(0)));
            assert_eq!(at(1, more), Ok(Exact(0)));
            let refused = Err(of_call(Refusal::OutOfRange));
            assert_eq!([at(more, rule), at(more + 1, 0)], [refused; 2]);
        }
        assert_eq!([at(1, 0), at(0, 0)], [Ok(Exact(1)), Ok(Exact(0))]);
    }
}

#[test]
fn refused_files() {
    let (bad, open) = ([1, 0], [1, 1]);
    let of_bad = of_grammar::<()>(Refusal::RuleCount).unwrap_err();
    let of_open = of_history::<()>(Refusal::StillOpen).unwrap_err();
    for (grammar, due) in [(&bad[..], of_bad), (&G, of_open)] {
        assert_eq!(reading_count(grammar, &open), Err(due));
        assert_eq!(reading_count_at(grammar, &open, 9, 999), Err(due));
        assert_eq!(reading_at(grammar, &open, 0), Err(due));
        assert_eq!(reading_at_into(grammar, &open, 0, &mut []), Err(due));
        assert_eq!(numbered_readings(grammar, &open).err(), Some(due));
    }
    let short = reading_at_into(&G, &[3, 1, 0, 2], 0, &mut [0; 3]);
    assert_eq!(short, Err(of_call(Refusal::BufferShort)));
    assert_eq!(
        reading_at(&G, &[1, 0], 1).unwrap_err().to_string(),
        "k is 0 or above the count of readings, or the position is above n (18)"
    );
}

#[test]
fn counts_in_words_and_in_order() {
    assert_eq!(Exact(7).to_string(), "7");
    assert_eq!(Over.to_string(), "more than 18446744073709551615");
    assert!(Exact(1) < Exact(2) && Exact(u64::MAX) < Over);
    assert_eq!([Exact(3).exact(), Over.exact()], [Some(3), None]);
}
