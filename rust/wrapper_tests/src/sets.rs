//! The sets service: its words and its count by hand, what stays of the lent words, and the sets by position and rule.
use super::{of_call, of_grammar, of_history};
use frames::sets::{Call, CALLS};
use frames::G;
use gaffmedlar::{choice_count, raw, sets, sets_into, Refusal};

/// The numbers of the library as they are: beside a refusal the count is 0, and no word has changed.
#[test]
fn by_hand() {
    for call in &CALLS {
        let mut words = call.before();
        let reply = raw::sets(call.grammar, call.history, &mut words);
        assert_eq!((reply.answer, reply.count), (call.answer, call.count));
        assert_eq!(words, call.after());
    }
}

#[test]
fn through_the_wrapper() {
    for call in &CALLS {
        let mut words = call.before();
        let told = sets_into(call.grammar, call.history, &mut words);
        let number = told.map_err(|refused| refused.refusal.number());
        assert_eq!(number, call.due().map(|count| count as usize));
        assert_eq!(words, call.after());
    }
    let step = [3, 1, 0, 2];
    let short = Err(of_call(Refusal::BufferShort));
    assert_eq!(sets_into(&G, &step, &mut [7; 15]), short);
    let closed = of_history(Refusal::CloseWithoutOpen);
    assert_eq!(sets_into(&G, &[1, 2], &mut [7; 16]), closed);
    let no_rule = of_grammar(Refusal::RuleCount);
    assert_eq!(sets_into(&[1, 0], &[1, 2], &mut []), no_rule);
}

/// Where room is missing the choices are counted by the other service alone.
#[test]
fn beside_the_choice_count() {
    for Call {
        grammar,
        history,
        answer,
        count,
        ..
    } in &CALLS
    {
        let counted = choice_count(grammar, history).map_err(|refused| refused.refusal.number());
        match answer {
            0 => assert_eq!(counted, Ok(*count as usize)),
            15 => assert!(counted.is_ok()),
            number => assert_eq!(counted, Err(*number)),
        }
    }
}

#[test]
fn by_position_and_rule() {
    let sets_of_step = sets(&G, &[3, 1, 0, 2]).unwrap();
    assert_eq!(sets_of_step.positions(), 4);
    assert_eq!(sets_of_step.words().len(), 16);
    assert_eq!(sets_of_step.choices(), 1);
    let contains = |position, rule| sets_of_step.contains(position, rule);
    let rules: Vec<Vec<u8>> = (0..5).map(|p| sets_of_step.rules(p).collect()).collect();
    assert_eq!(rules, [vec![1, 2], vec![3, 5], vec![4, 6], vec![0], vec![]]);
    assert!(contains(1, 5) && !contains(1, 4));
    // rule 129 at position 0 is no bit of position 1
    assert!(!contains(0, 129) && !contains(0, 131) && !contains(4, 0));
    assert!(!contains(usize::MAX, 1));
    // no reading: all sets are empty
    let none = sets(&G, &[1, 0]).unwrap();
    assert_eq!((none.words(), none.choices()), (&[0; 8][..], 0));
}
