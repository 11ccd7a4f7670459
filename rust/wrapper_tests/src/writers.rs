//! The writers, and the element that a refusal of theirs names.
use frames::wide::{longest_grammar, longest_history};
use frames::{g_from, G, G_EXCHANGED};
use gaffmedlar::{
    grammar_check, history_check, raw as wire, NotWritten, Refusal, GRAMMAR_BYTES_MAX,
    HISTORY_BYTES_MAX,
};

// The writers by the number of the refusal alone; which element it is, is tried by itself.
fn write_grammar(numbers: &[u32]) -> Result<Vec<u8>, Refusal> {
    gaffmedlar::write_grammar(numbers).map_err(Refusal::from)
}
fn write_history(numbers: &[u32]) -> Result<Vec<u8>, Refusal> {
    gaffmedlar::write_history(numbers).map_err(Refusal::from)
}
fn write_grammar_into(numbers: &[u32], file: &mut [u8]) -> Result<usize, Refusal> {
    gaffmedlar::write_grammar_into(numbers, file).map_err(Refusal::from)
}
fn write_history_into(numbers: &[u32], file: &mut [u8]) -> Result<usize, Refusal> {
    gaffmedlar::write_history_into(numbers, file).map_err(Refusal::from)
}

type Write = fn(&[u32]) -> Result<Vec<u8>, Refusal>;
type WriteInto = fn(&[u32], &mut [u8]) -> Result<usize, Refusal>;
const GRAMMAR_WRITER: (Write, WriteInto) = (write_grammar, write_grammar_into);
const HISTORY_WRITER: (Write, WriteInto) = (write_history, write_history_into);

/// A refused reply has no length.
#[test]
fn replies() {
    let refused = |answer| wire::WriteReply { answer, length: 0 };
    assert_eq!(wire::write_grammar(&[1], &mut [9; 5]), refused(1));
    assert_eq!(wire::write_grammar(&[0, 1, 1], &mut [9; 5]), refused(6));
    assert_eq!(wire::write_grammar(&[1, 1, 0, 0], &mut [9; 5]), refused(15));
    assert_eq!(wire::write_history(&[1, 2], &mut [9; 3]), refused(12));
    assert_eq!(wire::write_history(&[0], &mut []), refused(15));
    let written = wire::write_history(&[1, 128], &mut [9; 3]);
    assert_eq!((written.answer, written.length), (0, 3));
}

fn elements(bytes: &[u8]) -> Vec<u32> {
    bytes.iter().map(|&byte| byte.into()).collect()
}

/// A file's numbers, and its bytes as they are written.
type Example = (Vec<u32>, Vec<u8>);

/// G's numbers are written with the start 0; those of a grammar that says its start are written as they are.
fn short_grammars() -> Vec<Example> {
    let longer = [&[0, 3, 0, 7], &G[2..]].concat();
    assert_eq!(longer.len(), 30);
    let says_start = [longer.clone(), g_from(1), g_from(2), G_EXCHANGED.to_vec()];
    let as_it_is = says_start.map(|file| (elements(&file), file));
    // marks 127, 128, 16,383, 16,384 and 65,535 of stage 0, which goes on with itself
    let names = [127, 128, 16_383, 16_384, 65_535];
    let rules = names.into_iter().flat_map(|name| [1, 0, name, 0]);
    let numbers = [0, 1, 0, 5].into_iter().chain(rules).collect();
    let file = vec![
        0, 1, 0, 5, 1, 0, 127, 0, 1, 0, 128, 1, 0, 1, 0, 255, 127, 0, 1, 0, 128, 128, 1, 0, 1, 0,
        255, 255, 3, 0,
    ];
    let others = vec![(elements(&G), longer), (numbers, file)];
    [others, as_it_is.to_vec()].concat()
}

/// A writer on a buffer of every length up to some bytes more than the file has, between bytes that are not its own.
fn writes((write, write_into): (Write, WriteInto), numbers: &[u32], file: &[u8]) {
    assert_eq!(write(numbers), Ok(file.to_vec()));
    for room in 0..file.len() + 6 {
        let mut memory = vec![170; 5 + room + 5];
        let reply = write_into(numbers, &mut memory[5..5 + room]);
        let mut due = vec![170; 5 + room + 5];
        if room < file.len() {
            assert_eq!(reply, Err(Refusal::BufferShort));
        } else {
            assert_eq!(reply, Ok(file.len()));
            due[5..5 + file.len()].copy_from_slice(file);
        }
        assert_eq!(memory, due);
    }
}

#[test]
fn written_grammars() {
    let longest = [false, true].map(longest_grammar);
    assert!(longest
        .iter()
        .all(|(_, file)| file.len() == GRAMMAR_BYTES_MAX));
    for (numbers, file) in short_grammars().into_iter().chain(longest) {
        writes(GRAMMAR_WRITER, &numbers, &file);
        assert!(grammar_check(&file).is_ok());
        // and again, from the numbers of what was written
        writes(GRAMMAR_WRITER, &crate::numbers(&file), &file);
    }
}

#[test]
fn written_histories() {
    let longest = longest_history();
    assert_eq!(longest.1.len(), HISTORY_BYTES_MAX);
    let wide = (vec![2, 161, 134], vec![2, 161, 1, 134, 1]);
    let wider = (vec![1, 16_384], vec![1, 128, 128, 1]);
    let widest = vec![2, 253, 255, 15, 254, 255, 15];
    let widest = (vec![2, 262_141, 262_142], widest);
    for (numbers, file) in [(vec![0], vec![0]), wide, wider, widest, longest] {
        writes(HISTORY_WRITER, &numbers, &file);
        assert_eq!(history_check(&file), Ok(numbers.len() - 1));
        assert_eq!(crate::numbers(&file), numbers);
    }
}

/// The numbers that a grammar's writer turns down, and by what.
fn refused_grammars() -> Vec<(Vec<u32>, Refusal)> {
    let g = elements(&G);
    vec![
        (g[..27].to_vec(), Refusal::BytesEnd),
        ([&g[..], &[5]].concat(), Refusal::BytesFollow),
        (vec![1, 1, 1, 0, 70_000, 0], Refusal::Name),
        (vec![33, 1, 0, 0], Refusal::StageCount),
        (vec![257, 1, 0, 0], Refusal::StageCount),
        (vec![65_537, 1, 0, 0], Refusal::StageCount),
        (vec![u32::MAX, 1, 0, 0], Refusal::StageCount),
        (vec![1, 0], Refusal::RuleCount),
        (vec![1, 129, 0, 0], Refusal::RuleCount),
        (vec![1, u32::MAX, 0, 0], Refusal::RuleCount),
        (vec![1, 1, 1 << 16, 0], Refusal::Form),
        (vec![1, 1, 0, 1 << 16], Refusal::Stage),
        // 8 before a later 1, and 7 before a later 9
        (vec![1, 128, 0, 0, 0, 0], Refusal::RuleTwice),
        (vec![1, 1, 1, 0, 65_536, 0, 0], Refusal::Name),
        (vec![1, 1, 2, 0, 65_536, 0, 0, 0], Refusal::Name),
        (vec![1, 1, 2, 0, 0, 0, 65_536, 0], Refusal::Name),
        (vec![1, 1, 1, 0, 1 << 21, 0], Refusal::Name),
        (vec![1, 1, 1, 0, u32::MAX, 0], Refusal::Name),
        (vec![1, 2, 0, 0], Refusal::BytesEnd),
        (vec![], Refusal::BytesEnd),
    ]
}

/// The same of numbers that begin with a 0: each is judged in its place, the start before the rule count.
fn refused_starts() -> Vec<(Vec<u32>, Refusal)> {
    let longer = elements(&g_from(2));
    vec![
        (longer[..29].to_vec(), Refusal::BytesEnd),
        ([&longer[..], &[5]].concat(), Refusal::BytesFollow),
        (elements(&g_from(3)), Refusal::Stage),
        ([&[0], &elements(&G)[..]].concat(), Refusal::Stage),
        (vec![0], Refusal::BytesEnd),
        (vec![0, 0], Refusal::StageCount),
        (vec![0, 0, 0, 0], Refusal::StageCount),
        (vec![0, 33], Refusal::StageCount),
        (vec![0, 257, 0, 1, 0, 0], Refusal::StageCount),
        (vec![0, 257, 300], Refusal::StageCount),
        (vec![0, u32::MAX], Refusal::StageCount),
        (vec![0, 1], Refusal::BytesEnd),
        (vec![0, 1, 1], Refusal::Stage),
        (vec![0, 1, 1, 0], Refusal::Stage),
        (vec![0, 1, 128, 1, 0, 0], Refusal::Stage),
        (vec![0, 1, 1 << 16, 1, 0, 0], Refusal::Stage),
        (vec![0, 1, u32::MAX], Refusal::Stage),
        (vec![0, 1, 0], Refusal::BytesEnd),
        (vec![0, 1, 0, 0], Refusal::RuleCount),
        (vec![0, 1, 0, 129], Refusal::RuleCount),
        (vec![0, 1, 0, 1, 0, 1], Refusal::Stage),
    ]
}

fn refused_histories() -> Vec<(Vec<u32>, Refusal)> {
    vec![
        (vec![], Refusal::BytesEnd),
        (vec![1], Refusal::BytesEnd),
        (vec![1, 0, 0], Refusal::BytesFollow),
        (vec![u32::MAX], Refusal::TokenCount),
        (vec![1 << 16], Refusal::TokenCount),
        (vec![1025], Refusal::TokenCount),
        (vec![1, 262_144], Refusal::Token),
        (vec![1, 262_143], Refusal::Token),
        (vec![1, 1 << 21], Refusal::Token),
        (vec![1, u32::MAX - 3], Refusal::Token),
        (vec![1, 3], Refusal::Token),
        (vec![1, 262_142], Refusal::CloseWithoutOpen),
        (vec![1, 262_141], Refusal::StillOpen),
        (vec![1, 2], Refusal::CloseWithoutOpen),
        // 13 before 9
        (vec![2, 1, 1, 0], Refusal::StillOpen),
        ([vec![129], vec![1; 129]].concat(), Refusal::TooDeep),
    ]
}

/// A refused writer writes nothing, and the numbers are judged before the buffer.
fn refuses((write, write_into): (Write, WriteInto), numbers: &[u32], refusal: Refusal) {
    assert_eq!(write(numbers), Err(refusal));
    for room in [0, 1, 5, 100, 3100] {
        let mut file = vec![170; room];
        assert_eq!(write_into(numbers, &mut file), Err(refusal));
        assert_eq!(file, vec![170; room]);
    }
}

#[test]
fn refused_writers() {
    for (numbers, refusal) in refused_grammars().into_iter().chain(refused_starts()) {
        refuses(GRAMMAR_WRITER, &numbers, refusal);
    }
    for (numbers, refusal) in refused_histories() {
        refuses(HISTORY_WRITER, &numbers, refusal);
    }
}

/// Elements behind the last one are too many, however many they are.
#[test]
fn far_too_many_elements() {
    let [short, long] = [false, true].map(longest_grammar);
    for ((write, _), numbers) in [
        (GRAMMAR_WRITER, elements(&G)),
        (GRAMMAR_WRITER, elements(&G_EXCHANGED)),
        (GRAMMAR_WRITER, short.0),
        (GRAMMAR_WRITER, long.0),
        (HISTORY_WRITER, vec![0]),
        (HISTORY_WRITER, longest_history().0),
    ] {
        for more in [1, 2, 255, 256, 257, 5000] {
            let longer = [numbers.clone(), vec![0; more]].concat();
            assert_eq!(write(&longer), Err(Refusal::BytesFollow));
        }
    }
}

type Refused<'a> = (&'a [u32], u8, Option<usize>, &'a str);

/// Numbers of a grammar, the number of the refusal, the element, and its place in words.
const REFUSED_GRAMMARS: &[Refused] = &[
    (&[], 1, Some(0), "element 0 is missing: the stage count"),
    (&[0], 1, Some(1), "element 1 is missing: the stage count"),
    (&[33, 1], 3, Some(0), "element 0 is 33: the stage count"),
    (&[0, 0, 0, 1], 3, Some(1), "element 1 is 0: the stage count"),
    (&[0, 3, 3, 1], 6, Some(2), "element 2 is 3: the start stage"),
    (&[1, 129], 4, Some(1), "element 1 is 129: the rule count"),
    (&[1, 1, 3], 5, Some(2), "element 2 is 3: the form of rule 0"),
    (
        &[1, 1, 0, 1],
        6,
        Some(3),
        "element 3 is 1: field L of rule 0, the stage on the left",
    ),
    (
        &[1, 2, 0, 0, 1, 0, 65_536, 0],
        7,
        Some(6),
        "element 6 is 65536: field c of rule 1, the mark's name",
    ),
    (
        &[1, 1, 2, 0, 7, 0, 70_000, 0],
        7,
        Some(6),
        "element 6 is 70000: field b of rule 0, the close's name",
    ),
    (
        &[1, 1, 2, 0, 7, 0, 7],
        1,
        Some(7),
        "element 7 is missing: field L2 of rule 0, the stage behind the close",
    ),
    (
        &[2, 3, 0, 1, 1, 0, 5, 0, 0, 1],
        8,
        Some(8),
        "elements 8 to 9, rule 2, are those of rule 0",
    ),
    (
        &[1, 1, 0, 0, 9],
        9,
        Some(4),
        "element 4 stands behind the last rule",
    ),
];
const REFUSED_HISTORIES: &[Refused] = &[
    (&[], 1, Some(0), "element 0 is missing: the token count"),
    (&[1025], 10, Some(0), "element 0 is 1025: the token count"),
    (&[2, 0], 1, Some(2), "element 2 is missing: token 1"),
    (
        &[2, 0, 262_144],
        11,
        Some(2),
        "element 2 is 262144: token 1",
    ),
    (
        &[2, 0, 7],
        11,
        Some(2),
        "element 2 is 7: token 1, of kind 3",
    ),
    (
        &[2, 0, 22],
        12,
        Some(2),
        "element 2 is 22: token 1, close 5",
    ),
    (
        &[3, 1, 2, 25],
        13,
        Some(3),
        "element 3 is 25: token 2, open 6, which nothing closes",
    ),
    (
        &[1, 0, 0],
        9,
        Some(2),
        "element 2 stands behind the last token",
    ),
];

#[test]
fn the_element_at_fault() {
    let told = |error: NotWritten, due: &Refused| {
        assert_eq!(
            (error.refusal.number(), error.element),
            (due.1, due.2),
            "{:?}",
            due.0
        );
        assert_eq!(error.place, due.3);
        assert_eq!(error.to_string(), format!("{}: {}", due.3, error.refusal));
    };
    for due in REFUSED_GRAMMARS {
        told(gaffmedlar::write_grammar(due.0).unwrap_err(), due);
    }
    for due in REFUSED_HISTORIES {
        told(gaffmedlar::write_history(due.0).unwrap_err(), due);
    }
    let mut deep = vec![129];
    deep.extend([1; 129]);
    let words = "element 129 is 1: token 128, open 0";
    told(
        gaffmedlar::write_history(&deep).unwrap_err(),
        &(&deep, 14, Some(129), words),
    );
    let short = gaffmedlar::write_history_into(&[0], &mut []).unwrap_err();
    assert_eq!((short.refusal, short.element), (Refusal::BufferShort, None));
    assert_eq!(short.to_string(), Refusal::BufferShort.to_string());
}

/// Every number of small files changed and every one left out: wherever a writer refuses the elements, the element is found.
#[test]
fn an_element_for_every_refusal() {
    let grammars = [elements(&G), elements(&G_EXCHANGED)];
    let histories = [vec![4, 1, 0, 5, 6], vec![2, 1, 2]];
    let mut refused = 0;
    for numbers in grammars.iter().flat_map(|numbers| changed(numbers)) {
        refused += found(&numbers, gaffmedlar::write_grammar);
    }
    for numbers in histories.iter().flat_map(|numbers| changed(numbers)) {
        refused += found(&numbers, gaffmedlar::write_history);
    }
    assert!(refused > 300, "{refused}");
}

fn changed(numbers: &[u32]) -> Vec<Vec<u32>> {
    let mut all: Vec<Vec<u32>> = (0..numbers.len())
        .map(|end| numbers[..end].to_vec())
        .collect();
    for at in 0..numbers.len() {
        for other in [0, 1, 2, 3, 33, 70_000, u32::MAX] {
            let mut other_numbers = numbers.to_vec();
            other_numbers[at] = other;
            all.push(other_numbers);
        }
    }
    all
}

fn found(numbers: &[u32], write: fn(&[u32]) -> Result<Vec<u8>, NotWritten>) -> usize {
    let Err(error) = write(numbers) else {
        return 0;
    };
    assert!(error.element.is_some(), "{numbers:?}: {error}");
    1
}
