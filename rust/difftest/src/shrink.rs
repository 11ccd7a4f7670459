//! Makes a case smaller as long as both sides still differ on it.
use crate::case::{compare, Case};
use crate::faults::Fault;
use crate::heads;
use crate::make::tokens_without;
use crate::numbered::Numbered;
use crate::writing::{Kind, Writing};
use frames::{grammar_file, history_file, numbers_file, Token};
use reference::big::Big;
use reference::files::partners;
use reference::{parse_grammar, parse_history, Grammar, Work};
use std::time::{Duration, Instant};

/// At most this long.
const PATIENCE: Duration = Duration::from_secs(20);

fn weight(case: &Case) -> u128 {
    let sum = |bytes: &[u8]| bytes.iter().map(|&byte| usize::from(byte)).sum::<usize>();
    let parts = [
        &case.grammar,
        &case.history,
        &case.first,
        &case.next,
        &case.marks,
        &case.calls,
        &case.answers,
        &case.buffer,
        &case.write_grammar.buffer,
        &case.write_history.buffer,
        &case.numbered.reading,
    ];
    let elements = parts
        .iter()
        .map(|bytes| 1000 * bytes.len() + sum(bytes))
        .sum::<usize>()
        + 1000 * case.words.len()
        + case.words.iter().filter(|&&word| word != 0).count();
    let written = [&case.write_grammar.elements, &case.write_history.elements].into_iter();
    let numbers = written.map(|all| all.iter().map(|&n| 1000 + u128::from(n)).sum::<u128>());
    let Numbered {
        k, position, rule, ..
    } = case.numbered;
    let asked = u128::from(k) + position as u128 + rule as u128;
    elements as u128 + case.position as u128 + asked + numbers.sum::<u128>()
}

/// A way to make a case smaller: puts what it makes of one at the end of a list.
type Way = fn(&Case, &mut Vec<Case>);

const WAYS: [Way; 15] = [
    parts_dropped,
    parts_cleared,
    rules_dropped,
    start_dropped,
    tokens_dropped,
    history_unnamed,
    |case, all| in_both(case, all, elements_dropped),
    |case, all| in_both(case, all, elements_uncounted),
    |case, all| in_both(case, all, elements_unstarted),
    bytes_dropped,
    bytes_lowered,
    names_lowered,
    position_lowered,
    asked_lowered,
    |case, all| in_both(case, all, elements_lowered),
];

/// A way that goes by the elements of one writer, for both.
fn in_both(case: &Case, all: &mut Vec<Case>, way: fn(&Case, Kind, &mut Vec<Case>)) {
    for kind in [Kind::Grammar, Kind::History] {
        way(case, kind, all);
    }
}

pub fn shrink(case: &Case, fault: Option<Fault>) -> Case {
    let start = Instant::now();
    let mut best = case.clone();
    while start.elapsed() < PATIENCE {
        let smaller = |case: &Case| {
            weight(case) < weight(&best)
                && start.elapsed() < PATIENCE
                && compare(case, fault, |_, _| {}).is_some()
        };
        let found = WAYS.iter().find_map(|way| {
            let mut made = Vec::new();
            way(&best, &mut made);
            made.into_iter().find(smaller)
        });
        match found {
            Some(smaller) => best = smaller,
            None => break,
        }
    }
    best
}

/// Numbers below this one: 0, the half, and others that come nearer and nearer.
fn lower_64(number: u64) -> impl Iterator<Item = u64> {
    let nearer = (1..64).map(move |k| number >> k);
    let nearer = nearer.take_while(|&less| less > 0);
    let zero = (number > 0).then_some(0);
    zero.into_iter()
        .chain(nearer.map(move |less| number - less))
}

fn lower(number: u32) -> impl Iterator<Item = u32> {
    lower_64(number.into()).map(|lower| lower as u32)
}

/// Buffers that may not matter at all.
fn parts_dropped(case: &Case, all: &mut Vec<Case>) {
    for which in 0..10 {
        let mut smaller = case.clone();
        match which {
            0 => smaller.first.clear(),
            1 => smaller.next.clear(),
            2 => smaller.words.clear(),
            3 => smaller.marks.clear(),
            4 => smaller.calls.clear(),
            5 => smaller.answers.clear(),
            6 => smaller.buffer.clear(),
            7 => smaller.write_grammar = Writing::default(),
            8 => smaller.numbered = Numbered::default(),
            _ => smaller.write_history = Writing::default(),
        }
        all.push(smaller);
    }
}

/// Buffers of which the length alone may matter.
fn parts_cleared(case: &Case, all: &mut Vec<Case>) {
    for which in 2..FIELDS {
        let mut smaller = case.clone();
        field(&mut smaller, which).fill(0);
        all.push(smaller);
    }
}

/// The file of a grammar, with its start or without it.
fn file_of(grammar: &Grammar, says_start: bool) -> Vec<u8> {
    let start = says_start.then_some(grammar.start);
    grammar_file(grammar.stages, start, &grammar.rules)
}

/// A grammar that passes, with one rule less, and the numbers in the buffers moved down.
fn rules_dropped(case: &Case, all: &mut Vec<Case>) {
    let Ok(grammar) = parse_grammar(&case.grammar) else {
        return;
    };
    for gone in 0..grammar.rules.len() {
        let mut fewer = grammar.clone();
        fewer.rules.remove(gone);
        let mut smaller = case.clone();
        smaller.grammar = file_of(&fewer, heads::says_start(&case.grammar));
        for bytes in [&mut smaller.next, &mut smaller.buffer] {
            for byte in bytes.iter_mut() {
                if usize::from(*byte) > gone {
                    *byte -= 1;
                }
            }
        }
        if smaller.numbered.rule > gone {
            smaller.numbered.rule -= 1;
        }
        with_readings(smaller, all);
    }
}

/// A grammar that passes, numbered so that stage 0 starts: without the start and with it. And any that says its start, with
/// one stage less.
fn start_dropped(case: &Case, all: &mut Vec<Case>) {
    let with = |grammar| Case {
        grammar,
        ..case.clone()
    };
    if let Ok(grammar) = parse_grammar(&case.grammar) {
        let from_0 = grammar.from_stage_0();
        all.extend([false, true].map(|says_start| with(file_of(&from_0, says_start))));
    }
    if let [0, stages @ 1..=255, start @ 1..=255, rest @ ..] = &case.grammar[..] {
        all.push(with([&[0, stages - 1, start - 1], rest].concat()));
    }
}

/// A history that passes, without a mark, a step's ends or a whole step; and the buffers without these positions.
fn tokens_dropped(case: &Case, all: &mut Vec<Case>) {
    let Ok(tokens) = parse_history(&case.history) else {
        return;
    };
    let partner = partners(&tokens);
    for place in 0..tokens.len() {
        let mut ways = Vec::new();
        match tokens[place] {
            Token::Mark(_) => ways.push(vec![place]),
            Token::Open(_) => {
                ways.push((place..=partner[place]).collect());
                ways.push(vec![place, partner[place]]);
            }
            Token::Close(_) => {}
        }
        for gone in ways {
            with_readings(without(case, &tokens, &gone), all);
        }
    }
}

/// The case without the tokens at these places.
fn without(case: &Case, tokens: &[Token], gone: &[usize]) -> Case {
    let mut smaller = case.clone();
    smaller.history = history_file(&tokens_without(tokens, gone));
    for position in [&mut smaller.position, &mut smaller.numbered.position] {
        if *position <= tokens.len() + 1 {
            let before = gone.iter().filter(|&&place| place < *position);
            *position -= before.count();
        }
    }
    for &place in gone.iter().rev() {
        for bytes in [
            &mut smaller.first,
            &mut smaller.next,
            &mut smaller.marks,
            &mut smaller.buffer,
            &mut smaller.numbered.reading,
        ] {
            if place < bytes.len() {
                bytes.remove(place);
            }
        }
        for _ in 0..4 {
            if 4 * place < smaller.words.len() {
                smaller.words.remove(4 * place);
            }
        }
    }
    smaller
}

/// A history with the name 0 for every token, whether it passes or not.
fn history_unnamed(case: &Case, all: &mut Vec<Case>) {
    let mut numbers = gaffmedlar::numbers(&case.history);
    for number in numbers.iter_mut().skip(1) {
        *number %= 4;
    }
    all.push(Case {
        history: numbers_file(&numbers),
        ..case.clone()
    });
}

/// In the files that pass: a lower name for a token wherever it stands, and all names without one of their bits.
fn names_lowered(case: &Case, all: &mut Vec<Case>) {
    for token in tokens_named(case) {
        let instead = |other: Token, name| if other == token { name } else { other.name() };
        let lower = lower(token.name());
        all.extend(lower.map(|name| with_names(case, |other| instead(other, name))));
    }
    all.extend((0..16).map(|bit| with_names(case, |token| token.name() & !(1 << bit))));
}

/// The tokens of both files and those that the grammar's rules make, each once.
fn tokens_named(case: &Case) -> Vec<Token> {
    let rules = parse_grammar(&case.grammar).map_or(vec![], |grammar| grammar.rules);
    let made = rules.iter().flat_map(|rule| rule.tokens());
    let mut named = Vec::new();
    for token in made.chain(parse_history(&case.history).unwrap_or_default()) {
        if !named.contains(&token) {
            named.push(token);
        }
    }
    named
}

/// The case with other names in the files that pass.
fn with_names(case: &Case, name: impl Fn(Token) -> u32) -> Case {
    let mut renamed = case.clone();
    if let Ok(mut grammar) = parse_grammar(&case.grammar) {
        for rule in &mut grammar.rules {
            *rule = rule.renamed(&name);
        }
        renamed.grammar = file_of(&grammar, heads::says_start(&case.grammar));
    }
    if let Ok(mut tokens) = parse_history(&case.history) {
        for token in &mut tokens {
            *token = token.named(name(*token));
        }
        renamed.history = history_file(&tokens);
    }
    renamed
}

/// The case, and the same with one of the first readings of its files in the buffers that hold one, and asked for by its number.
fn with_readings(case: Case, all: &mut Vec<Case>) {
    let work = Work::new(&case.grammar, &case.history);
    let total = work.total();
    all.push(case.clone());
    for (k, place) in (0..3)
        .map(Big::new)
        .enumerate()
        .take_while(|(_, place)| *place < total)
    {
        let reading = work.reading_at(&place).expect("both files pass");
        let mut held = case.clone();
        for bytes in [&mut held.next, &mut held.buffer] {
            if !bytes.is_empty() {
                bytes.clone_from(&reading);
            }
        }
        held.numbered.k = k as u64 + 1;
        all.push(held);
    }
}

/// The files and the buffers of bytes.
const FIELDS: usize = 11;

fn field(case: &mut Case, which: usize) -> &mut Vec<u8> {
    match which {
        0 => &mut case.grammar,
        1 => &mut case.history,
        2 => &mut case.first,
        3 => &mut case.next,
        4 => &mut case.marks,
        5 => &mut case.calls,
        6 => &mut case.answers,
        7 => &mut case.buffer,
        8 => &mut case.write_grammar.buffer,
        9 => &mut case.numbered.reading,
        _ => &mut case.write_history.buffer,
    }
}

fn bytes_dropped(case: &Case, all: &mut Vec<Case>) {
    let mut work = case.clone();
    for which in 0..FIELDS {
        let length = field(&mut work, which).len();
        let mut piece = length;
        while piece > 0 {
            let mut place = 0;
            while place + piece <= length {
                let mut smaller = case.clone();
                field(&mut smaller, which).drain(place..place + piece);
                all.push(smaller);
                place += piece;
            }
            piece /= 2;
        }
    }
    let mut piece = case.words.len();
    while piece > 0 {
        let mut smaller = case.clone();
        smaller.words.truncate(case.words.len() - piece);
        all.push(smaller);
        piece /= 2;
    }
}

fn bytes_lowered(case: &Case, all: &mut Vec<Case>) {
    let mut work = case.clone();
    for which in 0..FIELDS {
        for place in 0..field(&mut work, which).len() {
            let byte = field(&mut work, which)[place];
            for lower in lower(byte.into()) {
                let mut smaller = case.clone();
                field(&mut smaller, which)[place] = lower as u8;
                all.push(smaller);
            }
        }
    }
    for place in 0..case.words.len() {
        if case.words[place] != 0 {
            let mut smaller = case.clone();
            smaller.words[place] = 0;
            all.push(smaller);
        }
    }
}

fn position_lowered(case: &Case, all: &mut Vec<Case>) {
    let position = case.position;
    for lower in [0, position / 2, position.saturating_sub(1)] {
        if lower < position {
            let mut smaller = case.clone();
            smaller.position = lower;
            all.push(smaller);
        }
    }
}

/// A lower k, position or rule; k also the count of readings and one more.
fn asked_lowered(case: &Case, all: &mut Vec<Case>) {
    let Numbered {
        k, position, rule, ..
    } = case.numbered;
    let mut add = |change: &dyn Fn(&mut Numbered)| {
        let mut smaller = case.clone();
        change(&mut smaller.numbered);
        all.push(smaller);
    };
    let count = Work::new(&case.grammar, &case.history).total().small();
    let around = count
        .into_iter()
        .flat_map(|count| [count, count.saturating_add(1)]);
    for lower in around.filter(|&lower| lower < k).chain(lower_64(k)) {
        add(&|asked| asked.k = lower);
    }
    for lower in lower_64(position as u64) {
        add(&|asked| asked.position = lower as usize);
    }
    for lower in lower_64(rule as u64) {
        add(&|asked| asked.rule = lower as usize);
    }
}

/// A writer's elements without some, in pieces as the bytes.
fn elements_dropped(case: &Case, kind: Kind, all: &mut Vec<Case>) {
    let length = case.clone().writing(kind).elements.len();
    let mut piece = length;
    while piece > 0 {
        for place in (0..=length - piece).step_by(piece) {
            let mut smaller = case.clone();
            smaller.writing(kind).elements.drain(place..place + piece);
            all.push(smaller);
        }
        piece /= 2;
    }
}

/// One rule less, or one token or two, and the count before them less by as many; with the buffer as it is, and with less room.
fn elements_uncounted(case: &Case, kind: Kind, all: &mut Vec<Case>) {
    let elements = case.clone().writing(kind).elements.clone();
    let (count, pieces): (usize, &[(usize, u32)]) = match kind {
        Kind::Grammar if heads::says_start(&elements) => (3, &[(2, 1), (4, 1), (6, 1)]),
        Kind::Grammar => (1, &[(2, 1), (4, 1), (6, 1)]),
        Kind::History => (0, &[(1, 1), (2, 2)]),
    };
    let length = elements.len();
    for &(piece, less) in pieces {
        for place in count + 1..(length + 1).saturating_sub(piece) {
            let mut smaller = case.clone();
            let Writing { elements, buffer } = smaller.writing(kind);
            elements.drain(place..place + piece);
            elements[count] = elements[count].saturating_sub(less);
            let room = buffer.len().saturating_sub(piece);
            all.push(smaller.clone());
            smaller.writing(kind).buffer.truncate(room);
            all.push(smaller);
        }
    }
}

/// A grammar's elements without the 0 and the start.
fn elements_unstarted(case: &Case, kind: Kind, all: &mut Vec<Case>) {
    let mut smaller = case.clone();
    let elements = &mut smaller.writing(kind).elements;
    if kind == Kind::Grammar && heads::says_start(elements) && elements.len() > 2 {
        elements.remove(2);
        elements.remove(0);
        all.push(smaller);
    }
}

fn elements_lowered(case: &Case, kind: Kind, all: &mut Vec<Case>) {
    let elements = case.clone().writing(kind).elements.clone();
    for (place, &element) in elements.iter().enumerate() {
        for lower in lower(element) {
            let mut smaller = case.clone();
            smaller.writing(kind).elements[place] = lower;
            all.push(smaller);
        }
    }
}
