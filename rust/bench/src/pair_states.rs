//! Stop marks by pair states in plain Rust, in two ways.
use crate::index::{Classes, Index};
use crate::plain::{has, read, Read};
use frames::{Rule, Token};

/// A state of pairs: bit L2 of word L1 for the pair of context L1 and current stage L2.
type Pairs = [u32; 32];

/// The state before the first token: the start stage in its own context.
fn started(start: u16) -> Pairs {
    let mut pairs = [0; 32];
    pairs[usize::from(start)] = 1 << start;
    pairs
}

/// Both files, where there is room for the marks; or the number of the refusal.
fn opened(grammar: &[u8], history: &[u8], marks: &[u8]) -> Result<Read, u8> {
    let read = read(grammar, history)?;
    if marks.len() <= read.tokens.len() {
        return Err(15);
    }
    Ok(read)
}

/// Each word goes from the stages in it to those that a rule of the given kind leads to.
fn led(pairs: &Pairs, rules: &[Rule], lead: impl Fn(&Rule) -> Option<u16>) -> Pairs {
    let mut out = [0; 32];
    for (word, &set) in out.iter_mut().zip(pairs) {
        for rule in rules {
            if has(set, rule.from()) {
                if let Some(stage) = lead(rule) {
                    *word |= 1 << stage;
                }
            }
        }
    }
    out
}

/// The stages that have an empty rule.
fn ends_of(rules: &[Rule]) -> u32 {
    rules.iter().fold(0, |ends, rule| match rule {
        Rule::Ends { from } => ends | 1 << from,
        _ => ends,
    })
}

/// Over all rules, a word to each context.
pub fn by_contexts(grammar: &[u8], history: &[u8], marks: &mut [u8]) -> u8 {
    let Read {
        start,
        rules,
        tokens,
    } = match opened(grammar, history, marks) {
        Ok(read) => read,
        Err(number) => return number,
    };
    let ends = ends_of(&rules);
    let mut stack: Vec<(Pairs, u32)> = Vec::new();
    let mut pairs = started(start);
    for (place, token) in tokens.iter().enumerate() {
        marks[place] = u8::from(stack.is_empty() && pairs.iter().any(|word| word & ends != 0));
        pairs = match *token {
            Token::Mark(name) => led(&pairs, &rules, |rule| match *rule {
                Rule::Marks { mark, then, .. } if mark == name => Some(then),
                _ => None,
            }),
            Token::Open(name) => {
                stack.push((pairs, name));
                inside_of(&pairs, &rules, name)
            }
            Token::Close(name) => {
                let (before, opened) = stack.pop().expect("a history that passed");
                behind(&before, &rules, (opened, name), &pairs, ends)
            }
        };
    }
    marks[tokens.len()] = u8::from(pairs.iter().any(|word| word & ends != 0));
    0
}

/// Behind an open: each stage that it leads to, in its own context.
fn inside_of(pairs: &Pairs, rules: &[Rule], name: u32) -> Pairs {
    let inside = led(pairs, rules, |rule| match *rule {
        Rule::Steps { open, inside, .. } if open == name => Some(inside),
        _ => None,
    });
    let all = inside.iter().fold(0, |all, word| all | word);
    let mut out = [0; 32];
    for (stage, word) in out.iter_mut().enumerate() {
        *word = all & 1 << stage;
    }
    out
}

/// Behind a close: the state before the step's open, led on by the rules whose inside can have ended in `pairs`.
fn behind(
    before: &Pairs,
    rules: &[Rule],
    (opened, name): (u32, u32),
    pairs: &Pairs,
    ends: u32,
) -> Pairs {
    let mut done = 0u32;
    for (stage, word) in pairs.iter().enumerate() {
        done |= u32::from(word & ends != 0) << stage;
    }
    led(before, rules, |rule| match *rule {
        Rule::Steps {
            open,
            inside,
            close,
            then,
            ..
        } if open == opened && close == name && has(done, inside) => Some(then),
        _ => None,
    })
}

/// The contexts whose level may be finished, in a state turned round: bit L1 of word L2.
fn finished(pairs: &Pairs, ends: u32) -> u32 {
    let words = pairs.iter().enumerate();
    words.fold(0, |set, (stage, word)| match ends >> stage & 1 {
        0 => set,
        _ => set | word,
    })
}

/// By the index, a word to each current stage, as the library has it.
pub fn by_currents(grammar: &[u8], history: &[u8], marks: &mut [u8]) -> u8 {
    let Read {
        start,
        rules,
        tokens,
    } = match opened(grammar, history, marks) {
        Ok(read) => read,
        Err(number) => return number,
    };
    let index = Classes::of(&rules);
    let ends = index.ends().map_or(0, |ends| ends.stages);
    let mut stack: Vec<(Pairs, u32)> = Vec::new();
    let mut pairs = started(start);
    for (place, &token) in tokens.iter().enumerate() {
        marks[place] = u8::from(stack.is_empty() && finished(&pairs, ends) != 0);
        pairs = match token {
            Token::Mark(name) => after_mark(&index, &rules, name, &pairs),
            Token::Open(name) => {
                stack.push((pairs, name));
                after_open(&index, &rules, name, &pairs)
            }
            Token::Close(name) => {
                let (before, opened) = stack.pop().expect("a history that passed");
                let done = finished(&pairs, ends);
                after_close(&index, &rules, (opened, name), &before, done)
            }
        };
    }
    marks[tokens.len()] = u8::from(finished(&pairs, ends) != 0);
    0
}

fn after_mark(index: &Classes, rules: &[Rule], name: u32, pairs: &Pairs) -> Pairs {
    let mut out = [0; 32];
    for (_, rule) in index.at(rules, Some(Token::Mark(name))) {
        match *rule {
            Rule::Marks { from, mark, then } if mark == name => {
                out[usize::from(then)] |= pairs[usize::from(from)];
            }
            _ => {}
        }
    }
    out
}

fn after_open(index: &Classes, rules: &[Rule], name: u32, pairs: &Pairs) -> Pairs {
    let mut out = [0; 32];
    for (_, rule) in index.at(rules, Some(Token::Open(name))) {
        match *rule {
            Rule::Steps {
                from, open, inside, ..
            } if open == name && pairs[usize::from(from)] != 0 => {
                out[usize::from(inside)] |= 1 << inside;
            }
            _ => {}
        }
    }
    out
}

/// `before` is the state before the step's open, `done` the contexts whose level may be finished.
fn after_close(
    index: &Classes,
    rules: &[Rule],
    (opened, name): (u32, u32),
    before: &Pairs,
    done: u32,
) -> Pairs {
    let mut out = [0; 32];
    for (_, rule) in index.at(rules, Some(Token::Open(opened))) {
        match *rule {
            Rule::Steps {
                from,
                open,
                inside,
                close,
                then,
            } if open == opened && close == name && has(done, inside) => {
                out[usize::from(then)] |= before[usize::from(from)];
            }
            _ => {}
        }
    }
    out
}
