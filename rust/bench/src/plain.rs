//! The algorithms of the proved library in plain Rust, over all rules or by an index: backward the stages that derive the
//! rest of each level, forward the readings and the sets. Answers are numbers as in include/gaffmedlar.h.
use crate::index::{Ends, Index};
use frames::{Rule, Token};
use reference::{parse_grammar, parse_history, Grammar, NO_FURTHER, NO_READING};

pub struct Read {
    pub start: u16,
    pub rules: Vec<Rule>,
    pub tokens: Vec<Token>,
}

pub fn read(grammar: &[u8], history: &[u8]) -> Result<Read, u8> {
    let Grammar { start, rules, .. } = parse_grammar(grammar)?;
    let tokens = parse_history(history)?;
    Ok(Read {
        start,
        rules,
        tokens,
    })
}

/// For each position the first pending close behind it: for an open its own close. n where there is none.
fn closes(tokens: &[Token]) -> Vec<usize> {
    let n = tokens.len();
    let mut close = vec![n; n + 1];
    let mut top = n;
    for place in (0..n).rev() {
        let beyond = close[top];
        close[place] = top;
        top = match tokens[place] {
            Token::Mark(_) => top,
            Token::Open(_) => beyond,
            Token::Close(_) => place,
        };
    }
    close
}

pub fn has(set: u32, stage: u16) -> bool {
    set >> stage & 1 == 1
}

/// The rules at a position, their own stages and whether two have the same one, the stages with which they go on, and those behind
/// their close.
#[derive(Default)]
struct Set {
    words: [u32; 4],
    met: u32,
    choice: bool,
    next: u32,
    later: u32,
}

impl Set {
    fn put(&mut self, number: usize) {
        self.words[number / 32] |= 1 << (number % 32);
    }

    fn add(&mut self, number: usize, stage: u16) {
        self.put(number);
        self.choice |= has(self.met, stage);
        self.met |= 1 << stage;
    }
}

pub struct Levels<I> {
    pub read: Read,
    index: I,
    pub close: Vec<usize>,
    /// The stages that derive the rest of the level from each position.
    able: Vec<u32>,
}

impl<I: Index> Levels<I> {
    fn of(read: Read) -> Levels<I> {
        let n = read.tokens.len();
        let mut levels = Levels {
            close: closes(&read.tokens),
            able: vec![0; n + 2],
            index: I::of(&read.rules),
            read,
        };
        for place in (0..=n).rev() {
            levels.able[place] = levels.level(place);
        }
        levels
    }

    /// The rules to look at at a position.
    pub fn rules_at(&self, place: usize) -> impl Iterator<Item = (usize, &Rule)> {
        let token = self.read.tokens.get(place).copied();
        self.index.at(&self.read.rules, token)
    }

    /// What is known of the empty rules, where only these can stand.
    pub fn ends_at(&self, place: usize) -> Option<&Ends> {
        match self.read.tokens.get(place) {
            None | Some(Token::Close(_)) => self.index.ends(),
            _ => None,
        }
    }

    fn level(&self, place: usize) -> u32 {
        if let Some(ends) = self.ends_at(place) {
            return ends.stages;
        }
        let mut set = 0;
        for (_, rule) in self.rules_at(place) {
            if self.applies(rule, place) {
                set |= 1 << rule.from();
            }
        }
        set
    }

    /// The smallest rule of the stage, which derives the rest.
    pub fn smallest(&self, stage: u16, place: usize) -> usize {
        if let Some(ends) = self.ends_at(place) {
            return ends.rule[usize::from(stage)].into();
        }
        self.rules_at(place)
            .find(|(_, rule)| self.fits(rule, stage, place))
            .expect("the stage derives the rest")
            .0
    }

    pub fn applies(&self, rule: &Rule, place: usize) -> bool {
        let tokens = &self.read.tokens;
        match *rule {
            Rule::Ends { .. } => matches!(tokens.get(place), None | Some(Token::Close(_))),
            Rule::Marks { mark, then, .. } => {
                tokens.get(place) == Some(&Token::Mark(mark)) && has(self.able[place + 1], then)
            }
            Rule::Steps {
                open,
                inside,
                close,
                then,
                ..
            } => {
                tokens.get(place) == Some(&Token::Open(open))
                    && has(self.able[place + 1], inside)
                    && {
                        let shut = self.close[place];
                        tokens[shut] == Token::Close(close) && has(self.able[shut + 1], then)
                    }
            }
        }
    }

    pub fn fits(&self, rule: &Rule, stage: u16, place: usize) -> bool {
        rule.from() == stage && self.applies(rule, place)
    }

    /// The stage at the next position; `behind` has the stage behind each pending close.
    pub fn go_on(&self, rule: &Rule, place: usize, behind: &mut [u16]) -> u16 {
        match *rule {
            Rule::Ends { .. } => behind[place],
            Rule::Marks { then, .. } => then,
            Rule::Steps { inside, then, .. } => {
                behind[self.close[place]] = then;
                inside
            }
        }
    }

    fn fill(&self, stage: u16, from: usize, behind: &mut [u16], out: &mut [u8]) {
        let mut stage = stage;
        let end = self.read.tokens.len() + 1;
        for (place, byte) in out.iter_mut().enumerate().take(end).skip(from) {
            let smallest = self.smallest(stage, place);
            *byte = smallest as u8;
            stage = self.go_on(&self.read.rules[smallest], place, behind);
        }
    }

    /// The rules at a position where these stages can stand.
    fn set_at(&self, here: u32, place: usize) -> Set {
        let mut set = Set::default();
        if let Some(ends) = self.ends_at(place) {
            // one rule to a stage, so there is no choice
            let mut left = here & ends.stages;
            while left != 0 {
                set.put(ends.rule[left.trailing_zeros() as usize].into());
                left &= left - 1;
            }
            return set;
        }
        for (number, rule) in self.rules_at(place) {
            if has(here, rule.from()) && self.applies(rule, place) {
                set.add(number, rule.from());
                match *rule {
                    Rule::Ends { .. } => {}
                    Rule::Marks { then, .. } => set.next |= 1 << then,
                    Rule::Steps { inside, then, .. } => {
                        set.next |= 1 << inside;
                        set.later |= 1 << then;
                    }
                }
            }
        }
        set
    }

    /// For each position the rules that stand there in some reading, and whether two of them are of one stage.
    fn kept(&self, mut each: impl FnMut(usize, [u32; 4], bool)) {
        let n = self.read.tokens.len();
        let mut behind = vec![0u32; n + 1];
        let mut here = self.able[0] & 1 << self.read.start;
        for (place, &close) in self.close.iter().enumerate() {
            let set = self.set_at(here, place);
            each(place, set.words, set.choice);
            here = behind[place] | set.next;
            behind[close] |= set.later;
        }
    }
}

/// The levels of both files, where the lent buffer has room for what is needed; or the number of the refusal.
pub fn levels<I: Index>(
    grammar: &[u8],
    history: &[u8],
    lent: usize,
    needed: impl Fn(usize) -> usize,
) -> Result<Levels<I>, u8> {
    let read = read(grammar, history)?;
    if lent < needed(read.tokens.len() + 1) {
        return Err(15);
    }
    Ok(Levels::of(read))
}

fn number(answer: Result<u8, u8>) -> u8 {
    answer.unwrap_or_else(|number| number)
}

pub fn first_reading<I: Index>(grammar: &[u8], history: &[u8], out: &mut [u8]) -> u8 {
    number(
        levels::<I>(grammar, history, out.len(), |positions| positions).map(|levels| {
            let start = levels.read.start;
            if !has(levels.able[0], start) {
                return NO_READING;
            }
            let mut behind = vec![0; levels.read.tokens.len() + 1];
            levels.fill(start, 0, &mut behind, out);
            0
        }),
    )
}

pub fn next_reading<I: Index>(grammar: &[u8], history: &[u8], out: &mut [u8]) -> u8 {
    let levels = match levels::<I>(grammar, history, out.len(), |positions| positions) {
        Ok(levels) => levels,
        Err(number) => return number,
    };
    let n = levels.read.tokens.len();
    let rules = &levels.read.rules;
    let mut at = vec![0; n + 1];
    let mut behind = vec![0; n + 1];
    let mut stage = levels.read.start;
    for place in 0..=n {
        at[place] = stage;
        match rules.get(usize::from(out[place])) {
            Some(rule) if levels.fits(rule, stage, place) => {
                stage = levels.go_on(rule, place, &mut behind);
            }
            _ => return 16,
        }
    }
    for place in (0..=n).rev() {
        for (number, rule) in levels.index.larger(rules, out[place].into()) {
            if levels.fits(rule, at[place], place) {
                out[place] = number as u8;
                let stage = levels.go_on(rule, place, &mut behind);
                levels.fill(stage, place + 1, &mut behind, out);
                return 0;
            }
        }
    }
    NO_FURTHER
}

pub fn run_calls<I: Index>(
    grammar: &[u8],
    history: &[u8],
    calls: &[u8],
    answers: &mut [u8],
    buffer: &mut [u8],
) -> u8 {
    if answers.len() < calls.len() {
        return number(read(grammar, history).map(|_| 15));
    }
    for (answer, call) in answers.iter_mut().zip(calls) {
        *answer = match call {
            0 => first_reading::<I>(grammar, history, buffer),
            _ => next_reading::<I>(grammar, history, buffer),
        };
    }
    0
}

/// Writes the sets, and counts the choices in the same pass.
pub fn sets<I: Index>(grammar: &[u8], history: &[u8], words: &mut [u32]) -> Result<u32, u8> {
    let levels = levels::<I>(grammar, history, words.len(), |positions| 4 * positions)?;
    let mut count = 0;
    levels.kept(|place, set, choice| {
        words[4 * place..4 * place + 4].copy_from_slice(&set);
        count += u32::from(choice);
    });
    Ok(count)
}

pub fn choice_count<I: Index>(grammar: &[u8], history: &[u8]) -> Result<u32, u8> {
    let levels = levels::<I>(grammar, history, 0, |_| 0)?;
    let mut count = 0;
    levels.kept(|_, _, choice| count += u32::from(choice));
    Ok(count)
}
