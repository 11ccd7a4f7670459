//! Makes cases: files that pass and damaged ones, short ones and those at a limit of length or of counts, with buffers around the
//! length that is needed, positions of opens, beside them and behind the last token, and elements to be written.
use crate::case::Case;
use crate::damage;
use crate::elements::elements;
use crate::grammars::{Made, Size, StepNames};
use crate::heads;
use crate::histories::{derived, marks, matched, nested, rename_one, repeated};
use crate::names;
use crate::near_top;
use crate::numbered;
use crate::random::Random;
use crate::writing::{Kind, Writing};
use frames::{history_file, history_numbers, numbers_file, Rule, Token};
use gaffmedlar::HISTORY_BYTES_MAX;
use reference::big::Big;
use reference::{grammar_check, parse_history, Work};

struct Maker<'a> {
    random: &'a mut Random,
}

impl Maker<'_> {
    fn written(&mut self, numbers: Vec<u32>, damaged: bool) -> Vec<u8> {
        let mut numbers = numbers;
        if damaged && self.random.percent(60) {
            damage::numbers(self.random, &mut numbers);
        }
        let mut bytes = numbers_file(&numbers);
        if damaged && self.random.percent(60) {
            for _ in 0..self.random.within(1, 2) {
                match self.random.percent(40) {
                    true => damage::form(self.random, &mut bytes),
                    false => damage::bytes(self.random, &mut bytes),
                }
            }
        }
        bytes
    }

    /// A grammar's bytes; many damaged ones are so at their beginning.
    fn written_grammar(&mut self, made: &Made, damaged: bool) -> Vec<u8> {
        if damaged && self.random.percent(40) {
            return heads::damaged(self.random, &made.numbers());
        }
        self.written(made.numbers(), damaged)
    }

    /// A rule that is there already is put in once more.
    fn repeat_rule(&mut self, rules: &mut Vec<Rule>) {
        let rule = self.random.one(rules);
        let place = self.random.below(rules.len() + 1);
        rules.insert(place, rule);
    }

    /// So many names.
    fn names(&mut self, low: usize, high: usize) -> Vec<u32> {
        let count = self.random.within(low, high);
        names::some(self.random, count)
    }

    fn size(&mut self) -> Size {
        match self.random.below(10) {
            0 | 1 => Size {
                stages: self.random.within(1, 3),
                rules: self.random.within(1, 9),
                names: self.names(1, 2),
                tokens: self.random.below(14),
                ends_percent: 85,
            },
            // many rules for few names: many readings
            2..=5 => Size {
                stages: self.random.within(1, 4),
                rules: self.random.within(6, 20),
                names: self.names(1, 1),
                tokens: self.random.within(1, 24),
                ends_percent: 100,
            },
            6..=8 => Size {
                stages: self.random.within(1, 8),
                rules: self.random.within(3, 30),
                names: self.names(1, 3),
                tokens: self.random.below(30),
                ends_percent: 75,
            },
            _ => Size {
                stages: self.random.within(1, 32),
                rules: self.random.within(30, 128),
                names: match self.random.below(3) {
                    0 => self.names(64, 64),
                    _ => self.names(1, 2),
                },
                tokens: self.random.below(60),
                ends_percent: 60,
            },
        }
    }

    fn files(&mut self) -> (Vec<u8>, Vec<u8>) {
        if self.random.percent(2) {
            let (long, short) = (self.random.below(40), self.random.below(12));
            return (self.random.bytes(long), self.random.bytes(short));
        }
        if self.random.percent(2) {
            return self.near_top_files();
        }
        let damage = self.random.below(100);
        let (grammar_damaged, history_damaged) = (damage < 22, (15..42).contains(&damage));
        let size = self.size();
        let mut made = if self.random.percent(5) {
            let names = StepNames::of(self.random, &size.names);
            Made::g(self.random, names)
        } else {
            Made::any(self.random, &size)
        };
        let mut tokens = match self.random.below(200) {
            0 => nested(self.random, &size.names),
            1..=40 => matched(self.random, size.tokens, &size.names),
            _ => derived(self.random, &made, size.tokens),
        };
        if self.random.percent(8) {
            rename_one(self.random, &mut tokens);
        }
        if grammar_damaged && self.random.percent(15) && made.rules.len() < 128 {
            self.repeat_rule(&mut made.rules);
        }
        let grammar = self.written_grammar(&made, grammar_damaged);
        let history = self.written(history_numbers(&tokens), history_damaged);
        (grammar, history)
    }

    /// A grammar at a limit, or one over it.
    fn limit_grammar(&mut self, names: &[u32]) -> Made {
        if self.random.percent(10) {
            return Made::longest(self.random.one(&[None, Some(0), Some(31), Some(32)]));
        }
        let size = Size {
            stages: self.random.one(&[1, 2, 31, 32, 32, 33]),
            rules: self.random.one(&[1, 16, 64, 127, 128, 128]),
            names: names.to_vec(),
            tokens: 0,
            ends_percent: self.random.one(&[5, 60, 100]),
        };
        let mut made = Made::any(self.random, &size);
        if self.random.percent(10) && made.rules.len() == 128 {
            made.rules.push(Rule::Marks {
                from: 0,
                mark: 65_535,
                then: 0,
            });
        }
        made
    }

    /// A history at a limit, or one over it, and its grammar.
    fn limit_frame(&mut self) -> (Made, Vec<Token>) {
        let names = self.random.one(&[1, 2, 3, 64]);
        let names = names::some(self.random, names);
        let made = self.limit_grammar(&names);
        let count = self.random.one(&[1022, 1023, 1024, 1024, 1024, 1025]);
        let tokens = match self.random.below(7) {
            0 => marks(self.random, count, &names),
            // steps one behind the other
            1 => {
                let [open, _, close] = StepNames::of(self.random, &names).step();
                repeated(&[open, close], count)
            }
            2 => nested(self.random, &names),
            // steps of G, with a mark in each
            3 | 4 => {
                let of_g = StepNames::of(self.random, &names);
                let steps = self.random.one(&[16, 340, 341]);
                let made = Made::g(self.random, of_g);
                return (made, repeated(&of_g.step(), 3 * steps));
            }
            5 => derived(self.random, &made, count),
            _ => matched(self.random, count, &names),
        };
        (made, tokens)
    }

    /// Files at a limit, or one over it.
    fn limit_files(&mut self) -> (Vec<u8>, Vec<u8>) {
        let (made, mut tokens) = self.limit_frame();
        if self.random.percent(20) {
            rename_one(self.random, &mut tokens);
        }
        let mut history = history_file(&tokens);
        match self.random.below(20) {
            0 => damage::bytes(self.random, &mut history),
            1 => damage::form(self.random, &mut history),
            _ => {}
        }
        (numbers_file(&made.numbers()), history)
    }

    /// Files with counts of readings around 2^64.
    fn near_top_files(&mut self) -> (Vec<u8>, Vec<u8>) {
        let (made, mut tokens) = near_top::frame(self.random);
        if self.random.percent(5) {
            rename_one(self.random, &mut tokens);
        }
        (numbers_file(&made.numbers()), history_file(&tokens))
    }

    /// A length for a buffer of which `needed` elements are written.
    fn length(&mut self, needed: Option<usize>) -> usize {
        let Some(needed) = needed else {
            return self.random.below(12);
        };
        match self.random.below(20) {
            0..=11 => needed,
            12..=15 => (needed + self.random.below(7)).saturating_sub(3),
            16 => needed.saturating_sub(1),
            17 => self.random.below(needed + 1),
            18 => self.random.below(3),
            _ => needed + self.random.below(40),
        }
    }

    /// A buffer of which `needed` bytes are written.
    fn any_bytes(&mut self, needed: Option<usize>) -> Vec<u8> {
        let length = self.length(needed);
        self.random.bytes(length)
    }

    /// A place of the order, counted from 0; the ends come often.
    fn place(&mut self, total: &Big) -> Big {
        let near = Big::new(self.random.below(4) as u32);
        let last = total.minus(&Big::new(1));
        match self.random.below(4) {
            0 | 3 if near < *total => near,
            1 if near < *total => last.minus(&near),
            2 => total.divided(&Big::new(self.random.within(2, 5) as u32)).0,
            _ => last,
        }
    }

    /// A buffer that often begins with a reading, or with one that was changed at one place.
    fn held(&mut self, work: &Work) -> Vec<u8> {
        let needed = work.positions();
        let length = self.length(needed);
        let mut bytes = self.random.bytes(length);
        let total = work.total();
        if !total.is_zero() && self.random.percent(85) {
            let place = self.place(&total);
            let reading = work.reading_at(&place).expect("both files pass");
            for (byte, rule) in bytes.iter_mut().zip(&reading) {
                *byte = *rule;
            }
            if self.random.percent(20) && length > 0 {
                let place = self.random.below(length);
                bytes[place] = match self.random.below(4) {
                    0 => self.random.next() as u8,
                    1 => bytes[place].wrapping_add(1),
                    2 => bytes[place].wrapping_sub(1),
                    _ => bytes[self.random.below(length)],
                };
            }
        }
        bytes
    }

    /// A position: most often that of an open, or else one below n, n or behind it, or a large number, which is an open's
    /// if its high bits are lost.
    fn position(&mut self, history: &[u8]) -> usize {
        let tokens = parse_history(history).unwrap_or_default();
        let is_open = |place: &usize| matches!(tokens[*place], Token::Open(_));
        let opens: Vec<usize> = (0..tokens.len()).filter(is_open).collect();
        let open = if opens.is_empty() {
            self.random.below(3)
        } else {
            self.random.one(&opens)
        };
        match self.random.below(10) {
            0..=5 => open,
            6 => self.random.below(tokens.len() + 1),
            7 => tokens.len() + self.random.below(4),
            8 => {
                open + self
                    .random
                    .one(&[1 << 8, 1 << 10, 1 << 16, 1 << 32, 1 << 63])
            }
            _ => usize::MAX - self.random.below(tokens.len() + 4),
        }
    }

    /// Elements that are often the file's own numbers, and a buffer around the length that they take.
    fn writing(&mut self, file: &[u8], kind: Kind) -> Writing {
        let elements = elements(self.random, file, kind);
        let mut room = [0; HISTORY_BYTES_MAX];
        let written = kind.due(&elements, &mut room);
        let length = self.length(Some(written.unwrap_or(elements.len())));
        Writing {
            elements,
            buffer: self.random.bytes(length),
        }
    }

    /// A list of fewer calls than so many.
    fn calls(&mut self, most: usize) -> Vec<u8> {
        (0..self.random.below(most))
            .map(|_| match self.random.below(10) {
                0..=2 => 0,
                3 => self.random.next() as u8,
                _ => 1,
            })
            .collect()
    }

    /// Room for the answers to a list of calls, or for one less.
    fn answers(&mut self, calls: &[u8]) -> Vec<u8> {
        let length = match self.random.below(10) {
            0..=6 => calls.len(),
            7 => calls.len().saturating_sub(1),
            _ => calls.len() + self.random.below(4),
        };
        self.random.bytes(length)
    }

    fn case(&mut self, limit: bool) -> Case {
        let (grammar, history) = if limit {
            self.limit_files()
        } else {
            self.files()
        };
        let work = Work::new(&grammar, &history);
        let needed = work.positions();
        let first = self.any_bytes(needed);
        let next = self.held(&work);
        let buffer = self.held(&work);
        let words = {
            let length = self.length(needed.map(|positions| 4 * positions));
            (0..length).map(|_| self.random.next() as u32).collect()
        };
        let marks = self.any_bytes(needed);
        let calls = self.calls(if limit { 4 } else { 10 });
        let answers = self.answers(&calls);
        let position = self.position(&history);
        let write_grammar = self.writing(&grammar, Kind::Grammar);
        let write_history = self.writing(&history, Kind::History);
        let rules = grammar_check(&grammar).map_or(3, |(_, rules)| rules.into());
        let reading = self.any_bytes(needed);
        let numbered = numbered::asked(self.random, &work, rules, &next, reading);
        Case {
            grammar,
            history,
            first,
            next,
            words,
            marks,
            calls,
            answers,
            buffer,
            position,
            numbered,
            write_grammar,
            write_history,
        }
    }
}

/// The case of a seed. One in `every` stands at a limit.
pub fn case(random: &mut Random, every: usize) -> Case {
    let limit = random.below(every) == 0;
    Maker { random }.case(limit)
}

/// A list of tokens without those at some places.
pub fn tokens_without(tokens: &[Token], places: &[usize]) -> Vec<Token> {
    tokens
        .iter()
        .enumerate()
        .filter(|(place, _)| !places.contains(place))
        .map(|(_, token)| *token)
        .collect()
}
