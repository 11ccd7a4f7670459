//! The two files, read. Rules and tokens are those that the tests write files of; the reader is this crate's own.
use frames::{Rule, Token};

#[derive(Clone, Debug, PartialEq, Eq)]
pub struct Grammar {
    pub stages: u16,
    /// The stage that a reading derives the history from.
    pub start: u16,
    pub rules: Vec<Rule>,
}

impl Grammar {
    /// The same with the numbers of its start and of stage 0 exchanged, so that it starts at stage 0.
    pub fn from_stage_0(&self) -> Grammar {
        let exchanged = |stage| match stage {
            0 => self.start,
            stage if stage == self.start => 0,
            other => other,
        };
        Grammar {
            stages: self.stages,
            start: 0,
            rules: self
                .rules
                .iter()
                .map(|rule| rule.renumbered(exchanged))
                .collect(),
        }
    }
}

/// The bytes that have not been read yet.
struct Rest<'a>(&'a [u8]);

impl Rest<'_> {
    /// The next number, in the shortest form, in three bytes at most; or 1 or 2.
    fn number(&mut self) -> Result<u32, u8> {
        let group = |byte: u8| u32::from(byte & 0x7f);
        let (number, length) = match *self.0 {
            [one @ ..=127, ..] => (group(one), 1),
            [_, 0, ..] => return Err(2),
            [one, two @ ..=127, ..] => (group(one) | group(two) << 7, 2),
            [_, _, 0 | 128.., ..] => return Err(2),
            [one, two, three, ..] => (group(one) | group(two) << 7 | group(three) << 14, 3),
            _ => return Err(1),
        };
        self.0 = &self.0[length..];
        Ok(number)
    }

    /// The next number where it is of this type and `fits` takes it, else `otherwise`.
    fn number_that<N: TryFrom<u32>>(
        &mut self,
        fits: impl Fn(&N) -> bool,
        otherwise: u8,
    ) -> Result<N, u8> {
        let number = N::try_from(self.number()?).ok();
        number.filter(fits).ok_or(otherwise)
    }

    fn stage(&mut self, stages: u16) -> Result<u16, u8> {
        self.number_that(|&stage| stage < stages, 6)
    }

    fn name(&mut self) -> Result<u32, u8> {
        self.number_that(|&name| name <= 65_535, 7)
    }

    /// The stage count and the start. Where the first number is a 0 both follow it, else it is the stage count itself and
    /// stage 0 starts.
    fn stages_and_start(&mut self) -> Result<(u16, u16), u8> {
        match self.number()? {
            0 => {
                let stages = self.number_that(|n| (1..=32).contains(n), 3)?;
                let start = self.stage(stages)?;
                Ok((stages, start))
            }
            stages @ 1..=32 => Ok((stages as u16, 0)),
            _ => Err(3),
        }
    }

    /// One rule of a grammar with so many stages.
    fn rule(&mut self, stages: u16) -> Result<Rule, u8> {
        let form: u8 = self.number_that(|&form| form <= 2, 5)?;
        let from = self.stage(stages)?;
        if form == 0 {
            return Ok(Rule::Ends { from });
        }
        let name = self.name()?;
        let stage = self.stage(stages)?;
        if form == 1 {
            let (mark, then) = (name, stage);
            return Ok(Rule::Marks { from, mark, then });
        }
        let close = self.name()?;
        let then = self.stage(stages)?;
        Ok(Rule::Steps {
            from,
            open: name,
            inside: stage,
            close,
            then,
        })
    }
}

/// The grammar that the bytes hold, or the number of the first fault.
pub fn parse_grammar(bytes: &[u8]) -> Result<Grammar, u8> {
    let mut rest = Rest(bytes);
    let (stages, start) = rest.stages_and_start()?;
    let count: u16 = rest.number_that(|n| (1..=128).contains(n), 4)?;
    let mut rules: Vec<Rule> = Vec::new();
    for _ in 0..count {
        let rule = rest.rule(stages)?;
        if rules.contains(&rule) {
            return Err(8);
        }
        rules.push(rule);
    }
    if !rest.0.is_empty() {
        return Err(9);
    }
    Ok(Grammar {
        stages,
        start,
        rules,
    })
}

/// The tokens that the bytes hold, or the number of the first fault.
pub fn parse_history(bytes: &[u8]) -> Result<Vec<Token>, u8> {
    let mut rest = Rest(bytes);
    let count: u16 = rest.number_that(|&n| n <= 1024, 10)?;
    let mut tokens = Vec::new();
    let mut open_steps = 0;
    for _ in 0..count {
        let number: u32 = rest.number_that(|n| n / 4 <= 65_535 && n % 4 != 3, 11)?;
        let name = number / 4;
        tokens.push(match number % 4 {
            0 => Token::Mark(name),
            1 => {
                if open_steps == 128 {
                    return Err(14);
                }
                open_steps += 1;
                Token::Open(name)
            }
            _ => {
                if open_steps == 0 {
                    return Err(12);
                }
                open_steps -= 1;
                Token::Close(name)
            }
        });
    }
    if open_steps > 0 {
        return Err(13);
    }
    if !rest.0.is_empty() {
        return Err(9);
    }
    Ok(tokens)
}

/// For each open the position of its close, in a history that is well matched.
pub fn partners(tokens: &[Token]) -> Vec<usize> {
    let mut partner = vec![0; tokens.len()];
    let mut opens = Vec::new();
    for (place, token) in tokens.iter().enumerate() {
        match token {
            Token::Mark(_) => {}
            Token::Open(_) => opens.push(place),
            Token::Close(_) => {
                let open: usize = opens.pop().expect("a history that passed is well matched");
                partner[open] = place;
                partner[place] = open;
            }
        }
    }
    partner
}

#[cfg(test)]
mod tests {
    use super::*;
    use frames::{g_from, numbers_file, wide, G, G_EXCHANGED};

    /// Every number of one and two bytes, and those of three around each power of two: read as it is written, and refused by 1
    /// wherever it is cut.
    #[test]
    fn all_numbers() {
        let powers = (14..21).map(|k| 1 << k);
        let around = powers.flat_map(|power| [power - 1, power, power + 1]);
        for number in (0..16_400).chain(around).chain([40_000, 2_097_151]) {
            let bytes = numbers_file(&[number]);
            let file = [&bytes[..], &[77]].concat();
            let mut rest = Rest(&file);
            assert_eq!(rest.number(), Ok(number));
            assert_eq!(rest.0, [77]);
            for end in 0..bytes.len() {
                assert_eq!(Rest(&bytes[..end]).number(), Err(1));
            }
        }
    }

    #[test]
    fn refused_numbers() {
        for (bytes, number) in wide::REFUSED_NUMBERS {
            assert_eq!(Rest(bytes).number(), Err(number), "{bytes:?}");
            assert_eq!(parse_history(bytes), Err(number));
            assert_eq!(parse_grammar(bytes), Err(number));
            let behind_a_0 = [&[0], bytes].concat();
            assert_eq!(parse_grammar(&behind_a_0), Err(number));
        }
        // four bytes and more
        for number in [2_097_152, 1 << 28, u32::MAX] {
            assert_eq!(Rest(&numbers_file(&[number])).number(), Err(2));
        }
    }

    #[test]
    fn wide_names() {
        for (bytes, due) in wide::HISTORIES {
            let tokens = parse_history(bytes).map(|tokens| tokens.len());
            assert_eq!(tokens, due.map(usize::from), "{bytes:?}");
        }
        for (bytes, due) in wide::GRAMMARS {
            let counts = parse_grammar(bytes).map(|read| (read.stages, read.rules.len()));
            let due = due.map(|(stages, rules)| (stages, rules.into()));
            assert_eq!(counts, due, "{bytes:?}");
        }
        let step = parse_history(&[2, 253, 255, 15, 254, 255, 15]);
        assert_eq!(step, Ok(vec![Token::Open(65_535), Token::Close(65_535)]));
        assert_eq!(
            parse_history(&[1, 128, 128, 1]),
            Ok(vec![Token::Mark(4096)])
        );
        let closes = parse_grammar(&wide::CLOSES).unwrap().rules;
        let steps = [65_535, 32_767].map(|close| Rule::Steps {
            from: 0,
            open: 40_000,
            inside: 0,
            close,
            then: 0,
        });
        assert_eq!(closes[1..], steps);
    }

    /// Each name of a rule up to the largest, by its own number.
    #[test]
    fn longest_files() {
        for says_start in [false, true] {
            let (_, file) = wide::longest_grammar(says_start);
            let grammar = parse_grammar(&file).unwrap();
            assert_eq!((grammar.stages, grammar.rules.len()), (32, 128));
            for (number, rule) in (0..).zip(&grammar.rules) {
                assert!(matches!(*rule, Rule::Steps { open, close: 65_535, .. }
                    if open == 65_535 - number));
            }
        }
        let (_, file) = wide::longest_history();
        let steps = [Token::Open(65_535), Token::Close(65_534)].repeat(512);
        assert_eq!(parse_history(&file), Ok(steps));
    }

    #[test]
    fn heads_of_grammars() {
        let refused: [(&[u8], u8); 17] = [
            (&[0], 1),
            (&[0, 0], 3),
            (&[0, 0, 0, 0], 3),
            (&[0, 33], 3),
            (&[0, 1], 1),
            (&[0, 1, 1], 6),
            (&[0, 32, 32], 6),
            (&[0, 1, 0], 1),
            (&[0, 1, 0, 0], 4),
            (&[0, 1, 0, 129, 1], 4),
            (&[0, 1, 128, 1], 6),
            (&[0, 1, 128, 0], 2),
            (&[0, 1, 128], 1),
            (&[0, 128, 0], 2),
            (&[128, 0], 2),
            (&[33], 3),
            (&[32], 1),
        ];
        for (bytes, number) in refused {
            assert_eq!(parse_grammar(bytes), Err(number), "{bytes:?}");
        }
    }

    #[test]
    fn both_beginnings() {
        let short = parse_grammar(&G).unwrap();
        assert_eq!((short.stages, short.start, short.rules.len()), (3, 0, 7));
        for start in 0..3 {
            let long = parse_grammar(&g_from(start)).unwrap();
            assert_eq!((long.stages, long.start), (3, start.into()));
            assert_eq!(long.rules, short.rules);
        }
        assert_eq!(parse_grammar(&g_from(3)), Err(6));
        // a 0 in front of the short form: 7 stands where the start is due
        assert_eq!(parse_grammar(&[&[0], &G[..]].concat()), Err(6));
        let exchanged = parse_grammar(&G_EXCHANGED).unwrap();
        assert_eq!(exchanged.start, 1);
        assert_eq!(exchanged.from_stage_0(), short);
        assert_eq!(short.from_stage_0(), short);
    }
}
