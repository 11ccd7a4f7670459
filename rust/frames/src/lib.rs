//! Writes the two files: for the comparison, the times and the tests. Nothing here reads one.

pub mod choices;
pub mod counts;
pub mod sets;
pub mod wide;

/// A grammar, a history, and what is due for them: all readings in order, the stop marks, and the positions that are choices.
pub struct Example {
    pub grammar: &'static [u8],
    pub history: &'static [u8],
    pub readings: &'static [&'static [u8]],
    pub marks: &'static [u8],
    pub choices: &'static [usize],
}

/// Document 01's grammar G: each of its steps has two readings.
pub const G: [u8; 28] = [
    3, 7, 0, 0, 2, 0, 0, 1, 0, 0, 2, 0, 0, 2, 0, 0, 1, 1, 0, 1, 0, 1, 1, 2, 0, 2, 0, 2,
];

/// G with its stages 0 and 1 exchanged, and its start with them: the same readings by the same rule numbers.
pub const G_EXCHANGED: [u8; 30] = [
    0, 3, 1, 7, 0, 1, 2, 1, 0, 0, 0, 1, 2, 1, 0, 2, 0, 1, 1, 0, 0, 0, 0, 0, 1, 2, 0, 2, 0, 2,
];

/// G in the longer form, with any start.
pub fn g_from(start: u8) -> Vec<u8> {
    [&[0, G[0], start], &G[1..]].concat()
}

/// One rule. Stages and names are kept as they stand in the file, and a name has more bits than one can have that passes.
#[derive(Clone, Copy, Debug, PartialEq, Eq)]
pub enum Rule {
    /// Form 0: L becomes nothing.
    Ends { from: u16 },
    /// Form 1: L becomes mark c, then L1.
    Marks { from: u16, mark: u32, then: u16 },
    /// Form 2: L becomes open a, L1, close b, then L2.
    Steps {
        from: u16,
        open: u32,
        inside: u16,
        close: u32,
        then: u16,
    },
}

impl Rule {
    pub fn from(&self) -> u16 {
        match *self {
            Rule::Ends { from } | Rule::Marks { from, .. } | Rule::Steps { from, .. } => from,
        }
    }

    /// The same rule with other numbers for its stages.
    pub fn renumbered(&self, number: impl Fn(u16) -> u16) -> Rule {
        let mut rule = *self;
        match &mut rule {
            Rule::Ends { from } => *from = number(*from),
            Rule::Marks { from, then, .. } => {
                (*from, *then) = (number(*from), number(*then));
            }
            Rule::Steps {
                from, inside, then, ..
            } => {
                (*from, *inside, *then) = (number(*from), number(*inside), number(*then));
            }
        }
        rule
    }

    /// The tokens that it makes by itself.
    pub fn tokens(&self) -> Vec<Token> {
        match *self {
            Rule::Ends { .. } => vec![],
            Rule::Marks { mark, .. } => vec![Token::Mark(mark)],
            Rule::Steps { open, close, .. } => vec![Token::Open(open), Token::Close(close)],
        }
    }

    /// The same rule with other names.
    pub fn renamed(&self, name: impl Fn(Token) -> u32) -> Rule {
        let mut rule = *self;
        match &mut rule {
            Rule::Ends { .. } => {}
            Rule::Marks { mark, .. } => *mark = name(Token::Mark(*mark)),
            Rule::Steps { open, close, .. } => {
                (*open, *close) = (name(Token::Open(*open)), name(Token::Close(*close)));
            }
        }
        rule
    }
}

#[derive(Clone, Copy, Debug, PartialEq, Eq, Hash)]
pub enum Token {
    Mark(u32),
    Open(u32),
    Close(u32),
}

impl Token {
    pub fn name(self) -> u32 {
        match self {
            Token::Mark(name) | Token::Open(name) | Token::Close(name) => name,
        }
    }

    /// A token of the same kind with another name.
    pub fn named(self, name: u32) -> Token {
        match self {
            Token::Mark(_) => Token::Mark(name),
            Token::Open(_) => Token::Open(name),
            Token::Close(_) => Token::Close(name),
        }
    }
}

/// The numbers of a grammar file. With a start they have the longer form; without one the file starts at stage 0.
pub fn grammar_numbers(stages: u16, start: Option<u16>, rules: &[Rule]) -> Vec<u32> {
    let mut numbers = match start {
        None => vec![stages.into()],
        Some(start) => vec![0, stages.into(), start.into()],
    };
    numbers.push(rules.len() as u32);
    for rule in rules {
        match *rule {
            Rule::Ends { from } => numbers.extend([0, from.into()]),
            Rule::Marks { from, mark, then } => numbers.extend([1, from.into(), mark, then.into()]),
            Rule::Steps {
                from,
                open,
                inside,
                close,
                then,
            } => numbers.extend([2, from.into(), open, inside.into(), close, then.into()]),
        }
    }
    numbers
}

/// The numbers of a history file.
pub fn history_numbers(tokens: &[Token]) -> Vec<u32> {
    let mut numbers = vec![tokens.len() as u32];
    numbers.extend(tokens.iter().map(|token| match *token {
        Token::Mark(name) => 4 * name,
        Token::Open(name) => 4 * name + 1,
        Token::Close(name) => 4 * name + 2,
    }));
    numbers
}

/// Each number in groups of seven bits, lowest first, in the shortest form. A number too large for a file is written
/// too, in four bytes or more: a damaged file may have one.
pub fn numbers_file(numbers: &[u32]) -> Vec<u8> {
    let mut bytes = Vec::new();
    for &number in numbers {
        let mut left = number;
        while left >= 128 {
            bytes.push((left % 128) as u8 | 128);
            left /= 128;
        }
        bytes.push(left as u8);
    }
    bytes
}

/// The bytes of a grammar file.
pub fn grammar_file(stages: u16, start: Option<u16>, rules: &[Rule]) -> Vec<u8> {
    numbers_file(&grammar_numbers(stages, start, rules))
}

/// The bytes of a history file.
pub fn history_file(tokens: &[Token]) -> Vec<u8> {
    numbers_file(&history_numbers(tokens))
}

#[cfg(test)]
mod tests {
    use super::*;

    /// G's rules with other numbers for its three stages.
    fn rules_of_g([top, one, two]: [u16; 3]) -> [Rule; 7] {
        let step = |inside| Rule::Steps {
            from: top,
            open: 0,
            inside,
            close: 0,
            then: top,
        };
        let mark = |stage| Rule::Marks {
            from: stage,
            mark: 0,
            then: stage,
        };
        let ends = |from| Rule::Ends { from };
        [
            ends(top),
            step(one),
            step(two),
            mark(one),
            ends(one),
            mark(two),
            ends(two),
        ]
    }

    #[test]
    fn sample_of_document_01() {
        let sample = include_bytes!("../../../samples/document_01/grammar.bin");
        assert_eq!(&G, sample);
        assert_eq!(grammar_file(3, None, &rules_of_g([0, 1, 2])), G);
        let tokens = [Token::Open(0), Token::Mark(0), Token::Close(0)];
        let sample = include_bytes!("../../../samples/document_01/history.bin");
        assert_eq!(history_file(&tokens), sample);
    }

    #[test]
    fn both_beginnings() {
        let rules = rules_of_g([0, 1, 2]);
        let longer = |start| [&[0, 3, start, 7], &G[2..]].concat();
        for start in 0..3 {
            assert_eq!(g_from(start), longer(start));
            assert_eq!(grammar_file(3, Some(start.into()), &rules), longer(start));
        }
        let exchanged = rules_of_g([1, 0, 2]);
        assert_eq!(grammar_file(3, Some(1), &exchanged), G_EXCHANGED);
        let new = [1, 0, 2];
        let renumbered = rules.map(|rule| rule.renumbered(|stage| new[usize::from(stage)]));
        assert_eq!(renumbered, exchanged);
    }

    #[test]
    fn long_numbers() {
        let written: [(u32, &[u8]); 12] = [
            (127, &[127]),
            (128, &[128, 1]),
            (1024, &[128, 8]),
            (16_383, &[255, 127]),
            (16_384, &[128, 128, 1]),
            (65_535, &[255, 255, 3]),
            (65_536, &[128, 128, 4]),
            (262_142, &[254, 255, 15]),
            (262_144, &[128, 128, 16]),
            (2_097_151, &[255, 255, 127]),
            (2_097_152, &[128, 128, 128, 1]),
            (u32::MAX, &[255, 255, 255, 255, 15]),
        ];
        for (number, bytes) in written {
            assert_eq!(numbers_file(&[number]), bytes);
        }
        assert_eq!(numbers_file(&[1, 40_000, 2]), [1, 192, 184, 2, 2]);
    }

    #[test]
    fn other_names() {
        let step = Rule::Steps {
            from: 1,
            open: 2,
            inside: 3,
            close: 4,
            then: 5,
        };
        let by_kind = |token| match token {
            Token::Mark(name) => name + 1,
            Token::Open(name) => name + 256,
            Token::Close(name) => name + 65_536,
        };
        assert_eq!(
            grammar_numbers(9, None, &[step.renamed(by_kind)]),
            [9, 1, 2, 1, 258, 3, 65_540, 5]
        );
        let [ends, _, _, mark, ..] = rules_of_g([0, 1, 2]);
        assert_eq!(ends.renamed(by_kind), ends);
        let tokens = [Token::Open(258), Token::Close(65_540)];
        assert_eq!(step.renamed(by_kind).tokens(), tokens);
        assert_eq!(
            [ends.tokens(), mark.tokens()],
            [vec![], vec![Token::Mark(0)]]
        );
        let renamed = grammar_numbers(3, Some(2), &[mark.renamed(by_kind)]);
        assert_eq!(renamed, [0, 3, 2, 1, 1, 1, 1, 1]);
        assert_eq!(Token::Open(7).named(65_535), Token::Open(65_535));
        assert_eq!(Token::Close(40_000).name(), 40_000);
    }
}
