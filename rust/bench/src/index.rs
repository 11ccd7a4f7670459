//! Which rules are looked at: all of them, or those of a token's class, as crates/rule_index has them.
use frames::{Rule, Token};

/// The stages that have an empty rule, as a set, and the rule of each.
pub struct Ends {
    pub stages: u32,
    pub rule: [u8; 32],
}

pub trait Index {
    fn of(rules: &[Rule]) -> Self;

    /// The rules to look at where the token stands, None for the end, smaller numbers first.
    fn at<'a>(
        &'a self,
        rules: &'a [Rule],
        token: Option<Token>,
    ) -> impl Iterator<Item = (usize, &'a Rule)>;

    /// Those of them with a larger number than this one, which stands there.
    fn larger<'a>(
        &'a self,
        rules: &'a [Rule],
        number: usize,
    ) -> impl Iterator<Item = (usize, &'a Rule)>;

    /// None where the empty rules have to be looked for.
    fn ends(&self) -> Option<&Ends>;
}

/// Every rule.
pub struct Scan;

impl Index for Scan {
    fn of(_: &[Rule]) -> Scan {
        Scan
    }

    fn at<'a>(
        &'a self,
        rules: &'a [Rule],
        _: Option<Token>,
    ) -> impl Iterator<Item = (usize, &'a Rule)> {
        rules.iter().enumerate()
    }

    fn larger<'a>(
        &'a self,
        rules: &'a [Rule],
        number: usize,
    ) -> impl Iterator<Item = (usize, &'a Rule)> {
        rules.iter().enumerate().skip(number + 1)
    }

    fn ends(&self) -> Option<&Ends> {
        None
    }
}

/// The rules of each class, chained in rising order: 4 times the [`spread`] of the name for marks, and 1 more for opens, 4 L + 2
/// for the empty rules of stage L.
pub struct Classes {
    first: [u8; 256],
    next: [u8; 128],
    ends: Ends,
}

const NONE: u8 = 255;

/// A number below 64 that goes by all digits of a name. Names can share it, so whoever walks a class looks at the names too.
pub fn spread(name: u32) -> u32 {
    (name + name / 64 + name / 4096) % 64
}

fn class_of_name(name: u32) -> usize {
    4 * spread(name) as usize
}

fn class_of(rule: &Rule) -> usize {
    match *rule {
        Rule::Ends { from } => 4 * usize::from(from) + 2,
        Rule::Marks { mark, .. } => class_of_name(mark),
        Rule::Steps { open, .. } => class_of_name(open) + 1,
    }
}

fn class_at(token: Option<Token>) -> usize {
    match token {
        None | Some(Token::Close(_)) => 3,
        Some(Token::Mark(name)) => class_of_name(name),
        Some(Token::Open(name)) => class_of_name(name) + 1,
    }
}

impl Classes {
    fn walk<'a>(
        &'a self,
        rules: &'a [Rule],
        from: u8,
    ) -> impl Iterator<Item = (usize, &'a Rule)> + 'a {
        let mut at = from;
        std::iter::from_fn(move || {
            if at == NONE {
                return None;
            }
            let number = usize::from(at);
            at = self.next[number];
            Some((number, &rules[number]))
        })
    }
}

impl Index for Classes {
    fn of(rules: &[Rule]) -> Classes {
        let ends = Ends {
            stages: 0,
            rule: [NONE; 32],
        };
        let mut classes = Classes {
            first: [NONE; 256],
            next: [NONE; 128],
            ends,
        };
        for (number, rule) in rules.iter().enumerate().rev() {
            let class = class_of(rule);
            classes.next[number] = classes.first[class];
            classes.first[class] = number as u8;
            if let Rule::Ends { from } = *rule {
                classes.ends.stages |= 1 << from;
                classes.ends.rule[usize::from(from)] = number as u8;
            }
        }
        classes
    }

    fn at<'a>(
        &'a self,
        rules: &'a [Rule],
        token: Option<Token>,
    ) -> impl Iterator<Item = (usize, &'a Rule)> {
        self.walk(rules, self.first[class_at(token)])
    }

    fn larger<'a>(
        &'a self,
        rules: &'a [Rule],
        number: usize,
    ) -> impl Iterator<Item = (usize, &'a Rule)> {
        self.walk(rules, self.next[number])
    }

    fn ends(&self) -> Option<&Ends> {
        Some(&self.ends)
    }
}
