//! Planted faults in names: a library that goes by the low bits of a name alone.
use crate::case::{due, Case, Outcome, Service};
use frames::{Rule, Token};
use reference::{parse_grammar, parse_history, Grammar, Work};

/// Which names are cut.
#[derive(Clone, Copy, PartialEq, Eq, Debug)]
pub enum Named {
    Marks,
    Opens,
    Closes,
}

/// Where they are cut.
#[derive(Clone, Copy, PartialEq, Eq, Debug)]
pub enum At {
    Grammar,
    History,
    /// On both sides, in one service alone.
    Both(Service),
    /// Where rules are held against each other, so that two that are equal in the low bits are refused by 8.
    Equal,
}

/// A name of which so many low bits count.
#[derive(Clone, Copy, PartialEq, Eq, Debug)]
pub struct CutName {
    named: Named,
    at: At,
    bits: u32,
}

/// Each service that goes by the names of both files.
const SERVICES: [Service; 9] = [
    Service::FirstReading,
    Service::NextReading,
    Service::RunCalls,
    Service::Sets,
    Service::ChoiceCount,
    Service::StopMarks,
    Service::ReadingCount,
    Service::ReadingCountAt,
    Service::ReadingAt,
];

/// Each service that counts readings: with none of a close's bits, its name is not looked at.
const COUNTING: [Service; 3] = [
    Service::ReadingCount,
    Service::ReadingCountAt,
    Service::ReadingAt,
];

/// Every one that is planted: 6 bits hold the names that there were before, 8 are a byte, 14 two bytes of a file; the library's
/// keys of rules go by 11.
pub fn all() -> Vec<CutName> {
    let mut all = Vec::new();
    for named in [Named::Marks, Named::Opens, Named::Closes] {
        let mut add = |at, bits: &[u32]| {
            all.extend(bits.iter().map(|&bits| CutName { named, at, bits }));
        };
        add(At::Grammar, &[8, 14]);
        add(At::History, &[8, 14]);
        add(At::Equal, &[8, 11, 14]);
        for service in SERVICES {
            add(At::Both(service), &[6, 8, 14]);
        }
        if named == Named::Closes {
            for service in COUNTING {
                add(At::Both(service), &[0]);
            }
        }
    }
    all
}

impl CutName {
    fn cut(&self, token: Token) -> u32 {
        let cut = match self.named {
            Named::Marks => matches!(token, Token::Mark(_)),
            Named::Opens => matches!(token, Token::Open(_)),
            Named::Closes => matches!(token, Token::Close(_)),
        };
        match cut {
            true => token.name() % (1 << self.bits),
            false => token.name(),
        }
    }

    fn rules(&self, rules: &[Rule]) -> Vec<Rule> {
        let cut = |rule: &Rule| rule.renamed(|token| self.cut(token));
        rules.iter().map(cut).collect()
    }

    fn tokens(&self, tokens: &[Token]) -> Vec<Token> {
        let cut = |token: &Token| token.named(self.cut(*token));
        tokens.iter().map(cut).collect()
    }

    /// A true outcome turned into a wrong one, where the fault shows.
    pub fn spoiled(&self, case: &Case, service: Service, outcome: Outcome) -> Outcome {
        let Ok(grammar) = parse_grammar(&case.grammar) else {
            return outcome;
        };
        match (self.at, service) {
            (At::Equal, Service::GrammarCheck) if twice(&self.rules(&grammar.rules)) => {
                return Outcome::of(8, &[0, 0], &[], &[]);
            }
            (At::Equal, _) => return outcome,
            (At::Both(only), _) if only != service => return outcome,
            _ if !SERVICES.contains(&service) => return outcome,
            _ => {}
        }
        let Ok(mut tokens) = parse_history(&case.history) else {
            return outcome;
        };
        let mut rules = grammar.rules.clone();
        if self.at != At::History {
            rules = self.rules(&rules);
        }
        if self.at != At::Grammar {
            tokens = self.tokens(&tokens);
        }
        due(
            case,
            &Work::of(Grammar { rules, ..grammar }, tokens),
            service,
        )
    }
}

/// Whether a rule equals an earlier one.
fn twice(rules: &[Rule]) -> bool {
    (0..rules.len()).any(|place| rules[..place].contains(&rules[place]))
}
