//! Which of the numbers handed to a writer is at fault, in words: plain Rust beside the proved services, which give the refusal alone.
use crate::{Refusal, NAME_MAX, OPEN_STEPS_MAX, RULES_MAX, STAGES_MAX, TOKENS_MAX};

/// The first fault that is met: its refusal, the element, and what stands there.
#[derive(Debug, PartialEq, Eq)]
pub(crate) struct Fault {
    pub refusal: Refusal,
    pub element: usize,
    pub words: String,
}

/// The fields behind a rule's form, by form: the letter of document 01, and what it is.
const FIELDS: [&[(&str, &str)]; 3] = [
    &[("L", "the stage on the left")],
    &[
        ("L", "the stage on the left"),
        ("c", "the mark's name"),
        ("L1", "the stage behind the mark"),
    ],
    &[
        ("L", "the stage on the left"),
        ("a", "the open's name"),
        ("L1", "the stage inside the step"),
        ("b", "the close's name"),
        ("L2", "the stage behind the close"),
    ],
];
const KINDS: [&str; 3] = ["mark", "open", "close"];

struct Walk<'a> {
    numbers: &'a [u32],
    at: usize,
}

impl Walk<'_> {
    /// The next element, which has to be there and in this range.
    fn next(&mut self, what: &str, least: u32, below: u32, refusal: Refusal) -> Result<u32, Fault> {
        let element = self.at;
        let Some(&number) = self.numbers.get(element) else {
            let words = format!("element {element} is missing: {what}");
            let refusal = Refusal::BytesEnd;
            return Err(Fault {
                refusal,
                element,
                words,
            });
        };
        if !(least..below).contains(&number) {
            let words = format!("element {element} is {number}: {what}");
            return Err(Fault {
                refusal,
                element,
                words,
            });
        }
        self.at += 1;
        Ok(number)
    }

    /// Nothing may follow.
    fn ends(&self, item: &str) -> Result<(), Fault> {
        if self.at == self.numbers.len() {
            return Ok(());
        }
        let (refusal, element) = (Refusal::BytesFollow, self.at);
        let words = format!("element {element} stands behind the last {item}");
        Err(Fault {
            refusal,
            element,
            words,
        })
    }

    /// The elements of one rule.
    fn rule(&mut self, rule: u32, stages: u32) -> Result<(), Fault> {
        let form = self.next(&format!("the form of rule {rule}"), 0, 3, Refusal::Form)?;
        for (letter, words) in FIELDS[form as usize] {
            let what = format!("field {letter} of rule {rule}, {words}");
            if letter.starts_with('L') {
                self.next(&what, 0, stages, Refusal::Stage)?;
            } else {
                self.next(&what, 0, NAME_MAX + 1, Refusal::Name)?;
            }
        }
        Ok(())
    }

    /// The token at a place, with so many steps open before it, of which the last one's element is known.
    fn token(&mut self, token: usize, opens: &mut Vec<usize>) -> Result<(), Fault> {
        let element = self.at;
        let number = self.next(
            &format!("token {token}"),
            0,
            4 * (NAME_MAX + 1),
            Refusal::Token,
        )?;
        let fault = |refusal, words| {
            Err(Fault {
                refusal,
                element,
                words,
            })
        };
        let Some(kind) = KINDS.get(number as usize % 4) else {
            let words = format!("element {element} is {number}: token {token}, of kind 3");
            return fault(Refusal::Token, words);
        };
        let said = format!(
            "element {element} is {number}: token {token}, {kind} {}",
            number / 4
        );
        match number % 4 {
            1 if opens.len() == OPEN_STEPS_MAX as usize => return fault(Refusal::TooDeep, said),
            1 => opens.push(element),
            2 if opens.pop().is_none() => return fault(Refusal::CloseWithoutOpen, said),
            _ => {}
        }
        Ok(())
    }
}

/// The first fault of a grammar's numbers.
pub(crate) fn in_grammar(numbers: &[u32]) -> Result<(), Fault> {
    let mut walk = Walk { numbers, at: 0 };
    let says_start = numbers.first() == Some(&0);
    if says_start {
        walk.at = 1;
    }
    let stages = walk.next("the stage count", 1, STAGES_MAX + 1, Refusal::StageCount)?;
    if says_start {
        walk.next("the start stage", 0, stages, Refusal::Stage)?;
    }
    let rules = walk.next("the rule count", 1, RULES_MAX + 1, Refusal::RuleCount)?;
    let mut seen: Vec<&[u32]> = Vec::new();
    for rule in 0..rules {
        let element = walk.at;
        walk.rule(rule, stages)?;
        let own = &numbers[element..walk.at];
        if let Some(earlier) = seen.iter().position(|&other| other == own) {
            let last = walk.at - 1;
            let words =
                format!("elements {element} to {last}, rule {rule}, are those of rule {earlier}");
            return Err(Fault {
                refusal: Refusal::RuleTwice,
                element,
                words,
            });
        }
        seen.push(own);
    }
    walk.ends("rule")
}

/// The first fault of a history's numbers.
pub(crate) fn in_history(numbers: &[u32]) -> Result<(), Fault> {
    let mut walk = Walk { numbers, at: 0 };
    let tokens = walk.next("the token count", 0, TOKENS_MAX + 1, Refusal::TokenCount)?;
    let mut opens = Vec::new();
    for token in 0..tokens {
        walk.token(token as usize, &mut opens)?;
    }
    if let Some(&element) = opens.last() {
        let (token, name) = (element - 1, numbers[element] / 4);
        let words = format!(
            "element {element} is {}: token {token}, open {name}, which nothing closes",
            numbers[element]
        );
        return Err(Fault {
            refusal: Refusal::StillOpen,
            element,
            words,
        });
    }
    walk.ends("token")
}
