//! Planted faults in the count of choices, told by itself or beside the sets: a library that goes by the right sets in a wrong way.
use crate::case::{Case, Outcome, Service};
use crate::kept::{kept, Kept};
use std::collections::HashSet;

/// What is wrong with the count.
#[derive(Clone, Copy, PartialEq, Eq, Debug)]
enum Wrong {
    /// Stages are not compared: any two rules are a choice.
    AnyTwo,
    /// A rule is compared with the one kept just before it alone.
    JustBefore,
    /// The stages met are not noted, so that none is met twice.
    NeverNoted,
    /// The stages met at earlier positions are noted still.
    StillNoted,
    /// A stage is noted by the lowest bits of its number, three or four.
    ThreeBits,
    FourBits,
    /// The rules of each word of a set are looked at by themselves.
    EachWord,
    /// A single rule is a choice.
    OneRule,
    /// Every rule counts whose stage was met before it, not the position once.
    EachRule,
    /// The first position is left out.
    FirstLeftOut,
    /// The last token's position is left out, and the one behind it, which is never a choice.
    LastLeftOut,
    /// One too many.
    OneMore,
    /// As many as there are tokens, whatever the sets are.
    Invented,
    /// 1 where there is none.
    OneForNone,
    /// What was counted is lost on the way out.
    Lost,
}

/// It, in the count by itself, in the count beside the sets, in whether both are the same, or in whether it is above 0.
#[derive(Clone, Copy, PartialEq, Eq, Debug)]
pub struct Miscount {
    wrong: Wrong,
    service: Service,
}

/// In either count.
const COUNTED: [Wrong; 12] = [
    Wrong::AnyTwo,
    Wrong::JustBefore,
    Wrong::StillNoted,
    Wrong::ThreeBits,
    Wrong::FourBits,
    Wrong::EachWord,
    Wrong::OneRule,
    Wrong::EachRule,
    Wrong::FirstLeftOut,
    Wrong::LastLeftOut,
    Wrong::OneMore,
    Wrong::Invented,
];

/// In the count beside the sets alone.
const BESIDE: [Wrong; 2] = [Wrong::OneForNone, Wrong::Lost];

/// In one of both counts, so that they differ.
const NOT_THE_SAME: [Wrong; 5] = [
    Wrong::AnyTwo,
    Wrong::LastLeftOut,
    Wrong::OneMore,
    Wrong::OneForNone,
    Wrong::Lost,
];

/// In whether there is a choice at all: those that are right in that can't be told by it.
const ABOVE_0: [Wrong; 8] = [
    Wrong::NeverNoted,
    Wrong::StillNoted,
    Wrong::EachWord,
    Wrong::OneRule,
    Wrong::FirstLeftOut,
    Wrong::LastLeftOut,
    Wrong::OneMore,
    Wrong::Invented,
];

/// Every one that is planted.
pub fn all() -> Vec<Miscount> {
    let planted: [(Service, &[Wrong]); 6] = [
        (Service::ChoiceCount, &COUNTED),
        (Service::ChoiceCount, &[Wrong::NeverNoted]),
        (Service::Sets, &COUNTED),
        (Service::Sets, &BESIDE),
        (Service::SameCount, &NOT_THE_SAME),
        (Service::SeveralReadings, &ABOVE_0),
    ];
    let in_service = |(service, wrong): (Service, &[Wrong])| {
        let miscount = |&wrong: &Wrong| Miscount { wrong, service };
        wrong.iter().map(miscount).collect::<Vec<_>>()
    };
    planted.into_iter().flat_map(in_service).collect()
}

impl Miscount {
    /// A true outcome turned into a wrong one, where the fault shows.
    pub fn spoiled(&self, case: &Case, service: Service, outcome: Outcome) -> Outcome {
        if service != self.service || outcome.answer != 0 {
            return outcome;
        }
        let sets = kept(&case.grammar, &case.history);
        let count = self.wrong.count(&sets);
        let given = match service {
            Service::SameCount => u64::from(count == choices(&sets)),
            Service::SeveralReadings => u64::from(count > 0),
            _ => count as u64,
        };
        let counts = vec![given];
        Outcome { counts, ..outcome }
    }
}

/// How many rules of a set are of a stage that was met, among these stages or before in the set; all its stages are then met.
fn met_again(met: &mut HashSet<u16>, set: &[Kept]) -> usize {
    let again = |kept: &&Kept| !met.insert(kept.stage);
    set.iter().filter(again).count()
}

fn is_choice(set: &[Kept]) -> bool {
    met_again(&mut HashSet::new(), set) > 0
}

/// The right count.
fn choices(sets: &[Vec<Kept>]) -> usize {
    sets.iter().filter(|set| is_choice(set)).count()
}

/// Whether a set is a choice by so many low bits of its stages.
fn is_choice_by(bits: u16, set: &[Kept]) -> bool {
    let cut = |kept: &Kept| Kept {
        stage: kept.stage % (1 << bits),
        ..*kept
    };
    is_choice(&set.iter().map(cut).collect::<Vec<_>>())
}

impl Wrong {
    /// Whether a set is taken for a choice, where that goes by the set alone.
    fn takes(self, set: &[Kept]) -> bool {
        match self {
            Wrong::AnyTwo => set.len() > 1,
            Wrong::JustBefore => set.windows(2).any(|two| two[0].stage == two[1].stage),
            Wrong::NeverNoted => false,
            Wrong::ThreeBits => is_choice_by(3, set),
            Wrong::FourBits => is_choice_by(4, set),
            Wrong::EachWord => set
                .chunk_by(|one, other| one.rule / 32 == other.rule / 32)
                .any(is_choice),
            Wrong::OneRule => !set.is_empty(),
            _ => is_choice(set),
        }
    }

    /// What is counted in the place of choices.
    fn count(self, sets: &[Vec<Kept>]) -> usize {
        let taken = |sets: &[Vec<Kept>]| sets.iter().filter(|set| self.takes(set)).count();
        match self {
            Wrong::StillNoted => {
                let mut met = HashSet::new();
                let sets = sets.iter();
                sets.filter(|set| met_again(&mut met, set) > 0).count()
            }
            Wrong::EachRule => {
                let sets = sets.iter();
                sets.map(|set| met_again(&mut HashSet::new(), set)).sum()
            }
            Wrong::FirstLeftOut => taken(&sets[1..]),
            Wrong::LastLeftOut => taken(&sets[..sets.len().saturating_sub(2)]),
            Wrong::OneMore => taken(sets) + 1,
            Wrong::Invented => sets.len() - 1,
            Wrong::OneForNone => taken(sets).max(1),
            Wrong::Lost => 0,
            _ => taken(sets),
        }
    }
}

#[cfg(test)]
mod tests {
    use super::*;
    use frames::choices::{BETWEEN, ECHO, THREE, TWO_PAIRS, WITHIN};
    use frames::G;

    fn counts(grammar: &[u8], history: &[u8], wrong: &[Wrong]) -> Vec<usize> {
        let sets = kept(grammar, history);
        wrong.iter().map(|wrong| wrong.count(&sets)).collect()
    }

    /// What each gives in the place of the right number.
    #[test]
    fn by_hand() {
        use Wrong::*;
        let step = [3, 1, 0, 2];
        let some = [AnyTwo, NeverNoted, OneRule, FirstLeftOut, OneMore, Invented];
        // one choice of three positions at which readings differ; no reading
        assert_eq!(counts(&G, &step, &some), [3, 0, 4, 0, 2, 3]);
        assert_eq!(counts(&G, &[1, 0], &some), [0, 0, 0, 0, 1, 1]);
        // two choices
        let marks = [2, 0, 0];
        assert_eq!(counts(&BETWEEN, &marks, &[JustBefore, AnyTwo]), [1, 3]);
        assert_eq!(counts(&TWO_PAIRS, &marks, &[JustBefore, EachRule]), [1, 3]);
        assert_eq!(counts(&WITHIN, &step, &[JustBefore, EachRule]), [2, 2]);
        // one choice; at the other position of each no stage was met before
        let marks = [1, 0];
        let some = [AnyTwo, StillNoted, LastLeftOut];
        assert_eq!(counts(&ECHO, &marks, &some), [2, 1, 0]);
        assert_eq!(counts(&THREE, &marks, &[EachRule, JustBefore]), [2, 1]);
        // right where there is a choice, and where there is none
        assert_eq!(counts(&G, &step, &[OneForNone, Lost]), [1, 0]);
        assert_eq!(counts(&G, &[1, 0], &[OneForNone, Lost]), [1, 0]);
        // stages 1 and 2 stand at two positions, and stage 0 at the first and at the last
        assert_eq!(counts(&G, &step, &[StillNoted, EachWord]), [3, 1]);
    }
}
