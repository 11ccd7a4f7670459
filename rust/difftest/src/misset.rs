//! Planted faults in the sets' call: its words, its count and its refusal don't go together.
use crate::case::{Case, Outcome, Service};
use reference::Work;

/// What is wrong with the call.
#[derive(Clone, Copy, PartialEq, Eq, Debug)]
pub enum Misset {
    /// The count is right, and no word is written.
    NoWord,
    /// No word is written where there is no reading.
    NoWordForNone,
    /// No word is written where there is no choice.
    NoWordWithoutChoice,
    /// The words of the last position are not written.
    LastNotWritten,
    /// The words behind those of the last position are cleared.
    BehindCleared,
    /// The count stands in the word behind those of the last position too.
    CountBehind,
    /// The choices are counted, and told beside 15.
    CountBeside15,
    /// The token count is told beside 15.
    TokensBeside15,
    /// The number of the refusal is the count too.
    NumberAsCount,
    /// With too little room the choices are told, and no word is written.
    CountFor15,
    /// Beside 15 the words are written for which there is room.
    WordsBeside15,
}

/// Every one that is planted.
pub const ALL: [Misset; 11] = [
    Misset::NoWord,
    Misset::NoWordForNone,
    Misset::NoWordWithoutChoice,
    Misset::LastNotWritten,
    Misset::BehindCleared,
    Misset::CountBehind,
    Misset::CountBeside15,
    Misset::TokensBeside15,
    Misset::NumberAsCount,
    Misset::CountFor15,
    Misset::WordsBeside15,
];

impl Misset {
    /// A true outcome turned into a wrong one, where the fault shows.
    pub fn spoiled(self, case: &Case, service: Service, outcome: Outcome) -> Outcome {
        if service != Service::Sets {
            return outcome;
        }
        let work = Work::new(&case.grammar, &case.history);
        let mut wrong = outcome;
        match wrong.answer {
            0 => self.spoil_served(case, &work, &mut wrong),
            15 => self.spoil_short(&work, &mut wrong),
            _ => {}
        }
        if self == Misset::NumberAsCount && wrong.answer != 0 {
            wrong.counts = vec![wrong.answer.into()];
        }
        wrong
    }

    fn spoil_served(self, case: &Case, work: &Work, wrong: &mut Outcome) {
        let last = 4 * (work.positions().expect("both files passed") - 1);
        let unwritten = match self {
            Misset::NoWord => true,
            Misset::NoWordForNone => work.total().is_zero(),
            Misset::NoWordWithoutChoice => wrong.counts == [0],
            _ => false,
        };
        if unwritten {
            wrong.words.clone_from(&case.words);
        }
        let (_, behind) = wrong.words.split_at_mut(last + 4);
        match self {
            Misset::LastNotWritten => {
                wrong.words[last..].copy_from_slice(&case.words[last..]);
            }
            Misset::BehindCleared => behind.fill(0),
            Misset::CountBehind => {
                if let Some(word) = behind.first_mut() {
                    *word = wrong.counts[0] as u32;
                }
            }
            _ => {}
        }
    }

    fn spoil_short(self, work: &Work, wrong: &mut Outcome) {
        let positions = work.positions().expect("both files passed");
        let mut words = vec![0; 4 * positions];
        let choices = work.sets(&mut words).expect("room for all words");
        match self {
            Misset::CountBeside15 => wrong.counts = vec![choices.into()],
            Misset::TokensBeside15 => wrong.counts = vec![positions as u64 - 1],
            Misset::CountFor15 => {
                wrong.answer = 0;
                wrong.counts = vec![choices.into()];
            }
            Misset::WordsBeside15 => {
                let room = wrong.words.len();
                wrong.words.copy_from_slice(&words[..room]);
            }
            _ => {}
        }
    }
}

#[cfg(test)]
mod tests {
    use super::*;
    use crate::case::library;
    use frames::G;

    /// What each gives for a history with this many words lent, all 7: the answer, the count, and the words.
    fn given(history: &[u8], lent: usize, wrong: Misset) -> (u8, u64, Vec<u32>) {
        let case = Case {
            grammar: G.to_vec(),
            history: history.to_vec(),
            words: vec![7; lent],
            ..Case::default()
        };
        let right = library(&case, Service::Sets);
        let spoiled = wrong.spoiled(&case, Service::Sets, right);
        (spoiled.answer, spoiled.counts[0], spoiled.words)
    }

    #[test]
    fn by_hand() {
        let step = [2, 1, 2];
        let right = vec![6, 0, 0, 0, 80, 0, 0, 0, 1, 0, 0, 0, 7, 7];
        let with = |place: usize, words: &[u32]| {
            let mut all = right.clone();
            all[place..place + words.len()].copy_from_slice(words);
            (0, 1, all)
        };
        let served = |wrong| given(&step, 14, wrong);
        assert_eq!(served(Misset::CountBeside15), with(0, &[]));
        assert_eq!(served(Misset::NoWord), (0, 1, vec![7; 14]));
        assert_eq!(served(Misset::LastNotWritten), with(8, &[7; 4]));
        assert_eq!(served(Misset::BehindCleared), with(12, &[0, 0]));
        assert_eq!(served(Misset::CountBehind), with(12, &[1]));
        let none = given(&[1, 0], 9, Misset::NoWordForNone);
        assert_eq!(none, (0, 0, vec![7; 9]));
        let one = given(&[0], 4, Misset::NoWordWithoutChoice);
        assert_eq!(one, (0, 0, vec![7; 4]));
        let short = |wrong| given(&step, 5, wrong);
        assert_eq!(short(Misset::CountBeside15), (15, 1, vec![7; 5]));
        assert_eq!(short(Misset::TokensBeside15), (15, 2, vec![7; 5]));
        assert_eq!(short(Misset::CountFor15), (0, 1, vec![7; 5]));
        assert_eq!(short(Misset::WordsBeside15), (15, 0, vec![6, 0, 0, 0, 80]));
        let closed = given(&[1, 2], 3, Misset::NumberAsCount);
        assert_eq!(closed, (12, 12, vec![7; 3]));
    }
}
