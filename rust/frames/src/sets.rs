//! Calls of the sets service on words that are all 7, and what is due for them, worked out by hand.
use crate::G;

/// Both files, how many words are lent, and what is due: the number, the count, and the words written in front.
pub struct Call {
    pub grammar: &'static [u8],
    pub history: &'static [u8],
    pub lent: usize,
    pub answer: u8,
    pub count: u32,
    pub written: &'static [u32],
}

/// The most words that are lent here.
const LENT: usize = 24;

const NOTHING: &[u32] = &[1, 0, 0, 0];
const STEP: &[u32] = &[6, 0, 0, 0, 40, 0, 0, 0, 80, 0, 0, 0, 1, 0, 0, 0];
const TWO_STEPS: &[u32] = &[6, 0, 0, 0, 80, 0, 0, 0, 6, 0, 0, 0, 80, 0, 0, 0, 1, 0, 0, 0];

/// By G: no token, a step with a mark inside, two empty steps, a mark, which has no reading; words that are just enough and one
/// less; files that are refused, with room and without.
pub const CALLS: [Call; 13] = [
    served(&[0], LENT, 0, NOTHING),
    served(&[3, 1, 0, 2], LENT, 1, STEP),
    served(&[3, 1, 0, 2], 16, 1, STEP),
    served(&[4, 1, 2, 1, 2], LENT, 2, TWO_STEPS),
    served(&[4, 1, 2, 1, 2], 20, 2, TWO_STEPS),
    served(&[1, 0], LENT, 0, &[0; 8]),
    refused(&G, &[3, 1, 0, 2], 15, 15),
    refused(&G, &[4, 1, 2, 1, 2], 0, 15),
    refused(&G, &[1, 0], 7, 15),
    refused(&G, &[1, 2], LENT, 12),
    refused(&G, &[1, 2], 0, 12),
    refused(&[1, 0], &[3, 1, 0, 2], LENT, 4),
    refused(&[1, 0], &[1, 2], 3, 4),
];

const fn served(history: &'static [u8], lent: usize, count: u32, written: &'static [u32]) -> Call {
    Call {
        grammar: &G,
        history,
        lent,
        answer: 0,
        count,
        written,
    }
}

const fn refused(grammar: &'static [u8], history: &'static [u8], lent: usize, answer: u8) -> Call {
    Call {
        grammar,
        history,
        lent,
        answer,
        count: 0,
        written: &[],
    }
}

impl Call {
    /// The count, or the number of the refusal.
    pub fn due(&self) -> Result<u32, u8> {
        match self.answer {
            0 => Ok(self.count),
            number => Err(number),
        }
    }

    /// The words as they are lent.
    pub fn before(&self) -> Vec<u32> {
        vec![7; self.lent]
    }

    /// The words as they are then.
    pub fn after(&self) -> Vec<u32> {
        let mut words = self.before();
        words[..self.written.len()].copy_from_slice(self.written);
        words
    }
}
