//! The bytes of one step, by document 02's words: the file's bytes are cut into numbers, and the step is read from its
//! open on, marks and whole steps inside it, until a close comes.
use crate::files::parse_history;
use frames::Token;
use std::ops::Range;

/// Which bytes of the file are those of the step at the position; or the number of the refusal.
pub fn step_bytes(bytes: &[u8], position: usize) -> Result<Range<usize>, u8> {
    let tokens = parse_history(bytes)?;
    let Some(Token::Open(_)) = tokens.get(position) else {
        return Err(17);
    };
    let ends = number_ends(bytes);
    // the count is the first number, so a token begins where the number at its position ends
    Ok(ends[position]..ends[close_of(&tokens, position) + 1])
}

/// Where each number of a file that passed ends: behind every byte whose top bit is 0.
fn number_ends(bytes: &[u8]) -> Vec<usize> {
    (0..bytes.len())
        .filter(|&place| bytes[place] < 128)
        .map(|place| place + 1)
        .collect()
}

/// The close of the step that an open begins, in a history that passed.
fn close_of(tokens: &[Token], open: usize) -> usize {
    let mut next = open + 1;
    loop {
        match tokens[next] {
            Token::Mark(_) => next += 1,
            Token::Open(_) => next = close_of(tokens, next) + 1,
            Token::Close(_) => return next,
        }
    }
}

#[cfg(test)]
mod tests {
    use super::*;

    #[test]
    fn examples_of_document_02() {
        let one = [3, 1, 0, 2];
        assert_eq!(step_bytes(&one, 0), Ok(1..4));
        for position in [1, 2, 3, 4, 1 << 63] {
            assert_eq!(step_bytes(&one, position), Err(17));
        }
        let inside = [6, 1, 1, 2, 1, 2, 2];
        let due = [Ok(1..7), Ok(2..4), Err(17), Ok(4..6), Err(17), Err(17)];
        for (position, due) in due.into_iter().enumerate() {
            assert_eq!(step_bytes(&inside, position), due);
        }
        let wide = [5, 0, 161, 1, 252, 1, 134, 1, 0];
        assert_eq!(step_bytes(&wide, 1), Ok(2..8));
        assert_eq!(step_bytes(&[1, 1], 5), Err(13));
    }

    /// Tokens of one, two and three bytes.
    #[test]
    fn wide_steps() {
        let mixed = [3, 129, 226, 9, 172, 2, 254, 255, 15];
        assert_eq!(step_bytes(&mixed, 0), Ok(1..9));
        let inside = [6, 253, 255, 15, 128, 128, 1, 1, 254, 255, 15, 134, 1, 4];
        let due = [Ok(1..13), Err(17), Ok(7..11), Err(17), Err(17), Err(17)];
        for (position, due) in due.into_iter().enumerate() {
            assert_eq!(step_bytes(&inside, position), due);
        }
        let (_, full) = frames::wide::longest_history();
        for step in 0..512 {
            let start = 2 + 6 * step;
            assert_eq!(step_bytes(&full, 2 * step), Ok(start..start + 6));
        }
        assert_eq!(step_bytes(&full, 1022), Ok(3068..3074));
        assert_eq!(step_bytes(&full, 1023), Err(17));
        assert_eq!(step_bytes(&[1, 253, 255, 15], 0), Err(13));
        assert_eq!(step_bytes(&[1, 129, 128, 16], 0), Err(11));
    }
}
