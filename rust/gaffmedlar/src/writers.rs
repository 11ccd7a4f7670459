//! The writers of both files.
use crate::places::{in_grammar, in_history, Fault};
use crate::{refusal, wire, Refusal, GRAMMAR_BYTES_MAX, HISTORY_BYTES_MAX};
use std::fmt;

/// Numbers that were to be written are turned down, or the buffer: why, and which element is at fault. The refusal is the library's; the
/// element is found beside it, in plain Rust.
#[derive(Clone, Debug, PartialEq, Eq)]
pub struct NotWritten {
    pub refusal: Refusal,
    /// The element, counted from 0; the number of elements where one is missing. None where the buffer is too short.
    pub element: Option<usize>,
    /// Which element, rule or token and field it is; empty where it is none.
    pub place: String,
}

impl fmt::Display for NotWritten {
    fn fmt(&self, f: &mut fmt::Formatter<'_>) -> fmt::Result {
        match self.element {
            Some(_) => write!(f, "{}: {}", self.place, self.refusal),
            None => write!(f, "{}", self.refusal),
        }
    }
}

impl std::error::Error for NotWritten {}

impl From<NotWritten> for Refusal {
    fn from(error: NotWritten) -> Refusal {
        error.refusal
    }
}

/// Writes a grammar file from its numbers in their order, one element each: the stage count, the rule count, and the numbers
/// of each rule; or a 0, the stage count, the start stage, the rule count, and the numbers of each rule.
/// [`numbers`](crate::numbers) gives those of a file. The file has the longer form always: where the numbers don't say the
/// start, it is 0.
///
/// It is refused as a file of these numbers would be, by the first fault: [`Refusal::BytesEnd`] stands for too few elements,
/// [`Refusal::BytesFollow`] for too many. An element that is too large for every file is refused by what stands in its
/// place, as a name by [`Refusal::Name`]. The error says which element it is:
///
/// ```
/// let error = gaffmedlar::write_grammar(&[1, 1, 1, 0, 70_000, 0]).unwrap_err();
/// assert_eq!((error.refusal, error.element), (gaffmedlar::Refusal::Name, Some(4)));
/// assert_eq!(
///     error.to_string(),
///     "element 4 is 70000: field c of rule 0, the mark's name: a name above 65,535 (7)"
/// );
/// ```
///
/// ```
/// // an integrator adds a rule: stage 0 becomes mark 5, stage 0
/// let grammar = [1, 1, 0, 0];
/// let mut numbers = gaffmedlar::numbers(&grammar);
/// numbers[1] += 1;
/// numbers.extend([1, 0, 5, 0]);
/// let written = vec![0, 1, 0, 2, 0, 0, 1, 0, 5, 0];
/// assert_eq!(gaffmedlar::write_grammar(&numbers), Ok(written.clone()));
/// // a file that says its start is written again byte for byte
/// assert_eq!(gaffmedlar::write_grammar(&gaffmedlar::numbers(&written)), Ok(written));
/// ```
pub fn write_grammar(numbers: &[u32]) -> Result<Vec<u8>, NotWritten> {
    written(numbers, GRAMMAR_BYTES_MAX, write_grammar_into)
}

/// The same into the caller's buffer: gives the length of the file, which stands at the buffer's beginning. Bytes behind it
/// stay. Where nothing is wrong with the numbers and the buffer is shorter than the file, its start counted, it is refused by
/// [`Refusal::BufferShort`]; [`GRAMMAR_BYTES_MAX`] bytes are enough for every grammar.
pub fn write_grammar_into(numbers: &[u32], file: &mut [u8]) -> Result<usize, NotWritten> {
    length(wire::write_grammar(numbers, file), || in_grammar(numbers))
}

/// Writes a history file from its numbers in their order, one element each: the token count, and the number of each token.
/// [`numbers`](crate::numbers) gives those of a file. It is refused as [`write_grammar`] is.
///
/// ```
/// // a camera appends a step: open 40, close 65,535
/// let history = [3, 1, 0, 2];
/// let mut numbers = gaffmedlar::numbers(&history);
/// numbers[0] += 2;
/// numbers.extend([4 * 40 + 1, 4 * 65_535 + 2]);
/// assert_eq!(gaffmedlar::write_history(&numbers), Ok(vec![5, 1, 0, 2, 161, 1, 254, 255, 15]));
/// ```
pub fn write_history(numbers: &[u32]) -> Result<Vec<u8>, NotWritten> {
    written(numbers, HISTORY_BYTES_MAX, write_history_into)
}

/// The same into the caller's buffer, as [`write_grammar_into`]; [`HISTORY_BYTES_MAX`] bytes are enough for every history.
pub fn write_history_into(numbers: &[u32], file: &mut [u8]) -> Result<usize, NotWritten> {
    length(wire::write_history(numbers, file), || in_history(numbers))
}

/// The length that a writer tells; or its refusal, with the place where that is found too.
fn length(
    reply: wire::WriteReply,
    look: impl Fn() -> Result<(), Fault>,
) -> Result<usize, NotWritten> {
    if reply.answer == 0 {
        return Ok(reply.length);
    }
    let refusal = refusal(reply.answer);
    let found = look().err().filter(|fault| fault.refusal == refusal);
    let (element, place) = match found {
        Some(fault) => (Some(fault.element), fault.words),
        None => (None, String::new()),
    };
    Err(NotWritten {
        refusal,
        element,
        place,
    })
}

/// The file that a writer makes, where `most` bytes are enough for every one.
fn written(
    numbers: &[u32],
    most: usize,
    write_into: fn(&[u32], &mut [u8]) -> Result<usize, NotWritten>,
) -> Result<Vec<u8>, NotWritten> {
    let mut file = vec![0; most];
    let length = write_into(numbers, &mut file)?;
    file.truncate(length);
    Ok(file)
}
