//! How many readings a history has, and each of them by its number.
use crate::{done, grammar_check, history_check, refused, wire, Readings, Refused};
use std::fmt;

/// How many readings there are, in all or with a rule at a position. One that is over is larger than every other.
#[derive(Clone, Copy, Debug, PartialEq, Eq, Hash, PartialOrd, Ord)]
pub enum ReadingCount {
    /// So many, up to 2^64 - 1.
    Exact(u64),
    /// "over": more than 2^64 - 1.
    Over,
}

impl ReadingCount {
    /// The number, where it is told.
    pub fn exact(self) -> Option<u64> {
        match self {
            ReadingCount::Exact(count) => Some(count),
            ReadingCount::Over => None,
        }
    }
}

impl fmt::Display for ReadingCount {
    fn fmt(&self, f: &mut fmt::Formatter<'_>) -> fmt::Result {
        match self {
            ReadingCount::Exact(count) => write!(f, "{count}"),
            ReadingCount::Over => write!(f, "more than {}", u64::MAX),
        }
    }
}

fn told(reply: wire::ReadingsReply, grammar: &[u8]) -> Result<ReadingCount, Refused> {
    match reply.answer {
        0 => Ok(ReadingCount::Exact(reply.count)),
        102 => Ok(ReadingCount::Over),
        k => Err(refused(k, grammar)),
    }
}

/// How many readings the history has.
///
/// ```
/// use gaffmedlar::{reading_count, ReadingCount};
/// // stage 0 ends, or makes a step with stage 1 or with stage 2 inside, each of which goes on by marks and ends
/// let grammar = [
///     3, 7, 0, 0, 2, 0, 0, 1, 0, 0, 2, 0, 0, 2, 0, 0, 1, 1, 0, 1, 0, 1, 1, 2, 0, 2, 0, 2,
/// ];
/// assert_eq!(reading_count(&grammar, &[3, 1, 0, 2]), Ok(ReadingCount::Exact(2)));
/// // 64 empty steps: 2^64 readings
/// let history = [vec![128, 1], [1, 2].repeat(64)].concat();
/// assert_eq!(reading_count(&grammar, &history), Ok(ReadingCount::Over));
/// ```
pub fn reading_count(grammar: &[u8], history: &[u8]) -> Result<ReadingCount, Refused> {
    told(wire::reading_count(grammar, history), grammar)
}

/// How many readings have the rule at the position. It is told by itself, and may be exact where the count of all readings is
/// over. Where that isn't over, the counts of all rules add up to it at each position.
///
/// Positions are 0 to n; above, it is refused by [`OutOfRange`](crate::Refusal::OutOfRange). A number that is no rule's stands
/// nowhere, so its count is 0.
///
/// ```
/// # let grammar = [3, 7, 0, 0, 2, 0, 0, 1, 0, 0, 2, 0, 0, 2, 0, 0, 1, 1, 0, 1, 0, 1, 1, 2, 0, 2, 0, 2];
/// use gaffmedlar::{reading_count_at, ReadingCount::Exact};
/// // a step: of its two readings one begins by rule 1, and both end by rule 0
/// let history = [3, 1, 0, 2];
/// assert_eq!(reading_count_at(&grammar, &history, 0, 1), Ok(Exact(1)));
/// assert_eq!(reading_count_at(&grammar, &history, 3, 0), Ok(Exact(2)));
/// assert_eq!(reading_count_at(&grammar, &history, 0, 128), Ok(Exact(0)));
/// assert!(reading_count_at(&grammar, &history, 4, 0).is_err());
/// ```
pub fn reading_count_at(
    grammar: &[u8],
    history: &[u8],
    position: usize,
    rule: usize,
) -> Result<ReadingCount, Refused> {
    let reply = wire::reading_count_at(grammar, history, position, rule);
    told(reply, grammar)
}

/// The k-th reading, counted from 1: what [`readings`](crate::readings) gives at that place, without those before it. Where the
/// count is over, k may be any number but 0; else [`OutOfRange`](crate::Refusal::OutOfRange) refuses 0 and those above the count.
pub fn reading_at(grammar: &[u8], history: &[u8], k: u64) -> Result<Vec<u8>, Refused> {
    grammar_check(grammar)?;
    let mut reading = vec![0; history_check(history)? + 1];
    reading_at_into(grammar, history, k, &mut reading)?;
    Ok(reading)
}

/// The same into the caller's buffer: its first n + 1 bytes are the reading, and others stay.
/// [`READING_MAX`](crate::READING_MAX) bytes are enough for every history.
pub fn reading_at_into(
    grammar: &[u8],
    history: &[u8],
    k: u64,
    reading: &mut [u8],
) -> Result<(), Refused> {
    let answer = wire::reading_at(grammar, history, k, reading);
    done(answer, grammar)
}

/// The readings of a history by their numbers: counted once, then looked up without stepping through the earlier ones.
///
/// ```
/// # let grammar = [3, 7, 0, 0, 2, 0, 0, 1, 0, 0, 2, 0, 0, 2, 0, 0, 1, 1, 0, 1, 0, 1, 1, 2, 0, 2, 0, 2];
/// // 40 empty steps, which have two readings each
/// let history = [vec![80], [1, 2].repeat(40)].concat();
/// let all = gaffmedlar::numbered_readings(&grammar, &history)?;
/// assert_eq!(all.count().exact(), Some(1 << 40));
/// // the 1,000,000th and the nine behind it
/// let page: Vec<Vec<u8>> = all.from(1_000_000).take(10).collect();
/// assert_eq!(page.len(), 10);
/// assert_eq!(Some(&page[9]), all.get(1_000_009).as_ref());
/// # Ok::<(), gaffmedlar::Refused>(())
/// ```
pub fn numbered_readings<'a>(
    grammar: &'a [u8],
    history: &'a [u8],
) -> Result<NumberedReadings<'a>, Refused> {
    let count = reading_count(grammar, history)?;
    Ok(NumberedReadings {
        grammar,
        history,
        count,
    })
}

/// See [`numbered_readings`].
#[derive(Clone, Copy, Debug)]
pub struct NumberedReadings<'a> {
    grammar: &'a [u8],
    history: &'a [u8],
    count: ReadingCount,
}

impl<'a> NumberedReadings<'a> {
    /// How many there are.
    pub fn count(&self) -> ReadingCount {
        self.count
    }

    /// How many have the rule at the position; none where there is no such position or rule.
    pub fn count_at(&self, position: usize, rule: usize) -> ReadingCount {
        let counted = reading_count_at(self.grammar, self.history, position, rule);
        // the files passed, so a refusal is that of the position
        counted.unwrap_or(ReadingCount::Exact(0))
    }

    /// The k-th, counted from 1; None where k is 0 or above the count.
    pub fn get(&self, k: u64) -> Option<Vec<u8>> {
        // the files passed and the buffer is long enough, so a refusal is that of k
        reading_at(self.grammar, self.history, k).ok()
    }

    /// The k-th and those behind it, each found from the one before it; none where k is 0 or above the count.
    pub fn from(&self, k: u64) -> Readings<'a> {
        let reading = self.get(k);
        Readings {
            grammar: self.grammar,
            history: self.history,
            waiting: reading.is_some(),
            reading: reading.unwrap_or_default(),
        }
    }

    /// All of them, as [`readings`](crate::readings) gives them.
    pub fn iter(&self) -> Readings<'a> {
        self.from(1)
    }
}

impl<'a> IntoIterator for NumberedReadings<'a> {
    type Item = Vec<u8>;
    type IntoIter = Readings<'a>;

    fn into_iter(self) -> Readings<'a> {
        self.iter()
    }
}
