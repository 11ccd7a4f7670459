//! Reads edit histories by a visibly pushdown grammar.
//!
//! Every function here calls one proved service of the archive `libgaffmedlar.a` and turns its number into an enum; [`numbers`]
//! alone is plain Rust. The files are byte strings of any content; a file or a buffer that does not pass is answered by a
//! [`Refused`], and then no element of a buffer changes. The bytes of one step, which need a history alone,
//! are refused by the [`Refusal`] itself, and the writers by [`NotWritten`], which names the element at fault.
//! docs/GRAMMARS.md says what the two files hold.
//!
//! The archive has to be of this crate's version, [`VERSION`]: the first call compares, and panics with both versions and the
//! archive's path where it isn't.
//!
//! A grammar file says its start stage, behind a leading 0 and the stage count, or else starts at stage 0. Every function goes
//! by that start; [`write_grammar`] always writes it out.
//!
//! Names are numbers up to 65,535. A token's number is 4 × name + kind, so it has 18 bits, and each number of a file takes one to
//! three bytes.
//!
//! A history of n tokens has positions 0 to n. A reading has one rule number for each of them, so it is n + 1 bytes. Readings
//! can be many: [`reading_count`] tells how many, and [`reading_at`] gives one by its number, without those before it.

mod counts;
mod numbers;
mod places;
mod version;
mod wire;
mod writers;

pub use counts::{
    numbered_readings, reading_at, reading_at_into, reading_count, reading_count_at,
    NumberedReadings, ReadingCount,
};
pub use numbers::numbers;
pub use version::{library_version, VERSION};
pub use writers::{
    write_grammar, write_grammar_into, write_history, write_history_into, NotWritten,
};

use std::fmt;
use std::ops::Range;

/// Who can do something about a refusal.
const BOTH: &str = "whoever wrote the file";
const GRAMMAR: &str = "whoever wrote the grammar";
const HISTORY: &str = "whoever wrote the history";
const CALL: &str = "the caller";

/// [`Refusal`] from its table: variant, number, whose, words. The table is that of docs/refusals.tsv.
macro_rules! refusals {
    ($($variant:ident = $number:literal, $whose:ident, $words:literal;)*) => {
        /// Why a file, a buffer, a position or a reading's number was turned down. [`Refusal::number`] is document 01's number, and the text
        /// of the error says the same in words.
        #[derive(Clone, Copy, Debug, PartialEq, Eq, Hash, PartialOrd, Ord)]
        #[repr(u8)]
        #[non_exhaustive]
        pub enum Refusal {
            $(
                #[doc = concat!($number, ": ", $words, ".")]
                $variant = $number,
            )*
        }

        /// All refusals, in the order of their numbers.
        pub const REFUSALS: &[Refusal] = &[$(Refusal::$variant),*];

        impl Refusal {
            /// What is wrong, in words.
            pub fn words(self) -> &'static str {
                match self {
                    $(Refusal::$variant => $words,)*
                }
            }

            /// Who can do something about it.
            pub fn whose(self) -> &'static str {
                match self {
                    $(Refusal::$variant => $whose,)*
                }
            }
        }
    };
}

refusals! {
    BytesEnd = 1, BOTH, "the bytes end inside a number or before one that is due";
    NumberForm = 2, BOTH, "a last byte of 0 after another byte, or a third byte with its top bit set";
    StageCount = 3, GRAMMAR, "stage count not 1 to 32";
    RuleCount = 4, GRAMMAR, "rule count not 1 to 128";
    Form = 5, GRAMMAR, "form above 2";
    Stage = 6, GRAMMAR, "a stage number not below the stage count";
    Name = 7, GRAMMAR, "a name above 65,535";
    RuleTwice = 8, GRAMMAR, "a rule equal in form and all fields to an earlier rule";
    BytesFollow = 9, BOTH, "bytes follow the last rule or token";
    TokenCount = 10, HISTORY, "token count above 1,024";
    Token = 11, HISTORY, "a token number with a name above 65,535, or one that leaves 3 when divided by 4";
    CloseWithoutOpen = 12, HISTORY, "a close with no step open";
    StillOpen = 13, HISTORY, "a step still open after the last token";
    TooDeep = 14, HISTORY, "an open while 128 steps are open";
    BufferShort = 15, CALL, "a lent buffer shorter than its service writes or reads";
    NotAReading = 16, CALL, "the first n + 1 bytes handed to \"next reading\" are no reading of this history";
    NotAnOpen = 17, CALL, "the position is not that of an open";
    OutOfRange = 18, CALL, "k is 0 or above the count of readings, or the position is above n";
}

impl Refusal {
    /// Document 01's number, 1 to 18.
    pub fn number(self) -> u8 {
        self as u8
    }

    /// The refusal of a number, where there is one.
    pub fn of_number(number: u8) -> Option<Refusal> {
        REFUSALS.get((number as usize).checked_sub(1)?).copied()
    }
}

impl fmt::Display for Refusal {
    fn fmt(&self, f: &mut fmt::Formatter<'_>) -> fmt::Result {
        write!(f, "{} ({})", self.words(), self.number())
    }
}

impl std::error::Error for Refusal {}

/// One of the two files.
#[derive(Clone, Copy, Debug, PartialEq, Eq, Hash)]
pub enum File {
    Grammar,
    History,
}

/// A file or a buffer was turned down: why, and which file is at fault.
#[derive(Clone, Copy, Debug, PartialEq, Eq, Hash)]
pub struct Refused {
    pub refusal: Refusal,
    /// None where it is neither file but the call: 15 to 18.
    pub file: Option<File>,
}

impl fmt::Display for Refused {
    fn fmt(&self, f: &mut fmt::Formatter<'_>) -> fmt::Result {
        match self.file {
            Some(File::Grammar) => write!(f, "the grammar: {}", self.refusal),
            Some(File::History) => write!(f, "the history: {}", self.refusal),
            None => write!(f, "{}", self.refusal),
        }
    }
}

impl std::error::Error for Refused {}

// What a file can have, for the words of a refusal.
const STAGES_MAX: u32 = 32;
const RULES_MAX: u32 = 128;
const TOKENS_MAX: u32 = 1024;
const OPEN_STEPS_MAX: u32 = 128;
const NAME_MAX: u32 = 65535;

/// Bytes of the longest reading: of a history of 1,024 tokens.
pub const READING_MAX: usize = 1025;
/// Words of the sets of such a history.
pub const WORDS_MAX: usize = 4 * READING_MAX;
/// Bytes of the longest grammar file that passes.
pub const GRAMMAR_BYTES_MAX: usize = 1285;
/// Bytes of the longest history file that passes.
pub const HISTORY_BYTES_MAX: usize = 3074;

/// The counts of a grammar that passes.
#[derive(Clone, Copy, Debug, PartialEq, Eq)]
pub struct GrammarCounts {
    pub stages: usize,
    pub rules: usize,
}

/// What "first reading" answers.
#[derive(Clone, Copy, Debug, PartialEq, Eq)]
pub enum First {
    /// The first n + 1 bytes of the buffer are the first reading.
    Written,
    /// "none": the history has no reading; no byte is written.
    NoReading,
}

/// What "next reading" answers.
#[derive(Clone, Copy, Debug, PartialEq, Eq)]
pub enum Next {
    /// The first n + 1 bytes of the buffer are the reading after the one that they held.
    Written,
    /// "no further": they hold the last reading; no byte is written.
    NoFurther,
}

/// A call of a list for [`run_calls`].
#[derive(Clone, Copy, Debug, PartialEq, Eq)]
pub enum Call {
    First,
    Next,
}

/// What a call of a list answers.
#[derive(Clone, Copy, Debug, PartialEq, Eq)]
pub enum CallAnswer {
    Written,
    NoReading,
    NoFurther,
    Refused(Refused),
}

/// The archive gave a number that its promises rule out: another archive was linked.
#[cold]
fn foreign(number: u8) -> ! {
    panic!(
        "libgaffmedlar.a answered {number}, which no promise allows: was another archive linked?"
    )
}

fn refusal(number: u8) -> Refusal {
    Refusal::of_number(number).unwrap_or_else(|| foreign(number))
}

/// The refusal by a number of a call with this grammar. The grammar comes before the history: where its own check refuses
/// it, the number is the grammar's, else it is the history's or the call's.
fn refused(number: u8, grammar: &[u8]) -> Refused {
    let refusal = refusal(number);
    let file = match refusal {
        Refusal::BufferShort | Refusal::NotAReading | Refusal::NotAnOpen | Refusal::OutOfRange => {
            None
        }
        _ if wire::grammar_check(grammar).answer == 0 => Some(File::History),
        _ => Some(File::Grammar),
    };
    Refused { refusal, file }
}

fn done(number: u8, grammar: &[u8]) -> Result<(), Refused> {
    match number {
        0 => Ok(()),
        k => Err(refused(k, grammar)),
    }
}

fn call_answer(number: u8, grammar: &[u8]) -> CallAnswer {
    match number {
        0 => CallAnswer::Written,
        100 => CallAnswer::NoReading,
        101 => CallAnswer::NoFurther,
        k => CallAnswer::Refused(refused(k, grammar)),
    }
}

/// Checks a grammar file.
pub fn grammar_check(grammar: &[u8]) -> Result<GrammarCounts, Refused> {
    let reply = wire::grammar_check(grammar);
    done(reply.answer, grammar)?;
    Ok(GrammarCounts {
        stages: reply.stages.into(),
        rules: reply.rules.into(),
    })
}

/// Checks a history file and gives its number of tokens.
pub fn history_check(history: &[u8]) -> Result<usize, Refused> {
    let reply = wire::history_check(history);
    match reply.answer {
        0 => Ok(reply.tokens.into()),
        k => Err(Refused {
            refusal: refusal(k),
            file: Some(File::History),
        }),
    }
}

/// Writes the first reading into the buffer's first n + 1 bytes.
pub fn first_reading(grammar: &[u8], history: &[u8], reading: &mut [u8]) -> Result<First, Refused> {
    match wire::first_reading(grammar, history, reading) {
        0 => Ok(First::Written),
        100 => Ok(First::NoReading),
        k => Err(refused(k, grammar)),
    }
}

/// Overwrites the reading in the buffer's first n + 1 bytes by the next one.
pub fn next_reading(grammar: &[u8], history: &[u8], reading: &mut [u8]) -> Result<Next, Refused> {
    match wire::next_reading(grammar, history, reading) {
        0 => Ok(Next::Written),
        101 => Ok(Next::NoFurther),
        k => Err(refused(k, grammar)),
    }
}

/// Makes the calls of a list, each on the buffer as the one before left it, and gives the answer to each.
pub fn run_calls(
    grammar: &[u8],
    history: &[u8],
    calls: &[Call],
    buffer: &mut [u8],
) -> Vec<CallAnswer> {
    let kinds: Vec<u8> = calls
        .iter()
        .map(|call| match call {
            Call::First => 0,
            Call::Next => 1,
        })
        .collect();
    let mut answers = vec![0; kinds.len()];
    match wire::run_calls(grammar, history, &kinds, &mut answers, buffer) {
        0 => answers
            .into_iter()
            .map(|answer| call_answer(answer, grammar))
            .collect(),
        k => foreign(k),
    }
}

/// The set of each position: the rules that stand there in some reading. The same pass counts the choices.
pub fn sets(grammar: &[u8], history: &[u8]) -> Result<Sets, Refused> {
    let mut words = vec![0; WORDS_MAX];
    let choices = sets_into(grammar, history, &mut words)?;
    words.truncate(4 * (history_check(history)? + 1));
    Ok(Sets { words, choices })
}

/// The same as words in the caller's buffer: rule 32k + b stands at position p in some reading exactly when bit b of word
/// 4p + k is 1. The buffer needs 4(n + 1) words, and those behind stay; [`WORDS_MAX`] are enough for every history.
///
/// It gives how many positions are choices: what [`choice_count`] gives, from the pass that writes the words.
///
/// ```
/// # let grammar = [3, 7, 0, 0, 2, 0, 0, 1, 0, 0, 2, 0, 0, 2, 0, 0, 1, 1, 0, 1, 0, 1, 1, 2, 0, 2, 0, 2];
/// let mut words = [7; 17];
/// assert_eq!(gaffmedlar::sets_into(&grammar, &[3, 1, 0, 2], &mut words), Ok(1));
/// assert_eq!(words, [6, 0, 0, 0, 40, 0, 0, 0, 80, 0, 0, 0, 1, 0, 0, 0, 7]);
/// ```
pub fn sets_into(grammar: &[u8], history: &[u8], words: &mut [u32]) -> Result<usize, Refused> {
    let reply = wire::sets(grammar, history, words);
    done(reply.answer, grammar)?;
    Ok(reply.count as usize)
}

/// What [`sets`] gives.
#[derive(Clone, Debug, PartialEq, Eq)]
pub struct Sets {
    words: Vec<u32>,
    choices: usize,
}

impl Sets {
    /// How many positions there are: n + 1.
    pub fn positions(&self) -> usize {
        self.words.len() / 4
    }

    /// Whether the rule stands at the position in some reading; false where there is no such position or rule.
    pub fn contains(&self, position: usize, rule: u8) -> bool {
        let mut sets = self.words.chunks_exact(4);
        let word = sets
            .nth(position)
            .and_then(|set| set.get(usize::from(rule / 32)));
        word.is_some_and(|word| word >> (rule % 32) & 1 == 1)
    }

    /// The rules that stand at the position in some reading, smaller numbers first.
    pub fn rules(&self, position: usize) -> impl Iterator<Item = u8> + '_ {
        (0..128).filter(move |&rule| self.contains(position, rule))
    }

    /// Four words for each position, as [`sets_into`] writes them.
    pub fn words(&self) -> &[u32] {
        &self.words
    }

    /// How many positions are choices, as [`choice_count`] gives it.
    pub fn choices(&self) -> usize {
        self.choices
    }
}

/// How many positions are choices. A position is a choice when its set holds two rules of one and the same stage: a reading that
/// has come to this stage there can go on by either. Where readings have different rules at a position only because each has come
/// to a stage of its own, that is no choice: they differed before.
///
/// There is more than one reading exactly when the count isn't 0. Where there is no reading it is 0. Whoever wants the sets too has
/// the count from them: [`Sets::choices`].
///
/// ```
/// // stage 0 ends, or makes a step with stage 1 or with stage 2 inside, each of which goes on by marks and ends
/// let grammar = [
///     3, 7, 0, 0, 2, 0, 0, 1, 0, 0, 2, 0, 0, 2, 0, 0, 1, 1, 0, 1, 0, 1, 1, 2, 0, 2, 0, 2,
/// ];
/// // a step: its two readings differ at all three tokens, and the open alone is a choice
/// assert_eq!(gaffmedlar::choice_count(&grammar, &[3, 1, 0, 2]), Ok(1));
/// // two steps
/// assert_eq!(gaffmedlar::choice_count(&grammar, &[4, 1, 2, 1, 2]), Ok(2));
/// // one reading, and none
/// assert_eq!(gaffmedlar::choice_count(&grammar, &[0]), Ok(0));
/// assert_eq!(gaffmedlar::choice_count(&grammar, &[1, 0]), Ok(0));
/// ```
pub fn choice_count(grammar: &[u8], history: &[u8]) -> Result<usize, Refused> {
    let reply = wire::choice_count(grammar, history);
    done(reply.answer, grammar)?;
    Ok(reply.count as usize)
}

/// Writes n + 1 bytes: byte i is 1 where the first i tokens alone have a reading, else 0.
pub fn stop_marks(grammar: &[u8], history: &[u8], marks: &mut [u8]) -> Result<(), Refused> {
    done(wire::stop_marks(grammar, history, marks), grammar)
}

/// The bytes of the step whose open stands at the position: the part of `history` from the first byte of that open through
/// the last byte of its close. Positions are counted in tokens, from 0, and may be any number.
///
/// The refusal is the history's own; where the history passes, it is [`Refusal::NotAnOpen`].
///
/// ```
/// let history = [3, 1, 0, 2];
/// assert_eq!(gaffmedlar::step_bytes(&history, 0), Ok(&history[1..4]));
/// ```
pub fn step_bytes(history: &[u8], position: usize) -> Result<&[u8], Refusal> {
    step_range(history, position).map(|range| &history[range])
}

/// Where in the file these bytes stand.
pub fn step_range(history: &[u8], position: usize) -> Result<Range<usize>, Refusal> {
    let part = wire::step_bytes(history, position);
    // a step has two bytes at least, so an empty part is a refused one
    match part.length {
        0 => Err(refusal(wire::step_refusal(history, position))),
        length => Ok(part.start..part.start + length),
    }
}

/// The readings of a history in their order, each by one call.
///
/// ```no_run
/// # let (grammar, history): (Vec<u8>, Vec<u8>) = (vec![], vec![]);
/// for reading in gaffmedlar::readings(&grammar, &history)? {
///     println!("{reading:?}");
/// }
/// # Ok::<(), gaffmedlar::Refused>(())
/// ```
pub fn readings<'a>(grammar: &'a [u8], history: &'a [u8]) -> Result<Readings<'a>, Refused> {
    grammar_check(grammar)?;
    let tokens = history_check(history)?;
    let mut reading = vec![0; tokens + 1];
    let waiting = first_reading(grammar, history, &mut reading)? == First::Written;
    Ok(Readings {
        grammar,
        history,
        reading,
        waiting,
    })
}

/// See [`readings`].
pub struct Readings<'a> {
    grammar: &'a [u8],
    history: &'a [u8],
    reading: Vec<u8>,
    waiting: bool,
}

impl Iterator for Readings<'_> {
    type Item = Vec<u8>;

    fn next(&mut self) -> Option<Vec<u8>> {
        if !self.waiting {
            return None;
        }
        let given = self.reading.clone();
        self.waiting =
            next_reading(self.grammar, self.history, &mut self.reading) == Ok(Next::Written);
        Some(given)
    }
}

/// The exported functions with slices for pointers and lengths, and their numbers as they are. The comparing program
/// uses these, so that no number is lost on the way.
#[doc(hidden)]
pub mod raw {
    pub use crate::wire::*;
}
