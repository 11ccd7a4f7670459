//! All services once more, written from documents 01 and 02 alone: the reference that the proved library is compared with.
//!
//! The algorithms are other ones on purpose. A history with few readings is worked through by writing down every
//! reading ([`listed`]); one with many by counting readings with exact numbers of any size ([`counted`]), where the
//! successor of a reading is found by its place in the order. Readings with a rule at a position are counted from outside
//! inward ([`around`]). Choices are looked for stage by stage, and between readings ([`choices`]). Stop marks recognise each
//! beginning by itself ([`marks`]). The bytes of one step are found by reading it whole ([`steps`]). Files are written from
//! elements that are judged as they are, without the reader ([`writers`]). Nothing here is fast.

pub mod around;
pub mod big;
pub mod choices;
pub mod counted;
pub mod files;
pub mod listed;
pub mod marks;
pub mod services;
pub mod steps;
pub mod writers;

pub use files::{parse_grammar, parse_history, Grammar};
pub use services::{grammar_check, history_check, Work};
pub use steps::step_bytes;
pub use writers::{write_grammar, write_history};

/// "none".
pub const NO_READING: u8 = 100;
/// "no further".
pub const NO_FURTHER: u8 = 101;
/// "over": more readings than 2^64 - 1.
pub const OVER: u8 = 102;
