//! The sets of a case as rows of rules with their stages.
use reference::{parse_grammar, Work};

/// A rule of a set, and the stage that it is of.
#[derive(Clone, Copy)]
pub struct Kept {
    pub rule: usize,
    pub stage: u16,
}

/// The set of each position, smaller rule numbers first; no set at all where a file is refused.
pub fn kept(grammar: &[u8], history: &[u8]) -> Vec<Vec<Kept>> {
    let work = Work::new(grammar, history);
    let (Ok(read), Some(positions)) = (parse_grammar(grammar), work.positions()) else {
        return vec![];
    };
    let mut words = vec![0; 4 * positions];
    work.sets(&mut words).expect("files that pass, and room");
    let of_set = |set: &[u32]| {
        let rules = (0..read.rules.len()).filter(|rule| set[rule / 32] >> (rule % 32) & 1 == 1);
        let kept = |rule| Kept {
            rule,
            stage: read.rules[rule].from(),
        };
        rules.map(kept).collect()
    };
    words.chunks(4).map(of_set).collect()
}
