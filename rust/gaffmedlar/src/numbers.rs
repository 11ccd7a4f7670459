//! The numbers of a file, as the writers take them: plain Rust beside the proved services.

/// The numbers of a file in their order, one element each, as [`write_grammar`](crate::write_grammar) and
/// [`write_history`](crate::write_history) take them. It is for a file that has passed its check: such a file, written again
/// from its numbers, is the same byte for byte. A grammar that doesn't say its start alone comes back two bytes longer, with
/// the start written out and the same meaning.
///
/// This function is outside what is proved. It takes any bytes and judges none: a number in a longer form than the shortest
/// is that number, and one above [`u32::MAX`], or one inside which the bytes end, is given as [`u32::MAX`]. No writer takes
/// that element, wherever it stands, so what was cut off is not written as if it were whole.
///
/// ```
/// assert_eq!(gaffmedlar::numbers(&[2, 161, 1, 254, 255, 15]), [2, 161, 262_142]);
/// assert_eq!(gaffmedlar::numbers(&[1, 0, 161]), [1, 0, u32::MAX]);
/// // a grammar that says its start: two stages, from stage 1 on, one rule
/// assert_eq!(gaffmedlar::numbers(&[0, 2, 1, 1, 0, 1]), [0, 2, 1, 1, 0, 1]);
/// ```
pub fn numbers(file: &[u8]) -> Vec<u32> {
    let groups_of_each = file.split_inclusive(|&group| group < 128);
    groups_of_each
        .map(|groups| number(groups).unwrap_or(u32::MAX))
        .collect()
}

/// The number of some groups of seven bits, lowest group first; None where it is too large or where its last group is
/// missing.
fn number(groups: &[u8]) -> Option<u32> {
    groups.last().filter(|&&last| last < 128)?;
    let mut higher_first = groups.iter().rev();
    higher_first.try_fold(0u32, |number, &group| {
        number.checked_mul(128)?.checked_add((group % 128).into())
    })
}
