//! The numbers of a file.
use frames::wide::{longest_grammar, longest_history};
use gaffmedlar::numbers;

#[test]
fn numbers_of_one_to_three_bytes() {
    assert_eq!(numbers(&[]), []);
    assert_eq!(numbers(&[0, 127, 128, 1, 255, 127]), [0, 127, 128, 16_383]);
    assert_eq!(numbers(&[128, 8, 161, 1, 134, 1]), [1024, 161, 134]);
    assert_eq!(numbers(&[128, 128, 1, 255, 255, 3]), [16_384, 65_535]);
    assert_eq!(numbers(&[254, 255, 15, 2]), [262_142, 2]);
    assert_eq!(numbers(&[255, 255, 127]), [2_097_151]);
    for (due, file) in [longest_grammar(true), longest_history()] {
        assert_eq!(numbers(&file), due);
    }
}

/// Bytes that no check lets through.
#[test]
fn other_bytes() {
    assert_eq!(numbers(&[128, 0, 5]), [0, 5]);
    assert_eq!(numbers(&[129, 128, 0, 5]), [1, 5]);
    assert_eq!(numbers(&[128, 128, 128, 1, 5]), [2_097_152, 5]);
    assert_eq!(numbers(&[255, 255, 255, 255, 15]), [u32::MAX]);
    assert_eq!(numbers(&[254, 255, 255, 255, 15]), [u32::MAX - 1]);
    assert_eq!(numbers(&[128, 128, 128, 128, 16, 7]), [u32::MAX, 7]);
    let long_zero = [vec![128; 40], vec![0, 3]].concat();
    assert_eq!(numbers(&long_zero), [0, 3]);
    let long_one = [vec![128; 40], vec![1, 3]].concat();
    assert_eq!(numbers(&long_one), [u32::MAX, 3]);
    // the bytes end inside a number
    for end in [&[128][..], &[161], &[128, 128], &[255; 9]] {
        let file = [&[1, 0], end].concat();
        assert_eq!(numbers(&file), [1, 0, u32::MAX]);
    }
}
