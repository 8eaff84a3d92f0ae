//! Admission through the library, beside the oracle.

use super::dictionary::Dictionary;
use super::oracle;

/// The library gives this number of words or this refusal, and so does the oracle.
#[track_caller]
pub fn answers(dictionary: &Dictionary, expected: Result<usize, u32>) {
    assert_eq!(dictionary.admit(), expected, "the library");
    assert_eq!(
        oracle::admit(&dictionary.chars, &dictionary.lengths),
        expected,
        "the oracle"
    );
}

/// Characters and lengths that need not fit each other.
pub fn lent(chars: &[u16], lengths: &[u16]) -> Dictionary {
    Dictionary {
        chars: chars.to_vec(),
        lengths: lengths.to_vec(),
    }
}
