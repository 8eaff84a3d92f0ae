//! What goes wrong where strings are taken.

use std::fmt;

use crate::{CharacterError, Refusal};

/// Why a dictionary, a text or a query is not taken: it is no run of 16-bit
/// characters, or the library refuses it.
///
/// ```
/// use mopekihua::{Dictionary, Error, Refusal};
///
/// let error = Dictionary::new(["面", "図"]).unwrap_err();
/// assert_eq!(error, Error::Refused(Refusal::WordsNotAscending));
/// assert_eq!(error.to_string(), "words do not ascend strictly");
///
/// let error = Dictionary::new(["𠮷"]).unwrap_err();
/// assert!(matches!(error, Error::Character(_)));
/// ```
#[derive(Clone, Copy, Debug, PartialEq, Eq, Hash)]
pub enum Error {
    /// A character has no 16-bit number.
    Character(CharacterError),
    /// The library refuses it.
    Refused(Refusal),
}

impl fmt::Display for Error {
    fn fmt(&self, f: &mut fmt::Formatter<'_>) -> fmt::Result {
        match self {
            Error::Character(error) => error.fmt(f),
            Error::Refused(refusal) => refusal.fmt(f),
        }
    }
}

impl std::error::Error for Error {}

impl From<CharacterError> for Error {
    fn from(error: CharacterError) -> Error {
        Error::Character(error)
    }
}

impl From<Refusal> for Error {
    fn from(refusal: Refusal) -> Error {
        Error::Refused(refusal)
    }
}
