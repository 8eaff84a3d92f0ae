//! A string to search for.

use std::fmt;
use std::str::FromStr;

use crate::{Characters, Error, Refusal};

/// The longest string that is searched for.
const LONGEST: usize = 256;

/// A string of 1 to 256 characters, which every readable index can be searched
/// for. It is kept as it was given; a search [replaces](crate#full-width-forms)
/// its full-width forms, so ＤＮ１５ finds what DN15 finds.
///
/// ```
/// use mopekihua::{Error, Query, Refusal};
///
/// let query = Query::new("面図")?;
/// assert_eq!(query.characters(), [0x9762, 0x56F3]);
/// assert_eq!("面図".parse(), Ok(query));
///
/// assert_eq!(Query::new(""), Err(Error::Refused(Refusal::StringLengthWrong)));
/// # Ok::<(), mopekihua::Error>(())
/// ```
#[derive(Clone, PartialEq, Eq, Hash)]
pub struct Query(Vec<u16>);

impl Query {
    /// The query for this string, a `str` or 16-bit characters.
    ///
    /// # Errors
    ///
    /// - [`Error::Character`]: a character above U+FFFF;
    /// - [`Refusal::StringLengthWrong`]: no character, or more than 256.
    pub fn new(string: impl Characters) -> Result<Query, Error> {
        let characters = string.characters()?;
        match characters.len() {
            1..=LONGEST => Ok(Query(characters.into_owned())),
            _ => Err(Refusal::StringLengthWrong.into()),
        }
    }

    /// The characters of the string, as it was given.
    pub fn characters(&self) -> &[u16] {
        &self.0
    }
}

impl FromStr for Query {
    type Err = Error;

    fn from_str(string: &str) -> Result<Query, Error> {
        Query::new(string)
    }
}

/// As a string; what is no character of one is shown as U+FFFD.
impl fmt::Debug for Query {
    fn fmt(&self, f: &mut fmt::Formatter<'_>) -> fmt::Result {
        f.debug_tuple("Query")
            .field(&String::from_utf16_lossy(&self.0))
            .finish()
    }
}
