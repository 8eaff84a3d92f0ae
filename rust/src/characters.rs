//! Strings as 16-bit characters, and back.

use std::borrow::Cow;
use std::error::Error;
use std::fmt;

/// Why a string is no run of 16-bit characters, or such a run no string.
///
/// A position is counted in characters, as those of a text are: the first is 1.
#[derive(Clone, Copy, Debug, PartialEq, Eq, Hash)]
pub enum CharacterError {
    /// A character above U+FFFF, which has no 16-bit number.
    Wide {
        /// The character.
        character: char,
        /// Where it stands.
        position: usize,
    },
    /// A number from D800 to DFFF that is half of no UTF-16 pair, and so no
    /// character of a string.
    Unpaired {
        /// The number.
        number: u16,
        /// Where it stands.
        position: usize,
    },
}

impl fmt::Display for CharacterError {
    fn fmt(&self, f: &mut fmt::Formatter<'_>) -> fmt::Result {
        match *self {
            CharacterError::Wide {
                character,
                position,
            } => write!(
                f,
                "the character {character} (U+{:X}) at position {position} has no 16-bit number",
                u32::from(character)
            ),
            CharacterError::Unpaired { number, position } => write!(
                f,
                "the number {number:04X} at position {position} is half of a UTF-16 pair, and no character"
            ),
        }
    }
}

impl Error for CharacterError {}

/// What is read as a run of 16-bit characters: a string, all of whose
/// characters have 16-bit numbers, or any numbers as they are.
///
/// ```
/// use mopekihua::Characters;
///
/// assert_eq!("図面".characters()?, "図面".encode_utf16().collect::<Vec<u16>>());
/// assert_eq!([0x56F3, 0x9762].characters()?, "図面".characters()?);
/// # Ok::<(), mopekihua::CharacterError>(())
/// ```
pub trait Characters {
    /// The characters.
    ///
    /// # Errors
    ///
    /// For a string, those of [`characters_of`]; none for numbers.
    fn characters(&self) -> Result<Cow<'_, [u16]>, CharacterError>;
}

impl Characters for str {
    fn characters(&self) -> Result<Cow<'_, [u16]>, CharacterError> {
        characters_of(self).map(Cow::Owned)
    }
}

impl Characters for String {
    fn characters(&self) -> Result<Cow<'_, [u16]>, CharacterError> {
        self.as_str().characters()
    }
}

impl Characters for [u16] {
    fn characters(&self) -> Result<Cow<'_, [u16]>, CharacterError> {
        Ok(Cow::Borrowed(self))
    }
}

impl Characters for Vec<u16> {
    fn characters(&self) -> Result<Cow<'_, [u16]>, CharacterError> {
        self.as_slice().characters()
    }
}

impl<const N: usize> Characters for [u16; N] {
    fn characters(&self) -> Result<Cow<'_, [u16]>, CharacterError> {
        self.as_slice().characters()
    }
}

impl<T: Characters + ?Sized> Characters for &T {
    fn characters(&self) -> Result<Cow<'_, [u16]>, CharacterError> {
        (**self).characters()
    }
}

/// The characters of a string, each as its 16-bit number, so that a position
/// counts the characters of the string.
///
/// # Errors
///
/// [`CharacterError::Wide`] for the first character above U+FFFF: it has no
/// 16-bit number. `str::encode_utf16` makes two numbers of it, which are two
/// characters here, and positions after it would count both.
///
/// # Examples
///
/// ```
/// use mopekihua::{CharacterError, characters_of};
///
/// assert_eq!(characters_of("図面"), Ok(vec![0x56F3, 0x9762]));
///
/// let error = characters_of("大𠮷の図面").unwrap_err();
/// assert_eq!(error, CharacterError::Wide { character: '𠮷', position: 2 });
/// assert_eq!(
///     error.to_string(),
///     "the character 𠮷 (U+20BB7) at position 2 has no 16-bit number"
/// );
/// ```
pub fn characters_of(string: &str) -> Result<Vec<u16>, CharacterError> {
    let numbered = string.chars().zip(1..);
    numbered
        .map(|(character, position)| {
            u16::try_from(character).map_err(|_| CharacterError::Wide {
                character,
                position,
            })
        })
        .collect()
}

/// The string with each [full-width form](crate#full-width-forms), a character
/// from U+FF01 to U+FF5E, replaced by the one FEE0 (hexadecimal) lower.
///
/// Texts and search strings are replaced by the library. Words of a dictionary
/// must come replaced, and this prepares them.
///
/// # Examples
///
/// Replaced words may ascend in another order.
///
/// ```
/// use mopekihua::{Dictionary, replaced};
///
/// assert_eq!(replaced("配管ＤＮ１５"), "配管DN15");
///
/// let words = ["配管", "ＤＮ"];
/// let dictionary = Dictionary::sorted(words.map(replaced))?;
/// assert_eq!(dictionary, Dictionary::new(["DN", "配管"])?);
/// # Ok::<(), mopekihua::Error>(())
/// ```
pub fn replaced(string: &str) -> String {
    string.chars().map(replaced_character).collect()
}

fn replaced_character(character: char) -> char {
    match character {
        // These are U+0021 to U+007E, which a byte holds.
        '\u{FF01}'..='\u{FF5E}' => char::from((u32::from(character) - 0xFEE0) as u8),
        _ => character,
    }
}

/// The string that these characters are.
///
/// # Errors
///
/// The first that stands there:
///
/// - [`CharacterError::Wide`]: two numbers that are one character in UTF-16;
/// - [`CharacterError::Unpaired`]: a number from D800 to DFFF that is half of no
///   such pair.
///
/// Numbers that are UTF-16 with pairs may be indexed as they are, and
/// `String::from_utf16` reads them back. This function refuses them because
/// positions in the string would not be those in the text.
///
/// # Examples
///
/// ```
/// use mopekihua::{CharacterError, string_of};
///
/// assert_eq!(string_of(&[0x56F3, 0x9762]).as_deref(), Ok("図面"));
///
/// let utf16: Vec<u16> = "大𠮷".encode_utf16().collect();
/// let wide = CharacterError::Wide { character: '𠮷', position: 2 };
/// assert_eq!(string_of(&utf16), Err(wide));
///
/// let error = string_of(&utf16[..2]).unwrap_err();
/// assert_eq!(
///     error.to_string(),
///     "the number D842 at position 2 is half of a UTF-16 pair, and no character"
/// );
/// ```
pub fn string_of(characters: &[u16]) -> Result<String, CharacterError> {
    let numbered = char::decode_utf16(characters.iter().copied()).zip(1..);
    numbered
        .map(|(decoded, position)| match decoded {
            Ok(character) if u16::try_from(character).is_ok() => Ok(character),
            Ok(character) => Err(CharacterError::Wide {
                character,
                position,
            }),
            Err(error) => Err(CharacterError::Unpaired {
                number: error.unpaired_surrogate(),
                position,
            }),
        })
        .collect()
}
