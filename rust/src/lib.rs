//! A safe API over Mopekihua, a full-text index whose functions are proved
//! to answer what their definitions say.
//!
//! ```
//! use mopekihua::{Dictionary, Index, Query, string_of};
//!
//! let dictionary = Dictionary::new(["図", "図面", "平面図", "面図"])?;
//! let index = Index::build(&dictionary, "平面図面の図")?;
//!
//! // The text is not needed to search, and can be recovered.
//! assert_eq!(index.search(&Query::new("面")?), [2, 4]);
//! assert_eq!(string_of(&index.recover())?, "平面図面の図");
//! # Ok::<(), mopekihua::Error>(())
//! ```
//!
//! There are two ways to call the static library `libmopekihua.a`:
//!
//! - types that own what they hold: a [`Dictionary`] that is admitted, an
//!   [`Index`] that some text has, a [`ReadableIndex`] that some text may have,
//!   a [`Query`] of a length that is searched for. What could be refused is
//!   refused when such a value is made; searching it is not;
//! - functions over lent slices, one for each operation of the library: they
//!   copy nothing, and only those that answer a `Vec` allocate.
//!
//! # Characters
//!
//! A character is a 16-bit number; no number has a special meaning but the
//! full-width forms below. Strings are taken too ([`Characters`],
//! [`characters_of`], [`string_of`]), if each of their characters has a 16-bit
//! number, as nearly all Japanese ones do: one above U+FFFF is a
//! [`CharacterError`]. Positions count characters, the first is 1.
//!
//! # Full-width forms
//!
//! A full-width form is a character from FF01 to FF5E (hexadecimal), such as
//! those of the pipe size ＤＮ１５. In texts and search strings each is replaced,
//! before anything else, by the character FEE0 lower, from 0021 to 007E (width
//! folding), so both spellings count as the same lettering. FF00 and FF5F stay. A
//! text without full-width forms is a replaced text.
//!
//! ```
//! use mopekihua::{Dictionary, Index, Query, string_of};
//!
//! let dictionary = Dictionary::new(["DN", "配管"])?;
//! let index = Index::build(&dictionary, "配管ＤＮ１５、DN20")?;
//! assert_eq!(index, Index::build(&dictionary, "配管DN15、ＤＮ２０")?);
//!
//! // A query in either width finds the same.
//! assert_eq!(index.search(&Query::new("DN15")?), [3]);
//! assert_eq!(index.search(&Query::new("ＤＮ１５")?), [3]);
//!
//! // The text recovered is the replaced one.
//! assert_eq!(string_of(&index.recover())?, "配管DN15、DN20");
//! # Ok::<(), mopekihua::Error>(())
//! ```
//!
//! Words of a dictionary must come replaced, or they are refused
//! ([`Refusal::FullWidthWord`]); [`replaced`] prepares them. The numbers of an
//! index are never replaced: a lone character that is a full-width form is
//! readable, but no text has it in its index and no string finds it.
//!
//! # Dictionaries
//!
//! A dictionary has up to 4,096 words of 1 to 32 characters, 65,535 characters
//! in all at most. It is lent as all characters run together and a list of
//! lengths. Its words ascend strictly, compared character by character, a proper
//! prefix first, and none holds a full-width form. [`admit`] says whether that
//! holds.
//!
//! ```
//! // The words ab, abc and bcd.
//! let chars: Vec<u16> = "ababcbcd".encode_utf16().collect();
//! assert_eq!(mopekihua::admit(&chars, &[2, 3, 3]), Ok(3));
//! ```
//!
//! # Indexes
//!
//! [`build`] gives the complete maximal word index of a text: every word and
//! every lone character of the replaced text (one that is not itself a word) that
//! lies within no longer one. Two texts have the same index exactly if their
//! replaced texts are equal.
//!
//! As numbers, an index is n, the length of the text; K, the number of keys; K
//! directory lines of kind, value, count; then all positions, the first being 1,
//! key after key. Kind 0 is a word and its value the number of the word, the
//! first being 0; kind 1 is a lone character and its value the character. Keys
//! ascend, and so do the positions under each.
//!
//! ```
//! let chars: Vec<u16> = "ababcbcd".encode_utf16().collect();
//! let text: Vec<u16> = "abcdabx".encode_utf16().collect();
//! let index = mopekihua::build(&chars, &[2, 3, 3], &text)?;
//! assert_eq!(index[..2], [7, 4]);
//! // ab once, abc once, bcd once, x once; at 5, at 1, at 2, at 7.
//! assert_eq!(index[2..14], [0, 0, 1, 0, 1, 1, 0, 2, 1, 1, 0x78, 1]);
//! assert_eq!(index[14..], [5, 1, 2, 7]);
//! # Ok::<(), mopekihua::Refusal>(())
//! ```
//!
//! An index may also come from elsewhere. Operations on an index first test
//! that it is readable with the dictionary lent:
//!
//! - it has at least 2 numbers, and at least 2 + 3K;
//! - every kind is 0 or 1, every word number is below the number of words, and
//!   no lone character is itself a word;
//! - the directory lines ascend strictly by kind and then by value;
//! - every count is at least 1, and the length of the index is 2 + 3K + the sum
//!   of the counts;
//! - under each key positions ascend strictly from 1 or more, and the last
//!   character of the key falls at or before n.
//!
//! [`receive`] says whether some text has such an index, and [`recover`] gives
//! that text, replaced. [`tally`] counts the entries of a readable index by their
//! lengths, and [`search`] finds a string in it without the text. [`first`] finds
//! its first position alone, which tells whether the string is left anywhere.
//! [`cut`] leaves what a search for one string needs.
//!
//! # Gaps
//!
//! Small numbers pack better. In the gap form of an index the first position
//! under each key stays, and each later one is its distance from the one before;
//! the rest and the length are the same. [`to_gaps`] gives the gap form of a
//! readable index, and [`from_gaps`] restores the index, exactly.
//!
//! ```
//! use mopekihua::{Dictionary, Index};
//!
//! let dictionary = Dictionary::new(["図", "図面", "面"])?;
//! let index = Index::build(&dictionary, "図面の図の図面")?;
//! // 図 at 4; 図面 at 1 and 6; の at 3 and 5.
//! assert_eq!(index.numbers()[11..], [4, 1, 6, 3, 5]);
//! let gaps = index.to_gaps();
//! assert_eq!(gaps[11..], [4, 1, 5, 3, 2]);
//! assert_eq!(Index::from_gaps(&dictionary, &gaps)?, index);
//! # Ok::<(), mopekihua::Error>(())
//! ```
//!
//! Nothing in the numbers tells a gap form from an index, and it may be readable
//! as another one: it is to be restored before any other call.
//!
//! # What is proved and what is not
//!
//! The library's code is proved: for every input, declined ones too, the
//! answer is the one that the definition gives, and the call ends. Not checked
//! by the prover: that this crate declares the C functions as the library has
//! them, the few lines that turn slices into pointers and numbers into
//! [`Refusal`], the types that own what they hold, what this crate does with
//! strings, [`replaced`] too, and the compilers and the linker. The tests of this
//! crate run the library through these declarations and types, and compare it
//! with a plain reading of the definitions in Rust.
//!
//! # Building
//!
//! `make lib` in the repository's root proves the library and writes it to
//! where this crate looks for it. The environment variable `MOPEKIHUA_LIB_DIR`
//! names another folder.

#![deny(missing_docs, unsafe_op_in_unsafe_fn)]

mod building;
mod characters;
mod cutting;
mod dictionary;
mod error;
mod ffi;
mod gaps;
mod index;
mod output;
mod query;
mod readable;
mod reception;
mod refusal;
mod searching;
mod tally;

pub use building::{HEADER, build, build_into, index_bound, work_needed};
pub use characters::{CharacterError, Characters, characters_of, replaced, string_of};
pub use cutting::{cut, cut_into};
pub use dictionary::Dictionary;
pub use error::Error;
pub use gaps::{from_gaps, from_gaps_into, to_gaps, to_gaps_into};
pub use index::Index;
pub use query::Query;
pub use readable::{Key, Line, ReadableIndex};
pub use reception::{receive, receive_with, recover, recover_into};
pub use refusal::Refusal;
pub use searching::{first, search, search_into};
pub use tally::{Tally, tally};

/// Admits a dictionary, and answers its number of words.
///
/// `chars` are the characters of all words run together, `lengths` the length
/// of each word, in order. The words must come [replaced](crate#full-width-forms).
/// The cost is linear in the characters lent.
///
/// # Errors
///
/// The first that applies:
///
/// - [`Refusal::DictionaryTooLarge`]: more than 4,096 lengths, or more than
///   65,535 characters;
/// - [`Refusal::LengthsWrong`]: a length is 0 or above 32, or the lengths do
///   not add up to the number of characters;
/// - [`Refusal::WordsNotAscending`]: a word is equal to the one before it, or
///   sorts below it;
/// - [`Refusal::FullWidthWord`]: a word holds a character from FF01 to FF5E.
///
/// # Examples
///
/// A dictionary without words is one.
///
/// ```
/// assert_eq!(mopekihua::admit(&[], &[]), Ok(0));
/// ```
///
/// Words ascend by their numbers, and a proper prefix comes first.
///
/// ```
/// use mopekihua::{Refusal, admit};
///
/// let chars: Vec<u16> = "図図面面".encode_utf16().collect();
/// assert_eq!(admit(&chars, &[1, 2, 1]), Ok(3));
/// assert_eq!(admit(&chars, &[1, 1, 2]), Err(Refusal::WordsNotAscending));
/// assert_eq!(admit(&chars, &[1, 2]), Err(Refusal::LengthsWrong));
/// ```
///
/// Words are not replaced here.
///
/// ```
/// use mopekihua::{Refusal, admit, characters_of};
///
/// assert_eq!(admit(&characters_of("DN")?, &[2]), Ok(1));
/// assert_eq!(admit(&characters_of("ＤＮ")?, &[2]), Err(Refusal::FullWidthWord));
/// # Ok::<(), mopekihua::Error>(())
/// ```
pub fn admit(chars: &[u16], lengths: &[u16]) -> Result<usize, Refusal> {
    ffi::admit(chars, lengths).into_result()
}
