//! Building the index of a text.

use crate::output::written;
use crate::{Refusal, ffi};

/// The longest text that has an index.
const LONGEST_TEXT: usize = 65_535;

/// How many numbers of an index precede its directory: n, the length of the
/// text, and K, the number of keys.
pub const HEADER: usize = 2;

/// The most numbers that the index of a text of `n` characters has:
/// `HEADER + 4n`, since at most one entry starts at each position and each may have a key of
/// its own. An output of this length is never too short.
///
/// A text above 65,535 characters has no index, and the bound stays at that of
/// 65,535.
///
/// ```
/// assert_eq!(mopekihua::index_bound(3), 14);
/// assert_eq!(mopekihua::index_bound(0), 2);
/// assert_eq!(mopekihua::index_bound(usize::MAX), mopekihua::index_bound(65_535));
/// ```
pub const fn index_bound(n: usize) -> usize {
    HEADER + 4 * at_most_longest(n)
}

/// The length of the work slice that a text of `n` characters asks for: `8n`.
///
/// No operation asks for more than a text of 65,535 characters does, and the
/// answer stays there above it.
///
/// ```
/// assert_eq!(mopekihua::work_needed(3), 24);
/// assert_eq!(mopekihua::work_needed(0), 0);
/// ```
pub const fn work_needed(n: usize) -> usize {
    8 * at_most_longest(n)
}

const fn at_most_longest(n: usize) -> usize {
    if n < LONGEST_TEXT { n } else { LONGEST_TEXT }
}

/// Builds the index of a text into a lent slice, and answers its length.
///
/// `chars` and `lengths` are a dictionary as for [`admit`](crate::admit). What is
/// indexed is the [replaced](crate#full-width-forms) text; `text` itself is not
/// changed. The index is written to the front of `output`, and the rest of
/// `output` stays as it was; after a refusal all of it does. `work` may hold
/// anything, and is all zeros after every call, refused or not.
///
/// An output of [`index_bound`] numbers is never too short, and a work slice of
/// [`work_needed`] numbers is just long enough.
///
/// # Errors
///
/// The first that applies:
///
/// - those of [`admit`](crate::admit);
/// - [`Refusal::TextTooLong`]: more than 65,535 characters;
/// - [`Refusal::WorkTooShort`]: `work` has fewer than 8 numbers for each
///   character of the text;
/// - [`Refusal::OutputTooShort`]: `output` is shorter than the index.
///
/// # Examples
///
/// With the words ab, abc and bcd, the text axa has a at 1 and 3 and x at 2.
///
/// ```
/// let chars: Vec<u16> = "ababcbcd".encode_utf16().collect();
/// let text: Vec<u16> = "axa".encode_utf16().collect();
/// let mut output = [9; 13];
/// let mut work = [9; 24];
/// let written = mopekihua::build_into(&chars, &[2, 3, 3], &text, &mut output, &mut work);
/// assert_eq!(written, Ok(11));
/// assert_eq!(output, [3, 2, 1, 0x61, 2, 1, 0x78, 1, 1, 3, 2, 9, 9]);
/// assert_eq!(work, [0; 24]);
/// ```
pub fn build_into(
    chars: &[u16],
    lengths: &[u16],
    text: &[u16],
    output: &mut [u16],
    work: &mut [u16],
) -> Result<usize, Refusal> {
    ffi::build(chars, lengths, text, output, work).into_result()
}

/// Builds the index of a text.
///
/// This is [`build_into`] with an output of [`index_bound`] numbers and a work
/// slice of [`work_needed`] numbers, both allocated here.
///
/// # Errors
///
/// The first that applies:
///
/// - those of [`admit`](crate::admit);
/// - [`Refusal::TextTooLong`]: more than 65,535 characters.
///
/// # Examples
///
/// Of words that lie within each other only the longest is in the index.
///
/// ```
/// // The words a, aa and aaa: of the text aaaa, aaa at 1 and at 2.
/// let a = [0x61; 6];
/// assert_eq!(mopekihua::build(&a, &[1, 2, 3], &a[..4]), Ok(vec![4, 1, 0, 2, 2, 1, 2]));
/// ```
///
/// The index of a text in full-width forms is that of the
/// [replaced](crate#full-width-forms) text.
///
/// ```
/// use mopekihua::{build, characters_of};
///
/// let words = characters_of("DN")?;
/// let full_width = build(&words, &[2], &characters_of("ＤＮ１５")?);
/// assert_eq!(full_width, build(&words, &[2], &characters_of("DN15")?));
/// # Ok::<(), mopekihua::Error>(())
/// ```
pub fn build(chars: &[u16], lengths: &[u16], text: &[u16]) -> Result<Vec<u16>, Refusal> {
    let mut work = vec![0; work_needed(text.len())];
    written(index_bound(text.len()), |output| {
        build_into(chars, lengths, text, output, &mut work)
    })
}
