//! The cut-down index for one string.

use crate::output::written;
use crate::{Refusal, ffi};

/// Cuts an index down to what a search for one string needs, into a lent slice,
/// and answers its length.
///
/// `chars` and `lengths` are a dictionary as for [`admit`](crate::admit). The
/// cut-down index has the same n, and exactly the keys that bear on the
/// [replaced](crate#full-width-forms) string, with all their positions. A key
/// bears on the string if what it spells contains the string, is contained in
/// it, ends in a nonempty start of it, or starts with a nonempty end of it. A
/// lone character that is a full-width form bears on no string. A search for the
/// string finds the same in the cut-down index as in the whole one.
///
/// It is written to the front of `output`, and the rest of `output` stays as it
/// was; after a refusal all of it does. An output as long as `index` is never
/// too short.
///
/// # Errors
///
/// The first that applies:
///
/// - those of [`admit`](crate::admit);
/// - [`Refusal::IndexNotReadable`]: the index is not
///   [readable](crate#indexes) with this dictionary;
/// - [`Refusal::StringLengthWrong`]: the string is empty or longer than 256;
/// - [`Refusal::OutputTooShort`]: `output` is shorter than the cut-down index.
///
/// # Examples
///
/// ```
/// // The words ab, abc and bcd, and the index of abcdab: of its keys only bcd
/// // bears on dd.
/// let chars: Vec<u16> = "ababcbcd".encode_utf16().collect();
/// let index = [6, 3, 0, 0, 1, 0, 1, 1, 0, 2, 1, 5, 1, 2];
/// let dd: Vec<u16> = "dd".encode_utf16().collect();
/// let mut output = [9; 8];
/// let written = mopekihua::cut_into(&chars, &[2, 3, 3], &index, &dd, &mut output);
/// assert_eq!(written, Ok(6));
/// assert_eq!(output, [6, 1, 0, 2, 1, 2, 9, 9]);
/// ```
pub fn cut_into(
    chars: &[u16],
    lengths: &[u16],
    index: &[u16],
    string: &[u16],
    output: &mut [u16],
) -> Result<usize, Refusal> {
    ffi::cut(chars, lengths, index, string, output).into_result()
}

/// Cuts an index down to what a search for one string needs.
///
/// This is [`cut_into`] with an output as long as `index`, allocated here.
///
/// # Errors
///
/// Those of [`cut_into`], but for an output too short.
///
/// # Examples
///
/// ```
/// // Of the lone characters a, b and c only b bears on b.
/// let index = mopekihua::build(&[], &[], &[0x61, 0x62, 0x63])?;
/// assert_eq!(mopekihua::cut(&[], &[], &index, &[0x62])?, [3, 1, 1, 0x62, 1, 2]);
/// // The same for ｂ, its full-width form.
/// assert_eq!(mopekihua::cut(&[], &[], &index, &[0xFF42])?, [3, 1, 1, 0x62, 1, 2]);
/// # Ok::<(), mopekihua::Refusal>(())
/// ```
pub fn cut(
    chars: &[u16],
    lengths: &[u16],
    index: &[u16],
    string: &[u16],
) -> Result<Vec<u16>, Refusal> {
    written(index.len(), |output| {
        cut_into(chars, lengths, index, string, output)
    })
}
