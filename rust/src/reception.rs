//! Reception of an index, and recovery of its text.

use crate::output::{stated_length, written};
use crate::{Refusal, ffi, work_needed};

/// Receives an index with a lent work slice: answers the length of the text that
/// has it.
///
/// `chars` and `lengths` are a dictionary as for [`admit`](crate::admit). A
/// readable index need not be that of a text: no entry may cover a position, two
/// entries may show different characters at one, an entry may stand where the
/// text that the entries spell has a longer one, or a lone character may be a
/// [full-width form](crate#full-width-forms), which no replaced text holds. If a
/// replaced text has it, no other replaced text does; [`recover`] gives the text
/// itself.
///
/// A work slice of [`work_needed`] numbers for n, the first number of the index,
/// is just long enough. `work` may hold anything, and is all zeros after every
/// call, refused or not.
///
/// # Errors
///
/// The first that applies:
///
/// - those of [`admit`](crate::admit);
/// - [`Refusal::IndexNotReadable`]: the index is not
///   [readable](crate#indexes) with this dictionary;
/// - [`Refusal::WorkTooShort`]: `work` has fewer than 8n numbers;
/// - [`Refusal::NoText`]: no text has this index.
///
/// # Examples
///
/// ```
/// // The words ab, abc and bcd, and the index of abcdab.
/// let chars: Vec<u16> = "ababcbcd".encode_utf16().collect();
/// let index = [6, 3, 0, 0, 1, 0, 1, 1, 0, 2, 1, 5, 1, 2];
/// let mut work = [9; 48];
/// assert_eq!(mopekihua::receive_with(&chars, &[2, 3, 3], &index, &mut work), Ok(6));
/// assert_eq!(work, [0; 48]);
/// ```
pub fn receive_with(
    chars: &[u16],
    lengths: &[u16],
    index: &[u16],
    work: &mut [u16],
) -> Result<usize, Refusal> {
    ffi::receive(chars, lengths, index, work).into_result()
}

/// Receives an index: answers the length of the text that has it.
///
/// This is [`receive_with`] with a work slice of [`work_needed`] numbers,
/// allocated here.
///
/// # Errors
///
/// The first that applies:
///
/// - those of [`admit`](crate::admit);
/// - [`Refusal::IndexNotReadable`]: the index is not
///   [readable](crate#indexes) with this dictionary;
/// - [`Refusal::NoText`]: no text has this index.
///
/// # Examples
///
/// Lone characters that spell a word are the index of no text.
///
/// ```
/// use mopekihua::{Refusal, receive};
///
/// // a at 1 and b at 2.
/// let index = [2, 2, 1, 0x61, 1, 1, 0x62, 1, 1, 2];
/// assert_eq!(receive(&[], &[], &index), Ok(2));
/// assert_eq!(receive(&[0x61, 0x62], &[2], &index), Err(Refusal::NoText));
/// ```
///
/// Nor is there a text with a full-width form as a lone character.
///
/// ```
/// use mopekihua::{Refusal, receive};
///
/// // Ａ at 1, and A at 1.
/// assert_eq!(receive(&[], &[], &[1, 1, 1, 0xFF21, 1, 1]), Err(Refusal::NoText));
/// assert_eq!(receive(&[], &[], &[1, 1, 1, 0x0041, 1, 1]), Ok(1));
/// ```
pub fn receive(chars: &[u16], lengths: &[u16], index: &[u16]) -> Result<usize, Refusal> {
    receive_with(chars, lengths, index, &mut work_for(index))
}

/// Recovers the text of an index into a lent slice, and answers its length.
///
/// `chars` and `lengths` are a dictionary as for [`admit`](crate::admit). The
/// text is the [replaced](crate#full-width-forms) one, also where the index was
/// built from one with full-width forms. It is written to the front of `output`,
/// and the rest of `output` stays as it was; after a refusal all of it does.
/// `work` may hold anything, and is all zeros after every call, refused or not.
///
/// An output of n numbers and a work slice of [`work_needed`] numbers for n, the
/// first number of the index, are just long enough.
///
/// # Errors
///
/// The first that applies:
///
/// - those of [`receive_with`];
/// - [`Refusal::OutputTooShort`]: `output` is shorter than the text.
///
/// # Examples
///
/// ```
/// // The words ab, abc and bcd: a at 1 and 3, x at 2.
/// let chars: Vec<u16> = "ababcbcd".encode_utf16().collect();
/// let index = [3, 2, 1, 0x61, 2, 1, 0x78, 1, 1, 3, 2];
/// let mut output = [9; 5];
/// let mut work = [9; 24];
/// let text = mopekihua::recover_into(&chars, &[2, 3, 3], &index, &mut output, &mut work);
/// assert_eq!(text, Ok(3));
/// assert_eq!(output, [0x61, 0x78, 0x61, 9, 9]);
/// assert_eq!(work, [0; 24]);
/// ```
pub fn recover_into(
    chars: &[u16],
    lengths: &[u16],
    index: &[u16],
    output: &mut [u16],
    work: &mut [u16],
) -> Result<usize, Refusal> {
    ffi::recover(chars, lengths, index, output, work).into_result()
}

/// Recovers the text of an index, [replaced](crate#full-width-forms).
///
/// This is [`recover_into`] with an output of n numbers and a work slice of
/// [`work_needed`] numbers, both allocated here.
///
/// # Errors
///
/// Those of [`receive`].
///
/// # Examples
///
/// ```
/// let chars: Vec<u16> = "図図面面".encode_utf16().collect();
/// let text: Vec<u16> = "平面図面図".encode_utf16().collect();
/// let index = mopekihua::build(&chars, &[1, 2, 1], &text)?;
/// assert_eq!(mopekihua::recover(&chars, &[1, 2, 1], &index), Ok(text));
/// # Ok::<(), mopekihua::Refusal>(())
/// ```
///
/// What is recovered of a text in full-width forms is the replaced text.
///
/// ```
/// use mopekihua::{build, characters_of, recover};
///
/// let index = build(&[], &[], &characters_of("ＤＮ１５")?)?;
/// assert_eq!(recover(&[], &[], &index)?, characters_of("DN15")?);
/// # Ok::<(), mopekihua::Error>(())
/// ```
///
/// An index that leaves a position uncovered is that of no text.
///
/// ```
/// use mopekihua::{Refusal, recover};
///
/// assert_eq!(recover(&[], &[], &[2, 1, 1, 0x61, 1, 1]), Err(Refusal::NoText));
/// ```
pub fn recover(chars: &[u16], lengths: &[u16], index: &[u16]) -> Result<Vec<u16>, Refusal> {
    let mut work = work_for(index);
    written(stated_length(index), |output| {
        recover_into(chars, lengths, index, output, &mut work)
    })
}

/// A work slice just long enough for this index.
fn work_for(index: &[u16]) -> Vec<u16> {
    vec![0; work_needed(stated_length(index))]
}
