//! Positions as gaps, for storage, and back.

use crate::output::written;
use crate::readable::always;
use crate::{Dictionary, Index, ReadableIndex, Refusal, ffi};

/// Rearranges an index into its [gap form](crate#gaps), into a lent slice, and
/// answers its length.
///
/// `chars` and `lengths` are a dictionary as for [`admit`](crate::admit). Under
/// each key the first position stays, and each later one becomes its distance
/// from the one before. All other numbers stay, and the gap form is as long as
/// the index. [`from_gaps_into`] restores the index. The index need not be that
/// of a text.
///
/// The gap form is written to the front of `output`, and the rest of `output`
/// stays as it was; after a refusal all of it does. The cost is linear in the
/// dictionary and the index.
///
/// # Errors
///
/// The first that applies:
///
/// - those of [`admit`](crate::admit);
/// - [`Refusal::IndexNotReadable`]: the index is not
///   [readable](crate#indexes) with this dictionary;
/// - [`Refusal::OutputTooShort`]: `output` is shorter than `index`.
///
/// # Examples
///
/// ```
/// // The words ab and bc, and the index of abcbcab: ab at 1 and 6, bc at 2 and 4.
/// let chars: Vec<u16> = "abbc".encode_utf16().collect();
/// let index = [7, 2, 0, 0, 2, 0, 1, 2, 1, 6, 2, 4];
/// let mut output = [9; 14];
/// assert_eq!(mopekihua::to_gaps_into(&chars, &[2, 2], &index, &mut output), Ok(12));
/// assert_eq!(output, [7, 2, 0, 0, 2, 0, 1, 2, 1, 5, 2, 2, 9, 9]);
/// ```
pub fn to_gaps_into(
    chars: &[u16],
    lengths: &[u16],
    index: &[u16],
    output: &mut [u16],
) -> Result<usize, Refusal> {
    ffi::to_gaps(chars, lengths, index, output).into_result()
}

/// Rearranges an index into its [gap form](crate#gaps).
///
/// This is [`to_gaps_into`] with an output as long as `index`, allocated here.
///
/// # Errors
///
/// Those of [`to_gaps_into`], but for an output too short.
///
/// # Examples
///
/// ```
/// // The lone characters a at 1, 2 and 5, and b at 3 and 4.
/// let text: Vec<u16> = "aabba".encode_utf16().collect();
/// let index = mopekihua::build(&[], &[], &text)?;
/// assert_eq!(index, [5, 2, 1, 0x61, 3, 1, 0x62, 2, 1, 2, 5, 3, 4]);
/// let gaps = mopekihua::to_gaps(&[], &[], &index)?;
/// assert_eq!(gaps, [5, 2, 1, 0x61, 3, 1, 0x62, 2, 1, 1, 3, 3, 1]);
/// # Ok::<(), mopekihua::Refusal>(())
/// ```
pub fn to_gaps(chars: &[u16], lengths: &[u16], index: &[u16]) -> Result<Vec<u16>, Refusal> {
    written(index.len(), |output| {
        to_gaps_into(chars, lengths, index, output)
    })
}

/// Restores an index from its [gap form](crate#gaps), into a lent slice, and
/// answers its length.
///
/// `chars` and `lengths` are a dictionary as for [`admit`](crate::admit). Under
/// each key the first number stays, and to each later one all those before it
/// under the same key are added. All other numbers stay, and the index is as long
/// as the gap form. Sums do not wrap: 3 and then a gap of 65,534 make 65,537,
/// which is past every n.
///
/// The index that [`to_gaps_into`] was lent is restored exactly, and for every
/// gap form accepted [`to_gaps_into`] gives the same gap form again. Whether a
/// text has the index, [`receive`](crate::receive) says.
///
/// The index is written to the front of `output`, and the rest of `output` stays
/// as it was; after a refusal all of it does. The cost is linear in the
/// dictionary and the gap form.
///
/// # Errors
///
/// The first that applies:
///
/// - those of [`admit`](crate::admit);
/// - [`Refusal::IndexNotReadable`]: the restored form is not
///   [readable](crate#indexes) with this dictionary;
/// - [`Refusal::OutputTooShort`]: `output` is shorter than `gaps`.
///
/// # Examples
///
/// ```
/// // The words ab and bc: ab at 1 and 5 further on, bc at 2 and 2 further on.
/// let chars: Vec<u16> = "abbc".encode_utf16().collect();
/// let gaps = [7, 2, 0, 0, 2, 0, 1, 2, 1, 5, 2, 2];
/// let mut output = [9; 14];
/// assert_eq!(mopekihua::from_gaps_into(&chars, &[2, 2], &gaps, &mut output), Ok(12));
/// assert_eq!(output, [7, 2, 0, 0, 2, 0, 1, 2, 1, 6, 2, 4, 9, 9]);
/// ```
pub fn from_gaps_into(
    chars: &[u16],
    lengths: &[u16],
    gaps: &[u16],
    output: &mut [u16],
) -> Result<usize, Refusal> {
    ffi::from_gaps(chars, lengths, gaps, output).into_result()
}

/// Restores an index from its [gap form](crate#gaps).
///
/// This is [`from_gaps_into`] with an output as long as `gaps`, allocated here.
///
/// # Errors
///
/// Those of [`from_gaps_into`], but for an output too short.
///
/// # Examples
///
/// A gap is at least 1, and no sum wraps.
///
/// ```
/// use mopekihua::{Refusal, from_gaps};
///
/// // The lone character a, twice in a text of 5.
/// let restored = |first, gap| from_gaps(&[], &[], &[5, 1, 1, 0x61, 2, first, gap]);
/// assert_eq!(restored(3, 2), Ok(vec![5, 1, 1, 0x61, 2, 3, 5]));
/// assert_eq!(restored(3, 3), Err(Refusal::IndexNotReadable));
/// assert_eq!(restored(3, 0), Err(Refusal::IndexNotReadable));
/// assert_eq!(restored(3, 65_534), Err(Refusal::IndexNotReadable));
/// ```
pub fn from_gaps(chars: &[u16], lengths: &[u16], gaps: &[u16]) -> Result<Vec<u16>, Refusal> {
    written(gaps.len(), |output| {
        from_gaps_into(chars, lengths, gaps, output)
    })
}

impl ReadableIndex {
    /// Restores an index from its [gap form](crate#gaps) with this dictionary,
    /// if the restored form is readable.
    ///
    /// # Errors
    ///
    /// [`Refusal::IndexNotReadable`].
    ///
    /// # Examples
    ///
    /// ```
    /// use mopekihua::{Dictionary, ReadableIndex, Refusal};
    ///
    /// // The word 図面 at 1 and 3 further on, in a text of 5 characters.
    /// let dictionary = Dictionary::new(["図面"])?;
    /// let index = ReadableIndex::from_gaps(&dictionary, &[5, 1, 0, 0, 2, 1, 3])?;
    /// assert_eq!(index.numbers(), [5, 1, 0, 0, 2, 1, 4]);
    ///
    /// // 4 further on it would end behind the text.
    /// let past = ReadableIndex::from_gaps(&dictionary, &[5, 1, 0, 0, 2, 1, 4]);
    /// assert_eq!(past, Err(Refusal::IndexNotReadable));
    /// # Ok::<(), mopekihua::Error>(())
    /// ```
    pub fn from_gaps(dictionary: &Dictionary, gaps: &[u16]) -> Result<ReadableIndex, Refusal> {
        let numbers = from_gaps(dictionary.chars(), dictionary.lengths(), gaps)?;
        Ok(ReadableIndex::known(dictionary, numbers))
    }

    /// The [gap form](crate#gaps), to be kept or sent without the dictionary:
    /// [`from_gaps`](Self::from_gaps) restores the index from it.
    ///
    /// ```
    /// use mopekihua::{Dictionary, ReadableIndex};
    ///
    /// // The word 図面 at 1, 3 and 7, in a text of 9 characters.
    /// let dictionary = Dictionary::new(["図面"])?;
    /// let index = ReadableIndex::read(&dictionary, [9, 1, 0, 0, 3, 1, 3, 7])?;
    /// assert_eq!(index.to_gaps(), [9, 1, 0, 0, 3, 1, 2, 4]);
    /// # Ok::<(), mopekihua::Error>(())
    /// ```
    pub fn to_gaps(&self) -> Vec<u16> {
        always(to_gaps(
            self.dictionary().chars(),
            self.dictionary().lengths(),
            self.numbers(),
        ))
    }
}

impl Index {
    /// Restores an index from its [gap form](crate#gaps) with this dictionary,
    /// and receives it: some text must have it.
    ///
    /// # Errors
    ///
    /// The first that applies:
    ///
    /// - [`Refusal::IndexNotReadable`]: the restored form is not
    ///   [readable](crate#indexes) with this dictionary;
    /// - [`Refusal::NoText`]: no text has the restored index.
    ///
    /// # Examples
    ///
    /// ```
    /// use mopekihua::{Dictionary, Index, Refusal, string_of};
    ///
    /// // The word 図面 at 1 and 2 further on; the same in a text of 5 characters,
    /// // where nothing stands at 5.
    /// let dictionary = Dictionary::new(["図面"])?;
    /// let index = Index::from_gaps(&dictionary, &[4, 1, 0, 0, 2, 1, 2])?;
    /// assert_eq!(string_of(&index.recover())?, "図面図面");
    /// let bare = Index::from_gaps(&dictionary, &[5, 1, 0, 0, 2, 1, 2]);
    /// assert_eq!(bare, Err(Refusal::NoText));
    /// # Ok::<(), mopekihua::Error>(())
    /// ```
    pub fn from_gaps(dictionary: &Dictionary, gaps: &[u16]) -> Result<Index, Refusal> {
        ReadableIndex::from_gaps(dictionary, gaps)?.receive()
    }

    /// The [gap form](crate#gaps), to be kept or sent without the dictionary:
    /// [`from_gaps`](Self::from_gaps) restores the index from it.
    ///
    /// ```
    /// use mopekihua::{Dictionary, Index};
    ///
    /// let dictionary = Dictionary::new(["図面"])?;
    /// let index = Index::build(&dictionary, "図面、図面、図面")?;
    /// let gaps = index.to_gaps();
    /// // 図面 at 1, 4 and 7, and 、 at 3 and 6.
    /// assert_eq!(gaps[8..], [1, 3, 3, 3, 3]);
    /// assert_eq!(Index::from_gaps(&dictionary, &gaps)?, index);
    /// # Ok::<(), mopekihua::Error>(())
    /// ```
    pub fn to_gaps(&self) -> Vec<u16> {
        self.as_readable().to_gaps()
    }
}
