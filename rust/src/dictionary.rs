//! Dictionaries that are admitted.

use std::fmt;
use std::ops::Range;
use std::sync::Arc;

use crate::{Characters, Error, Refusal, admit};

/// An admitted dictionary: up to 4,096 words of 1 to 32 characters, 65,535
/// characters in all at most, which ascend strictly, compared character by
/// character, a proper prefix first. No word holds a
/// [full-width form](crate#full-width-forms): words are not replaced when a
/// dictionary is made, but must come [`replaced`](crate::replaced).
///
/// It is admitted when it is made, so no index built or read with it can be
/// refused on its account. A clone shares the words. The library keeps nothing
/// between calls and admits the words again in each.
///
/// ```
/// use mopekihua::Dictionary;
///
/// let dictionary = Dictionary::new(["図", "図面", "平面図", "面図"])?;
/// assert_eq!(dictionary.len(), 4);
/// assert_eq!(dictionary.number_of("平面図"), Some(2));
/// assert_eq!(dictionary.number_of("平面"), None);
/// # Ok::<(), mopekihua::Error>(())
/// ```
#[derive(Clone, Default, PartialEq, Eq, Hash)]
pub struct Dictionary {
    words: Arc<Words>,
}

/// What is lent to the library, and where each word lies in it.
#[derive(Default, PartialEq, Eq, Hash)]
struct Words {
    chars: Vec<u16>,
    lengths: Vec<u16>,
    ranges: Vec<Range<usize>>,
}

impl Dictionary {
    /// Words in ascending order, as strings or 16-bit characters.
    ///
    /// # Errors
    ///
    /// - [`Error::Character`]: a character above U+FFFF;
    /// - those of [`admit`].
    ///
    /// # Examples
    ///
    /// ```
    /// use mopekihua::{Dictionary, Error, Refusal};
    ///
    /// let dictionary = Dictionary::new(["図", "図面"])?;
    /// let numbers: [&[u16]; 2] = [&[0x56F3], &[0x56F3, 0x9762]];
    /// assert_eq!(Dictionary::new(numbers)?, dictionary);
    ///
    /// let falling = Dictionary::new(["図面", "図"]);
    /// assert_eq!(falling, Err(Error::Refused(Refusal::WordsNotAscending)));
    ///
    /// let full_width = Dictionary::new(["ＤＮ"]);
    /// assert_eq!(full_width, Err(Error::Refused(Refusal::FullWidthWord)));
    /// # Ok::<(), mopekihua::Error>(())
    /// ```
    pub fn new<W: Characters>(words: impl IntoIterator<Item = W>) -> Result<Dictionary, Error> {
        let mut run = Run::default();
        for word in words {
            run.push(&word.characters()?);
        }
        Ok(run.admitted()?)
    }

    /// The same words in ascending order, each once, whatever order they are
    /// given in.
    ///
    /// # Errors
    ///
    /// - [`Error::Character`]: a character above U+FFFF;
    /// - [`Refusal::DictionaryTooLarge`], [`Refusal::LengthsWrong`],
    ///   [`Refusal::FullWidthWord`]: as for [`admit`].
    ///
    /// # Examples
    ///
    /// ```
    /// use mopekihua::Dictionary;
    ///
    /// let dictionary = Dictionary::sorted(["面図", "図面", "図", "図面"])?;
    /// assert_eq!(dictionary, Dictionary::new(["図", "図面", "面図"])?);
    /// # Ok::<(), mopekihua::Error>(())
    /// ```
    pub fn sorted<W: Characters>(words: impl IntoIterator<Item = W>) -> Result<Dictionary, Error> {
        let mut sorted = Vec::new();
        for word in words {
            sorted.push(word.characters()?.into_owned());
        }
        sorted.sort_unstable();
        sorted.dedup();
        Dictionary::new(sorted)
    }

    /// A dictionary as it is lent to [`admit`]: all characters run together, and
    /// the length of each word.
    ///
    /// # Errors
    ///
    /// Those of [`admit`].
    ///
    /// # Examples
    ///
    /// ```
    /// use mopekihua::{Dictionary, characters_of};
    ///
    /// let dictionary = Dictionary::from_parts(characters_of("図図面面図")?, [1, 2, 2])?;
    /// assert_eq!(dictionary, Dictionary::new(["図", "図面", "面図"])?);
    /// # Ok::<(), mopekihua::Error>(())
    /// ```
    pub fn from_parts(
        chars: impl Into<Vec<u16>>,
        lengths: impl Into<Vec<u16>>,
    ) -> Result<Dictionary, Refusal> {
        let (chars, lengths) = (chars.into(), lengths.into());
        Run { chars, lengths }.admitted()
    }

    /// The number of words.
    pub fn len(&self) -> usize {
        self.words.lengths.len()
    }

    /// Whether there is no word.
    pub fn is_empty(&self) -> bool {
        self.len() == 0
    }

    /// The characters of all words run together, as they are lent.
    pub fn chars(&self) -> &[u16] {
        &self.words.chars
    }

    /// The length of each word, as they are lent.
    pub fn lengths(&self) -> &[u16] {
        &self.words.lengths
    }

    /// The word with this number, the first being 0.
    ///
    /// ```
    /// use mopekihua::{Dictionary, characters_of};
    ///
    /// let dictionary = Dictionary::new(["図", "図面"])?;
    /// assert_eq!(dictionary.word(1), Some(&characters_of("図面")?[..]));
    /// assert_eq!(dictionary.word(2), None);
    /// # Ok::<(), mopekihua::Error>(())
    /// ```
    pub fn word(&self, number: u16) -> Option<&[u16]> {
        let range = self.words.ranges.get(usize::from(number))?;
        Some(&self.words.chars[range.clone()])
    }

    /// The words, by ascending number.
    pub fn words(&self) -> impl DoubleEndedIterator<Item = &[u16]> + ExactSizeIterator {
        let Words { chars, ranges, .. } = &*self.words;
        ranges.iter().map(|range| &chars[range.clone()])
    }

    /// The number of this word, if it is one. It is not replaced: with a
    /// full-width form it is none.
    pub fn number_of(&self, word: impl Characters) -> Option<u16> {
        let Words { chars, ranges, .. } = &*self.words;
        let word = word.characters().ok()?;
        let found = ranges.binary_search_by(|range| chars[range.clone()].cmp(&word));
        found.ok().map(|number| number as u16)
    }
}

/// The words as strings; what is no character of one is shown as U+FFFD.
impl fmt::Debug for Dictionary {
    fn fmt(&self, f: &mut fmt::Formatter<'_>) -> fmt::Result {
        f.debug_list()
            .entries(self.words().map(String::from_utf16_lossy))
            .finish()
    }
}

/// Words as they are lent, admitted or not.
#[derive(Default)]
struct Run {
    chars: Vec<u16>,
    lengths: Vec<u16>,
}

impl Run {
    /// A word whose length has no 16-bit number makes the characters too many,
    /// whatever length it is given.
    fn push(&mut self, word: &[u16]) {
        self.chars.extend_from_slice(word);
        self.lengths
            .push(u16::try_from(word.len()).unwrap_or(u16::MAX));
    }

    fn admitted(self) -> Result<Dictionary, Refusal> {
        let Run { chars, lengths } = self;
        admit(&chars, &lengths)?;
        let mut end = 0;
        let ranges = lengths.iter().map(|&length| {
            let start = end;
            end += usize::from(length);
            start..end
        });
        let words = Words {
            ranges: ranges.collect(),
            chars,
            lengths,
        };
        Ok(Dictionary {
            words: Arc::new(words),
        })
    }
}
