//! Indexes of texts.

use crate::readable::always;
use crate::{Characters, Dictionary, Error, Query, ReadableIndex, Refusal, Tally, build, receive};

/// The index of a text: built from it, or received from elsewhere.
///
/// It holds its numbers and shares its dictionary, so it can't be read with
/// another one. The text is not kept; [`recover`](Index::recover) gives it back,
/// [replaced](crate#full-width-forms). Two texts have the same index exactly if
/// their replaced texts are equal.
///
/// ```
/// use mopekihua::{Dictionary, Index, Query, string_of};
///
/// let dictionary = Dictionary::new(["図", "図面", "平面図", "面図"])?;
/// let index = Index::build(&dictionary, "平面図面の図")?;
/// assert_eq!(index.search(&Query::new("面")?), [2, 4]);
/// assert_eq!(string_of(&index.recover())?, "平面図面の図");
///
/// // Elsewhere, from the numbers alone.
/// let sent: Vec<u16> = index.numbers().to_vec();
/// assert_eq!(Index::receive(&dictionary, sent)?, index);
/// # Ok::<(), mopekihua::Error>(())
/// ```
#[derive(Clone, Debug, PartialEq, Eq, Hash)]
pub struct Index(ReadableIndex);

impl Index {
    /// Builds the index of a text, a `str` or 16-bit characters. What is indexed
    /// is the [replaced](crate#full-width-forms) text.
    ///
    /// # Errors
    ///
    /// - [`Error::Character`]: a character above U+FFFF;
    /// - [`Refusal::TextTooLong`]: more than 65,535 characters.
    ///
    /// # Examples
    ///
    /// ```
    /// use mopekihua::{Dictionary, Index};
    ///
    /// let dictionary = Dictionary::new(["DN", "配管"])?;
    /// let index = Index::build(&dictionary, "配管ＤＮ１５")?;
    /// assert_eq!(index, Index::build(&dictionary, "配管DN15")?);
    /// # Ok::<(), mopekihua::Error>(())
    /// ```
    pub fn build(dictionary: &Dictionary, text: impl Characters) -> Result<Index, Error> {
        let text = text.characters()?;
        let numbers = build(dictionary.chars(), dictionary.lengths(), &text)?;
        Ok(Index(ReadableIndex::known(dictionary, numbers)))
    }

    /// Receives numbers from elsewhere, if they are the index of some text with
    /// this dictionary.
    ///
    /// # Errors
    ///
    /// The first that applies:
    ///
    /// - [`Refusal::IndexNotReadable`]: the numbers are not
    ///   [readable](crate#indexes) with this dictionary;
    /// - [`Refusal::NoText`]: no text has this index.
    ///
    /// # Examples
    ///
    /// The lone characters 図 and 面 side by side are the index of no text where
    /// 図面 is a word. They are readable all the same.
    ///
    /// ```
    /// use mopekihua::{Dictionary, Index, Query, ReadableIndex, Refusal};
    ///
    /// let dictionary = Dictionary::new(["図面"])?;
    /// let numbers = [2, 2, 1, 0x56F3, 1, 1, 0x9762, 1, 1, 2];
    /// assert_eq!(Index::receive(&dictionary, numbers), Err(Refusal::NoText));
    ///
    /// let readable = ReadableIndex::read(&dictionary, numbers)?;
    /// assert_eq!(readable.search(&Query::new("図面")?), [1]);
    /// # Ok::<(), mopekihua::Error>(())
    /// ```
    pub fn receive(
        dictionary: &Dictionary,
        numbers: impl Into<Vec<u16>>,
    ) -> Result<Index, Refusal> {
        let numbers = numbers.into();
        receive(dictionary.chars(), dictionary.lengths(), &numbers)?;
        Ok(Index(ReadableIndex::known(dictionary, numbers)))
    }

    /// The dictionary that it is read with.
    pub fn dictionary(&self) -> &Dictionary {
        self.0.dictionary()
    }

    /// The numbers.
    pub fn numbers(&self) -> &[u16] {
        self.0.numbers()
    }

    /// The numbers, to be kept or sent without the dictionary.
    pub fn into_numbers(self) -> Vec<u16> {
        self.0.into_numbers()
    }

    /// The length of the text.
    pub fn text_len(&self) -> u16 {
        self.0.text_len()
    }

    /// The index as one that is readable, with its [lines](ReadableIndex::lines).
    pub fn as_readable(&self) -> &ReadableIndex {
        &self.0
    }

    /// The positions at which the string stands in the text, both
    /// [replaced](crate#full-width-forms), ascending, each once. The first
    /// position of a text is 1.
    ///
    /// ```
    /// use mopekihua::{Dictionary, Index, Query};
    ///
    /// let dictionary = Dictionary::new(["すも", "すもも", "もも"])?;
    /// let index = Index::build(&dictionary, "すもももももももものうち")?;
    /// assert_eq!(index.search(&Query::new("もも")?), [2, 3, 4, 5, 6, 7, 8]);
    /// assert_eq!(index.search(&Query::new("ものうち")?), [9]);
    /// assert_eq!(index.search(&Query::new("李")?), []);
    ///
    /// // A pipe size, written and asked for in either width.
    /// let index = Index::build(&Dictionary::new(["DN"])?, "ＤＮ１５ DN15")?;
    /// assert_eq!(index.search(&Query::new("DN15")?), [1, 6]);
    /// assert_eq!(index.search(&Query::new("ＤＮ１５")?), [1, 6]);
    /// # Ok::<(), mopekihua::Error>(())
    /// ```
    pub fn search(&self, query: &Query) -> Vec<u16> {
        self.0.search(query)
    }

    /// The first position at which the string stands in the text, if it stands
    /// there at all: the head of what [`search`](Index::search) gives.
    ///
    /// ```
    /// use mopekihua::{Dictionary, Index, Query};
    ///
    /// // Is the superseded door left anywhere?
    /// let dictionary = Dictionary::new(["SD", "WD", "事務室", "機械室"])?;
    /// let index = Index::build(&dictionary, "事務室WD2 機械室SD3 廊下WD2")?;
    /// assert_eq!(index.first(&Query::new("WD2")?), Some(4));
    /// assert_eq!(index.first(&Query::new("WD5")?), None);
    /// # Ok::<(), mopekihua::Error>(())
    /// ```
    pub fn first(&self, query: &Query) -> Option<u16> {
        self.0.first(query)
    }

    /// What a search for this string needs: see [`ReadableIndex::cut`].
    pub fn cut(&self, query: &Query) -> ReadableIndex {
        self.0.cut(query)
    }

    /// The number of entries, in all and of each length.
    ///
    /// ```
    /// use mopekihua::{Dictionary, Index};
    ///
    /// let dictionary = Dictionary::new(["図", "図面", "平面図", "面図"])?;
    /// // 平面図 at 1, 図面 at 3, の at 5, 図 at 6.
    /// let tally = Index::build(&dictionary, "平面図面の図")?.tally();
    /// assert_eq!(tally.count, 4);
    /// assert_eq!([1, 2, 3].map(|length| tally.of_length(length)), [2, 1, 1]);
    /// # Ok::<(), mopekihua::Error>(())
    /// ```
    pub fn tally(&self) -> Tally {
        self.0.tally()
    }

    /// The text, [replaced](crate#full-width-forms).
    /// [`string_of`](crate::string_of) makes a string of it.
    ///
    /// ```
    /// use mopekihua::{Dictionary, Index, string_of};
    ///
    /// let index = Index::build(&Dictionary::new(["DN"])?, "配管ＤＮ１５")?;
    /// assert_eq!(string_of(&index.recover())?, "配管DN15");
    /// # Ok::<(), mopekihua::Error>(())
    /// ```
    pub fn recover(&self) -> Vec<u16> {
        always(self.0.recover())
    }
}

impl From<Index> for ReadableIndex {
    fn from(index: Index) -> ReadableIndex {
        index.0
    }
}
