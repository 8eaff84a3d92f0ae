//! Indexes that are readable, whether a text has them or not.

use crate::{Dictionary, HEADER, Index, Query, Refusal, Tally, cut, first, recover, search, tally};

/// Numbers that are [readable](crate#indexes) as an index with a dictionary.
///
/// Some text may have them as its index or none may. A [cut-down](Self::cut)
/// index is usually that of no text; one that was damaged on its way may be
/// readable still. Every readable index can be searched, cut down, tallied and
/// rearranged into [gaps](crate#gaps), and none of these calls is refused. For
/// numbers that are to stand for a text, take [`Index`].
///
/// The numbers are never replaced: a lone character that is a
/// [full-width form](crate#full-width-forms) is tallied, but no string finds it,
/// every cut drops it, and no text has the index.
///
/// ```
/// use mopekihua::{Dictionary, Query, ReadableIndex, Refusal};
///
/// // The word 図面 at 1, in a text of 3 characters.
/// let dictionary = Dictionary::new(["図", "図面", "面"])?;
/// let index = ReadableIndex::read(&dictionary, [3, 1, 0, 1, 1, 1])?;
/// assert_eq!(index.search(&Query::new("面")?), [2]);
///
/// // What stands at 3 is not known.
/// assert_eq!(index.recover(), Err(Refusal::NoText));
/// # Ok::<(), mopekihua::Error>(())
/// ```
#[derive(Clone, Debug, PartialEq, Eq, Hash)]
pub struct ReadableIndex {
    dictionary: Dictionary,
    numbers: Vec<u16>,
}

impl ReadableIndex {
    /// Takes numbers as an index with this dictionary, if they are readable.
    ///
    /// # Errors
    ///
    /// [`Refusal::IndexNotReadable`].
    ///
    /// # Examples
    ///
    /// ```
    /// use mopekihua::{Dictionary, ReadableIndex, Refusal};
    ///
    /// // The lone character 図 at 1, which is not lone where it is a word.
    /// let numbers = [1, 1, 1, 0x56F3, 1, 1];
    /// assert!(ReadableIndex::read(&Dictionary::default(), numbers).is_ok());
    /// let read = ReadableIndex::read(&Dictionary::new(["図"])?, numbers);
    /// assert_eq!(read, Err(Refusal::IndexNotReadable));
    /// # Ok::<(), mopekihua::Error>(())
    /// ```
    pub fn read(
        dictionary: &Dictionary,
        numbers: impl Into<Vec<u16>>,
    ) -> Result<ReadableIndex, Refusal> {
        let numbers = numbers.into();
        tally(dictionary.chars(), dictionary.lengths(), &numbers)?;
        Ok(ReadableIndex::known(dictionary, numbers))
    }

    /// Numbers that are known to be readable.
    pub(crate) fn known(dictionary: &Dictionary, numbers: Vec<u16>) -> ReadableIndex {
        let dictionary = dictionary.clone();
        ReadableIndex {
            dictionary,
            numbers,
        }
    }

    /// The dictionary that it is read with.
    pub fn dictionary(&self) -> &Dictionary {
        &self.dictionary
    }

    /// The numbers.
    pub fn numbers(&self) -> &[u16] {
        &self.numbers
    }

    /// The numbers, to be kept or sent without the dictionary.
    pub fn into_numbers(self) -> Vec<u16> {
        self.numbers
    }

    /// n, the length of the text as the index states it.
    pub fn text_len(&self) -> u16 {
        self.numbers[0]
    }

    /// The keys in ascending order, each with what it spells and its positions.
    /// This reads the layout in plain Rust.
    ///
    /// ```
    /// use mopekihua::{Dictionary, Index, Key, string_of};
    ///
    /// let dictionary = Dictionary::new(["図", "図面", "面"])?;
    /// let index = Index::build(&dictionary, "図面の面")?;
    /// let mut lines = index.as_readable().lines();
    ///
    /// let drawing = lines.next().expect("図面");
    /// assert_eq!(drawing.key, Key::Word(1));
    /// assert_eq!(string_of(drawing.spelt)?, "図面");
    /// assert_eq!(drawing.positions, [1]);
    ///
    /// let face = lines.next().expect("面");
    /// assert_eq!((face.key, face.positions), (Key::Word(2), &[4][..]));
    ///
    /// let particle = lines.next().expect("の");
    /// assert_eq!((particle.key, particle.positions), (Key::Lone(0x306E), &[3][..]));
    /// assert_eq!(lines.next(), None);
    /// # Ok::<(), mopekihua::Error>(())
    /// ```
    pub fn lines(&self) -> impl Iterator<Item = Line<'_>> {
        let keys = usize::from(self.numbers[1]);
        let (directory, mut rest) = self.numbers[HEADER..].split_at(3 * keys);
        directory.chunks_exact(3).map(move |line| {
            let (positions, after) = rest.split_at(usize::from(line[2]));
            rest = after;
            self.line(line, positions)
        })
    }

    fn line<'a>(&'a self, line: &'a [u16], positions: &'a [u16]) -> Line<'a> {
        let (key, spelt) = match self.dictionary.word(line[1]) {
            Some(word) if line[0] == 0 => (Key::Word(line[1]), word),
            _ => (Key::Lone(line[1]), &line[1..2]),
        };
        Line {
            key,
            spelt,
            positions,
        }
    }

    /// The positions at which the string is found, ascending, each once.
    ///
    /// A position is found if each character of the
    /// [replaced](crate#full-width-forms) string laid there is covered by an
    /// entry that agrees with it wherever the two overlap. If a text has this
    /// index, these are exactly the positions at which the replaced string stands
    /// in the replaced text.
    ///
    /// ```
    /// use mopekihua::{Dictionary, Query, ReadableIndex};
    ///
    /// // A at 1, and its full-width form Ａ at 2.
    /// let numbers = [2, 2, 1, 0x0041, 1, 1, 0xFF21, 1, 1, 2];
    /// let index = ReadableIndex::read(&Dictionary::default(), numbers)?;
    /// assert_eq!(index.search(&Query::new("A")?), [1]);
    /// assert_eq!(index.search(&Query::new("Ａ")?), [1]);
    /// # Ok::<(), mopekihua::Error>(())
    /// ```
    pub fn search(&self, query: &Query) -> Vec<u16> {
        always(search(
            self.dictionary.chars(),
            self.dictionary.lengths(),
            &self.numbers,
            query.characters(),
        ))
    }

    /// The first position at which the string is found, if there is one: the
    /// head of what [`search`](Self::search) gives.
    ///
    /// ```
    /// use mopekihua::{Dictionary, Query, ReadableIndex};
    ///
    /// // The word 図面 at 1 and at 3, in a text of 5 characters.
    /// let dictionary = Dictionary::new(["図", "図面", "面"])?;
    /// let index = ReadableIndex::read(&dictionary, [5, 1, 0, 1, 2, 1, 3])?;
    /// assert_eq!(index.first(&Query::new("面")?), Some(2));
    /// assert_eq!(index.first(&Query::new("面面")?), None);
    /// # Ok::<(), mopekihua::Error>(())
    /// ```
    pub fn first(&self, query: &Query) -> Option<u16> {
        always(first(
            self.dictionary.chars(),
            self.dictionary.lengths(),
            &self.numbers,
            query.characters(),
        ))
    }

    /// What a search for this string needs: the same n, and exactly the keys
    /// that bear on the [replaced](crate#full-width-forms) string, with all their
    /// positions. A search for the string finds the same in it.
    ///
    /// ```
    /// use mopekihua::{Dictionary, Index, Query};
    ///
    /// let dictionary = Dictionary::new(["図", "図面", "面"])?;
    /// let index = Index::build(&dictionary, "平面図面の平屋の図")?;
    /// let query = Query::new("面")?;
    /// let less = index.cut(&query);
    /// assert!(less.numbers().len() < index.numbers().len());
    /// assert_eq!(less.search(&query), [2, 4]);
    /// # Ok::<(), mopekihua::Error>(())
    /// ```
    pub fn cut(&self, query: &Query) -> ReadableIndex {
        let numbers = always(cut(
            self.dictionary.chars(),
            self.dictionary.lengths(),
            &self.numbers,
            query.characters(),
        ));
        ReadableIndex::known(&self.dictionary, numbers)
    }

    /// The number of entries, in all and of each length.
    pub fn tally(&self) -> Tally {
        always(tally(
            self.dictionary.chars(),
            self.dictionary.lengths(),
            &self.numbers,
        ))
    }

    /// The text that has this index, [replaced](crate#full-width-forms).
    ///
    /// # Errors
    ///
    /// [`Refusal::NoText`].
    pub fn recover(&self) -> Result<Vec<u16>, Refusal> {
        recover(
            self.dictionary.chars(),
            self.dictionary.lengths(),
            &self.numbers,
        )
    }

    /// Takes it as the index of a text, if some text has it.
    ///
    /// # Errors
    ///
    /// [`Refusal::NoText`].
    pub fn receive(self) -> Result<Index, Refusal> {
        Index::receive(&self.dictionary, self.numbers)
    }
}

/// The answer to a call that no refusal applies to, by the proof of the library.
pub(crate) fn always<T>(answer: Result<T, Refusal>) -> T {
    answer.unwrap_or_else(|refusal| {
        panic!("libmopekihua.a refused what it is proved to accept: {refusal}")
    })
}

/// A key of an index.
#[derive(Clone, Copy, Debug, PartialEq, Eq, PartialOrd, Ord, Hash)]
pub enum Key {
    /// The word with this number.
    Word(u16),
    /// This character, which is not itself a word.
    Lone(u16),
}

/// A key with its positions.
#[derive(Clone, Copy, Debug, PartialEq, Eq)]
pub struct Line<'a> {
    /// The key.
    pub key: Key,
    /// The characters of the word, or the lone character.
    pub spelt: &'a [u16],
    /// Where it stands, ascending; the first position of a text is 1.
    pub positions: &'a [u16],
}
