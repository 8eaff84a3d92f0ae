//! Why an operation declines.

use std::error::Error;
use std::fmt;

/// Declares [`Refusal`] from one table, so that a variant, its number and its
/// sentence stand together.
macro_rules! refusals {
    ($($number:literal $variant:ident $sentence:literal)*) => {
        /// Why an operation declines. Where several apply, the first in the
        /// operation's own order is answered, in which its page lists them. It is
        /// not always the one with the lowest number: 12 is tested right after
        /// 3, and 9 before 8. An operation tests only what it is handed.
        ///
        /// ```
        /// use mopekihua::Refusal;
        ///
        /// let refusal = mopekihua::admit(&[7, 7], &[1, 1]).unwrap_err();
        /// assert_eq!(refusal, Refusal::WordsNotAscending);
        /// assert_eq!(refusal.number(), 3);
        /// assert_eq!(refusal.to_string(), "words do not ascend strictly");
        /// ```
        #[derive(Clone, Copy, Debug, PartialEq, Eq, PartialOrd, Ord, Hash)]
        #[non_exhaustive]
        #[repr(u32)]
        pub enum Refusal {
            $(
                #[doc = concat!(stringify!($number), ": ", $sentence, ".")]
                $variant = $number,
            )*
        }

        impl Refusal {
            /// Every refusal, by ascending number.
            pub const ALL: &[Refusal] = &[$(Refusal::$variant),*];

            /// The refusal that has this number. 0 is none: it stands for an
            /// accepted call.
            ///
            /// ```
            /// use mopekihua::Refusal;
            ///
            /// assert_eq!(Refusal::from_number(2), Some(Refusal::LengthsWrong));
            /// assert_eq!(Refusal::from_number(0), None);
            /// ```
            pub const fn from_number(number: u32) -> Option<Refusal> {
                match number {
                    $($number => Some(Refusal::$variant),)*
                    _ => None,
                }
            }

            /// The sentence that [`Display`](fmt::Display) writes.
            const fn sentence(self) -> &'static str {
                match self {
                    $(Refusal::$variant => $sentence,)*
                }
            }
        }
    };
}

refusals! {
    1 DictionaryTooLarge "more than 4,096 words or 65,535 dictionary characters"
    2 LengthsWrong "a word length is 0 or above 32, or the lengths do not add up to the characters lent"
    3 WordsNotAscending "words do not ascend strictly"
    4 TextTooLong "text longer than 65,535"
    5 IndexNotReadable "index not readable"
    6 StringLengthWrong "search string empty or longer than 256"
    7 WorkTooShort "work slice, of 16-bit numbers, shorter than 8n of them (build, reception, recovery)"
    8 OutputTooShort "output shorter than the whole result; for recovery, shorter than n; where no result exists, 8 is not given"
    9 NoText "index readable, but no text has it (reception, recovery)"
    10 JobSheetTooLong "job sheet longer than 32,768 bytes"
    11 JobSheetMalformed "job sheet breaks its form or counts"
    12 FullWidthWord "a word holds a character from FF01 to FF5E"
}

impl Refusal {
    /// The number of this refusal, as the C functions answer it.
    pub const fn number(self) -> u32 {
        self as u32
    }
}

impl fmt::Display for Refusal {
    fn fmt(&self, f: &mut fmt::Formatter<'_>) -> fmt::Result {
        f.write_str(self.sentence())
    }
}

impl Error for Refusal {}
