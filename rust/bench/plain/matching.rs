//! The longest word at an index of a text: a hash on the first two characters, a
//! chain of few words, and where that is not enough binary search for the prefix
//! range of the dictionary, character by character.

/// Buckets for pairs of first characters, then buckets for words of one.
const PAIRS: usize = 8_192;
const SINGLES: usize = 2_048;

/// How many words of a chain are looked at before the binary search.
const BUDGET: usize = 4;

/// An admitted dictionary, where its words start, and hash chains of them. A link
/// is 0 or the number of a word + 1; the numbers of a chain descend.
pub struct MatchTable<'a> {
    chars: &'a [u16],
    lengths: &'a [u16],
    starts: [u16; 4096],
    heads: [u16; PAIRS + SINGLES],
    links: [u16; 4096],
}

impl<'a> MatchTable<'a> {
    pub fn new(chars: &'a [u16], lengths: &'a [u16]) -> Self {
        let mut table = MatchTable {
            chars,
            lengths,
            starts: [0; 4096],
            heads: [0; PAIRS + SINGLES],
            links: [0; 4096],
        };
        let mut start = 0;
        for (number, &length) in lengths.iter().enumerate().take(4096) {
            let word = &chars[start..start + usize::from(length)];
            let bucket = match *word {
                [first, second, ..] => pair_bucket(first, second),
                [only] => single_bucket(only),
                [] => 0,
            };
            table.starts[number] = start as u16;
            table.links[number] = table.heads[bucket];
            table.heads[bucket] = number as u16 + 1;
            start += word.len();
        }
        table
    }

    /// The longest word that stands at `at`, counted from 0, and ends after
    /// `last`: its number + 1, or 0.
    #[inline]
    pub fn longest(&self, text: &[u16], at: usize, last: usize) -> u16 {
        let here = &text[at..];
        // What is too short ends at `last` or before it.
        let short = last.saturating_sub(at);
        if let [first, second, ..] = *here {
            let mut link = self.heads[pair_bucket(first, second)];
            for _ in 0..BUDGET {
                if link == 0 {
                    break;
                }
                let number = usize::from(link - 1);
                if usize::from(self.lengths[number]) > short && self.stands(number, here) {
                    return link;
                }
                link = self.links[number];
            }
            if link != 0 {
                let best = self.find_last_standing(here, usize::from(link));
                if best != 0 {
                    return if self.length(best) > short { best } else { 0 };
                }
            }
        }
        if short > 0 { 0 } else { self.single(here[0]) }
    }

    /// How long the word with this number + 1 is.
    pub fn length(&self, found: u16) -> usize {
        usize::from(self.lengths[usize::from(found - 1)])
    }

    pub fn word(&self, number: usize) -> &[u16] {
        let start = usize::from(self.starts[number]);
        &self.chars[start..start + usize::from(self.lengths[number])]
    }

    fn stands(&self, number: usize, here: &[u16]) -> bool {
        let word = self.word(number);
        let Some(here) = here.get(..word.len()) else {
            return false;
        };
        // The last character first: words of one chain begin alike.
        word.iter().zip(here).rev().all(|(x, y)| x == y)
    }

    /// The word of this one character + 1, or 0.
    fn single(&self, character: u16) -> u16 {
        let mut link = self.heads[single_bucket(character)];
        while link != 0 {
            let number = usize::from(link - 1);
            if self.character(number, 0) == character {
                return link;
            }
            link = self.links[number];
        }
        0
    }

    fn character(&self, number: usize, depth: usize) -> u16 {
        self.chars[usize::from(self.starts[number]) + depth]
    }

    /// The longest word below `count` that stands here + 1, or 0. The words from
    /// `low` to `high` are those that share `depth` characters with the text.
    #[inline(never)]
    fn find_last_standing(&self, here: &[u16], count: usize) -> u16 {
        let (mut low, mut high) = (0, count);
        let mut best = 0;
        let mut depth = 0;
        while low < high {
            if usize::from(self.lengths[low]) == depth {
                low += 1;
                best = low as u16;
                continue;
            }
            let Some(&character) = here.get(depth) else {
                break;
            };
            if self.character(low, depth) < character {
                low = self.first_at_least(low, high, depth, u32::from(character));
            }
            if low < high && self.character(high - 1, depth) > character {
                high = self.first_at_least(low, high, depth, u32::from(character) + 1);
            }
            depth += 1;
        }
        best
    }

    /// The first word from `low` to `high` whose character at `depth` is at
    /// least this one; they all have one, and it ascends.
    fn first_at_least(&self, low: usize, high: usize, depth: usize, least: u32) -> usize {
        let (mut low, mut high) = (low, high);
        while low < high {
            let middle = low + (high - low) / 2;
            if u32::from(self.character(middle, depth)) < least {
                low = middle + 1;
            } else {
                high = middle;
            }
        }
        low
    }
}

fn pair_bucket(first: u16, second: u16) -> usize {
    (37 * usize::from(first) + usize::from(second)) % PAIRS
}

fn single_bucket(character: u16) -> usize {
    PAIRS + usize::from(character) % SINGLES
}
