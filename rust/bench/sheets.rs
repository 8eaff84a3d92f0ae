//! Japanese-like dictionaries and texts from a seeded generator: kanji compounds,
//! katakana words, inflected words and particles, a few of each very common and
//! most of them rare.

use std::collections::BTreeSet;

use crate::random::Random;

/// A string, and the text whose index is searched for it.
pub struct Search {
    pub text: usize,
    pub string: Vec<u16>,
}

/// A dictionary as it is lent, and texts to index with it.
pub struct Case {
    pub chars: Vec<u16>,
    pub lengths: Vec<u16>,
    pub texts: Vec<Vec<u16>>,
}

impl Case {
    /// Words in ascending order, as many as a dictionary holds.
    pub fn new(words: &BTreeSet<Vec<u16>>, texts: Vec<Vec<u16>>) -> Case {
        let mut chars = Vec::new();
        let mut lengths = Vec::new();
        for word in words.iter().take(4096) {
            if chars.len() + word.len() <= 65_535 {
                chars.extend(word);
                lengths.push(word.len() as u16);
            }
        }
        Case {
            chars,
            lengths,
            texts,
        }
    }

    /// The index of each text.
    pub fn indexes(&self) -> Vec<Vec<u16>> {
        let index_of = |text: &Vec<u16>| mopekihua::build(&self.chars, &self.lengths, text);
        let indexes: Result<_, _> = self.texts.iter().map(index_of).collect();
        indexes.expect("the generators keep to the limits")
    }

    /// The gap form of each index.
    pub fn gap_forms(&self) -> Vec<Vec<u16>> {
        let gaps_of = |index: &Vec<u16>| mopekihua::to_gaps(&self.chars, &self.lengths, index);
        let forms: Result<_, _> = self.indexes().iter().map(gaps_of).collect();
        forms.expect("an index that is built is readable")
    }

    /// Eight strings of these lengths from each text, as far as it is as long.
    pub fn searches(&self, low: usize, high: usize) -> Vec<Search> {
        self.searches_in(low, high, 1)
    }

    /// The same from the first `part`-th of each text.
    pub fn searches_in(&self, low: usize, high: usize, part: usize) -> Vec<Search> {
        let mut random = Random::seeded(256);
        let mut searches = Vec::new();
        for (number, text) in self.texts.iter().enumerate() {
            let text = &text[..text.len() / part];
            for _ in 0..8 {
                let long = random.within(low, high).min(text.len());
                let start = random.within(0, text.len() - long);
                searches.push(Search {
                    text: number,
                    string: text[start..start + long].to_vec(),
                });
            }
        }
        searches
    }

    /// The same strings with one character each from elsewhere in the text, so
    /// that they stand nowhere in it.
    pub fn searches_for_none(&self, low: usize, high: usize) -> Vec<Search> {
        let mut random = Random::seeded(65_535);
        let mut searches = self.searches(low, high);
        for Search { text, string } in &mut searches {
            let text = &self.texts[*text];
            while text.windows(string.len()).any(|window| window == string) {
                let i = random.below(string.len());
                string[i] = text[random.below(text.len())];
            }
        }
        searches
    }

    /// The length of the longest text.
    pub fn longest(&self) -> usize {
        self.texts.iter().map(Vec::len).max().unwrap_or(0)
    }
}

/// One dictionary, and sheets of four sizes.
pub struct Sheets {
    /// The name of a size, and its sheets.
    pub sizes: Vec<(&'static str, Case)>,
    /// A sheet of the largest size with many full-width forms, and its name.
    pub full_width: (&'static str, Case),
    /// Long sheets, more than a branch predictor learns by heart, and their name.
    pub many: (&'static str, Case),
}

impl Sheets {
    pub fn new() -> Sheets {
        let mut random = Random::seeded(2_026);
        let mut words = BTreeSet::new();
        let mut by_rank = Vec::new();
        while words.len() < 4096 {
            let word = word(&mut random);
            if words.insert(word.clone()) {
                by_rank.push(word);
            }
        }
        let sheets = |random: &mut Random, count: usize, low: usize, high: usize| {
            let texts = (0..count).map(|_| {
                let n = random.within(low, high);
                text(random, &by_rank, n)
            });
            Case::new(&words, texts.collect())
        };
        let sizes = [
            ("about 60 characters", 32, 40, 80),
            ("about 300 characters", 16, 250, 350),
            ("about 5,000 characters", 4, 4_500, 5_500),
            ("about 60,000 characters", 1, 60_000, 60_000),
        ];
        let sizes = sizes.map(|(name, count, low, high)| {
            let case = sheets(&mut random, count, low, high);
            (name, case)
        });
        let many = sheets(&mut Random::seeded(16), 16, 30_000, 60_000);
        words.insert(DN.to_vec());
        let pipes = pipes(&mut random, &by_rank, 60_000);
        Sheets {
            sizes: sizes.into(),
            full_width: (
                "60,000 characters with pipe sizes",
                Case::new(&words, vec![pipes]),
            ),
            many: ("16 sheets of 30,000 to 60,000 characters", many),
        }
    }
}

/// The word DN, which pipe sizes start with.
const DN: [u16; 2] = [0x44, 0x4E];

/// A rank below `count`, low ones far more often.
fn rank(random: &mut Random, count: usize) -> usize {
    let most = random.below(count);
    let fewer = random.within(0, most);
    random.within(0, fewer)
}

fn kanji(random: &mut Random) -> u16 {
    // Spread over the block, as the common ones are.
    0x4E00 + (rank(random, 3_000) * 7_919 % 20_900) as u16
}

fn hiragana(random: &mut Random) -> u16 {
    0x3042 + rank(random, 80) as u16
}

fn katakana(random: &mut Random) -> u16 {
    0x30A2 + rank(random, 85) as u16
}

fn full_width_digit(random: &mut Random) -> u16 {
    0xFF10 + random.below(10) as u16
}

/// `low` to `high` characters of one kind.
fn run(
    random: &mut Random,
    low: usize,
    high: usize,
    draw: impl Fn(&mut Random) -> u16,
) -> Vec<u16> {
    (0..random.within(low, high))
        .map(|_| draw(random))
        .collect()
}

fn word(random: &mut Random) -> Vec<u16> {
    match random.within(0, 19) {
        0..=1 => run(random, 1, 1, kanji),
        2..=9 => run(random, 2, 2, kanji),
        10..=12 => run(random, 3, 4, kanji),
        13..=15 => run(random, 3, 8, katakana),
        16..=17 => [run(random, 1, 2, kanji), run(random, 1, 3, hiragana)].concat(),
        _ => run(random, 2, 5, hiragana),
    }
}

/// A text of `n` characters: known words, particles, and words of no dictionary.
fn text(random: &mut Random, by_rank: &[Vec<u16>], n: usize) -> Vec<u16> {
    let mut text = Vec::new();
    while text.len() < n {
        match random.within(0, 19) {
            0..=10 => text.extend(&by_rank[rank(random, by_rank.len())]),
            11..=15 => text.extend(run(random, 1, 2, hiragana)),
            16..=17 => text.extend(word(random)),
            18 => text.extend(run(random, 1, 4, full_width_digit)),
            _ => text.push(random.one_of(&[0x3001, 0x3002, 0x300C, 0x300D])),
        }
    }
    text.truncate(n);
    text
}

/// A text of `n` characters: known words, and a pipe size in full-width forms such
/// as ＤＮ１５０ after each.
fn pipes(random: &mut Random, by_rank: &[Vec<u16>], n: usize) -> Vec<u16> {
    let mut text = Vec::new();
    while text.len() < n {
        text.extend(&by_rank[rank(random, by_rank.len())]);
        text.extend(DN.map(|letter| letter + 0xFEE0));
        text.extend(run(random, 2, 3, full_width_digit));
    }
    text.truncate(n);
    text
}
