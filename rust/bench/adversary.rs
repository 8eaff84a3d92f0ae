//! Inputs on which a careless algorithm gets slow.

use std::collections::BTreeSet;

use crate::random::Random;
use crate::sheets::Case;

/// The longest text.
const LONGEST: usize = 65_535;

/// The character that everything here is made of.
const A: u16 = 0x3042;

/// An input and its name.
pub struct Adversary {
    pub name: String,
    pub case: Case,
    /// How long the short strings are that it is searched for, beside those of
    /// 256: from the first number to the second.
    pub short: &'static [(usize, usize)],
}

impl Adversary {
    fn new(name: &str, words: &BTreeSet<Vec<u16>>, text: Vec<u16>) -> Adversary {
        Adversary {
            name: name.to_string(),
            case: Case::new(words, vec![text]),
            short: &[],
        }
    }
}

pub fn cases() -> Vec<Adversary> {
    let equal = || vec![A; LONGEST];
    let up_to = |longest: usize| (1..=longest).map(|long| vec![A; long]).collect();
    let mut cases = vec![
        Adversary {
            short: &[(1, 1), (2, 2), (3, 3)],
            ..Adversary::new(
                "65,535 equal characters; words a, aa, aaa",
                &up_to(3),
                equal(),
            )
        },
        Adversary::new(
            "65,535 equal characters; words of 1 to 32 of them",
            &up_to(32),
            equal(),
        ),
        Adversary::new(
            "65,535 different characters; no words",
            &BTreeSet::new(),
            (0..=65_534).rev().collect(),
        ),
    ];
    for shared in [1, 2, 31] {
        let words = sharing(shared);
        let name = format!("{} words that share {shared} first", words.len());
        let equal_name = format!("{name}; equal characters");
        cases.push(Adversary::new(&equal_name, &words, equal()));
        let strung_name = format!("{name}; their words");
        cases.push(Adversary {
            short: &[(2, 12)],
            ..Adversary::new(&strung_name, &words, strung_together(&words))
        });
    }
    cases
}

/// Words that start with `shared` equal characters, 4,096 or as many as a
/// dictionary holds. None of their other characters is that one.
fn sharing(shared: usize) -> BTreeSet<Vec<u16>> {
    let rest = if shared == 31 { 1 } else { 2 };
    let count = 4096.min(LONGEST / (shared + rest));
    (0..count as u16)
        .map(|number| {
            let mut word = vec![A; shared];
            if rest == 2 {
                word.push(A + 1 + number / 64);
            }
            word.push(A + 1 + if rest == 2 { number % 64 } else { number });
            word
        })
        .collect()
}

/// Words drawn evenly, one after the other; of each half of the time only a
/// beginning, so that what follows disagrees late.
fn strung_together(words: &BTreeSet<Vec<u16>>) -> Vec<u16> {
    let mut random = Random::seeded(31);
    let words: Vec<_> = words.iter().collect();
    let mut text = Vec::new();
    while text.len() < LONGEST {
        let word = words[random.below(words.len())];
        let part = random.within(1, word.len());
        text.extend(&word[..random.one_of(&[word.len(), part])]);
    }
    text.truncate(LONGEST);
    text
}
