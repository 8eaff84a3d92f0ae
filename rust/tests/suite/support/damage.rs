//! Ways to damage a dictionary. Some may leave it right, as a changed
//! character may: the oracle says which.

use super::dictionary::Dictionary;
use super::oracle;
use super::random::Random;

#[derive(Clone, Copy, Debug, PartialEq, Eq)]
pub enum Damage {
    SwapNeighbours,
    RepeatWord,
    LengthOneMore,
    LengthOneLess,
    LengthZero,
    LengthAboveLimit,
    DropCharacters,
    AddCharacters,
    ChangeCharacter,
    FullWidthCharacter,
    FullWidthWord,
    MoveBorder,
    DropLength,
    TooManyLengths,
    TooManyCharacters,
}

impl Damage {
    pub const ALL: [Damage; 15] = [
        Damage::SwapNeighbours,
        Damage::RepeatWord,
        Damage::LengthOneMore,
        Damage::LengthOneLess,
        Damage::LengthZero,
        Damage::LengthAboveLimit,
        Damage::DropCharacters,
        Damage::AddCharacters,
        Damage::ChangeCharacter,
        Damage::FullWidthCharacter,
        Damage::FullWidthWord,
        Damage::MoveBorder,
        Damage::DropLength,
        Damage::TooManyLengths,
        Damage::TooManyCharacters,
    ];

    /// The refusal that a right dictionary of some 40 words meets after this
    /// damage; none where it depends on the dictionary.
    pub fn meets(self) -> Option<usize> {
        match self {
            Damage::TooManyLengths | Damage::TooManyCharacters => Some(1),
            Damage::LengthOneMore
            | Damage::LengthOneLess
            | Damage::LengthZero
            | Damage::LengthAboveLimit
            | Damage::DropCharacters
            | Damage::AddCharacters
            | Damage::DropLength => Some(2),
            Damage::SwapNeighbours | Damage::RepeatWord => Some(3),
            Damage::FullWidthWord => Some(12),
            Damage::ChangeCharacter | Damage::FullWidthCharacter | Damage::MoveBorder => None,
        }
    }

    /// Does this damage to a dictionary of at least two words whose lengths add
    /// up.
    pub fn apply(self, dictionary: &mut Dictionary, random: &mut Random) {
        let number = random.below(dictionary.lengths.len());
        let neighbour = random.below(dictionary.lengths.len() - 1);
        let chars_len = dictionary.chars.len();
        let Dictionary { chars, lengths } = dictionary;
        match self {
            Damage::SwapNeighbours => swap_neighbours(dictionary, neighbour),
            Damage::RepeatWord => dictionary.insert(number, &dictionary.word(number)),
            Damage::LengthOneMore => lengths[number] += 1,
            Damage::LengthOneLess => lengths[number] -= 1,
            Damage::LengthZero => lengths[number] = 0,
            Damage::LengthAboveLimit => lengths[number] = random.one_of(&[33, 34, 256, 65535]),
            Damage::DropCharacters => chars.truncate(random.below(chars_len)),
            Damage::AddCharacters => {
                chars.extend((0..random.within(1, 40)).map(|_| random.character()));
            }
            Damage::ChangeCharacter => chars[random.below(chars_len)] = random.character(),
            Damage::FullWidthCharacter => {
                chars[random.below(chars_len)] = random.full_width_form();
            }
            Damage::FullWidthWord => add_in_order(dictionary, &[random.full_width_form()]),
            Damage::MoveBorder => {
                lengths[neighbour] += 1;
                lengths[neighbour + 1] -= 1;
            }
            Damage::DropLength => {
                lengths.remove(number);
            }
            Damage::TooManyLengths => lengths.resize(random.within(4097, 4100), 1),
            Damage::TooManyCharacters => chars.resize(random.within(65_536, 65_540), 0),
        }
    }
}

fn swap_neighbours(dictionary: &mut Dictionary, first: usize) {
    let start = dictionary.start(first);
    let first_len = usize::from(dictionary.lengths[first]);
    let second_len = usize::from(dictionary.lengths[first + 1]);
    dictionary.chars[start..start + first_len + second_len].rotate_left(first_len);
    dictionary.lengths.swap(first, first + 1);
}

/// A word more, behind those that sort below it.
fn add_in_order(dictionary: &mut Dictionary, word: &[u16]) {
    let words = oracle::split(&dictionary.chars, &dictionary.lengths);
    let number = words.partition_point(|other| other.as_slice() < word);
    dictionary.insert(number, word);
}
