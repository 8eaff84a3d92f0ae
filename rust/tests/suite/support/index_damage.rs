//! Ways to damage an index. Some may leave it readable, as a changed position
//! may: the oracle says which.

use mopekihua::HEADER;

use super::random::Random;

#[derive(Clone, Copy, Debug)]
pub enum IndexDamage {
    ChangeKind,
    ChangeValue,
    FullWidthValue,
    SwapKeys,
    RepeatKey,
    CountOneMore,
    CountOneLess,
    MoveBetweenCounts,
    ShiftPosition,
    SwapPositions,
    RepeatPosition,
    ChangeN,
    ChangeK,
    DropNumbers,
    AddNumber,
    ChangeNumber,
}

impl IndexDamage {
    pub const ALL: [IndexDamage; 16] = [
        IndexDamage::ChangeKind,
        IndexDamage::ChangeValue,
        IndexDamage::FullWidthValue,
        IndexDamage::SwapKeys,
        IndexDamage::RepeatKey,
        IndexDamage::CountOneMore,
        IndexDamage::CountOneLess,
        IndexDamage::MoveBetweenCounts,
        IndexDamage::ShiftPosition,
        IndexDamage::SwapPositions,
        IndexDamage::RepeatPosition,
        IndexDamage::ChangeN,
        IndexDamage::ChangeK,
        IndexDamage::DropNumbers,
        IndexDamage::AddNumber,
        IndexDamage::ChangeNumber,
    ];

    /// Does this damage to a readable index of at least one key.
    pub fn apply(self, index: &mut Vec<u16>, random: &mut Random) {
        let keys = usize::from(index[1]);
        let header = HEADER + 3 * keys;
        let line = HEADER + 3 * random.below(keys);
        let other = HEADER + 3 * random.below(keys);
        let last_line = header - 3;
        let position = random.within(header, index.len() - 1);
        let beside = random.within(header, index.len() - 1);
        let i = random.below(index.len());
        match self {
            IndexDamage::ChangeKind => index[line] = random.one_of(&[0, 1, 2, 0xFFFF]),
            IndexDamage::ChangeValue => index[line + 1] = near(index[line + 1], random),
            IndexDamage::FullWidthValue => index[last_line + 1] = full_width(index[last_line + 1]),
            IndexDamage::SwapKeys => {
                index.swap(line, other);
                index.swap(line + 1, other + 1);
            }
            IndexDamage::RepeatKey => index.copy_within(line..line + 2, other),
            IndexDamage::CountOneMore => index[line + 2] = index[line + 2].wrapping_add(1),
            IndexDamage::CountOneLess => index[line + 2] -= 1,
            IndexDamage::MoveBetweenCounts => {
                index[line + 2] -= 1;
                index[other + 2] = index[other + 2].wrapping_add(1);
            }
            IndexDamage::ShiftPosition => index[position] = near(index[position], random),
            IndexDamage::SwapPositions => index.swap(position, beside),
            IndexDamage::RepeatPosition => index[position] = index[beside],
            IndexDamage::ChangeN => index[0] = near(index[0], random),
            IndexDamage::ChangeK => index[1] = near(index[1], random),
            IndexDamage::DropNumbers => index.truncate(i),
            IndexDamage::AddNumber => index.push(random.within(0, 40) as u16),
            IndexDamage::ChangeNumber => index[i] = near(index[i], random),
        }
    }
}

/// The full-width form of a character that has one, else some full-width form.
fn full_width(character: u16) -> u16 {
    match character {
        0x21..=0x7E => character + 0xFEE0,
        _ => 0xFF01 + character % 0x5E,
    }
}

/// Another number, mostly one or two more or less.
fn near(number: u16, random: &mut Random) -> u16 {
    match random.within(0, 5) {
        0 => random.character(),
        1 => 0,
        _ => number.wrapping_add(random.one_of(&[1, 2, 0xFFFF, 0xFFFE])),
    }
}
