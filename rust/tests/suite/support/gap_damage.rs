//! Ways to damage a gap form. Some may leave one whose restored form is
//! readable: the oracle says which.

use mopekihua::HEADER;

use super::random::Random;

#[derive(Clone, Copy, Debug)]
pub enum GapDamage {
    OneMore,
    OneLess,
    Zero,
    Any,
    /// In 16 bits, the sum is a few less than the position before.
    Wrap,
    /// What is taken from a gap is given to a neighbour, under the same key or
    /// the next.
    Move,
    Swap,
    Drop,
    Add,
    /// A gap more or less under a key, with its count.
    Insert,
    Remove,
    CountOneMore,
    CountOneLess,
    /// Where one list ends and the next begins.
    Border,
    ChangeN,
    ChangeK,
}

impl GapDamage {
    pub const ALL: [GapDamage; 16] = [
        GapDamage::OneMore,
        GapDamage::OneLess,
        GapDamage::Zero,
        GapDamage::Any,
        GapDamage::Wrap,
        GapDamage::Move,
        GapDamage::Swap,
        GapDamage::Drop,
        GapDamage::Add,
        GapDamage::Insert,
        GapDamage::Remove,
        GapDamage::CountOneMore,
        GapDamage::CountOneLess,
        GapDamage::Border,
        GapDamage::ChangeN,
        GapDamage::ChangeK,
    ];

    /// Does this damage to numbers with at least one key, a whole directory and
    /// at least one number behind it; no count is 0.
    pub fn apply(self, gaps: &mut Vec<u16>, random: &mut Random) {
        let keys = usize::from(gaps[1]);
        let header = HEADER + 3 * keys;
        let count = 4 + 3 * random.below(keys);
        let next_count = (count + 3).min(header - 1);
        let at = random.within(header, gaps.len() - 1);
        let other = random.within(header, gaps.len() - 1);
        let next = (at + 1).min(gaps.len() - 1);
        let few = random.within(1, 4) as u16;
        match self {
            GapDamage::OneMore => change(&mut gaps[at], 1),
            GapDamage::OneLess => change(&mut gaps[at], -1),
            GapDamage::Zero => gaps[at] = 0,
            GapDamage::Any => gaps[at] = random.character(),
            GapDamage::Wrap => gaps[at] = few.wrapping_neg(),
            GapDamage::Move => {
                change(&mut gaps[at], -1);
                change(&mut gaps[next], 1);
            }
            GapDamage::Swap => gaps.swap(at, other),
            GapDamage::Drop => {
                gaps.remove(at);
            }
            GapDamage::Add => gaps.insert(at, few),
            GapDamage::Insert => {
                gaps.insert(start_of(gaps, count), few);
                change(&mut gaps[count], 1);
            }
            GapDamage::Remove => {
                let start = start_of(gaps, count);
                gaps.remove(start);
                change(&mut gaps[count], -1);
            }
            GapDamage::CountOneMore => change(&mut gaps[count], 1),
            GapDamage::CountOneLess => change(&mut gaps[count], -1),
            GapDamage::Border => {
                change(&mut gaps[count], -1);
                change(&mut gaps[next_count], 1);
            }
            GapDamage::ChangeN => change(&mut gaps[0], random.one_of(&[-2, -1, 1, 2])),
            GapDamage::ChangeK => change(&mut gaps[1], random.one_of(&[-1, 1])),
        }
    }
}

/// Adds to a number, in 16 bits.
fn change(number: &mut u16, by: i16) {
    *number = number.wrapping_add_signed(by);
}

/// Where the list begins whose count stands at this index, as far as there are
/// numbers.
fn start_of(gaps: &[u16], count: usize) -> usize {
    let header = HEADER + 3 * usize::from(gaps[1]);
    let before = (4..count).step_by(3).map(|i| usize::from(gaps[i]));
    (header + before.sum::<usize>()).min(gaps.len() - 1)
}
