//! What a call is lent to be read: drawn at random, and damaged.

use mopekihua::HEADER;

use crate::operation::{Operation, Part};
use crate::support::damage::Damage;
use crate::support::delivery::Delivery;
use crate::support::dictionary::Dictionary;
use crate::support::gap_damage::GapDamage;
use crate::support::index_damage::IndexDamage;
use crate::support::lent::leftover;
use crate::support::oracle;
use crate::support::random::Random;
use crate::support::text::{Subject, in_either_width, random_over};

/// A dictionary, and a text, an index, a string and a gap form that have to do
/// with it and with each other. A part that the operation does not take is empty.
pub struct Drawn {
    pub dictionary: Dictionary,
    pub text: Vec<u16>,
    pub index: Vec<u16>,
    pub string: Vec<u16>,
    pub gaps: Vec<u16>,
}

impl Drawn {
    /// Nothing of this is refused, but that no text may have the index.
    pub fn new(operation: Operation, random: &mut Random) -> Drawn {
        let takes = |part| operation.parts().contains(&part);
        let delivered = takes(Part::Index) || takes(Part::Gaps);
        let mut drawn = match delivered && random.within(0, 3) == 0 {
            true => Drawn::of_no_text(operation, random),
            false => Drawn::of_text(delivered, random),
        };
        if takes(Part::Gaps) {
            let index = std::mem::take(&mut drawn.index);
            let gaps = oracle::to_gaps(&drawn.dictionary, &index, index.len());
            drawn.gaps = gaps.expect("a readable index");
        }
        drawn
    }

    /// A text, and its index where one is delivered.
    fn of_text(delivered: bool, random: &mut Random) -> Drawn {
        let subject = subject(random);
        let index = match delivered {
            true => Delivery::of_text(&subject).index,
            false => Vec::new(),
        };
        Drawn {
            string: string_near(&subject.text, random),
            dictionary: subject.dictionary,
            text: subject.text,
            index,
            gaps: Vec::new(),
        }
    }

    /// A readable index that mostly no text has. Some have their entries around
    /// the last start of a window: `first` looks at 8,192 starts before it looks
    /// at the rest, and has a smaller table for 1,024. Some that go into gaps or
    /// come from them have positions as far as these go.
    fn of_no_text(operation: Operation, random: &mut Random) -> Drawn {
        let delivery = Delivery::random(random);
        let most = u16::MAX - delivery.index[0];
        let delivery = match (random.within(0, 9), operation) {
            (0, _) => delivery.moved(1_024 - random.within(0, 6) as u16),
            (1, _) => delivery.moved(8_192 - random.within(0, 6) as u16),
            (2 | 3, Operation::ToGaps | Operation::FromGaps) => delivery.moved(most),
            _ => delivery,
        };
        let length = random.within(1, 8);
        Drawn {
            string: delivery.string(random, length),
            dictionary: delivery.dictionary,
            text: Vec::new(),
            index: delivery.index,
            gaps: Vec::new(),
        }
    }

    /// A work slice as an earlier call might leave it: runs of the text, and of
    /// small numbers such as those of keys, each as long as the text.
    pub fn used_work(&self, len: usize, random: &mut Random) -> Vec<u16> {
        let run = self.text.len().max(1);
        let mut work = Vec::with_capacity(len + run);
        while work.len() < len {
            match random.within(0, 3) {
                0 => work.extend((0..run).map(|_| random.within(0, 3) as u16)),
                1 => work.extend(leftover(run, 0)),
                _ if self.text.is_empty() => work.push(random.character()),
                _ => work.extend(&self.text),
            }
        }
        work.truncate(len);
        work
    }

    /// Damages a part, mostly so that it is refused. Work and output are lent
    /// elsewhere.
    pub fn damage(&mut self, part: Part, random: &mut Random) {
        match part {
            Part::Dictionary => damage_dictionary(&mut self.dictionary, random),
            Part::Text => lengthen(&mut self.text, random),
            Part::Index => damage_index(&mut self.index, random),
            Part::String => damage_string(&mut self.string, random),
            Part::Gaps => damage_gaps(&mut self.gaps, random),
            Part::Work | Part::Output => (),
        }
    }
}

/// Mostly short, and once in a while as long as a text can be.
fn subject(random: &mut Random) -> Subject {
    match random.within(0, 9_999) {
        0..5_000 => Subject::of_few_characters(random, 60),
        5_000..8_000 => Subject::of_japanese(random, 120),
        8_000..9_500 => Subject::of_japanese(random, 800),
        9_500..9_590 => Subject::of_japanese(random, 3_000),
        9_590..9_600 => Subject::of_japanese(random, 12_000),
        9_600..9_800 => Subject::crowded(random, 300),
        9_800..9_998 => of_many_words(random),
        _ => Subject::of_longest_text(random),
    }
}

/// As many words or characters as a dictionary can have, or a few less.
fn of_many_words(random: &mut Random) -> Subject {
    let less = random.within(0, 3);
    let dictionary = match random.within(0, 1) {
        0 => Dictionary::of_single_characters(4_096 - less as u16),
        _ => Dictionary::of_total_length(65_535 - less),
    };
    let alphabet: Vec<u16> = (2_000..2_100).chain([0xFFFF; 300]).collect();
    let n = random.within(1, 200);
    let text = random_over(&alphabet, random, n);
    Subject { dictionary, text }
}

/// A string that stands in the text, in either width, or one that differs from such
/// a one in a character or has one more.
fn string_near(text: &[u16], random: &mut Random) -> Vec<u16> {
    if text.is_empty() {
        return vec![random.character()];
    }
    let most = random.one_of(&[1, 2, 3, 5, 12, 40, 256]).min(text.len());
    let long = random.within(1, most);
    let start = random.within(0, text.len() - long);
    let mut string = text[start..start + long].to_vec();
    match random.within(0, 5) {
        0 => string[long - 1] = text[random.below(text.len())],
        1 => string[0] = random.character(),
        2 if long < 256 => string.push(text[0]),
        _ => (),
    }
    in_either_width(&string, random)
}

fn damage_dictionary(dictionary: &mut Dictionary, random: &mut Random) {
    match random.within(0, 39) {
        0 => *dictionary = Dictionary::random_large(random),
        // The lengths add up to the characters but for 65,536.
        1 => {
            let fewer = random.within(0, 100);
            *dictionary = Dictionary::of_total_length(65_536 + fewer);
            dictionary.chars.truncate(fewer);
        }
        _ => damage_somewhere(dictionary, random),
    }
}

fn damage_somewhere(dictionary: &mut Dictionary, random: &mut Random) {
    if dictionary.lengths.len() >= 2 {
        random.one_of(&Damage::ALL).apply(dictionary, random);
    } else {
        dictionary.lengths.push(random.one_of(&[0, 1, 33, 65_535]));
    }
}

/// A text as long as one can be, or longer, in one of some cases; else any.
fn lengthen(text: &mut Vec<u16>, random: &mut Random) {
    let filler = random.one_of(&[0x3042, 0xFF41]);
    match random.within(0, 9) {
        0 => text.resize(random.within(65_534, 65_540), filler),
        1 => text.resize(random.within(65_536, 65_540), filler),
        _ => text.extend((0..random.within(1, 9)).map(|_| random.character())),
    }
}

/// Changes a few numbers, or draws all of them.
fn damage_index(index: &mut Vec<u16>, random: &mut Random) {
    if random.within(0, 9) == 0 {
        let small: Vec<u16> = (0..6).chain([0x61, 0xFFFF]).collect();
        let length = random.within(0, 12);
        *index = random_over(&small, random, length);
        return;
    }
    for _ in 0..random.one_of(&[1, 1, 1, 2, 3]) {
        if has_positions(index) {
            random.one_of(&IndexDamage::ALL).apply(index, random);
        } else {
            index.push(random.within(0, 3) as u16);
        }
    }
}

/// As an index is damaged, or more often where the gaps are.
fn damage_gaps(gaps: &mut Vec<u16>, random: &mut Random) {
    if !has_positions(gaps) || random.within(0, 2) == 0 {
        damage_index(gaps, random);
        return;
    }
    for _ in 0..random.one_of(&[1, 1, 1, 2, 3]) {
        if has_positions(gaps) {
            random.one_of(&GapDamage::ALL).apply(gaps, random);
        }
    }
}

/// Whether there is a key, the directory is whole and a position follows it,
/// and no count is 0, which what damages an index goes by.
fn has_positions(index: &[u16]) -> bool {
    let keys = index.get(1).copied().map_or(0, usize::from);
    let directory = index.get(HEADER..HEADER + 3 * keys).unwrap_or_default();
    keys > 0
        && index.len() > HEADER + 3 * keys
        && directory.len() == 3 * keys
        && directory.chunks(3).all(|line| line[2] >= 1)
}

fn damage_string(string: &mut Vec<u16>, random: &mut Random) {
    let filler = random.one_of(&[0x61, 0xFF41]);
    match random.within(0, 2) {
        0 => string.clear(),
        1 => string.resize(257, filler),
        _ => string.resize(random.one_of(&[256, 258, 300, 65_537]), filler),
    }
}
