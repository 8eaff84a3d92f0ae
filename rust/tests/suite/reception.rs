//! Which indexes are received, and the texts that are recovered. Every answer is
//! written out from the definition, and is also the one that the oracle gives.

use mopekihua::Refusal;

use crate::support::building::Room;
use crate::support::dictionary::Dictionary;
use crate::support::oracle::{Key, Line, numbers};
use crate::support::reception::recover;
use crate::support::text::{every_replaced_character, spelt};

/// The index of abcdab with the words ab, abc and bcd.
const ABCDAB: &[u16] = &[6, 3, 0, 0, 1, 0, 1, 1, 0, 2, 1, 5, 1, 2];

/// The words ab, abc and bcd.
fn a() -> Dictionary {
    Dictionary::spelt("ab abc bcd")
}

/// As much as an index that states n asks for, and no more.
fn exact(n: usize) -> Room {
    Room {
        output: n,
        work: 8 * n,
    }
}

/// The index is that of this text, with exactly as much lent as it takes, with
/// more, and by the calls that allocate.
#[track_caller]
fn is_of(dictionary: &Dictionary, index: &[u16], text: &[u16]) {
    for room in [exact(text.len()), Room::ample(text.len())] {
        assert_eq!(recover(dictionary, index, room).as_deref(), Ok(text));
    }
    let Dictionary { chars, lengths } = dictionary;
    assert_eq!(mopekihua::receive(chars, lengths, index), Ok(text.len()));
    let recovered = mopekihua::recover(chars, lengths, index);
    assert_eq!(recovered.as_deref(), Ok(text));
}

#[track_caller]
fn refuses(dictionary: &Dictionary, index: &[u16], room: Room, number: u32) {
    assert_eq!(recover(dictionary, index, room), Err(number));
}

/// No text has the index, though it is readable.
#[track_caller]
fn no_text(dictionary: &Dictionary, index: &[u16]) {
    refuses(dictionary, index, Room::ample(usize::from(index[0])), 9);
    let Dictionary { chars, lengths } = dictionary;
    let received = mopekihua::receive(chars, lengths, index);
    assert_eq!(received, Err(Refusal::NoText));
    let recovered = mopekihua::recover(chars, lengths, index);
    assert_eq!(recovered, Err(Refusal::NoText));
}

#[test]
fn examples_of_the_definition() {
    let b = Dictionary::spelt("a aa aaa");
    is_of(&a(), ABCDAB, &spelt("abcdab"));
    let axa = [3, 2, 1, 97, 2, 1, 120, 1, 1, 3, 2];
    is_of(&a(), &axa, &spelt("axa"));
    is_of(&a(), &[0, 0], &[]);
    is_of(&b, &[4, 1, 0, 2, 2, 1, 2], &spelt("aaaa"));
    // ab is a word.
    no_text(&a(), &[2, 2, 1, 97, 1, 1, 98, 1, 1, 2]);
    // Position 2 is uncovered.
    no_text(&a(), &[2, 1, 1, 97, 1, 1]);
    // a is a word.
    refuses(&b, &[1, 1, 1, 97, 1, 1], Room::ample(1), 5);
}

#[test]
fn the_empty_text() {
    for work in [0, 1, 100] {
        for output in [0, 1, 100] {
            let room = Room { output, work };
            assert_eq!(recover(&a(), &[0, 0], room), Ok(Vec::new()));
            refuses(&a(), &[], room, 5);
            refuses(&a(), &[0], room, 5);
            refuses(&a(), &[0, 0, 0], room, 5);
            refuses(&a(), &[0, 1, 1, 97, 1, 1], room, 5);
        }
    }
}

/// Without keys only the empty text is left.
#[test]
fn no_keys_for_some_positions() {
    for n in [1, 2, 3, 255, 65_535] {
        no_text(&a(), &[n, 0]);
    }
}

#[test]
fn a_position_uncovered() {
    let ab = Key::Word(0);
    no_text(&a(), &numbers(3, &[(ab, vec![1])]));
    no_text(&a(), &numbers(3, &[(ab, vec![2])]));
    no_text(&a(), &numbers(5, &[(ab, vec![1, 4])]));
    // A character 0 is one to be covered as any other.
    let zero = Key::Lone(0);
    is_of(&a(), &numbers(2, &[(zero, vec![1, 2])]), &[0, 0]);
    no_text(&a(), &numbers(2, &[(zero, vec![1])]));
    no_text(&a(), &numbers(2, &[(zero, vec![2])]));
}

#[test]
fn entries_that_conflict() {
    let x = Key::Lone(0x78);
    let y = Key::Lone(0x79);
    no_text(&a(), &numbers(1, &[(x, vec![1]), (y, vec![1])]));
    no_text(&a(), &numbers(2, &[(Key::Word(0), vec![1]), (x, vec![1])]));
    no_text(&a(), &numbers(2, &[(Key::Word(0), vec![1]), (x, vec![2])]));
    // ab and bc overlap in b, ab and cb conflict there.
    let words = Dictionary::spelt("ab bc cb");
    let both = |second| numbers(3, &[(Key::Word(0), vec![1]), (Key::Word(second), vec![2])]);
    is_of(&words, &both(1), &spelt("abc"));
    no_text(&words, &both(2));
    // Two that start together.
    no_text(
        &words,
        &numbers(2, &[(Key::Word(0), vec![1]), (Key::Word(2), vec![1])]),
    );
}

/// The entries spell a text, but it has a longer word there.
#[test]
fn a_longer_word_should_have_been_registered() {
    let words = Dictionary::spelt("ab abc abcd bc bcd cd");
    let (ab, abc, abcd, bc) = (Key::Word(0), Key::Word(1), Key::Word(2), Key::Word(3));
    let (bcd, cd) = (Key::Word(4), Key::Word(5));
    is_of(&words, &numbers(4, &[(abcd, vec![1])]), &spelt("abcd"));
    for lines in [
        vec![(ab, vec![1]), (cd, vec![3])],
        vec![(abc, vec![1]), (bcd, vec![2])],
        vec![(ab, vec![1]), (bc, vec![2]), (cd, vec![3])],
        vec![(abc, vec![1]), (cd, vec![3])],
        vec![(abc, vec![1]), (Key::Lone(0x64), vec![4])],
        vec![(bcd, vec![2]), (Key::Lone(0x61), vec![1])],
    ] {
        no_text(&words, &numbers(4, &lines));
    }
    let lone = |character: char| Key::Lone(character as u16);
    let letters: Vec<Line> = ('a'..='d').map(lone).zip((1..).map(|p| vec![p])).collect();
    no_text(&words, &numbers(4, &letters));
    is_of(
        &Dictionary::default(),
        &numbers(4, &letters),
        &spelt("abcd"),
    );
}

/// An entry within another one stands in the text, but not in its index.
#[test]
fn an_entry_within_another() {
    let words = Dictionary::spelt("ab abc b bc");
    let abc = (Key::Word(1), vec![1]);
    is_of(
        &words,
        &numbers(3, std::slice::from_ref(&abc)),
        &spelt("abc"),
    );
    let ab = (Key::Word(0), vec![1]);
    no_text(&words, &numbers(3, &[ab, abc.clone()]));
    for (key, position) in [(2, 2), (3, 2)] {
        let within = (Key::Word(key), vec![position]);
        no_text(&words, &numbers(3, &[abc.clone(), within]));
    }
    for (character, position) in [('a', 1), ('c', 3)] {
        let within = (Key::Lone(character as u16), vec![position]);
        no_text(&words, &numbers(3, &[abc.clone(), within]));
    }
}

/// The same entries in another order are not readable; the same numbers with
/// another dictionary are another matter.
#[test]
fn the_dictionary_lent_decides() {
    refuses(
        &a(),
        &[6, 3, 0, 1, 1, 0, 0, 1, 0, 2, 1, 1, 5, 2],
        Room::ample(6),
        5,
    );
    let lone = [2, 2, 1, 97, 1, 1, 98, 1, 1, 2];
    is_of(&Dictionary::default(), &lone, &spelt("ab"));
    is_of(&Dictionary::spelt("abc ba"), &lone, &spelt("ab"));
    no_text(&Dictionary::spelt("ab"), &lone);
    refuses(&Dictionary::spelt("b"), &lone, Room::ample(2), 5);
    is_of(
        &Dictionary::spelt("xyz"),
        &[3, 1, 0, 0, 1, 1],
        &spelt("xyz"),
    );
    no_text(&Dictionary::spelt("xy"), &[3, 1, 0, 0, 1, 1]);
}

#[test]
fn words_of_32_characters() {
    let word: Vec<u16> = (1..=32).collect();
    let dictionary = Dictionary::of([&word[..31], &word[..]]);
    is_of(&dictionary, &[32, 1, 0, 1, 1, 1], &word);
    is_of(&dictionary, &[31, 1, 0, 0, 1, 1], &word[..31]);
    let shorter = numbers(32, &[(Key::Word(0), vec![1]), (Key::Lone(32), vec![32])]);
    no_text(&dictionary, &shorter);
    no_text(&dictionary, &[32, 1, 0, 0, 1, 1]);
}

#[test]
fn the_least_and_the_greatest_character() {
    let text = [0xFFFF, 0x0000, 0xFFFF];
    let index = [3, 2, 1, 0, 1, 1, 0xFFFF, 2, 2, 1, 3];
    is_of(&Dictionary::default(), &index, &text);
    let words = Dictionary::of([&[0][..], &[0xFFFF, 0xFFFF]]);
    let beside = [4, 3, 0, 0, 1, 0, 1, 1, 1, 0xFFFF, 1, 3, 1, 4];
    is_of(&words, &beside, &[0xFFFF, 0xFFFF, 0, 0xFFFF]);
}

#[test]
fn a_text_of_65535_characters() {
    let b = Dictionary::spelt("a aa aaa");
    let all: Vec<u16> = (1..=65_533).collect();
    let equal = numbers(65_535, &[(Key::Word(2), all.clone())]);
    is_of(&b, &equal, &[97; 65_535]);
    no_text(&b, &numbers(65_535, &[(Key::Word(2), all[1..].to_vec())]));
    let last = &all[..all.len() - 1];
    no_text(&b, &numbers(65_535, &[(Key::Word(2), last.to_vec())]));
    let mut gap = all;
    gap.remove(30_000);
    no_text(&b, &numbers(65_535, &[(Key::Word(2), gap)]));
}

/// The most lone keys that an index of a text has, and as many that none has.
#[test]
fn an_index_of_65442_lone_keys() {
    let none = Dictionary::default();
    let text = every_replaced_character();
    let positions = (1..=65_442).rev().map(|position| vec![position]);
    let keys = text.iter().rev().copied().map(Key::Lone);
    let mut lines: Vec<Line> = keys.zip(positions).collect();
    is_of(&none, &numbers(65_442, &lines), &text);
    lines[65_441].1[0] = 2;
    no_text(&none, &numbers(65_442, &lines));
    let all_at_1: Vec<Line> = lines.into_iter().map(|(key, _)| (key, vec![1])).collect();
    no_text(&none, &numbers(1, &all_at_1));
}

/// More entries than a text could have.
#[test]
fn more_than_65535_entries() {
    let all: Vec<u16> = (1..=65_535).collect();
    let lines: Vec<Line> = (97..100).map(|c| (Key::Lone(c), all.clone())).collect();
    no_text(&Dictionary::default(), &numbers(65_535, &lines));
    is_of(
        &Dictionary::default(),
        &numbers(65_535, &lines[..1]),
        &[97; 65_535],
    );
}
