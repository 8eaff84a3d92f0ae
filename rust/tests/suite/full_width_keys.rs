//! Full-width forms among the numbers of an index, which are never replaced: a lone
//! one is readable, but no replaced text has it and no string agrees with it. Every
//! answer is written out from the definition, and is also the one that the oracle
//! gives.

use crate::support::building::Room;
use crate::support::dictionary::Dictionary;
use crate::support::first::first;
use crate::support::oracle::{Key, Line, numbers};
use crate::support::reading::tally;
use crate::support::reception::recover;
use crate::support::searching::{cut, search};
use crate::support::text::spelt;

/// A few full-width forms: the first, the last, and Ａ.
const FORMS: [u16; 3] = [0xFF01, 0xFF21, 0xFF5E];

/// The index is readable, and has so many entries, all of one character.
#[track_caller]
fn counts(dictionary: &Dictionary, index: &[u16], count: u64) {
    let mut by_length = [0; 32];
    by_length[0] = count;
    assert_eq!(tally(dictionary, index), Ok((by_length, count as usize)));
}

/// Reception and recovery refuse it, with as much lent as a text of n asks for.
#[track_caller]
fn no_text(dictionary: &Dictionary, index: &[u16]) {
    let room = Room::ample(usize::from(index[0]));
    assert_eq!(recover(dictionary, index, room), Err(9));
}

/// The string is found at these positions, and so the first of them is.
#[track_caller]
fn finds(dictionary: &Dictionary, index: &[u16], string: &str, positions: &[u16]) {
    let string = spelt(string);
    let found = search(dictionary, index, &string, positions.len());
    assert_eq!(found.as_deref(), Ok(positions));
    let head = first(dictionary, index, &string);
    assert_eq!(head, Ok(positions.first().copied()));
}

#[test]
fn a_lone_form_is_readable_and_no_text_has_it() {
    let none = Dictionary::default();
    for form in FORMS {
        let index = [1, 1, 1, form, 1, 1];
        counts(&none, &index, 1);
        no_text(&none, &index);
    }
    for other in [0xFF00, 0xFF5F] {
        let index = [1, 1, 1, other, 1, 1];
        counts(&none, &index, 1);
        assert_eq!(recover(&none, &index, Room::ample(1)), Ok(vec![other]));
    }
}

#[test]
fn a_lone_form_is_never_found_and_always_cut() {
    let none = Dictionary::default();
    for form in FORMS {
        let index = [1, 1, 1, form, 1, 1];
        for character in [form, form - 0xFEE0] {
            assert_eq!(search(&none, &index, &[character], 1), Ok(vec![]));
            assert_eq!(first(&none, &index, &[character]), Ok(None));
            assert_eq!(cut(&none, &index, &[character], 2), Ok(vec![1, 0]));
        }
    }
    for other in [0xFF00, 0xFF5F] {
        let index = [1, 1, 1, other, 1, 1];
        assert_eq!(search(&none, &index, &[other], 1), Ok(vec![1]));
        assert_eq!(first(&none, &index, &[other]), Ok(Some(1)));
        assert_eq!(cut(&none, &index, &[other], 6).as_deref(), Ok(&index[..]));
    }
}

/// Everything but the form is as in the index of the text xAy.
#[test]
fn a_lone_form_in_place_of_what_it_is_replaced_by() {
    let none = Dictionary::default();
    let good = [3, 3, 1, 0x41, 1, 1, 0x78, 1, 1, 0x79, 1, 2, 1, 3];
    assert_eq!(recover(&none, &good, Room::ample(3)), Ok(spelt("xAy")));
    let form = [3, 3, 1, 0x78, 1, 1, 0x79, 1, 1, 0xFF21, 1, 1, 3, 2];
    no_text(&none, &form);
    // 9 comes before 8, and 7 before 9.
    let short = |output, work| recover(&none, &form, Room { output, work });
    assert_eq!(short(2, 24), Err(9));
    assert_eq!(short(0, 24), Err(9));
    assert_eq!(short(3, 23), Err(7));
}

/// At each position of a text of equal characters, also of the longest.
#[test]
fn one_lone_form_among_many_entries() {
    let none = Dictionary::default();
    for (n, positions) in [(5, vec![1, 2, 3, 4, 5]), (65_535, vec![1, 30_000, 65_535])] {
        for position in positions {
            let others = (1..=n).filter(|&other| other != position).collect();
            let lines = [
                (Key::Lone(0x61), others),
                (Key::Lone(0xFF41), vec![position]),
            ];
            no_text(&none, &numbers(n, &lines));
        }
    }
}

/// A is a word, so it is no lone key; its form is another character.
#[test]
fn a_lone_form_beside_the_word_that_it_is_replaced_by() {
    let words = Dictionary::spelt("A");
    let lines = [(Key::Word(0), vec![1]), (Key::Lone(0xFF21), vec![2])];
    let index = numbers(2, &lines);
    counts(&words, &index, 2);
    no_text(&words, &index);
    for string in ["A", "Ａ"] {
        finds(&words, &index, string, &[1]);
        let kept = cut(&words, &index, &spelt(string), 6);
        assert_eq!(kept, Ok(vec![2, 1, 0, 0, 1, 1]));
    }
    for string in ["AA", "ＡＡ", "AＡ"] {
        finds(&words, &index, string, &[]);
    }
    assert_eq!(tally(&words, &[2, 1, 1, 0x41, 1, 2]), Err(5));
}

/// Two keys, though replaced they would be one.
#[test]
fn a_lone_form_beside_the_lone_character_that_it_is_replaced_by() {
    let none = Dictionary::default();
    let lines = [
        (Key::Lone(0x41), vec![1, 4]),
        (Key::Lone(0xFF21), vec![2, 4]),
    ];
    let index = numbers(4, &lines);
    counts(&none, &index, 4);
    no_text(&none, &index);
    for string in ["A", "Ａ"] {
        finds(&none, &index, string, &[1, 4]);
        let kept = cut(&none, &index, &spelt(string), index.len());
        assert_eq!(kept, Ok(vec![4, 1, 1, 0x41, 2, 1, 4]));
    }
    finds(&none, &index, "AＡ", &[]);
    // The same keys the other way round do not ascend.
    assert_eq!(
        tally(&none, &[2, 2, 1, 0xFF21, 1, 1, 0x41, 1, 1, 2]),
        Err(5)
    );
}

/// The other keys that bear on the string are kept, with all their positions.
#[test]
fn a_cut_drops_every_lone_form() {
    let words = Dictionary::spelt("AB C");
    let lone = [0x0042, 0x0044, 0xFF00, 0xFF21, 0xFF22, 0xFF5F];
    let mut lines: Vec<Line> = vec![(Key::Word(0), vec![1, 5]), (Key::Word(1), vec![2])];
    lines.extend(lone.map(|character| (Key::Lone(character), vec![1, 3])));
    let index = numbers(6, &lines);
    for string in ["AB", "ＡＢ", "AＢ"] {
        let kept = cut(&words, &index, &spelt(string), index.len());
        let bearing = [lines[0].clone(), lines[2].clone()];
        assert_eq!(kept, Ok(numbers(6, &bearing)));
    }
    let kept = cut(&words, &index, &[0xFF5F, 0xFF22, 0xFF00], index.len());
    let bearing = [2, 4, 7].map(|line| lines[line].clone());
    assert_eq!(kept, Ok(numbers(6, &bearing)));
}

/// So many positions that a search goes another way.
#[test]
fn lone_forms_everywhere() {
    let none = Dictionary::default();
    let (odd, even) = (1..=3_000).partition(|position| position % 2 == 1);
    let lines = [(Key::Lone(0x61), even), (Key::Lone(0xFF41), odd)];
    let index = numbers(3_000, &lines);
    for string in ["a", "ａ"] {
        finds(&none, &index, string, &lines[0].1);
        finds(&none, &index, &string.repeat(2), &[]);
        finds(&none, &index, &string.repeat(256), &[]);
    }
    let forms = numbers(3_000, &[(Key::Lone(0xFF41), (1..=3_000).collect())]);
    for string in ["a", "ａ", "aａ"] {
        finds(&none, &forms, string, &[]);
        finds(&none, &forms, &string.repeat(40), &[]);
    }
}

/// n, a count and positions that are the numbers of full-width forms.
#[test]
fn lengths_counts_and_positions_stay() {
    let none = Dictionary::default();
    for n in [0xFF01, 0xFF21, 0xFF5E, 0xFFFF] {
        let all: Vec<u16> = (1..=n).collect();
        let index = numbers(n, &[(Key::Lone(0x61), all.clone())]);
        counts(&none, &index, u64::from(n));
        let length = usize::from(n);
        assert!(recover(&none, &index, Room::ample(length)) == Ok(vec![0x61; length]));
        finds(&none, &index, "ａ", &all);
        assert!(cut(&none, &index, &spelt("ａ"), index.len()).as_ref() == Ok(&index));
    }
    // b stands at forms' numbers only.
    let positions = vec![0x0021, 0x007E, 0xFF00, 0xFF01, 0xFF41, 0xFF5E, 0xFF5F];
    let index = numbers(0xFFFF, &[(Key::Lone(0x62), positions.clone())]);
    counts(&none, &index, 7);
    finds(&none, &index, "ｂ", &positions);
    finds(&none, &index, "ｂb", &[0xFF00, 0xFF5E]);
}
