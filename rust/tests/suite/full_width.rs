//! Full-width forms, the characters from FF01 to FF5E, in texts and in strings,
//! where each is replaced by the character FEE0 lower. Every answer is written out
//! from the definition, and is also the one that the oracle gives.

use crate::support::building::{Room, build};
use crate::support::delivery::{Delivery, delivery};
use crate::support::dictionary::Dictionary;
use crate::support::first::first;
use crate::support::lists::all_lists;
use crate::support::reception::recover;
use crate::support::searching::{cut, search};
use crate::support::text::spelt;

/// The full-width forms and a few characters on either side of them, each with what
/// it is replaced by.
fn characters() -> Vec<(u16, u16)> {
    let forms = (0xFF01..=0xFF5E).zip(0x0021..=0x007E);
    let others = [0xFEFF, 0xFF00, 0xFF5F, 0xFF60, 0xFF61].map(|other| (other, other));
    forms.chain(others).collect()
}

/// The lettering in every mixture of the two widths.
fn every_width(lettering: &str) -> Vec<Vec<u16>> {
    let mut mixtures = vec![Vec::new()];
    for character in spelt(lettering) {
        let forms = match character {
            0x21..=0x7E => vec![character, character + 0xFEE0],
            _ => vec![character],
        };
        let mut longer = Vec::new();
        for mixture in &mixtures {
            for &form in &forms {
                longer.push([&mixture[..], &[form]].concat());
            }
        }
        mixtures = longer;
    }
    mixtures
}

/// The index of a text.
#[track_caller]
fn index_of(dictionary: &Dictionary, text: &[u16]) -> Vec<u16> {
    let index = build(dictionary, text, Room::ample(text.len()));
    index.expect("an admitted dictionary and a text")
}

/// The text of an index.
#[track_caller]
fn text_of(dictionary: &Dictionary, index: &[u16]) -> Result<Vec<u16>, u32> {
    recover(dictionary, index, Room::ample(usize::from(index[0])))
}

#[test]
fn the_first_and_the_last_form() {
    let none = Dictionary::default();
    let text = [0xFF00, 0xFF01, 0xFF21, 0xFF5E, 0xFF5F];
    let replaced = [0xFF00, 0x0021, 0x0041, 0x007E, 0xFF5F];
    let index = index_of(&none, &text);
    let directory = [
        1, 0x21, 1, 1, 0x41, 1, 1, 0x7E, 1, 1, 0xFF00, 1, 1, 0xFF5F, 1,
    ];
    let expected = [&[5, 5], &directory[..], &[2, 3, 4, 1, 5]].concat();
    assert_eq!(index, expected);
    assert_eq!(text_of(&none, &index).as_deref(), Ok(&replaced[..]));
}

#[test]
fn every_character_in_a_text() {
    let none = Dictionary::default();
    for (character, replaced) in characters() {
        let index = index_of(&none, &[character]);
        assert_eq!(index, [1, 1, 1, replaced, 1, 1]);
        assert_eq!(text_of(&none, &index), Ok(vec![replaced]));
    }
}

/// No other number is replaced, alone or as a word.
#[test]
fn every_number_in_a_text() {
    let replaced: Vec<u16> = (0..=0xFF00)
        .chain(0x0021..=0x007E)
        .chain(0xFF5F..=0xFFFF)
        .collect();
    let words = Dictionary::of((0x0010..0x0090).map(|character| [character]));
    for dictionary in [Dictionary::default(), words] {
        for numbers in [0..=0xFFFE, 1..=0xFFFF] {
            let expected = &replaced[usize::from(*numbers.start())..=usize::from(*numbers.end())];
            let index = index_of(&dictionary, &numbers.collect::<Vec<u16>>());
            assert_eq!(index, index_of(&dictionary, expected));
            assert!(text_of(&dictionary, &index).as_deref() == Ok(expected));
        }
    }
}

/// A character is found where what it is replaced by stands, and nowhere else.
#[test]
fn every_character_in_a_string() {
    let none = Dictionary::default();
    for (character, replaced) in characters() {
        let lower = character - 0xFEE0;
        for stands in [replaced, character, lower] {
            let index = [1, 1, 1, stands, 1, 1];
            let found = if stands == replaced { vec![1] } else { vec![] };
            let kept = if stands == replaced {
                &index[..]
            } else {
                &[1, 0]
            };
            let head = found.first().copied();
            assert_eq!(search(&none, &index, &[character], 1), Ok(found));
            assert_eq!(first(&none, &index, &[character]), Ok(head));
            assert_eq!(cut(&none, &index, &[character], 6).as_deref(), Ok(kept));
        }
    }
}

#[test]
fn both_widths_of_a_text_have_one_index() {
    let words = Dictionary::spelt("DN DN1 管");
    // 管 at 1 and 6, DN1 at 2, lone 5 at 5.
    let expected = [6, 3, 0, 1, 1, 0, 2, 2, 1, 0x35, 1, 2, 1, 6, 5];
    for text in every_width("管DN15管") {
        let index = index_of(&words, &text);
        assert_eq!(index, expected);
        assert_eq!(text_of(&words, &index), Ok(spelt("管DN15管")));
    }
}

/// Of all texts of up to four characters out of these.
#[test]
fn texts_have_one_index_exactly_if_replaced_they_are_equal() {
    let half_width = |text: &[u16]| String::from_utf16_lossy(text).replace('ａ', "a");
    let texts = all_lists(&spelt("aａb"), 4);
    for words in ["", "a", "aa ab", "a ab b ba"] {
        let words = Dictionary::spelt(words);
        let indexes: Vec<_> = texts.iter().map(|text| index_of(&words, text)).collect();
        for (one, index) in texts.iter().zip(&indexes) {
            for (other, other_index) in texts.iter().zip(&indexes) {
                let equal = half_width(one) == half_width(other);
                assert_eq!(index == other_index, equal, "{one:04X?}, {other:04X?}");
            }
        }
    }
}

#[test]
fn both_widths_of_a_string_find_the_same() {
    for text in [
        "管DN15、DN20DN15",
        "管ＤＮ１５、ＤＮ２０ＤＮ１５",
        "管DＮ1５、ＤN2０ＤN１5",
    ] {
        let Delivery { dictionary, index } = delivery("DN DN1 管", text);
        for (string, expected) in [
            ("DN15", &[2, 11][..]),
            ("N2", &[8]),
            ("5DN", &[]),
            ("0D", &[10]),
        ] {
            for string in every_width(string) {
                let found = search(&dictionary, &index, &string, 14);
                assert_eq!(found.as_deref(), Ok(expected));
                let head = first(&dictionary, &index, &string);
                assert_eq!(head, Ok(expected.first().copied()));
            }
        }
    }
}

#[test]
fn both_widths_of_a_string_cut_the_same() {
    let Delivery { dictionary, index } = delivery("DN DN1 管", "管ＤＮ１５、ＤＮ２０");
    // DN at 7 and 2 at 9; DN1 does not bear on DN2.
    let kept = [10, 2, 0, 0, 1, 1, 0x32, 1, 7, 9];
    for string in every_width("DN2") {
        for output_len in [kept.len(), index.len()] {
            let less = cut(&dictionary, &index, &string, output_len);
            assert_eq!(less.as_deref(), Ok(&kept[..]));
        }
        assert_eq!(cut(&dictionary, &index, &string, kept.len() - 1), Err(8));
    }
}

/// Many positions and long strings, which are searched in another way.
#[test]
fn the_longest_text_and_string() {
    let words = Dictionary::spelt("a aa aaa");
    let index = index_of(&words, &[0xFF41; 65_535]);
    assert_eq!(index[..5], [65_535, 1, 0, 2, 65_533]);
    assert!(text_of(&words, &index) == Ok(vec![0x61; 65_535]));
    let everywhere: Vec<u16> = (1..=65_280).collect();
    for character in [0x61, 0xFF41] {
        let found = search(&words, &index, &[character; 256], 65_280);
        assert!(found.as_ref() == Ok(&everywhere));
        assert_eq!(first(&words, &index, &[character; 256]), Ok(Some(1)));
        assert!(cut(&words, &index, &[character; 256], index.len()).as_ref() == Ok(&index));
        let mut other = [character; 256];
        other[255] = 0xFF42;
        assert_eq!(search(&words, &index, &other, 0), Ok(vec![]));
        assert_eq!(search(&words, &index, &[character; 257], 65_535), Err(6));
    }
    let long = build(&words, &[0xFF41; 65_536], Room::ample(65_536));
    assert_eq!(long, Err(4));
}

/// A form at the first position of the longest text, in the middle, and at the
/// last.
#[test]
fn one_form_in_the_longest_text() {
    let words = Dictionary::spelt("b");
    for i in [0, 1, 32_767, 65_533, 65_534] {
        let mut text = vec![0x61; 65_535];
        text[i] = 0xFF42;
        let index = index_of(&words, &text);
        let position = i as u16 + 1;
        assert_eq!(index[..9], [65_535, 2, 0, 0, 1, 1, 0x61, 65_534, position]);
        assert_eq!(first(&words, &index, &[0xFF42]), Ok(Some(position)));
        text[i] = 0x62;
        assert!(text_of(&words, &index) == Ok(text));
    }
}

/// A form at each index of the longest string.
#[test]
fn one_form_in_the_longest_string() {
    let Delivery { dictionary, index } = delivery("ab", &"ab".repeat(150));
    let string = spelt(&"ab".repeat(128));
    for i in 0..256 {
        let mut mixed = string.clone();
        mixed[i] += 0xFEE0;
        assert_eq!(first(&dictionary, &index, &mixed), Ok(Some(1)));
        mixed[i] = 0xFF43;
        assert_eq!(first(&dictionary, &index, &mixed), Ok(None));
    }
}
