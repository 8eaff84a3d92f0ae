//! Strings as 16-bit characters, and back.

use mopekihua::{CharacterError, Characters, Dictionary, Error, Index, Query};
use mopekihua::{characters_of, replaced, string_of};

use crate::support::oracle;

/// The numbers that UTF-16 makes pairs of.
fn is_half(number: u16) -> bool {
    (0xD800..0xE000).contains(&number)
}

#[test]
fn every_number() {
    for number in 0..=u16::MAX {
        let unpaired = CharacterError::Unpaired {
            number,
            position: 1,
        };
        match string_of(&[number]) {
            Ok(string) => {
                assert_eq!(string.chars().count(), 1);
                assert_eq!(characters_of(&string), Ok(vec![number]));
                assert!(!is_half(number));
            }
            Err(error) => {
                assert_eq!(error, unpaired);
                assert!(is_half(number));
            }
        }
    }
}

/// Every character of a string that has no 16-bit number is refused.
#[test]
fn every_wide_character() {
    for character in '\u{10000}'..=char::MAX {
        let string = String::from(character);
        let wide = CharacterError::Wide {
            character,
            position: 1,
        };
        assert_eq!(characters_of(&string), Err(wide));
        let pair: Vec<u16> = string.encode_utf16().collect();
        assert_eq!(string_of(&pair), Err(wide));
    }
}

/// What the library recovers of a text is what the string is replaced by.
#[test]
fn every_character_replaced() {
    for numbers in [0..=0xFFFE, 1..=0xFFFF] {
        let characters: Vec<u16> = numbers.filter(|&number| !is_half(number)).collect();
        let string = replaced(&string_of(&characters).unwrap());
        let index = Index::build(&Dictionary::default(), &characters).unwrap();
        assert!(characters_of(&string) == Ok(index.recover()));
        assert!(characters_of(&string) == Ok(oracle::replaced(&characters)));
    }
    assert_eq!(replaced("\u{FF00}！Ａ～\u{FF5F}"), "\u{FF00}!A~\u{FF5F}");
    assert_eq!(replaced("𠮷ＤＮ１５"), "𠮷DN15");
    assert_eq!(replaced(""), "");
}

/// The first one is named, and its position counts characters, not bytes.
#[test]
fn positions_count_characters() {
    let wide = |character, position| CharacterError::Wide {
        character,
        position,
    };
    assert_eq!(characters_of("𠮷野家で𩸽"), Err(wide('𠮷', 1)));
    assert_eq!(characters_of("吉野家で𩸽と𠮷"), Err(wide('𩸽', 5)));
    let utf16: Vec<u16> = "aé図𩸽".encode_utf16().collect();
    assert_eq!(string_of(&utf16), Err(wide('𩸽', 4)));
}

#[test]
fn halves_of_pairs_that_stand_alone() {
    let unpaired = |number, position| CharacterError::Unpaired { number, position };
    let (high, low) = (0xD842, 0xDFB7);
    assert_eq!(string_of(&[0x61, high]), Err(unpaired(high, 2)));
    assert_eq!(string_of(&[0x61, high, 0x61]), Err(unpaired(high, 2)));
    assert_eq!(string_of(&[low, high]), Err(unpaired(low, 1)));
    assert_eq!(string_of(&[high, high, low]), Err(unpaired(high, 1)));
}

#[test]
fn numbers_are_taken_as_they_are() {
    let half = [0xD842];
    assert_eq!(half.characters().as_deref(), Ok(&half[..]));
    assert_eq!(Query::new(half).unwrap().characters(), half);
    assert_eq!(Query::new("Ａ").unwrap().characters(), [0xFF21]);
    let dictionary = Dictionary::new([half]).unwrap();
    let index = Index::build(&dictionary, [0xD842, 0xDFB7]).unwrap();
    assert_eq!(index.recover(), [0xD842, 0xDFB7]);
}

#[test]
fn strings_and_numbers_in_every_form() {
    fn taken(form: impl Characters) -> Vec<u16> {
        form.characters().expect("two characters").into_owned()
    }
    let numbers = [0x56F3, 0x9762];
    assert_eq!(taken("図面"), numbers);
    assert_eq!(taken(String::from("図面")), numbers);
    assert_eq!(taken(numbers), numbers);
    assert_eq!(taken(&numbers[..]), numbers);
    assert_eq!(taken(numbers.to_vec()), numbers);
}

#[test]
fn a_wide_character_is_refused_wherever_a_string_is_taken() {
    let wide = Error::Character(CharacterError::Wide {
        character: '𠮷',
        position: 2,
    });
    assert_eq!(Dictionary::new(["図", "大𠮷"]), Err(wide));
    assert_eq!(Dictionary::sorted(["図", "大𠮷"]), Err(wide));
    assert_eq!(Query::new("大𠮷"), Err(wide));
    assert_eq!("大𠮷".parse::<Query>(), Err(wide));
    assert_eq!(Index::build(&Dictionary::default(), "大𠮷"), Err(wide));
    assert_eq!(
        wide.to_string(),
        "the character 𠮷 (U+20BB7) at position 2 has no 16-bit number"
    );
}
