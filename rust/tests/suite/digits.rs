//! Every byte as each of the four digits of a character, in each form of a job
//! sheet: 16 bytes are digits, and every other one breaks the form.

use crate::support::lookup::{lookup, prints, refuses};
use crate::support::sheet::form;

/// The digits, each at its value.
const DIGITS: [u8; 16] = *b"0123456789ABCDEF";

/// Calls with every byte at every index of four zeros: the four bytes, the index,
/// and the digit's value, if the byte is one.
#[track_caller]
fn for_every_byte(test: impl Fn(&[u8; 4], usize, Option<usize>)) {
    for i in 0..4 {
        let mut values = 0;
        for byte in 0..=255 {
            let mut four = *b"0000";
            four[i] = byte;
            let value = DIGITS.iter().position(|&digit| digit == byte);
            values += usize::from(value.is_some());
            test(&four, i, value);
        }
        assert_eq!(values, 16);
    }
}

/// The characters that have one digit at an index and zeros elsewhere, by its
/// value.
fn sixteen(i: usize) -> [u16; 16] {
    std::array::from_fn(|value| (value as u16) << (12 - 4 * i))
}

#[test]
fn of_a_text() {
    for_every_byte(|four, i, value| {
        let sheet = [b"(text ", &four[..], b")\n"].concat();
        match value {
            Some(value) => {
                let character = sixteen(i)[value];
                let key = format!("(index 1 1 1)\n(key lone {character:04X} (1))\n");
                prints(sheet, &key);
            }
            None => refuses(sheet, 11),
        }
    });
}

#[test]
fn of_a_word() {
    for_every_byte(|four, i, value| {
        let text = form("text", &sixteen(i));
        let sheet = [b"(word ", &four[..], b")\n", text.as_bytes()].concat();
        match value {
            Some(value) => {
                let key = format!("(index 16 16 16)\n(key word 0 ({}))\n", value + 1);
                assert!(lookup(&sheet).starts_with(&key));
            }
            None => refuses(sheet, 11),
        }
    });
}

#[test]
fn of_a_find() {
    for_every_byte(|four, i, value| {
        let text = form("text", &sixteen(i));
        let sheet = [text.as_bytes(), b"(find ", &four[..], b")\n"].concat();
        match value {
            Some(value) => {
                let found = format!("\n(found 1 ({}))\n", value + 1);
                assert!(lookup(&sheet).ends_with(&found));
            }
            None => refuses(sheet, 11),
        }
    });
}
