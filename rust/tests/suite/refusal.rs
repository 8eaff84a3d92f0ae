//! The refusals: numbers, sentences, and agreement with the C header, also on
//! the layout of an index.

use std::collections::BTreeSet;

use mopekihua::Refusal;

const HEADER: &str = include_str!("../../../include/mopekihua.h");

#[test]
fn numbers_go_both_ways() {
    for (number, &refusal) in (1..).zip(Refusal::ALL) {
        assert_eq!(refusal.number(), number);
        assert_eq!(Refusal::from_number(number), Some(refusal));
    }
    assert_eq!(Refusal::ALL.len(), 12);
}

#[test]
fn other_numbers_are_no_refusal() {
    for number in [0, 13, 65_537, u32::MAX] {
        assert_eq!(Refusal::from_number(number), None);
    }
}

#[test]
fn each_refusal_has_its_own_sentence() {
    let sentences: BTreeSet<String> = Refusal::ALL.iter().map(Refusal::to_string).collect();
    assert_eq!(sentences.len(), Refusal::ALL.len());
    assert!(sentences.iter().all(|sentence| !sentence.is_empty()));
}

#[test]
fn a_refusal_is_an_error() {
    let error: Box<dyn std::error::Error> = Box::new(Refusal::WordsNotAscending);
    assert_eq!(error.to_string(), "words do not ascend strictly");
}

/// The header explains each number by the same sentence and names it alike.
#[test]
fn the_header_has_the_same_table() {
    let header = words(&HEADER.replace(['*', '/'], " "));
    for refusal in Refusal::ALL {
        let line = format!(
            "{refusal} MOPEKIHUA_{} = {}",
            upper_case(&format!("{refusal:?}")),
            refusal.number()
        );
        assert!(header.contains(&words(&line)), "not in the header: {line}");
    }
    assert_eq!(header.matches(" = ").count(), Refusal::ALL.len() + 1);
}

/// As many numbers of an index precede its directory in C as in Rust.
#[test]
fn the_header_of_an_index_has_the_same_length() {
    let line = format!("#define MOPEKIHUA_HEADER {} ", mopekihua::HEADER);
    assert!(words(HEADER).contains(&line), "not in the header: {line}");
}

/// The words of a text with one space between them.
fn words(text: &str) -> String {
    text.split_whitespace().collect::<Vec<_>>().join(" ")
}

/// `TextTooLong` as `TEXT_TOO_LONG`.
fn upper_case(name: &str) -> String {
    let mut upper = String::new();
    for letter in name.chars() {
        if letter.is_uppercase() && !upper.is_empty() {
            upper.push('_');
        }
        upper.push(letter.to_ascii_uppercase());
    }
    upper
}
