//! The program `lookup` on job sheets, printed and refused ones. Every answer
//! is also the one that the plain reading of the sheet gives.

use crate::support::lookup::{lookup, prints, refuses};
use crate::support::sheet::{Sheet, form};

/// The example of the definition, and what is printed for it.
const EXAMPLE: &str = include_str!("../../../crates/lookup/stdin");
const ANSWER: &str = include_str!("../../../crates/lookup/stdout");

#[test]
fn the_example() {
    prints(EXAMPLE, ANSWER);
}

#[test]
fn forms_without_which_a_sheet_is_one() {
    prints("(text)\n", "(index 0 0 0)\n");
    prints("(text)\n(find 0061)\n", "(index 0 0 0)\n(found 0 ())\n");
    prints("(word 0061)\n(text)\n", "(index 0 0 0)\n");
    prints("(text 0061)\n", "(index 1 1 1)\n(key lone 0061 (1))\n");
    prints(
        "(word 0061)\n(text 0061)\n",
        "(index 1 1 1)\n(key word 0 (1))\n",
    );
    prints(
        "(text 0061)\n(find 0061)\n(find 0061)\n(find 0062)\n",
        "(index 1 1 1)\n(key lone 0061 (1))\n(found 1 (1))\n(found 1 (1))\n(found 0 ())\n",
    );
}

#[test]
fn lone_keys_and_words() {
    prints(
        "(word 0061 0062)\n(word 0061 0062 0063)\n(word 0062 0063 0064)\n(text 0061 0078 0061)\n",
        "(index 3 2 3)\n(key lone 0061 (1 3))\n(key lone 0078 (2))\n",
    );
    prints(
        "(word 0061)\n(text 0061 0078 0061)\n(find 0061)\n(find 0078 0061)\n",
        "(index 3 2 3)\n(key word 0 (1 3))\n(key lone 0078 (2))\n(found 2 (1 3))\n(found 1 (2))\n",
    );
    prints(
        "(word 0061)\n(word 0061 0061)\n(word 0061 0061 0061)\n\
         (text 0061 0061 0061 0061)\n(find 0061 0061)\n",
        "(index 4 1 2)\n(key word 2 (1 2))\n(found 3 (1 2 3))\n",
    );
}

#[test]
fn every_digit() {
    prints(
        "(text FFFF 0000 0123 4567 89AB CDEF)\n(find CDEF)\n(find FFFF 0000)\n",
        "(index 6 6 6)\n(key lone 0000 (2))\n(key lone 0123 (3))\n(key lone 4567 (4))\n\
         (key lone 89AB (5))\n(key lone CDEF (6))\n(key lone FFFF (1))\n\
         (found 1 (6))\n(found 1 (1))\n",
    );
}

#[test]
fn positions_are_decimal() {
    let text: Vec<u16> = (0..2_000).map(|i| i % 1_000).collect();
    let finds = [0, 8, 9, 98, 99, 998, 999].map(|character| vec![character]);
    let sheet = Sheet {
        text,
        finds: finds.to_vec(),
        ..Sheet::default()
    };
    let printed = lookup(&sheet.bytes());
    assert!(printed.starts_with("(index 2000 1000 2000)\n(key lone 0000 (1 1001))\n"));
    assert!(printed.ends_with("(found 2 (999 1999))\n(found 2 (1000 2000))\n"));
}

/// 200 words, 2,000 characters and 50 finds, and one more of each.
#[test]
fn the_greatest_counts() {
    let most = Sheet {
        words: (0..200).map(|number| vec![number / 20, number]).collect(),
        text: (0..2_000).map(|i| i % 201).collect(),
        finds: (0..50).map(|first| vec![first, first + 1]).collect(),
    };
    let printed = lookup(&most.bytes());
    assert!(printed.starts_with("(index 2000 "));
    assert_eq!(
        printed
            .lines()
            .filter(|line| line.contains("found"))
            .count(),
        50
    );
    let mut words = most.clone();
    words.words.push(vec![0xFFFF]);
    refuses(words.bytes(), 11);
    let mut text = most.clone();
    text.text.push(7);
    refuses(text.bytes(), 11);
    let mut finds = most.clone();
    finds.finds.push(vec![7]);
    refuses(finds.bytes(), 11);
}

#[test]
fn words_of_32_and_finds_of_256_characters() {
    let with = |word: usize, find: usize| Sheet {
        words: vec![vec![7; word]],
        text: vec![7; 300],
        finds: vec![vec![7; find]],
    };
    let printed = lookup(&with(32, 256).bytes());
    assert!(printed.starts_with("(index 300 1 269)\n(key word 0 (1 2 3 "));
    assert!(printed.contains("\n(found 45 (1 2 3 "));
    refuses(with(33, 256).bytes(), 2);
    refuses(with(6_000, 1).bytes(), 2);
    refuses(with(32, 257).bytes(), 6);
    refuses(with(32, 6_000).bytes(), 6);
    refuses(with(33, 257).bytes(), 2);
}

#[test]
fn exactly_32768_bytes_and_one_more() {
    let sheet = Sheet::of_length(32_768);
    assert!(lookup(&sheet.bytes()).starts_with("(index 2000 "));
    refuses(Sheet::of_length(32_769).bytes(), 10);
    refuses(Sheet::of_length(32_770).bytes(), 10);
    refuses([&sheet.bytes()[..], b"\n"].concat(), 10);
    refuses([&sheet.bytes()[..], b"x"].concat(), 10);
}

#[test]
fn a_sheet_that_is_too_long_need_have_no_form() {
    for byte in [b'x', b'\n', b' ', 0, 0xFF] {
        refuses(vec![byte; 32_768], 11);
        refuses(vec![byte; 32_769], 10);
        refuses(vec![byte; 1_000_000], 10);
    }
}

#[test]
fn broken_lines() {
    refuses("", 11);
    refuses("\n", 11);
    refuses("\n\n", 11);
    refuses("(text)", 11);
    refuses("(text)\r\n", 11);
    refuses("(text)\n\r", 11);
    refuses("(text)\n\n", 11);
    refuses("\n(text)\n", 11);
    refuses("(text)\nx", 11);
    refuses("(text)\n(find 0061)", 11);
    refuses("(text)\n(find 0061)\n ", 11);
    refuses("(text)\n(find 0061)\n\0", 11);
    refuses("(text)(find 0061)\n", 11);
    refuses("(text) (find 0061)\n", 11);
    refuses("(text\n)\n", 11);
    refuses("(text\n0061)\n", 11);
    refuses("(word 0061)\n\n(text)\n", 11);
    refuses("(text)\x0b", 11);
    refuses("\u{feff}(text)\n", 11);
}

#[test]
fn broken_forms() {
    for sheet in [
        "(text )\n",
        "(text  0061)\n",
        "(text 0061 )\n",
        "(text 0061  0062)\n",
        "(text\t0061)\n",
        "(text 0061\t0062)\n",
        " (text 0061)\n",
        "(text 0061) \n",
        "( text 0061)\n",
        "(text0061)\n",
        "(text 00610062)\n",
        "(text 0061,0062)\n",
        "text 0061\n",
        "(text 0061\n",
        "text 0061)\n",
        "((text 0061))\n",
        "(text (0061))\n",
        "(Text 0061)\n",
        "(TEXT 0061)\n",
        "(texts 0061)\n",
        "(tex 0061)\n",
        "(txt 0061)\n",
        "()\n",
        "(\n",
        ")\n",
        "(text 0061))\n",
        "(text 0061);\n",
        "(text 0061)\0\n",
        "(text\0)\n",
    ] {
        refuses(sheet, 11);
        refuses(sheet.replace("text", "word") + "(text)\n", 11);
        refuses("(text)\n".to_string() + &sheet.replace("text", "find"), 11);
    }
}

#[test]
fn broken_digits() {
    for digits in [
        "061",
        "00061",
        "6",
        "00611",
        "00aF",
        "00af",
        "abcd",
        "00Ag",
        "00AG",
        "00A@",
        "00A/",
        "00A:",
        "00A`",
        "0x61",
        "+061",
        "-061",
        "006 1",
        "0061h",
        "\u{ff10}061",
        "\u{0}061",
    ] {
        for head in ["word", "text", "find"] {
            let broken = format!("({head} {digits})\n");
            let sheet = match head {
                "word" => format!("{broken}(text)\n"),
                "text" => broken,
                _ => format!("(text)\n{broken}"),
            };
            refuses(sheet, 11);
        }
        refuses(format!("(text 0061 {digits} 0062)\n"), 11);
        refuses(format!("(text {digits} 0062)\n"), 11);
    }
}

#[test]
fn forms_in_another_order() {
    let (word, text, find) = ("(word 0061)\n", "(text 0061)\n", "(find 0061)\n");
    let good = [word, text, find].concat();
    assert!(lookup(good.as_bytes()).starts_with("(index 1 1 1)\n"));
    for order in [
        &[text, word, find][..],
        &[text, find, word],
        &[word, find, text],
        &[find, text, word],
        &[find, word, text],
        &[find, text],
        &[text, word],
        &[word],
        &[find],
        &[word, find],
        &[text, text],
        &[text, text, find],
        &[text, find, text],
        &[word, text, text],
        &[word, text, find, word],
        &[text, find, word, find],
        &[word, text, word, find],
    ] {
        refuses(order.concat(), 11);
    }
}

#[test]
fn words_without_characters_and_out_of_order() {
    refuses("(word)\n(text)\n", 2);
    refuses("(word 0061)\n(word)\n(text)\n", 2);
    refuses("(word)\n(word 0061)\n(text 0061)\n(find 0061)\n", 2);
    refuses("(word 0061)\n(word 0061)\n(text)\n", 3);
    refuses("(word 0062)\n(word 0061)\n(text)\n", 3);
    refuses("(word 0061 0062)\n(word 0061)\n(text)\n", 3);
    refuses("(word 0061)\n(word 0063)\n(word 0062)\n(text)\n", 3);
    prints(
        "(word 0061)\n(word 0061 0000)\n(word 0062)\n(text)\n",
        "(index 0 0 0)\n",
    );
    // By numbers, not by signed ones.
    prints(
        "(word 7FFF)\n(word 8000)\n(word FFFF)\n(text)\n",
        "(index 0 0 0)\n",
    );
}

/// Every find is tested before anything is printed.
#[test]
fn finds_without_characters() {
    refuses("(text)\n(find)\n", 6);
    refuses("(text 0061)\n(find 0061)\n(find)\n", 6);
    refuses("(text 0061)\n(find)\n(find 0061)\n", 6);
    let mut finds = vec![vec![7]; 50];
    finds[49] = vec![7; 257];
    let sheet = Sheet {
        text: vec![7; 10],
        finds,
        ..Sheet::default()
    };
    refuses(sheet.bytes(), 6);
}

/// The program tests 10, then 11, then the words, then every find.
#[test]
fn which_number_comes_first() {
    let mut many = "(word)\n".repeat(201) + "(text)\n";
    refuses(&many, 11);
    many.replace_range(..7, "");
    refuses(&many, 2);
    refuses("(word)\n(text)\n(find)\nx", 11);
    refuses("(word)\n(text)\n(find 61)\n", 11);
    refuses("(word 0062)\n(word 0061)\n(text)\n(find)\n", 3);
    refuses("(word 0062)\n(word 0061)\n(word)\n(text)\n(find)\n", 2);
    refuses("(word)\n(text)\n(find)\n", 2);
    refuses("(text)\n(text)\n(find)\n", 11);
    refuses("(find)\n(text)\n", 11);
    let too_many_finds = "(text)\n".to_string() + &"(find)\n".repeat(51);
    refuses(&too_many_finds, 11);
    refuses(&too_many_finds[..too_many_finds.len() - 7], 6);
    let long_text = form("word", &[]) + &form("text", &[7; 2_001]);
    refuses(&long_text, 11);
}
