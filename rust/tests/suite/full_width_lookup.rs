//! Full-width forms on job sheets. Every answer is also the one that the plain
//! reading of the sheet gives.

use crate::support::lookup::{lookup, prints, refuses};
use crate::support::sheet::{Sheet, form};

/// Keys are printed replaced, and each find is replaced too.
#[test]
fn a_text_and_finds_in_either_width() {
    let printed = "(index 4 3 3)\n(key word 0 (1))\n(key lone 0031 (3))\n(key lone 0035 (4))\n\
                   (found 1 (1))\n(found 1 (1))\n(found 1 (2))\n(found 0 ())\n";
    for text in [
        "0044 004E 0031 0035",
        "FF24 FF2E FF11 FF15",
        "0044 FF2E FF11 0035",
    ] {
        let sheet = format!(
            "(word 0044 004E)\n(text {text})\n\
             (find FF24 FF2E)\n(find 0044 004E)\n(find 004E FF11 0035)\n(find FF15 FF24)\n"
        );
        prints(sheet, printed);
    }
}

#[test]
fn the_first_and_the_last_form() {
    prints(
        "(text FF00 FF01 FF5E FF5F)\n\
         (find FF00)\n(find 0020)\n(find FF01)\n(find 0021)\n\
         (find FF5E)\n(find 007E)\n(find FF5F)\n(find 007F)\n",
        "(index 4 4 4)\n(key lone 0021 (2))\n(key lone 007E (3))\n(key lone FF00 (1))\n\
         (key lone FF5F (4))\n(found 1 (1))\n(found 0 ())\n(found 1 (2))\n(found 1 (2))\n\
         (found 1 (3))\n(found 1 (3))\n(found 1 (4))\n(found 0 ())\n",
    );
}

#[test]
fn a_form_in_a_word() {
    for form in ["FF01", "FF21", "FF5E"] {
        refuses(format!("(word {form})\n(text)\n"), 12);
        refuses(
            format!("(word 0061 {form})\n(text 0061)\n(find 0061)\n"),
            12,
        );
        refuses(
            format!("(word 0061)\n(word {form} 0061)\n(text {form})\n"),
            12,
        );
    }
    for other in ["FF00", "FF5F"] {
        prints(
            format!("(word {other})\n(text {other})\n"),
            "(index 1 1 1)\n(key word 0 (1))\n",
        );
    }
}

/// 10, then 11, then 2, 3 and 12 over the words, then 6 over the finds. A sheet is
/// too short to meet 1.
#[test]
fn which_number_comes_first() {
    refuses("(word FF21)\n(text)\n(find)\n", 12);
    refuses("(word FF21)\n(text)\n(find 0061)\n(find)\n", 12);
    refuses("(word 0061)\n(text)\n(find)\n", 6);
    refuses("(word FF21)\n(word FF21)\n(text)\n", 3);
    refuses("(word FF22)\n(word FF21)\n(text)\n(find)\n", 3);
    refuses("(word FF21)\n(word 0061)\n(text)\n", 3);
    refuses("(word FF21)\n(word)\n(text)\n(find)\n", 2);
    refuses(form("word", &[0xFF21; 33]) + "(text)\n", 2);
    refuses("(word FF21)\n(text 006)\n", 11);
    refuses("(word FF21)\n(text)", 11);
    refuses("(word FF2)\n(text)\n", 11);
    refuses("(word ff21)\n(text)\n", 11);
    refuses("(word FF21)\n", 11);
    refuses("(word FF21)\n".to_string() + &form("text", &[7; 2_001]), 11);
    refuses(form("word", &[0xFF21; 6_600]) + "(text)\n", 10);
}

/// As long a text and finds as there can be, all in full-width forms.
#[test]
fn the_longest_text_and_finds() {
    let sheet = |character: u16| Sheet {
        words: vec![vec![0x61; 2], vec![0x61; 32]],
        text: vec![character; 2_000],
        finds: vec![vec![character; 256]; 15],
    };
    let printed = lookup(&sheet(0xFF41).bytes());
    assert!(printed.starts_with("(index 2000 1 1969)\n(key word 1 (1 2 3 "));
    assert!(printed.ends_with(" 1743 1744 1745))\n"));
    assert_eq!(printed, lookup(&sheet(0x61).bytes()));
}
