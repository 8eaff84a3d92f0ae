//! The program `lookup` on sheets drawn at random, on damaged ones, and on the
//! largest, against the plain reading of the sheet.

use std::time::{Duration, Instant};

use crate::support::lookup::{lookup, run};
use crate::support::random::Random;
use crate::support::sheet::Sheet;
use crate::support::text::{Subject, in_either_width, random_over};

/// A byte of a good sheet dropped, doubled, or changed to another one.
#[test]
fn a_byte_changed() {
    let good = b"(word 0061)\n(text 0061 00AF)\n(find 0061)\n";
    assert!(lookup(good).starts_with("(index 2 2 2)\n"));
    let mut refused = 0;
    for i in 0..good.len() {
        let (front, back) = (&good[..i], &good[i + 1..]);
        let mut sheets = vec![
            [front, back].concat(),
            [front, &[good[i]; 2], back].concat(),
        ];
        for byte in [
            0, b'\t', b'\n', b'\r', b' ', b'(', b')', b'1', b'B', b'b', b'x', 0xE1,
        ] {
            sheets.push([front, &[byte], back].concat());
        }
        for sheet in sheets {
            refused += usize::from(lookup(&sheet).starts_with("(refused "));
        }
    }
    assert!(refused >= 400, "only {refused}");
}

/// What the text holds, over few characters or many, and strings near it in either
/// width.
fn random_sheet(random: &mut Random) -> Sheet {
    let longest = random.one_of(&[5, 40, 300]);
    let Subject { dictionary, text } = match random.within(0, 1) {
        0 => Subject::of_few_characters(random, longest),
        _ => Subject::of_japanese(random, longest),
    };
    let words = (0..dictionary.lengths.len()).map(|number| dictionary.word(number));
    let alphabet = [&text[..], &dictionary.chars, &[7]].concat();
    let finds = (0..random.within(0, 50)).map(|_| {
        let length = random.within(1, 6);
        let find = if random.within(0, 2) > 0 && !text.is_empty() {
            let start = random.below(text.len());
            text[start..(start + length).min(text.len())].to_vec()
        } else {
            random_over(&alphabet, random, length)
        };
        in_either_width(&find, random)
    });
    Sheet {
        words: words.collect(),
        finds: finds.collect(),
        text,
    }
}

#[test]
fn random_sheets() {
    let mut random = Random::seeded(61);
    for _ in 0..300 {
        let sheet = random_sheet(&mut random);
        let printed = lookup(&sheet.bytes());
        assert!(printed.starts_with(&format!("(index {} ", sheet.text.len())));
    }
}

/// Sheets that say something wrong, or have a byte or a line changed.
#[test]
fn random_damaged_sheets() {
    let mut random = Random::seeded(62);
    let mut refused = 0;
    for _ in 0..300 {
        let mut sheet = random_sheet(&mut random);
        let word = random.within(0, sheet.words.len());
        let find = random.within(0, sheet.finds.len());
        let mut bytes = match random.within(0, 6) {
            0 => {
                let copied = sheet.words.first().cloned().unwrap_or_default();
                sheet.words.insert(word, copied);
                sheet.bytes()
            }
            1 => {
                let long = random.one_of(&[0, 33, 40]);
                sheet.words.insert(word, vec![7; long]);
                sheet.bytes()
            }
            2 => {
                let long = random.one_of(&[0, 257, 300]);
                sheet.finds.insert(find, vec![7; long]);
                sheet.bytes()
            }
            3 => {
                sheet.words.push(vec![random.full_width_form()]);
                sheet.bytes()
            }
            _ => sheet.bytes(),
        };
        if random.within(0, 1) == 0 {
            let i = random.below(bytes.len());
            bytes[i] = random.one_of(b"\n ()0189ABFGaf");
        }
        refused += usize::from(lookup(&bytes).starts_with("(refused "));
    }
    assert!((100..=290).contains(&refused), "{refused}");
}

/// Of all sheets these make the program work and print the most.
#[test]
fn the_largest_sheets_are_answered_within_a_second() {
    let words = |most: u16| (1..=most).map(|long| vec![7; usize::from(long)]);
    let equal = Sheet {
        words: words(32).collect(),
        text: vec![7; 2_000],
        finds: vec![vec![7; 75]; 50],
    };
    // Each find is found everywhere: over 400,000 bytes.
    let everywhere = Sheet {
        words: words(1).collect(),
        text: vec![7; 2_000],
        finds: vec![vec![7]; 50],
    };
    let different = Sheet {
        words: Vec::new(),
        text: (0..2_000).collect(),
        finds: vec![(500..580).collect(); 50],
    };
    for sheet in [equal, everywhere, different, Sheet::of_length(32_768)] {
        let bytes = sheet.bytes();
        lookup(&bytes);
        let begun = Instant::now();
        let printed = run(&bytes);
        let taken = begun.elapsed();
        assert!(taken < Duration::from_secs(1), "{taken:?}");
        assert!(printed.starts_with(b"(index 2000 "));
    }
}
