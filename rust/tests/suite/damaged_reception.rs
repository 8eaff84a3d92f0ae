//! Reception and recovery of small indexes, each damaged in every way of one
//! kind. Where entries are only taken away, added, or exchanged for others that
//! stand in the same text, no text has what is left: the answer is written out.

use std::collections::BTreeSet;

use crate::support::building::Room;
use crate::support::dictionary::Dictionary;
use crate::support::entries::{Entry, Indexed, numbers};
use crate::support::lists::all_lists;
use crate::support::reception::{assert_receives, recover};

/// What the texts are made of.
const CHARACTERS: [u16; 3] = [0x61, 0x62, 0x63];

/// Every text of up to five characters out of three, with each of a few
/// dictionaries whose words nest and overlap.
fn texts() -> impl Iterator<Item = Indexed> {
    let dictionaries = ["", "ab abc bc", "a aa aaa", "a ab b bca", "abc bca cab"];
    dictionaries.into_iter().flat_map(|words| {
        let texts = all_lists(&CHARACTERS, 5).into_iter();
        texts.map(|text| Indexed::new(Dictionary::spelt(words), text))
    })
}

impl Indexed {
    /// Reception and recovery refuse these numbers.
    #[track_caller]
    fn refuses(&self, index: &[u16], number: u32) {
        let room = Room::ample(usize::from(index[0]));
        assert_receives(&self.dictionary, index, room, Err(number));
    }

    /// No text has the index with others in this entry's place.
    #[track_caller]
    fn refuses_instead(&self, entry: Entry, others: impl IntoIterator<Item = Entry>) {
        let kept = self.entries.iter().copied().filter(|&one| one != entry);
        self.refuses(&numbers(self.n(), kept.chain(others)), 9);
    }

    /// The entries that stand in the text within this one, without it.
    fn within(&self, entry: Entry) -> Vec<Entry> {
        let whole = self.covers(entry);
        let inside = |&other: &Entry| {
            let part = self.covers(other);
            other != entry && whole.start <= part.start && part.end <= whole.end
        };
        self.standing().into_iter().filter(inside).collect()
    }
}

#[test]
fn undamaged() {
    for indexed in texts() {
        let index = numbers(indexed.n(), indexed.entries.iter().copied());
        let room = Room::ample(indexed.text.len());
        assert_receives(&indexed.dictionary, &index, room, Ok(&indexed.text));
    }
}

#[test]
fn an_entry_dropped() {
    for indexed in texts() {
        for &entry in &indexed.entries {
            indexed.refuses_instead(entry, []);
        }
    }
}

/// Where it does not stand in the text it conflicts with what does; where it
/// does, it lies within another.
#[test]
fn an_entry_added() {
    for indexed in texts() {
        for entry in indexed.fitting(&CHARACTERS) {
            if !indexed.entries.contains(&entry) {
                let more = indexed.entries.iter().copied().chain([entry]);
                indexed.refuses(&numbers(indexed.n(), more), 9);
            }
        }
    }
}

#[test]
fn a_position_uncovered() {
    for indexed in texts() {
        for i in 0..indexed.text.len() {
            let beside = |entry: &Entry| !indexed.covers(*entry).contains(&i);
            let left = indexed.entries.iter().copied().filter(beside);
            indexed.refuses(&numbers(indexed.n(), left), 9);
        }
    }
}

/// For a word the characters that it is made of, lone or words themselves.
#[test]
fn single_characters_in_place_of_a_word() {
    let mut damaged = 0;
    for indexed in texts() {
        for &entry in &indexed.entries {
            if indexed.covers(entry).len() > 1 {
                let mut single = indexed.within(entry);
                single.retain(|&other| indexed.covers(other).len() == 1);
                indexed.refuses_instead(entry, single);
                damaged += 1;
            }
        }
    }
    assert!(damaged >= 300, "only {damaged}");
}

/// For a word two that it holds and that cover it together.
#[test]
fn two_entries_in_place_of_the_word_that_holds_them() {
    let mut damaged = 0;
    for indexed in texts() {
        for &entry in &indexed.entries {
            let whole = indexed.covers(entry);
            let within = indexed.within(entry);
            for &first in &within {
                for &second in &within {
                    let (front, back) = (indexed.covers(first), indexed.covers(second));
                    let together = front.start == whole.start && back.end == whole.end;
                    if together && front.end >= back.start {
                        indexed.refuses_instead(entry, [first, second]);
                        damaged += 1;
                    }
                }
            }
        }
    }
    assert!(damaged >= 300, "only {damaged}");
}

#[test]
fn a_shorter_entry_where_a_longer_one_stands() {
    let mut damaged = 0;
    for indexed in texts() {
        for &entry in &indexed.entries {
            for shorter in indexed.within(entry) {
                if shorter.1 == entry.1 {
                    indexed.refuses_instead(entry, [shorter]);
                    damaged += 1;
                }
            }
        }
    }
    assert!(damaged >= 300, "only {damaged}");
}

/// One more leaves the last position uncovered; with one less the entry over it
/// ends past n, and the index is not readable.
#[test]
fn n_one_more_and_one_less() {
    for indexed in texts() {
        let entries = || indexed.entries.iter().copied();
        indexed.refuses(&numbers(indexed.n() + 1, entries()), 9);
        if let Some(less) = indexed.n().checked_sub(1) {
            indexed.refuses(&numbers(less, entries()), 5);
        }
    }
}

/// A word that the dictionary has now, and had not when the index was made: it
/// stands in place of what it holds, unless it lies within a longer one or does
/// not stand in the text.
#[test]
fn a_word_that_was_not_known() {
    let (mut received, mut refused) = (0, 0);
    for indexed in texts() {
        for number in 0..indexed.words.len() {
            let mut fewer = indexed.dictionary.clone();
            fewer.remove(number);
            let before = Indexed::new(fewer, indexed.text.clone());
            let now = |&(key, position): &Entry| {
                let spelt = key.spells(&before.words);
                (indexed.key_of(&spelt), position)
            };
            let entries: BTreeSet<Entry> = before.entries.iter().map(now).collect();
            let index = numbers(indexed.n(), entries.iter().copied());
            let room = Room::ample(indexed.text.len());
            if entries == indexed.entries {
                assert_receives(&indexed.dictionary, &index, room, Ok(&indexed.text));
                received += 1;
            } else {
                assert_receives(&indexed.dictionary, &index, room, Err(9));
                refused += 1;
            }
        }
    }
    assert!(received >= 300 && refused >= 300, "{received}, {refused}");
}

/// An entry moved to another position; mostly no text has what comes of it.
#[test]
fn a_position_shifted() {
    let mut refused = 0;
    for indexed in texts() {
        for &entry in &indexed.entries {
            let last = indexed.n() + 1 - indexed.covers(entry).len() as u16;
            for position in (1..=last).filter(|&position| position != entry.1) {
                let kept = indexed.entries.iter().copied().filter(|&one| one != entry);
                let index = numbers(indexed.n(), kept.chain([(entry.0, position)]));
                let room = Room::ample(indexed.text.len());
                refused += usize::from(recover(&indexed.dictionary, &index, room) == Err(9));
            }
        }
    }
    assert!(refused >= 1_000, "only {refused}");
}

/// One number of the index changed to any small one, to a character, to a greater
/// one, or to a full-width form. Where it is a lone character another text may have
/// it.
#[test]
fn a_number_changed() {
    let mut answers = [0; 3];
    for indexed in texts().filter(|indexed| indexed.text.len() <= 3) {
        let index = numbers(indexed.n(), indexed.entries.iter().copied());
        for i in 0..index.len() {
            for value in (0..6).chain(CHARACTERS).chain([300, 0xFF41]) {
                let mut changed = index.clone();
                changed[i] = value;
                let room = Room::ample(usize::from(changed[0]));
                match recover(&indexed.dictionary, &changed, room) {
                    Ok(_) => answers[0] += 1,
                    Err(5) => answers[1] += 1,
                    other => {
                        assert_eq!(other, Err(9));
                        answers[2] += 1;
                    }
                }
            }
        }
    }
    assert!(answers.iter().all(|&count| count >= 500), "{answers:?}");
}
