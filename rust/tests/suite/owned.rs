//! The types that own what they hold: each is made exactly where the library
//! accepts, and its calls are those over lent slices.

use mopekihua::{Dictionary, Error, Index, Key, Query, ReadableIndex, Refusal, replaced};

use crate::support::damage::Damage;
use crate::support::delivery::Delivery;
use crate::support::dictionary::Dictionary as Lent;
use crate::support::index_damage::IndexDamage;
use crate::support::oracle;
use crate::support::random::Random;
use crate::support::text::Subject;

/// The dictionary that admission accepts, made of its words.
fn owned(lent: &Lent) -> Dictionary {
    let words = oracle::split(&lent.chars, &lent.lengths);
    Dictionary::new(words).expect("an admitted dictionary")
}

/// The number of a refusal.
fn number(error: Error) -> u32 {
    match error {
        Error::Refused(refusal) => refusal.number(),
        Error::Character(_) => panic!("numbers are characters"),
    }
}

/// Deliveries of texts, of which half are damaged, and ones that no text has.
fn deliveries(seed: u64, count: usize) -> impl Iterator<Item = Delivery> {
    let mut random = Random::seeded(seed);
    (0..count).map(move |round| {
        if round % 3 == 0 {
            return Delivery::random(&mut random);
        }
        let subject = match round % 2 {
            0 => Subject::of_few_characters(&mut random, 40),
            _ => Subject::of_japanese(&mut random, 60),
        };
        let mut delivery = Delivery::of_text(&subject);
        if round % 4 < 2 && delivery.index.len() > 2 {
            let damage = random.one_of(&IndexDamage::ALL);
            damage.apply(&mut delivery.index, &mut random);
        }
        delivery
    })
}

#[test]
fn a_dictionary_knows_its_words() {
    let mut random = Random::seeded(71);
    for _ in 0..200 {
        let lent = Lent::random(&mut random, 60);
        let words = oracle::split(&lent.chars, &lent.lengths);
        let dictionary = owned(&lent);
        assert_eq!(dictionary.len(), words.len());
        assert_eq!(dictionary.is_empty(), words.is_empty());
        assert_eq!(dictionary.chars(), lent.chars);
        assert_eq!(dictionary.lengths(), lent.lengths);
        assert!(dictionary.words().eq(words.iter()));
        assert!(dictionary.words().rev().eq(words.iter().rev()));
        for (number, word) in (0..).zip(&words) {
            assert_eq!(dictionary.word(number), Some(&word[..]));
            assert_eq!(dictionary.number_of(word), Some(number));
            let longer = [&word[..], &[1]].concat();
            let known = words.iter().position(|other| *other == longer);
            assert_eq!(
                dictionary.number_of(longer),
                known.map(|number| number as u16)
            );
        }
        assert_eq!(dictionary.word(words.len() as u16), None);
        assert_eq!(dictionary.number_of([]), None);
    }
}

#[test]
fn a_dictionary_is_made_exactly_where_it_is_admitted() {
    let mut random = Random::seeded(72);
    let mut answers = [0; 13];
    for round in 0..900 {
        let mut lent = Lent::random(&mut random, 40);
        if round % 2 == 0 && lent.lengths.len() >= 2 {
            let damage = random.one_of(&Damage::ALL);
            damage.apply(&mut lent, &mut random);
        }
        let expected = oracle::admit(&lent.chars, &lent.lengths);
        let made = Dictionary::from_parts(&lent.chars[..], &lent.lengths[..]);
        assert_eq!(
            made.as_ref()
                .map(Dictionary::len)
                .map_err(|error| error.number()),
            expected
        );
        answers[expected.err().unwrap_or(0) as usize] += 1;
    }
    let often = [0, 1, 2, 3, 12].iter().all(|&number| answers[number] >= 20);
    assert!(often, "{answers:?}");
}

#[test]
fn words_in_any_order() {
    let mut random = Random::seeded(73);
    for _ in 0..200 {
        let lent = Lent::random(&mut random, 30);
        let mut words = oracle::split(&lent.chars, &lent.lengths);
        let dictionary = owned(&lent);
        words.extend_from_within(..words.len() / 2);
        words.reverse();
        assert_eq!(Dictionary::sorted(&words).as_ref(), Ok(&dictionary));
        let falls = words.windows(2).any(|pair| pair[0] >= pair[1]);
        assert_eq!(Dictionary::new(&words).is_err(), falls);
    }
}

/// Words are taken as they are given, in order and in any order.
#[test]
fn words_in_full_width_forms() {
    for words in [["DN", "ＤＮ"], ["配管", "Ｄ"]] {
        assert_eq!(Dictionary::new(words).map_err(number), Err(12));
        assert_eq!(Dictionary::sorted(words).map_err(number), Err(12));
        let made = Dictionary::sorted(words.map(replaced));
        assert!(made.is_ok_and(|made| made.number_of(words[1]).is_none()));
    }
    assert_eq!(Dictionary::new(["ＤＮ", "DN"]).map_err(number), Err(3));
    assert_eq!(Dictionary::sorted(["ＤＮ", "DN"]).map_err(number), Err(12));
}

/// A length without a 16-bit number may not pass for a small one.
#[test]
fn words_of_great_length() {
    for long in [33, 65_535, 65_536, 65_537, 131_073] {
        let word = vec![7; long];
        let expected = if long <= 65_535 { 2 } else { 1 };
        assert_eq!(Dictionary::new([&word]).map_err(number), Err(expected));
        assert_eq!(Dictionary::sorted([&word]).map_err(number), Err(expected));
    }
    assert_eq!(Dictionary::new([[]; 1]).map_err(number), Err(2));
}

#[test]
fn a_query_is_made_exactly_where_search_takes_it() {
    for long in (0..=300).chain([65_536, 65_792]) {
        let string = vec![7; long];
        let searched = mopekihua::search(&[], &[], &[0, 0], &string);
        let query = Query::new(&string);
        assert_eq!(
            query.as_ref().err(),
            searched.err().map(Error::Refused).as_ref()
        );
        if let Ok(query) = query {
            assert_eq!(query.characters(), string);
        }
    }
}

#[test]
fn an_index_of_a_text() {
    let mut random = Random::seeded(74);
    for round in 0..300 {
        let subject = match round % 2 {
            0 => Subject::of_few_characters(&mut random, 80),
            _ => Subject::of_japanese(&mut random, 200),
        };
        let dictionary = owned(&subject.dictionary);
        let index = Index::build(&dictionary, &subject.text).expect("a short text");
        assert_eq!(index.numbers(), Delivery::of_text(&subject).index);
        assert_eq!(usize::from(index.text_len()), subject.text.len());
        assert_eq!(index.recover(), oracle::replaced(&subject.text));
        assert_eq!(index.dictionary(), &dictionary);
        assert_eq!(
            Index::receive(&dictionary, index.numbers()).as_ref(),
            Ok(&index)
        );
        for long in 1..subject.text.len().min(6) {
            let start = random.within(0, subject.text.len() - long);
            for string in [&subject.text[start..start + long], &[7; 1]] {
                let query = Query::new(string).expect("a short string");
                let positions = oracle::positions_in_text(&subject.text, string);
                assert_eq!(index.search(&query), positions);
                assert_eq!(index.first(&query), positions.first().copied());
                assert_eq!(index.cut(&query).search(&query), positions);
            }
        }
        assert_eq!(
            ReadableIndex::from(index.clone()).into_numbers(),
            index.into_numbers()
        );
    }
}

#[test]
fn a_text_that_is_too_long() {
    let built = Index::build(&Dictionary::default(), vec![7; 65_536]);
    assert_eq!(built.map_err(number), Err(4));
}

/// Read where it is readable, received where some text has it, and each call of
/// it answers what the definition gives.
#[test]
fn an_index_from_elsewhere() {
    let (mut unreadable, mut no_text, mut received) = (0, 0, 0);
    for Delivery { dictionary, index } in deliveries(75, 3_000) {
        let work_len = mopekihua::work_needed(65_535);
        let text = oracle::receive(&dictionary, &index, work_len);
        let words = owned(&dictionary);
        let read = ReadableIndex::read(&words, &index[..]);
        let whole = Index::receive(&words, &index[..]);
        assert_eq!(
            whole
                .as_ref()
                .map(Index::recover)
                .map_err(|error| error.number()),
            text
        );
        let Ok(readable) = read else {
            assert_eq!(read, Err(Refusal::IndexNotReadable));
            assert_eq!(text, Err(5));
            unreadable += 1;
            continue;
        };
        assert_eq!(readable.recover().map_err(Refusal::number), text);
        assert_eq!(readable.clone().receive(), whole);
        match text {
            Ok(_) => received += 1,
            Err(_) => no_text += 1,
        }
        assert_answers(&readable, &dictionary);
    }
    assert!(
        unreadable >= 300 && no_text >= 300 && received >= 300,
        "{unreadable}, {no_text}, {received}"
    );
}

/// Its tally, its lines, its gap form, a search, the first position and a cut-down
/// index are those of the definition.
#[track_caller]
fn assert_answers(readable: &ReadableIndex, dictionary: &Lent) {
    let numbers = readable.numbers();
    let Ok(opened) = oracle::open(&dictionary.chars, &dictionary.lengths, numbers) else {
        panic!("read, though it is not readable");
    };
    let tally = readable.tally();
    let expected = oracle::tally(&dictionary.chars, &dictionary.lengths, numbers);
    assert_eq!(Ok((tally.by_length, tally.count)), expected);
    let sum: u64 = (0..40).map(|length| tally.of_length(length)).sum();
    assert_eq!(sum, tally.count as u64);

    assert_eq!(readable.text_len(), opened.n);
    assert_eq!(readable.lines().count(), opened.lines.len());
    for (line, (key, positions)) in readable.lines().zip(&opened.lines) {
        let expected = match *key {
            oracle::Key::Word(number) => Key::Word(number),
            oracle::Key::Lone(character) => Key::Lone(character),
        };
        assert_eq!(line.key, expected);
        assert_eq!(line.spelt, key.spells(&opened.words));
        assert_eq!(line.positions, positions);
    }
    let gaps = readable.to_gaps();
    assert_eq!(gaps, oracle::gap_form(&opened));
    let restored = ReadableIndex::from_gaps(readable.dictionary(), &gaps);
    assert_eq!(restored.as_ref(), Ok(readable));

    for line in readable.lines().take(4) {
        let query = Query::new(line.spelt).expect("a key is no longer than a query");
        let found = readable.search(&query);
        assert_eq!(found, oracle::find(&opened, line.spelt));
        assert_eq!(readable.first(&query), found.first().copied());
        let less = readable.cut(&query);
        assert_eq!(less.numbers(), oracle::cut_down(&opened, line.spelt));
        assert_eq!(less.search(&query), found);
        assert_eq!(less.first(&query), found.first().copied());
        assert_eq!(less.dictionary(), readable.dictionary());
    }
}

#[test]
fn values_travel_between_threads() {
    fn travels<T: Send + Sync + Clone + std::fmt::Debug + PartialEq>() {}
    travels::<Dictionary>();
    travels::<Index>();
    travels::<ReadableIndex>();
    travels::<Query>();
    travels::<Error>();
}

#[test]
fn what_is_shown() {
    let dictionary = Dictionary::new(["図", "図面"]).unwrap();
    assert_eq!(format!("{dictionary:?}"), r#"["図", "図面"]"#);
    assert_eq!(
        format!("{:?}", Query::new("面図").unwrap()),
        r#"Query("面図")"#
    );
    let error: Box<dyn std::error::Error> = Box::new(Query::new("").unwrap_err());
    assert_eq!(error.to_string(), "search string empty or longer than 256");
}
