//! Gap forms of random indexes and back, right and damaged, against the oracle.

use mopekihua::{Dictionary as Owned, Index, ReadableIndex, Refusal};

use crate::support::delivery::Delivery;
use crate::support::dictionary::Dictionary;
use crate::support::gap_damage::GapDamage;
use crate::support::gaps::{from_gaps, to_gaps};
use crate::support::index_damage::IndexDamage;
use crate::support::lists::all_lists;
use crate::support::oracle;
use crate::support::random::Random;
use crate::support::text::Subject;

/// The index of a text, with some positions under most keys, or a readable one
/// that mostly no text has.
fn random_delivery(random: &mut Random) -> Delivery {
    match random.within(0, 2) {
        0 => Delivery::of_text(&Subject::of_japanese(random, 120)),
        1 => Delivery::of_text(&Subject::of_few_characters(random, 60)),
        _ => Delivery::random(random),
    }
}

/// The gap form of a random index of at least one key, and its dictionary.
fn random_gaps(random: &mut Random) -> (Dictionary, Vec<u16>) {
    loop {
        let Delivery { dictionary, index } = random_delivery(random);
        if index[1] > 0 {
            let gaps = oracle::to_gaps(&dictionary, &index, index.len());
            return (dictionary, gaps.expect("a readable index"));
        }
    }
}

/// A length around that of the numbers, mostly enough.
fn some_len(numbers: &[u16], random: &mut Random) -> usize {
    let more = random.one_of(&[0, 1, 2, 3, 10, 41]);
    (numbers.len() + more).saturating_sub(1)
}

#[test]
fn there_and_back() {
    let mut random = Random::seeded(111);
    let mut other = 0;
    for _ in 0..3_000 {
        let Delivery { dictionary, index } = random_delivery(&mut random);
        let gaps = to_gaps(&dictionary, &index, index.len()).expect("a readable index");
        assert_eq!(
            from_gaps(&dictionary, &gaps, gaps.len()).as_ref(),
            Ok(&index)
        );
        for numbers in [&index, &gaps] {
            let output_len = some_len(numbers, &mut random);
            to_gaps(&dictionary, numbers, output_len).ok();
            from_gaps(&dictionary, numbers, output_len).ok();
        }
        other += usize::from(gaps != index);
    }
    assert!(other >= 1_500, "only {other}");
}

/// Behind positions that none covers, so that positions go as far as they can.
#[test]
fn indexes_that_are_moved() {
    let mut random = Random::seeded(112);
    for _ in 0..1_000 {
        let delivery = Delivery::random(&mut random);
        let most = random.one_of(&[256, 32_768, 65_535]) - delivery.index[0];
        let Delivery { dictionary, index } = delivery.moved(most);
        let gaps = to_gaps(&dictionary, &index, index.len()).expect("a readable index");
        if index[1] > 0 {
            let mut gaps = gaps;
            random.one_of(&GapDamage::ALL).apply(&mut gaps, &mut random);
            from_gaps(&dictionary, &gaps, gaps.len()).ok();
        }
    }
}

/// After some damage the restored form is still readable, and after some it is
/// not, as often as each number says at least.
#[test]
fn damaged_gap_forms() {
    let mut random = Random::seeded(113);
    for damage in GapDamage::ALL {
        let (accepted, refused) = match damage {
            GapDamage::OneMore
            | GapDamage::OneLess
            | GapDamage::Move
            | GapDamage::Swap
            | GapDamage::Insert
            | GapDamage::Remove
            | GapDamage::Border
            | GapDamage::ChangeN => (100, 100),
            GapDamage::Zero
            | GapDamage::Wrap
            | GapDamage::Drop
            | GapDamage::Add
            | GapDamage::CountOneMore
            | GapDamage::CountOneLess
            | GapDamage::ChangeK => (0, 1_000),
            GapDamage::Any => (0, 900),
        };
        let mut answers = [0; 2];
        for _ in 0..1_000 {
            let (dictionary, mut gaps) = random_gaps(&mut random);
            damage.apply(&mut gaps, &mut random);
            let output_len = gaps.len() + random.within(0, 3);
            let answer = from_gaps(&dictionary, &gaps, output_len);
            answers[usize::from(answer.is_err())] += 1;
        }
        let enough = answers[0] >= accepted && answers[1] >= refused;
        assert!(enough, "{damage:?}: {answers:?}");
    }
}

/// Changed here and there, so that what one change does another may undo.
#[test]
fn gap_forms_with_more_damage() {
    let mut random = Random::seeded(114);
    let mut accepted = 0;
    for _ in 0..4_000 {
        let (dictionary, mut gaps) = random_gaps(&mut random);
        for _ in 0..random.within(2, 4) {
            let damages = [GapDamage::OneMore, GapDamage::OneLess, GapDamage::Move];
            random.one_of(&damages).apply(&mut gaps, &mut random);
        }
        let output_len = some_len(&gaps, &mut random);
        accepted += usize::from(from_gaps(&dictionary, &gaps, output_len).is_ok());
    }
    assert!((400..3_600).contains(&accepted), "{accepted}");
}

#[test]
fn damaged_indexes() {
    let mut random = Random::seeded(115);
    let mut answers = [0; 2];
    for damage in IndexDamage::ALL {
        for _ in 0..200 {
            let Delivery {
                dictionary,
                mut index,
            } = random_delivery(&mut random);
            if index[1] > 0 {
                damage.apply(&mut index, &mut random);
            }
            let answer = to_gaps(&dictionary, &index, index.len());
            answers[usize::from(answer.is_err())] += 1;
            from_gaps(&dictionary, &index, index.len()).ok();
        }
    }
    assert!(answers.iter().all(|&count| count >= 500), "{answers:?}");
}

/// Every slice of up to eight numbers out of 0 to 2.
#[test]
fn every_small_slice() {
    let words = Dictionary::of([vec![0], vec![2, 2]]);
    let (mut rearranged, mut restored) = (0, 0);
    for numbers in all_lists(&[0, 1, 2], 8) {
        rearranged += usize::from(to_gaps(&words, &numbers, numbers.len()).is_ok());
        restored += usize::from(from_gaps(&words, &numbers, numbers.len()).is_ok());
    }
    // Each index has one gap form, which also has no number above 2.
    assert_eq!(rearranged, restored);
    assert!(restored >= 15, "only {restored}");
}

/// The types that own what they hold are made exactly where the library accepts.
#[test]
fn owned_indexes() {
    let mut random = Random::seeded(116);
    let mut answers = [0; 10];
    for round in 0..2_000 {
        let (dictionary, mut gaps) = random_gaps(&mut random);
        if round % 3 > 0 {
            random.one_of(&GapDamage::ALL).apply(&mut gaps, &mut random);
        }
        let Dictionary { chars, lengths } = &dictionary;
        let words = Owned::from_parts(&chars[..], &lengths[..]).expect("an admitted dictionary");
        let expected = oracle::from_gaps(&dictionary, &gaps, gaps.len());
        let readable = ReadableIndex::from_gaps(&words, &gaps);
        let numbers = readable.as_ref().map(|index| index.numbers().to_vec());
        assert_eq!(numbers.map_err(|refusal| refusal.number()), expected);

        let received = expected.and_then(|index| {
            let work_len = mopekihua::work_needed(65_535);
            oracle::receive(&dictionary, &index, work_len)
        });
        let index = Index::from_gaps(&words, &gaps);
        let text = index.as_ref().map(Index::recover);
        assert_eq!(text.map_err(|refusal| refusal.number()), received);
        answers[received.err().unwrap_or(0) as usize] += 1;

        if let Ok(readable) = readable {
            assert_eq!(readable.to_gaps(), gaps);
            assert_eq!(readable.dictionary(), &words);
            assert_eq!(readable.receive(), index);
        }
        if let Ok(index) = index {
            assert_eq!(index.to_gaps(), gaps);
        }
    }
    let often = [0, 5, 9].iter().all(|&number| answers[number] >= 200);
    assert!(often, "{answers:?}");
    let none = ReadableIndex::from_gaps(&Owned::default(), &[]);
    assert_eq!(none, Err(Refusal::IndexNotReadable));
}
