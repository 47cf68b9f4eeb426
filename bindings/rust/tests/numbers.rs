//! The numbers and sentences of refusals, indications, states, pilots and editions.

use lahzavar::{CarState, Edition, Indication, Pilot, Refusal, State, UnknownNumber};
use std::collections::HashSet;
use std::fmt::Debug;

/// These and no others are the numbers of a kind, there and back.
fn numbers<T>(first: u32, count: u32)
where
    T: TryFrom<u32, Error = UnknownNumber> + Into<u32> + Debug,
{
    let last = first + count - 1;
    for number in 0..=last + 2 {
        let known = (first..=last).contains(&number);
        let expected = if known { Ok(number) } else { Err(UnknownNumber(number)) };
        assert_eq!(T::try_from(number).map(T::into), expected);
    }
    assert!(T::try_from(u32::MAX).is_err());
}

#[test]
fn indications_states_pilots_and_editions() {
    numbers::<Indication>(1, 6);
    numbers::<State>(0, 4);
    numbers::<CarState>(0, 7);
    numbers::<Pilot>(0, 6);
    numbers::<Edition>(0, 2);
}

#[test]
fn every_refusal_has_its_number() {
    assert_eq!(Refusal::try_from(0), Err(UnknownNumber(0)));
    for number in (1..=25).chain([u32::MAX]) {
        let refusal = Refusal::try_from(number).unwrap();
        assert_eq!((refusal.number(), u32::from(refusal)), (number, number));
        assert_eq!(matches!(refusal, Refusal::Other(_)), number > 24);
    }
}

#[test]
fn every_refusal_has_its_sentence() {
    let texts: HashSet<&str> =
        (1..=25).map(|number| Refusal::try_from(number).unwrap().text()).collect();
    assert_eq!(texts.len(), 25);
    assert_eq!(Refusal::Other(25).text(), Refusal::Other(99).text());
    assert_eq!(
        Refusal::NotForUs.to_string(),
        "refused with 7: the frame is for another receiver, from another modem, or from ourselves"
    );
}

/// The words of the kind's numbers, in their order.
fn words<T: TryFrom<u32> + ToString>() -> Vec<String> {
    (0..10).filter_map(|number| T::try_from(number).ok()).map(|known| known.to_string()).collect()
}

#[test]
fn words_for_a_log() {
    assert_eq!(
        words::<Indication>(),
        ["no link", "link established", "found", "potentially found", "not found", "key given"]
    );
    assert_eq!(words::<State>(), ["unmatched", "matching", "joining", "matched"]);
    assert_eq!(
        words::<CarState>(),
        ["idle", "asking", "confirmed", "sounding", "requesting", "joining", "matched"]
    );
    assert_eq!(words::<Pilot>(), ["A", "B", "C", "D", "E", "F"]);
    assert_eq!(words::<Edition>(), ["ISO 15118-3", "SAE J2931/4"]);
}
