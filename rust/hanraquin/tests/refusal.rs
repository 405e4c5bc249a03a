//! The numbers of the refusals.

use hanraquin::{Refusal, gate};
use std::error::Error;

/// The numbers of the refusals on the gate bus.
const GATE: [u8; 7] = [1, 3, 7, 10, 11, 15, 16];

#[test]
fn numbers_go_both_ways() {
    for number in 0..=255 {
        let refusal = Refusal::from_number(number);
        assert_eq!(refusal.is_some(), (1..=12).contains(&number));
        assert_eq!(refusal.map(Refusal::number).unwrap_or(number), number);

        let refusal = gate::Refusal::from_number(number);
        assert_eq!(refusal.is_some(), GATE.contains(&number));
        assert_eq!(refusal.map(gate::Refusal::number).unwrap_or(number), number);
    }
}

/// Each of these errors begins with its number, and has a text of its own.
fn texts_differ<R: Error + 'static>(
    numbers: impl ExactSizeIterator<Item = u8> + Clone,
    from_number: fn(u8) -> Option<R>,
) {
    let texts: Vec<String> = numbers
        .clone()
        .filter_map(from_number)
        .map(|refusal| Box::<dyn Error>::from(refusal).to_string())
        .collect();
    assert_eq!(texts.len(), numbers.len());
    for (i, (text, number)) in texts.iter().zip(numbers).enumerate() {
        assert!(
            text.starts_with(&format!("refused with {number}: ")),
            "{text}"
        );
        assert!(!texts[..i].contains(text));
    }
}

#[test]
fn is_an_error_with_a_text_of_its_own() {
    texts_differ(1..=12, Refusal::from_number);
    texts_differ(GATE.into_iter(), gate::Refusal::from_number);
}
