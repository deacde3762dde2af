//! Obligated funds for a default: worked defaults and every refusal.

use reference::funds::{bases, funds, shares, MOST_PARTICIPANTS};

/// Participants 1 and 3 have equal averages, 4 has none.
const AVERAGES: [u64; 5] = [20, 60, 10, 60, 0];

/// The first five places; the others must be 0.
fn five(answer: Result<[u64; MOST_PARTICIPANTS], u32>) -> Result<[u64; 5], u32> {
    let places = answer?;
    assert!(places[5..].iter().all(|&place| place == 0));
    Ok(std::array::from_fn(|at| places[at]))
}

#[test]
fn a_base_is_nothing_fifty_or_rounded_down() {
    assert_eq!(five(bases(&AVERAGES, 25)), Ok([50, 150, 50, 150, 0]));
    assert_eq!(five(bases(&AVERAGES, 24)), Ok([50, 100, 50, 100, 0]));
    assert_eq!(five(bases(&AVERAGES, 0)), Ok([0; 5]));
    assert_eq!(five(bases(&[100, 101, 200, 199, 1], 5)), Ok([50, 50, 100, 50, 50]));
    assert_eq!(five(bases(&[1_000_000], 1_000_000)), Ok([100_000_000_000, 0, 0, 0, 0]));
}

#[test]
fn rounds_go_by_average_and_equals_by_number() {
    assert_eq!(five(funds(&AVERAGES, 25, 0)), Ok([0; 5]));
    assert_eq!(five(funds(&AVERAGES, 25, 49)), Ok([0, 49, 0, 0, 0]));
    assert_eq!(five(funds(&AVERAGES, 25, 110)), Ok([10, 50, 0, 50, 0]));
    assert_eq!(five(funds(&AVERAGES, 25, 230)), Ok([50, 80, 50, 50, 0]));
    assert_eq!(five(funds(&AVERAGES, 25, 399)), Ok([50, 150, 50, 149, 0]));
    assert_eq!(five(funds(&AVERAGES, 25, 400)), Ok([50, 150, 50, 150, 0]));
}

#[test]
fn a_full_base_is_passed_over() {
    let given = [70, 30, 10, 200, 5];
    assert_eq!(five(shares(&AVERAGES, &given, 145)), Ok([50, 30, 10, 50, 5]));
    assert_eq!(five(shares(&AVERAGES, &given, 150)), Ok([50, 30, 10, 55, 5]));
    assert_eq!(five(shares(&AVERAGES, &given, 315)), Ok(given));
    assert_eq!(five(shares(&AVERAGES, &[0, 0, 0, 0, 7], 7)), Ok([0, 0, 0, 0, 7]));
}

#[test]
fn bases_of_any_size_are_added_exactly() {
    assert_eq!(five(shares(&[1, 2], &[u64::MAX, u64::MAX], 120)), Ok([50, 70, 0, 0, 0]));
    assert_eq!(shares(&[1, 2], &[u64::MAX, 1], 1_000_001), Err(24));
}

#[test]
fn refusals_come_in_their_order() {
    assert_eq!(bases(&[0; 65], 1), Err(24));
    assert_eq!(bases(&[1_000_001], 1), Err(24));
    assert_eq!(bases(&[1], 1_000_001), Err(24));
    assert_eq!(shares(&[1], &[], 0), Err(24));
    assert_eq!(shares(&[], &[1], 0), Err(24));
    assert_eq!(shares(&[1], &[5], 6), Err(25));
    assert_eq!(funds(&[1], 1, 51), Err(25));
    assert_eq!(funds(&[1], 1, 1_000_001), Err(24));
    assert_eq!(funds(&[], 1, 1), Err(25));
    assert_eq!(funds(&[], 1, 0), Ok([0; MOST_PARTICIPANTS]));
}
