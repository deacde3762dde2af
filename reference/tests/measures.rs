//! Value and charge alone, at their limits.

use reference::measures::{charge, value};

#[test]
fn lots_are_asked_before_the_rest() {
    assert_eq!(value(0, 0, 10_001), (7, 0));
    assert_eq!(value(1, 0, 0), (11, 0));
    assert_eq!(value(1, 200_001, 0), (11, 0));
    assert_eq!(charge(20_000_001, 0, 0, 10_001, 10_001), (7, 0));
    assert_eq!(charge(1, 0, 1, 1, 0), (11, 0));
    assert_eq!(charge(1, 1, 0, 1, 0), (11, 0));
    assert_eq!(charge(1, 1, 13, 1, 0), (11, 0));
    assert_eq!(charge(1, 1, 1, 10_001, 0), (11, 0));
}

#[test]
fn accrued_is_asked_alone_and_with_the_price() {
    for (price, accrued) in [(1, 10_001), (0, 5), (190_001, 10_000), (200_000, 1), (1, u32::MAX)] {
        assert_eq!(value(1, price, accrued), (11, 0));
        assert_eq!(charge(1, price, 1, 1, accrued), (11, 0));
    }
    assert_eq!(value(2, 190_000, 10_000), (0, 200_000));
    assert_eq!(value(2, 1, 10_000), (0, 10_001));
}

#[test]
fn limits_are_accepted() {
    for (price, accrued) in [(200_000, 0), (190_000, 10_000)] {
        assert_eq!(value(20_000_000, price, accrued), (0, 2_000_000_000_000));
        let (_, most) = charge(20_000_000, price, 12, 10_000, accrued);
        assert_eq!(most, 65_753_424_657);
        assert_eq!(2_048 * most, 134_663_013_697_536);
    }
    assert_eq!(value(1, 1, 0), (0, 0));
    assert_eq!(charge(1, 1, 1, 0, 0), (0, 0));
}

#[test]
fn value_is_rounded_before_the_charge() {
    assert_eq!(value(3, 49_999, 0), (0, 74_998));
    assert_eq!(charge(3, 49_999, 11, 9_999, 0), (0, 2_259));
}

#[test]
fn the_two_parts_of_a_value_round_apart() {
    assert_eq!(value(1, 61, 1), (0, 30));
    assert_eq!(charge(1, 61, 12, 10_000, 1), (0, 0));
    assert_eq!(value(3, 101, 1), (0, 152));
    assert_eq!(charge(3, 101, 12, 10_000, 1), (0, 4));
    assert_eq!(value(3, 102, 0), (0, 153));
    assert_eq!(charge(3, 102, 12, 10_000, 0), (0, 5));
}
