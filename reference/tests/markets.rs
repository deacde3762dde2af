//! Every small market: numbers of markets, their order, worked counts and every refusal.

use reference::markets::{fails, list, markets, PLACES};

#[test]
fn there_are_so_many() {
    let counts: Vec<Vec<usize>> = (0..=5)
        .map(|accounts| (0..=4).map(|most| markets(accounts, most).unwrap().len()).collect())
        .collect();
    assert_eq!(
        counts,
        [
            vec![1, 1, 1, 1, 1],
            vec![1, 1, 1, 1, 1],
            vec![1, 3, 5, 7, 9],
            vec![1, 7, 19, 37, 61],
            vec![1, 19, 85, 231, 489],
            vec![1, 51, 381, 1_451, 3_951],
        ]
    );
}

#[test]
fn the_first_account_is_compared_first() {
    assert_eq!(markets(2, 1), Ok(vec![vec![-1, 1], vec![0, 0], vec![1, -1]]));
    let three = markets(3, 1).unwrap();
    assert_eq!(three[..2], [vec![-1, 0, 1], vec![-1, 1, 0]]);
    assert_eq!(markets(0, 4), Ok(vec![vec![]]));
}

#[test]
fn an_output_keeps_what_stands_behind() {
    let mut output = vec![9; PLACES];
    assert_eq!(list(2, 1, &mut output), Ok(3));
    assert_eq!(output[..7], [-1, 1, 0, 0, 1, -1, 9]);
    assert_eq!(list(0, 1, &mut output), Ok(1));
    assert_eq!(output[0], -1);
    assert_eq!(list(6, 5, &mut output[1..]), Err(1));
    assert_eq!(list(6, 4, &mut output), Err(7));
    assert_eq!(list(5, 5, &mut output), Err(7));
}

#[test]
fn markets_are_counted_by_their_fail_entries() {
    assert_eq!(fails(4, 1, &[0; 4]), Ok([1, 12, 6, 0, 0]));
    assert_eq!(fails(3, 2, &[2, 0, 0]), Ok([3, 0, 0, 0, 0]));
    assert_eq!(fails(3, 2, &[1, 0, 0]), Ok([2, 5, 0, 0, 0]));
    assert_eq!(fails(3, 2, &[3, 0, 0]), Ok([0; 5]));
    assert_eq!(fails(0, 0, &[]), Ok([1, 0, 0, 0, 0]));
    assert_eq!(fails(3, 2, &[0; 4]), Err(7));
    assert_eq!(fails(6, 2, &[0; 6]), Err(7));
    assert_eq!(fails(3, 5, &[0; 3]), Err(7));
}
