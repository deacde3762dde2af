//! A fail inside a trust account: worked days and every refusal.

use reference::trust::{shares, Report, MOST_REPORTS};

const NO: bool = false;
const EARLIER: bool = true;

fn report(sub_account: u32, counterparty: u32, lots: i32, earlier_fail: bool) -> Report {
    Report { sub_account, counterparty, lots, earlier_fail }
}

/// Sub-account 0 receives more than it delivers, 1 as much, 2 and 3 only receive; 4 delivers more,
/// with an earlier fail.
fn day() -> Vec<Report> {
    vec![
        report(0, 4, 30_000, NO),
        report(0, 5, -10_000, NO),
        report(1, 4, 20_000, NO),
        report(1, 6, -20_000, NO),
        report(2, 6, 40_000, NO),
        report(2, 4, 5_000, EARLIER),
        report(3, 4, 8_000, NO),
        report(4, 6, -2_000, EARLIER),
        report(4, 4, 1_000, NO),
    ]
}

const DRAWN: [u32; 9] = [4, 8, 6, 1, 0, 5, 3, 2, 7];

/// The number and the first nine places; the others must be as they came.
fn put(reports: &[Report], draw: &[u32], fail: u32, failing: u32) -> (u32, [u32; 9]) {
    let mut output = [7; MOST_REPORTS];
    let number = shares(reports, draw, fail, failing, &mut output);
    assert!(output[9..].iter().all(|&place| place == 7));
    (number, std::array::from_fn(|at| output[at]))
}

#[test]
fn those_facing_the_failing_account_come_first() {
    let shared = [30_000, 0, 0, 0, 11_000, 0, 8_000, 0, 1_000];
    assert_eq!(put(&day(), &DRAWN, 50_000, 4), (0, shared));
    assert_eq!(put(&day(), &DRAWN, 40_500, 63), (0, [0, 0, 0, 0, 40_000, 0, 0, 0, 500]));
}

#[test]
fn the_draw_orders_each_group() {
    let ascending: Vec<u32> = (0..9).collect();
    assert_eq!(put(&day(), &DRAWN, 33_000, 4), (0, [24_000, 0, 0, 0, 0, 0, 8_000, 0, 1_000]));
    assert_eq!(put(&day(), &ascending, 33_000, 4), (0, [30_000, 0, 0, 0, 0, 0, 3_000, 0, 0]));
}

#[test]
fn earlier_fails_are_dropped() {
    let kept: Vec<Report> =
        day().into_iter().map(|report| Report { earlier_fail: NO, ..report }).collect();
    let shared = [30_000, 0, 0, 0, 7_000, 5_000, 8_000, 0, 0];
    assert_eq!(put(&kept, &DRAWN, 50_000, 4), (0, shared));
}

#[test]
fn refusals_write_nothing() {
    let refused = |number| (number, [7; 9]);
    let mut short = [7; MOST_REPORTS - 1];
    assert_eq!(shares(&day(), &DRAWN, 50_000, 4, &mut short), 1);
    assert_eq!(short, [7; MOST_REPORTS - 1]);
    assert_eq!(put(&day(), &[], 0, 64), refused(5));
    let mut faced = day();
    faced[5].counterparty = 64;
    assert_eq!(put(&faced, &[], 0, 4), refused(5));
    assert_eq!(put(&day(), &[], 0, 4), refused(7));
    assert_eq!(put(&day(), &[], 20_000_001, 4), refused(7));
    let mut large = day();
    large[7].lots = -20_000_001;
    assert_eq!(put(&large, &[], 1, 4), refused(7));
    assert_eq!(put(&day(), &[], 1, 4), refused(21));
    assert_eq!(put(&day(), &[4, 8, 6, 1, 0, 5, 3, 2, 2], 1, 4), refused(21));
    assert_eq!(put(&day(), &[4, 8, 6, 1, 0, 5, 3, 2, 7, 7], 1, 4), refused(21));
    let mut unknown = day();
    unknown[5].sub_account = 32;
    assert_eq!(put(&unknown, &DRAWN, 79_001, 4), refused(22));
    assert_eq!(put(&day(), &DRAWN, 79_001, 4), refused(23));
    assert_eq!(put(&day(), &DRAWN, 79_000, 4).0, 0);
    assert_eq!(put(&[], &[], 1, 4), refused(23));
}

#[test]
fn the_draw_is_judged_before_the_number_of_reports() {
    let many = vec![report(0, 4, 1, NO); MOST_REPORTS + 1];
    let right: Vec<u32> = (0..many.len() as u32).rev().collect();
    let mut wrong = right.clone();
    wrong[0] = 0;
    assert_eq!(put(&many, &right, 1, 4), (22, [7; 9]));
    assert_eq!(put(&many, &wrong, 1, 4), (21, [7; 9]));
    let mut output = [7; MOST_REPORTS];
    let most = vec![report(31, 4, 20_000_000, NO); MOST_REPORTS];
    let draw: Vec<u32> = (0..MOST_REPORTS as u32).rev().collect();
    assert_eq!(shares(&most, &draw, 20_000_000, 4, &mut output), 0);
    assert_eq!(output[255], 20_000_000);
    assert!(output[..255].iter().all(|&share| share == 0));
}
