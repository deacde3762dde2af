//! A failing list made short: parts are left out while the list still fails.

use std::time::{Duration, Instant};

/// The longest time that is spent on making a list short.
const LIMIT: Duration = Duration::from_secs(15);

/// A short list found by leaving out parts, halves first and single items last.
pub fn shrink<T: Clone>(list: Vec<T>, mut fails: impl FnMut(&[T]) -> bool) -> Vec<T> {
    let start = Instant::now();
    let mut list = list;
    let mut part = list.len().div_ceil(2);
    while part > 0 {
        let mut at = 0;
        let before = list.len();
        while at < list.len() && start.elapsed() < LIMIT {
            let end = (at + part).min(list.len());
            let shorter: Vec<T> = list[..at].iter().chain(&list[end..]).cloned().collect();
            if fails(&shorter) {
                list = shorter;
            } else {
                at = end;
            }
        }
        part = if part == 1 && list.len() < before { 1 } else { part / 2 };
    }
    list
}

#[cfg(test)]
mod tests {
    use super::shrink;

    #[test]
    fn only_what_is_needed_stays() {
        let list: Vec<u32> = (0..1_000).collect();
        let fails = |list: &[u32]| list.contains(&17) && list.contains(&900);
        assert_eq!(shrink(list, fails), [17, 900]);
        assert_eq!(shrink(vec![1, 2, 3], |_| true), [0; 0]);
    }
}
