//! What two lists have in common: a longest common subsequence, found by the fewest edits that make the one list
//! of the other (Myers). Lists that are nearly equal take time by their length; of very different ones the edits
//! are looked for up to a limit.

/// A stretch that both lists have: so many, from a place of the one and of the other on.
#[derive(Clone, Copy, Debug, PartialEq, Eq)]
pub struct Stretch {
    pub places: [usize; 2],
    pub length: usize,
}

/// What two lists have in common.
#[derive(Clone, Debug, Default, PartialEq, Eq)]
pub struct Common {
    /// The stretches, in the order of both lists.
    pub stretches: Vec<Stretch>,
    /// Where there are more edits than the limit, the places behind which no more was looked for, up to the
    /// stretch with which both lists end.
    pub cut: Option<[usize; 2]>,
}

/// What lists of these lengths have in common, with at most so many edits; `same` compares a place of the one
/// with a place of the other. Each of the `2 * most + 1` diagonals is passed along once, so that the time is
/// at most by their number and the length.
pub fn common(lengths: [usize; 2], most: usize, same: impl Fn(usize, usize) -> bool) -> Common {
    let [one, other] = lengths;
    let least = one.min(other);
    let before = (0..least).take_while(|&at| same(at, at)).count();
    let like = |at: &usize| same(one - 1 - at, other - 1 - at);
    let behind = (0..least - before).take_while(like).count();
    let inner = lengths.map(|length| length - before - behind);
    // Where nothing is left of one list, all that is left of the other stands in it alone.
    let most = if inner.contains(&0) { 0 } else { most };
    let rows = rows(inner, most, |one, other| same(before + one, before + other));
    let end = end_of(&rows, inner);
    let mut common = Common::default();
    common.put(Stretch { places: [0, 0], length: before });
    for stretch in path(&rows, end) {
        common.put(Stretch { places: stretch.places.map(|place| before + place), ..stretch });
    }
    common.put(Stretch { places: lengths.map(|length| length - behind), length: behind });
    let reached = places(&rows[rows.len() - 1], end);
    let is_cut = reached != inner && !inner.contains(&0);
    common.cut = is_cut.then(|| reached.map(|place| before + place));
    common
}

impl Common {
    /// Puts a stretch behind the others, or joins it with the last where it follows it in both lists.
    fn put(&mut self, stretch: Stretch) {
        if stretch.length == 0 {
            return;
        }
        match self.stretches.last_mut() {
            Some(last) if last.places.map(|place| place + last.length) == stretch.places => {
                last.length += stretch.length;
            }
            _ => self.stretches.push(stretch),
        }
    }
}

/// For each number of edits, from 0 on, the furthest place of the first list that they reach on each diagonal:
/// at place `at` of a row of so many edits, as many of the first list are left out as `at`, and the others are
/// put in from the second. It ends with the row that reaches the end of both lists, or that of the most edits.
fn rows(lengths: [usize; 2], most: usize, same: impl Fn(usize, usize) -> bool) -> Vec<Vec<usize>> {
    let [one, other] = lengths;
    let slide = |x: usize, y: usize| {
        let left = one.saturating_sub(x).min(other.saturating_sub(y));
        x + (0..left).take_while(|&by| same(x + by, y + by)).count()
    };
    let mut rows = vec![vec![slide(0, 0)]];
    while rows.len() <= most && !(0..rows.len()).any(|at| is_end(&rows, at, lengths)) {
        let (edits, last) = (rows.len(), &rows[rows.len() - 1]);
        let furthest = |at: usize| {
            let (x, _) = step(last, at);
            slide(x, x + edits - 2 * at)
        };
        let row = (0..=edits).map(furthest).collect();
        rows.push(row);
    }
    rows
}

/// Where one edit more leads on a diagonal, and whether it puts one of the second list in; otherwise it leaves
/// one of the first list out. Of the two the one that reaches further is taken.
fn step(before: &[usize], at: usize) -> (usize, bool) {
    let put_in = before.get(at).copied();
    let left_out = at.checked_sub(1).map(|at| before[at] + 1);
    match (put_in, left_out) {
        (Some(put_in), Some(left_out)) if left_out > put_in => (left_out, false),
        (None, Some(left_out)) => (left_out, false),
        (put_in, _) => (put_in.unwrap_or_default(), true),
    }
}

/// The places of both lists that a row reaches on a diagonal.
fn places(row: &[usize], at: usize) -> [usize; 2] {
    let (x, edits) = (row[at], row.len() - 1);
    [x, x + edits - 2 * at]
}

/// Does the last row reach the end of both lists on this diagonal?
fn is_end(rows: &[Vec<usize>], at: usize, lengths: [usize; 2]) -> bool {
    places(&rows[rows.len() - 1], at) == lengths
}

/// The diagonal of the last row that reaches furthest, both lists together.
fn end_of(rows: &[Vec<usize>], lengths: [usize; 2]) -> usize {
    let row = &rows[rows.len() - 1];
    let inside = |at: &usize| {
        let [x, y] = places(row, *at);
        x <= lengths[0] && y <= lengths[1]
    };
    let reach = |at: &usize| places(row, *at).iter().sum::<usize>();
    (0..row.len()).filter(inside).max_by_key(reach).unwrap_or_default()
}

/// The stretches along the path that ends on this diagonal of the last row.
fn path(rows: &[Vec<usize>], end: usize) -> Vec<Stretch> {
    let (mut at, mut stretches) = (end, Vec::new());
    for edits in (0..rows.len()).rev() {
        let x = rows[edits][at];
        let (from, put_in) = match edits {
            0 => (0, true),
            _ => step(&rows[edits - 1], at),
        };
        stretches.push(Stretch { places: [from, from + edits - 2 * at], length: x - from });
        at -= usize::from(!put_in);
    }
    stretches.reverse();
    stretches
}

#[cfg(test)]
mod tests {
    use super::*;

    /// Numbers that look random, from a seed.
    struct Numbers(u64);

    impl Numbers {
        fn below(&mut self, limit: usize) -> usize {
            self.0 = self.0.wrapping_mul(0x5851_f42d_4c95_7f2d).wrapping_add(0x1405_7b7e_f767_814f);
            (self.0 >> 33) as usize % limit
        }

        fn list(&mut self, longest: usize, letters: usize) -> Vec<usize> {
            (0..self.below(longest + 1)).map(|_| self.below(letters)).collect()
        }
    }

    fn of(one: &[usize], other: &[usize], most: usize) -> Common {
        common([one.len(), other.len()], most, |a, b| one[a] == other[b])
    }

    /// The length of a longest common subsequence, by a table of all pairs of places.
    fn longest(one: &[usize], other: &[usize]) -> usize {
        let mut row = vec![0; other.len() + 1];
        for x in one {
            let mut corner = 0;
            for (at, y) in other.iter().enumerate() {
                let above = row[at + 1];
                row[at + 1] = if x == y { corner + 1 } else { above.max(row[at]) };
                corner = above;
            }
        }
        row[other.len()]
    }

    /// Is it a common subsequence, its stretches apart and in order? Answers its length.
    fn is_common(one: &[usize], other: &[usize], found: &Common) -> usize {
        let mut ends = [0, 0];
        for (at, Stretch { places: [a, b], length }) in found.stretches.iter().copied().enumerate()
        {
            assert!(length > 0 && a >= ends[0] && b >= ends[1], "{found:?}");
            assert!(at == 0 || [a, b] != ends, "stretches that follow are one: {found:?}");
            assert_eq!(one[a..a + length], other[b..b + length], "{found:?}");
            ends = [a + length, b + length];
        }
        found.stretches.iter().map(|stretch| stretch.length).sum()
    }

    #[test]
    fn it_is_as_long_as_that_of_the_table() {
        let mut numbers = Numbers(1);
        for case in 0..4_000 {
            let letters = 1 + case % 5;
            let (one, other) = (numbers.list(14, letters), numbers.list(14, letters));
            let found = of(&one, &other, 28);
            assert_eq!(is_common(&one, &other, &found), longest(&one, &other), "{one:?} {other:?}");
            assert_eq!(found.cut, None);
        }
    }

    #[test]
    fn behind_the_limit_nothing_is_looked_for() {
        let mut numbers = Numbers(7);
        let mut cuts = 0;
        for case in 0..4_000 {
            let (one, other) = (numbers.list(14, 3), numbers.list(14, 3));
            let edits = one.len() + other.len() - 2 * longest(&one, &other);
            let most = case % 8;
            let found = of(&one, &other, most);
            let length = is_common(&one, &other, &found);
            assert!(found.cut.is_none() || edits > most, "{one:?} {other:?} {most}");
            let Some(cut) = found.cut else {
                assert_eq!(length, longest(&one, &other));
                continue;
            };
            cuts += 1;
            // Up to the cut it took the most edits, and behind it is at most the last stretch.
            let before = found.stretches.iter().filter(|one| one.places[0] < cut[0]);
            let before: usize = before.map(|one| one.length).sum();
            assert_eq!(cut[0] + cut[1] - 2 * before, most, "{one:?} {other:?} {found:?}");
            let behind = found.stretches.iter().filter(|one| one.places[0] >= cut[0]);
            assert!(behind.count() <= 1, "{found:?}");
        }
        assert!(cuts > 1_000, "{cuts} cuts");
    }

    #[test]
    fn equal_lists_and_empty_ones() {
        let many: Vec<usize> = (0..1_000_000).map(|at| at % 3).collect();
        let whole = Stretch { places: [0, 0], length: many.len() };
        assert_eq!(of(&many, &many, 10).stretches, [whole]);
        assert_eq!(of(&[], &[], 10), Common::default());
        assert_eq!(of(&[], &many, 10).stretches, []);
        assert_eq!(of(&[5], &many, 0).cut, Some([0, 0]));
        assert_eq!(of(&[1, 2], &[1, 2, 2], 0).cut, None);
        assert_eq!(of(&[1, 2, 3], &[1, 2, 4], 1).cut, Some([3, 2]));
    }

    #[test]
    fn a_million_places_with_some_edits_take_time_by_their_length() {
        let one: Vec<usize> = (0..1_000_000).collect();
        let mut other = one.clone();
        for at in (0..100).rev() {
            other.remove(at * 9_999 + 7);
        }
        other.swap(400_001, 400_002);
        let found = of(&one, &other, 1_000);
        assert_eq!((is_common(&one, &other, &found), found.cut), (999_899, None));
        // Nothing in common: the limit ends it.
        let strange: Vec<usize> = (2_000_000..3_000_000).collect();
        let found = of(&one, &strange, 1_000);
        assert_eq!((found.stretches.len(), found.cut.is_some()), (0, true));
    }
}
