//! A small seeded generator of random numbers (splitmix64).

/// The step of the generator's state, odd and without pattern.
const STEP: u64 = 0x9e37_79b9_7f4a_7c15;

/// A generator; the same seed gives the same numbers.
#[derive(Clone, Debug)]
pub struct Rng {
    state: u64,
}

impl Rng {
    /// The generator of a seed.
    pub fn new(seed: u64) -> Rng {
        Rng { state: mix(seed) }
    }

    /// The generator of one case of a seed; the case can be made again without those before it.
    pub fn of_case(seed: u64, case: u64) -> Rng {
        Rng { state: mix(mix(seed) ^ mix(!case)) }
    }

    /// The next 64 random bits.
    pub fn next_u64(&mut self) -> u64 {
        self.state = self.state.wrapping_add(STEP);
        mix(self.state)
    }

    /// Any 32-bit number.
    pub fn next_u32(&mut self) -> u32 {
        (self.next_u64() >> 32) as u32
    }

    /// A number from low to high, both included; low must not be above high.
    pub fn range(&mut self, low: u32, high: u32) -> u32 {
        assert!(low <= high, "range: {low} is above {high}");
        let span = u64::from(high - low) + 1;
        low + ((u64::from(self.next_u32()) * span) >> 32) as u32
    }

    /// One item of a list that is not empty.
    pub fn pick<'a, T>(&mut self, items: &'a [T]) -> &'a T {
        assert!(!items.is_empty(), "pick: the list is empty");
        &items[((u128::from(self.next_u64()) * items.len() as u128) >> 64) as usize]
    }

    /// True in so many cases of so many.
    pub fn chance(&mut self, cases: u32, of: u32) -> bool {
        assert!(of > 0, "chance: of 0 cases");
        self.range(0, of - 1) < cases
    }
}

/// Spreads each bit over the whole word.
fn mix(state: u64) -> u64 {
    let mut bits = state;
    bits = (bits ^ (bits >> 30)).wrapping_mul(0xbf58_476d_1ce4_e5b9);
    bits = (bits ^ (bits >> 27)).wrapping_mul(0x94d0_49bb_1331_11eb);
    bits ^ (bits >> 31)
}

#[cfg(test)]
mod tests {
    use super::Rng;

    #[test]
    fn the_same_seed_gives_the_same_numbers() {
        let numbers = |mut rng: Rng| [rng.next_u64(), rng.next_u64(), rng.next_u64()];
        assert_eq!(numbers(Rng::new(7)), numbers(Rng::new(7)));
        assert_ne!(numbers(Rng::new(7)), numbers(Rng::new(8)));
        assert_eq!(numbers(Rng::of_case(7, 3)), numbers(Rng::of_case(7, 3)));
        assert_ne!(numbers(Rng::of_case(7, 3)), numbers(Rng::of_case(7, 4)));
    }

    #[test]
    fn range_meets_both_ends_and_nothing_else() {
        let mut rng = Rng::new(1);
        let mut seen = [0; 5];
        for _ in 0..1_000 {
            seen[(rng.range(10, 14) - 10) as usize] += 1;
        }
        assert!(seen.iter().all(|&times| times > 100));
        assert_eq!(rng.range(u32::MAX, u32::MAX), u32::MAX);
        assert!((0..100).any(|_| rng.range(0, u32::MAX) > u32::MAX / 2));
    }

    #[test]
    fn pick_and_chance_meet_every_case() {
        let mut rng = Rng::new(2);
        let items = ["a", "b", "c"];
        for item in items {
            assert!((0..100).any(|_| *rng.pick(&items) == item));
        }
        assert!((0..100).any(|_| rng.chance(1, 4)));
        assert!((0..100).any(|_| !rng.chance(1, 4)));
        assert!((0..100).all(|_| rng.chance(4, 4) && !rng.chance(0, 4)));
    }
}
