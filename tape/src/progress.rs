//! Progress of long work: where standard error is a terminal, and nothing was said to it for two seconds,
//! how far the work is. The line is taken away before anything else is said.

use crate::measure::Grouped;
use std::io::{self, IsTerminal, Write};
use std::sync::atomic::{AtomicBool, AtomicU64, Ordering};
use std::sync::OnceLock;
use std::time::{Duration, Instant};

/// How long nothing is said before progress is, and how often it is told anew.
const SILENCE: Duration = Duration::from_secs(2);
const ANEW: Duration = Duration::from_millis(250);
/// The clock is looked at once in so many instructions.
const INSTRUCTIONS: u32 = 1_024;

/// Does a line of progress stand on the terminal?
static SHOWN: AtomicBool = AtomicBool::new(false);
/// When something was last said to the terminal, in milliseconds since the first meter was begun.
static SPOKEN: AtomicU64 = AtomicU64::new(0);

/// When the first meter was begun.
fn begun() -> Instant {
    static BEGUN: OnceLock<Instant> = OnceLock::new();
    *BEGUN.get_or_init(Instant::now)
}

/// How far work has come: so many things of all, where it is known how many they are.
pub struct Meter {
    thing: &'static str,
    all: Option<usize>,
    /// The clock is looked at once in so many steps.
    every: u32,
    steps: u32,
    begun: Instant,
    shown: Option<Instant>,
    terminal: bool,
}

impl Meter {
    /// A tape of so many words is read, instruction by instruction; none where it is not known how many.
    pub fn of_words(all: Option<usize>) -> Meter {
        Meter::new("word", all, INSTRUCTIONS)
    }

    /// So many things are done, each of which may take long.
    pub fn of_things(thing: &'static str, all: usize) -> Meter {
        Meter::new(thing, Some(all), 1)
    }

    fn new(thing: &'static str, all: Option<usize>, every: u32) -> Meter {
        begun();
        let (begun, terminal) = (Instant::now(), io::stderr().is_terminal());
        Meter { thing, all, every, steps: 0, begun, shown: None, terminal }
    }

    /// The work is at this word or thing.
    #[inline(always)]
    pub fn at(&mut self, at: usize) {
        self.steps += 1;
        if self.steps >= self.every {
            self.steps = 0;
            self.look(at);
        }
    }

    /// The work is at this word, so many instructions further on.
    pub fn after(&mut self, steps: usize, at: usize) {
        self.steps = self.steps.saturating_add(u32::try_from(steps).unwrap_or(u32::MAX));
        if self.steps >= self.every {
            self.steps = 0;
            self.look(at);
        }
    }

    /// Tells how far it is, if it is time to.
    fn look(&mut self, at: usize) {
        let now = Instant::now();
        let spoken = begun() + Duration::from_millis(SPOKEN.load(Ordering::Relaxed));
        if !self.terminal || !is_time(now, [self.begun, spoken], self.shown) {
            return;
        }
        self.shown = Some(now);
        SHOWN.store(true, Ordering::Relaxed);
        // Where standard error fails, nothing is left to say it to.
        let _ = write!(io::stderr(), "\r\x1b[K{}", self.line(at));
    }

    /// The line of progress.
    fn line(&self, at: usize) -> String {
        let thing = self.thing;
        let Some(all) = self.all else { return format!("tape: {thing} {}", Grouped(at as i128)) };
        let percent = at.saturating_mul(100) / all.max(1);
        let (at, all) = (Grouped(at as i128), Grouped(all as i128));
        format!("tape: {thing} {at} of {all}, {percent} percent")
    }
}

impl Drop for Meter {
    fn drop(&mut self) {
        clear();
    }
}

/// Is it time to tell, two seconds after each of these, and a moment after it was last told?
fn is_time(now: Instant, since: [Instant; 2], shown: Option<Instant>) -> bool {
    let silent = since.iter().all(|one| now.saturating_duration_since(*one) >= SILENCE);
    silent && shown.is_none_or(|shown| now.saturating_duration_since(shown) >= ANEW)
}

/// Takes the line of progress away, if one stands there.
pub fn clear() {
    if SHOWN.swap(false, Ordering::Relaxed) {
        let _ = write!(io::stderr(), "\r\x1b[K");
    }
}

/// Something is said to the terminal now.
pub fn spoken() {
    clear();
    SPOKEN.store(begun().elapsed().as_millis() as u64, Ordering::Relaxed);
}

#[cfg(test)]
mod tests {
    use super::*;

    #[test]
    fn progress_is_told_after_two_seconds_of_silence_and_four_times_a_second() {
        let start = Instant::now();
        let after = |milliseconds| start + Duration::from_millis(milliseconds);
        assert!(!is_time(after(1_999), [start; 2], None));
        assert!(is_time(after(2_000), [start; 2], None));
        assert!(!is_time(after(2_900), [start, after(1_000)], None));
        assert!(is_time(after(3_000), [start, after(1_000)], None));
        assert!(!is_time(after(3_200), [start; 2], Some(after(3_000))));
        assert!(is_time(after(3_250), [start; 2], Some(after(3_000))));
        assert_eq!(Meter::of_words(None).line(1_234_567), "tape: word 1,234,567");
        let mut meter = Meter::of_words(Some(4_000_000));
        assert_eq!(meter.line(1_234_567), "tape: word 1,234,567 of 4,000,000, 30 percent");
        meter.at(1);
        assert_eq!((meter.steps, meter.shown), (1, None));
    }
}
