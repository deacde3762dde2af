//! The instructions of a tape's words, made on a book one after another: each as its call is, with one look at the
//! book's soundness for all of them.

use crate::{raw, Book, Done, Refusal};

/// What is told of an instruction: the number of its refusal, 0 where it is done; its count; a pair-off's lots.
pub type Numbers = [u64; 3];

/// Why a run stopped.
#[derive(Clone, Copy, Debug, PartialEq, Eq)]
pub enum Stop {
    /// All words are used.
    End,
    /// No place is left in the answers, or less than 4,096 words in the output: it goes on from the first word that
    /// is not used, with both emptied.
    Full,
    /// The reader refuses the words from the first that is not used on, by 13 or 14.
    Refused(Refusal),
}

/// What a run did.
#[derive(Clone, Copy, Debug, PartialEq, Eq)]
pub struct Ran {
    /// The instructions that are answered, the refused ones among them.
    pub answered: usize,
    /// The words that they have.
    pub used: usize,
    /// The words of their records, from the output's first on.
    pub written: usize,
    /// Why it stopped there.
    pub stop: Stop,
}

/// Runs the instructions of these words: of each its numbers in the next place of the answers, and its records in the
/// next words of the output, two a record (a pair-off, whose count is of steps, writes none). A refused instruction
/// does not stop it. Refused by 1, where there is no place in the answers or the output has fewer than 4,096 words,
/// and by 2; then nothing is changed.
pub fn run(
    book: &mut Book,
    words: &[u32],
    answers: &mut [Numbers],
    out: &mut [u32],
) -> Result<Ran, Refusal> {
    let ran = raw::run(&mut book.columns_mut(), words, answers.as_flattened_mut(), out);
    let raw::Ran { refusal, answered, used, written, .. } = ran;
    let stop = match Refusal::check(refusal) {
        Err(refused @ (Refusal::Output | Refusal::Book)) => return Err(refused),
        Err(refused) => Stop::Refused(refused),
        Ok(()) if used == words.len() => Stop::End,
        Ok(()) => Stop::Full,
    };
    Ok(Ran { answered, used, written, stop })
}

/// What these numbers say: what was done, or the refusal.
pub fn answer(numbers: &Numbers) -> Result<Done, Refusal> {
    let [refusal, count, cancelled] = *numbers;
    // a refusal's number and a count are told as they are, in more bits
    Refusal::check(refusal as u32).map(|()| Done { count: count as usize, cancelled })
}

#[cfg(test)]
mod tests {
    use super::*;
    use crate::{calls, tape, Instruction, OUTPUT_WORDS};

    /// The words of two days in which an account fails, is failed, resolves and is paired off.
    fn words() -> Vec<u32> {
        use Instruction::*;
        let instructions = [
            Trade { issue: 0, from: 4, to: 1, lots: 100 },
            Trade { issue: 0, from: 5, to: 5, lots: 30 },
            Close,
            Deliver { issue: 0, account: 4, lots: 20 },
            Cutoff,
            Roll { days: 1, rate: 300 },
            Trade { issue: 0, from: 5, to: 4, lots: 30 },
            Close,
            Cutoff,
            Resolve { issue: 0, account: 4, lots: 15 },
            PairOff { issue: 0, account: 4 },
        ];
        let mut words = Vec::new();
        for instruction in &instructions {
            let mut part = [0; 33];
            let count = tape::write(instruction, &quotes(), &mut part).expect("it fits its bits");
            words.extend_from_slice(&part[..count]);
        }
        words
    }

    /// The quotes of the roll.
    fn quotes() -> [u32; 32] {
        let mut quotes = [0; 32];
        quotes[..16].fill(100_000);
        quotes
    }

    /// Runs words whatever room there is, part by part; the answers, the records and where it stopped.
    fn whole(book: &mut Book, words: &[u32], places: usize) -> (Vec<Numbers>, Vec<u32>, Stop) {
        let (mut told, mut records, mut at) = (Vec::new(), Vec::new(), 0);
        loop {
            let (mut answers, mut out) = (vec![[7; 3]; places], vec![7; OUTPUT_WORDS]);
            let ran = run(book, &words[at..], &mut answers, &mut out).expect("there is room");
            told.extend_from_slice(&answers[..ran.answered]);
            records.extend_from_slice(&out[..ran.written]);
            assert!(answers[ran.answered..].iter().all(|numbers| *numbers == [7; 3]));
            assert!(out[ran.written..].iter().all(|word| *word == 7));
            at += ran.used;
            if ran.stop != Stop::Full {
                return (told, records, ran.stop);
            }
        }
    }

    #[test]
    fn a_run_is_the_calls_one_by_one() {
        let words = words();
        let (mut one, mut told, mut records, mut at) = (Book::fresh(), Vec::new(), Vec::new(), 0);
        while at < words.len() {
            let (instruction, count) = tape::read(&words[at..]).expect("it was written");
            let mut out = [0; OUTPUT_WORDS];
            let answer = calls::call(&mut one, &instruction, &quotes(), &mut out);
            if let (Ok(done), false) = (answer, matches!(instruction, Instruction::PairOff { .. }))
            {
                records.extend_from_slice(&out[..2 * done.count]);
            }
            told.push(answer);
            at += count;
        }
        assert_eq!(told[1], Err(Refusal::SameAccount));
        assert!(told[10].is_ok_and(|done| done.cancelled > 0));
        for places in [1, 2, 3, 100] {
            let mut book = Book::fresh();
            let (numbers, written, stop) = whole(&mut book, &words, places);
            assert!(numbers.iter().map(answer).eq(told.iter().copied()), "{places} places");
            assert_eq!((&written, stop), (&records, Stop::End), "{places} places");
            assert!(book == one, "{places} places");
        }
    }

    #[test]
    fn it_stops_where_the_reader_refuses_and_is_refused_without_room_or_a_sound_book() {
        let mut words = words();
        let right = words.len();
        words.push(8 << 28);
        let mut book = Book::fresh();
        let (told, _, stop) = whole(&mut book, &words, 3);
        assert_eq!((told.len(), stop), (11, Stop::Refused(Refusal::Word)));
        words[right] = 1 << 28;
        assert_eq!(whole(&mut Book::fresh(), &words, 3).2, Stop::Refused(Refusal::TapeEnds));

        let (before, mut answers, mut out) = (book.clone(), [[7; 3]; 9], [7; OUTPUT_WORDS]);
        assert_eq!(run(&mut book, &words, &mut [], &mut out), Err(Refusal::Output));
        assert_eq!(run(&mut book, &words, &mut answers, &mut out[1..]), Err(Refusal::Output));
        assert!(book == before && answers == [[7; 3]; 9] && out == [7; OUTPUT_WORDS]);
        book.nets[0] = 1;
        let before = book.clone();
        assert_eq!(run(&mut book, &words, &mut answers, &mut out), Err(Refusal::Book));
        assert!(book == before && answers == [[7; 3]; 9] && out == [7; OUTPUT_WORDS]);
    }
}
