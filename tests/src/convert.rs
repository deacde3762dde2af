//! Between the library's types and the second engine's, which are each its own.

use reference::access::Caller;
use reference::book;
use reference::calls::Ticket;
use reference::tape::Instruction;
use settlement_day::{LIFT_PLACES, LIFT_WORDS};

/// The library's phase of a phase.
pub fn phase_of(phase: book::Phase) -> settlement_day::Phase {
    match phase {
        book::Phase::Taking => settlement_day::Phase::TAKING,
        book::Phase::Settling => settlement_day::Phase::SETTLING,
        book::Phase::Cut => settlement_day::Phase::CUT,
    }
}

/// The library's book with the same numbers.
pub fn library_book(book: &book::Book) -> settlement_day::Book {
    settlement_day::Book {
        day: book.day,
        phase: phase_of(book.phase),
        entries: book.count,
        marks: book.marks,
        turn: book.turn,
        nets: book.nets,
        delivered: book.delivered,
        lifts: lift_words(&book.lifts),
        charges: book.charges,
        issues: book.issues,
        froms: book.froms,
        tos: book.tos,
        lots: book.lots,
        days: book.days,
    }
}

/// The library's words of lifts: of each issue their number, the count, then each lift's old and new
/// place, unused ones too.
pub fn lift_words(lifts: &[book::Lifts; book::ISSUES]) -> [u32; LIFT_PLACES] {
    let mut words = [0; LIFT_PLACES];
    for (words, lifts) in words.chunks_exact_mut(LIFT_WORDS).zip(lifts) {
        let places = lifts.moves.iter().flat_map(|lift| [lift.old, lift.new]);
        let all = [lifts.number, lifts.count].into_iter().chain(places);
        words.iter_mut().zip(all).for_each(|(word, number)| *word = number);
    }
    words
}

/// The lifts of each issue, of the library's words.
pub fn lifts_of_words(words: &[u32; LIFT_PLACES]) -> [book::Lifts; book::ISSUES] {
    let mut lifts = [book::Lifts::default(); book::ISSUES];
    for (lifts, words) in lifts.iter_mut().zip(words.chunks_exact(LIFT_WORDS)) {
        (lifts.number, lifts.count) = (words[0], words[1]);
        for (lift, place) in lifts.moves.iter_mut().zip(words[2..].chunks_exact(2)) {
            *lift = book::Lift { old: place[0], new: place[1] };
        }
    }
    lifts
}

/// The library's caller of a caller.
pub fn library_caller(caller: &Caller) -> settlement_day::Caller {
    let Caller { number, owners } = *caller;
    settlement_day::Caller { number, owners }
}

/// The library's ticket of a ticket.
pub fn library_ticket(ticket: &Ticket) -> settlement_day::Ticket {
    let Ticket { issue, unit, account, lots, day, count } = *ticket;
    settlement_day::Ticket { issue, unit, account, lots, day, count }
}

/// The second engine's book with the same numbers; none where the phase is above 2.
pub fn reference_book(book: &settlement_day::Book) -> Option<book::Book> {
    Some(book::Book {
        day: book.day,
        phase: match book.phase {
            settlement_day::Phase::TAKING => book::Phase::Taking,
            settlement_day::Phase::SETTLING => book::Phase::Settling,
            settlement_day::Phase::CUT => book::Phase::Cut,
            _ => return None,
        },
        marks: book.marks,
        turn: book.turn,
        nets: book.nets,
        delivered: book.delivered,
        lifts: lifts_of_words(&book.lifts),
        charges: book.charges,
        count: book.entries,
        issues: book.issues,
        froms: book.froms,
        tos: book.tos,
        lots: book.lots,
        days: book.days,
    })
}

/// Do the two books have the same numbers?
pub fn same_numbers(one: &book::Book, other: &settlement_day::Book) -> bool {
    one.day == other.day
        && phase_of(one.phase) == other.phase
        && one.count == other.entries
        && one.marks == other.marks
        && one.turn == other.turn
        && one.nets == other.nets
        && one.delivered == other.delivered
        && lift_words(&one.lifts) == other.lifts
        && one.charges == other.charges
        && one.issues == other.issues
        && one.froms == other.froms
        && one.tos == other.tos
        && one.lots == other.lots
        && one.days == other.days
}

/// The library's instruction of an instruction.
pub fn library_instruction(instruction: &Instruction) -> settlement_day::Instruction {
    match *instruction {
        Instruction::Trade { issue, from, to, lots } => {
            settlement_day::Instruction::Trade { issue, from, to, lots }
        }
        Instruction::Deliver { issue, account, lots } => {
            settlement_day::Instruction::Deliver { issue, account, lots }
        }
        Instruction::Resolve { issue, account, lots } => {
            settlement_day::Instruction::Resolve { issue, account, lots }
        }
        Instruction::PairOff { issue, account } => {
            settlement_day::Instruction::PairOff { issue, account }
        }
        Instruction::Close => settlement_day::Instruction::Close,
        Instruction::Cutoff => settlement_day::Instruction::Cutoff,
        Instruction::Roll { days, rate } => settlement_day::Instruction::Roll { days, rate },
        Instruction::Mark { issue, mark } => settlement_day::Instruction::Mark { issue, mark },
        Instruction::Turn { day } => settlement_day::Instruction::Turn { day },
    }
}

/// The second engine's instruction of an instruction.
pub fn reference_instruction(instruction: &settlement_day::Instruction) -> Instruction {
    match *instruction {
        settlement_day::Instruction::Trade { issue, from, to, lots } => {
            Instruction::Trade { issue, from, to, lots }
        }
        settlement_day::Instruction::Deliver { issue, account, lots } => {
            Instruction::Deliver { issue, account, lots }
        }
        settlement_day::Instruction::Resolve { issue, account, lots } => {
            Instruction::Resolve { issue, account, lots }
        }
        settlement_day::Instruction::PairOff { issue, account } => {
            Instruction::PairOff { issue, account }
        }
        settlement_day::Instruction::Close => Instruction::Close,
        settlement_day::Instruction::Cutoff => Instruction::Cutoff,
        settlement_day::Instruction::Roll { days, rate } => Instruction::Roll { days, rate },
        settlement_day::Instruction::Mark { issue, mark } => Instruction::Mark { issue, mark },
        settlement_day::Instruction::Turn { day } => Instruction::Turn { day },
    }
}

/// The library's entry of an entry.
pub fn library_entry(entry: book::Entry) -> settlement_day::Entry {
    let book::Entry { issue, from, to, lots, day } = entry;
    settlement_day::Entry { issue, from, to, lots, day }
}

#[cfg(test)]
mod tests {
    use super::*;
    use crate::books::{random_book, Shape};
    use crate::rng::Rng;

    #[test]
    fn books_there_and_back() {
        for case in 0..20 {
            let mut rng = Rng::of_case(3, case);
            let shape = Shape::few(&mut rng);
            let book = random_book(&mut rng, &shape);
            let same = library_book(&book);
            assert!(same_numbers(&book, &same));
            assert_eq!(reference_book(&same), Some(book));
        }
    }

    #[test]
    fn each_word_of_lifts_has_its_place() {
        let mut words = [0; LIFT_PLACES];
        (1..).zip(&mut words).for_each(|(number, word)| *word = number);
        let lifts = lifts_of_words(&words);
        assert_eq!(lift_words(&lifts), words);
        assert_eq!((lifts[1].number, lifts[1].count), (19, 20));
        assert_eq!(lifts[1].moves[0], book::Lift { old: 21, new: 22 });
        assert_eq!(lifts[15].moves[7], book::Lift { old: 287, new: 288 });
    }

    #[test]
    fn a_difference_in_any_field_is_seen() {
        let fresh = book::Book::fresh();
        let changes: [fn(&mut settlement_day::Book); 18] = [
            |book| book.day = 1,
            |book| book.phase = settlement_day::Phase(3),
            |book| book.entries = 1,
            |book| book.marks[0] = 1,
            |book| book.marks[15] = 255,
            |book| book.turn = 1,
            |book| book.turn = 1 << 31,
            |book| book.nets[1_023] = 1,
            |book| book.delivered[1_023] = 1,
            |book| book.lifts[0] = 1,
            |book| book.lifts[15 * 18 + 1] = 1,
            |book| book.lifts[287] = 1,
            |book| book.charges[63] = 1,
            |book| book.issues[2_047] = 1,
            |book| book.froms[2_047] = 1,
            |book| book.tos[2_047] = 1,
            |book| book.lots[2_047] = 1,
            |book| book.days[2_047] = 1,
        ];
        for change in changes {
            let mut book = settlement_day::Book::fresh();
            change(&mut book);
            assert!(!same_numbers(&fresh, &book));
        }
        let damaged = settlement_day::Book {
            phase: settlement_day::Phase(3),
            ..settlement_day::Book::fresh()
        };
        assert_eq!(reference_book(&damaged), None);
    }
}
