//! Obligated funds for a default: each participant's base contribution and its share of the funds
//! (document 002, 3(2)). Amounts are in 100 million yen.

use crate::questions::ask;
use std::collections::VecDeque;

/// The most participants, and the places of an answer.
pub const MOST_PARTICIPANTS: usize = 64;
/// The most of an average, of the factor in tenths and of the funds.
pub const MOST_AMOUNT: u64 = 1_000_000;
/// Funds are allotted in pieces of 5 billion yen.
const PIECE: u64 = 50;

/// What is answered by participant number from 0; 0 beyond the participants.
pub type Amounts = [u64; MOST_PARTICIPANTS];

/// The base contributions of averages, for a factor in tenths.
pub fn bases(averages: &[u64], tenths: u64) -> Result<Amounts, u32> {
    ask_participants(averages)?;
    ask(24, tenths <= MOST_AMOUNT)?;
    Ok(placed(averages.iter().map(|&average| base(average, tenths))))
}

/// The shares of the funds among participants with these bases.
pub fn shares(averages: &[u64], bases: &[u64], funds: u64) -> Result<Amounts, u32> {
    ask_participants(averages)?;
    ask(24, bases.len() == averages.len())?;
    ask(24, funds <= MOST_AMOUNT)?;
    let together: u128 = bases.iter().map(|&base| u128::from(base)).sum();
    ask(25, u128::from(funds) <= together)?;
    Ok(placed(allotted(averages, bases, funds)))
}

/// The shares of the funds among participants with the bases of their averages.
pub fn funds(averages: &[u64], tenths: u64, funds: u64) -> Result<Amounts, u32> {
    let bases = bases(averages, tenths)?;
    shares(averages, &bases[..averages.len()], funds)
}

/// 24. Are there at most 64 participants, with averages of at most 1,000,000?
fn ask_participants(averages: &[u64]) -> Result<(), u32> {
    ask(24, averages.len() <= MOST_PARTICIPANTS)?;
    ask(24, averages.iter().all(|&average| average <= MOST_AMOUNT))
}

/// The amounts at the places of their numbers.
fn placed(amounts: impl IntoIterator<Item = u64>) -> Amounts {
    let mut places = [0; MOST_PARTICIPANTS];
    for (place, amount) in places.iter_mut().zip(amounts) {
        *place = amount;
    }
    places
}

/// Average × factor, the factor in tenths: zero is zero; more than zero and not more than 5 billion
/// yen is 5 billion yen; more is rounded downwards by each 5 billion yen.
fn base(average: u64, tenths: u64) -> u64 {
    let tenths_of_amount = average * tenths;
    if tenths_of_amount == 0 {
        return 0;
    }
    let whole_pieces = tenths_of_amount / 10 / PIECE;
    PIECE * whole_pieces.max(1)
}

/// The funds, 100 million yen by 100 million yen: the participants wait in a line in their order. The
/// first of the line gets one after the other until it has a piece more or its base is full; then it
/// goes to the line's end, or out of the line for good.
fn allotted(averages: &[u64], bases: &[u64], funds: u64) -> Vec<u64> {
    let mut order: Vec<usize> = (0..averages.len()).collect();
    order.sort_by(|&one, &other| averages[other].cmp(&averages[one]).then(one.cmp(&other)));
    let mut line: VecDeque<usize> = order.into();
    let mut shares = vec![0; averages.len()];
    let mut in_turn = 0;
    for _ in 0..funds {
        while line.front().is_some_and(|&first| shares[first] == bases[first]) {
            line.pop_front();
            in_turn = 0;
        }
        let Some(&first) = line.front() else { return shares };
        shares[first] += 1;
        in_turn += 1;
        if in_turn == PIECE {
            line.rotate_left(1);
            in_turn = 0;
        }
    }
    shares
}
