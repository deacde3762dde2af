//! Requests with their caller: what each engine answers, and what the caller is told of it.

use crate::books::Shape;
use crate::convert::{library_caller, library_entry, library_ticket};
use crate::desks::Trial;
use crate::engines::{by_reference, plain, Answer};
use crate::random_calls::random_call;
use crate::random_lifts::Tickets;
use crate::rng::Rng;
use crate::steps::Call;
use reference::access::{read, without_right, Caller, ReadAnswer};
use reference::book::Book;
use reference::simulation::{simulate, Outcome, Plan, Units};
use settlement_day::raw;

/// A request of a book.
#[derive(Clone, Debug, PartialEq, Eq)]
pub enum Request {
    Call(Call),
    Read { issue: u32, account: u32, k: u32 },
    Simulate(Plan),
}

impl Request {
    /// Has the caller the right to it?
    pub fn allowed(&self, caller: &Caller) -> bool {
        match *self {
            Request::Call(Call::Deliver { account, .. } | Call::Resolve { account, .. })
            | Request::Read { account, .. } => caller.may_act_for(account),
            _ => caller.is_operator(),
        }
    }

    /// Does it change the book where it is not refused?
    pub fn is_call(&self) -> bool {
        let question = |call: &Call| {
            matches!(call, Call::Sound | Call::Unit { .. } | Call::Status { .. } | Call::Ask { .. })
        };
        matches!(self, Request::Call(call) if !question(call))
    }

    /// The words of the output that it is lent.
    pub fn output(&self) -> usize {
        match *self {
            Request::Call(
                Call::Deliver { out, .. }
                | Call::Commit { out, .. }
                | Call::Cutoff { out }
                | Call::Resolve { out, .. },
            ) => out,
            _ => 0,
        }
    }
}

/// The second engine's answer; where the caller has not the right, the call is made on a copy.
pub fn reference_answer(
    book: &mut Book,
    caller: &Caller,
    request: &Request,
    out: &mut [u32],
) -> Answer {
    if let Request::Read { issue, account, k } = *request {
        return seen(read(book, caller, issue, account, k));
    }
    if request.allowed(caller) {
        return asked(book, request, out);
    }
    let number = asked(&mut book.clone(), request, &mut out.to_vec()).number;
    plain(without_right(number), &[])
}

/// The answer to a call, a question or a simulation of one who has the right.
fn asked(book: &mut Book, request: &Request, out: &mut [u32]) -> Answer {
    match request {
        Request::Call(call) => by_reference(book, call, out),
        Request::Simulate(plan) => {
            let found = simulate(book, plan, Units::Runs);
            let number = found.err().unwrap_or(0);
            let Outcome { deliveries, rounds, owed } = found.unwrap_or_default();
            plain(number, &[deliveries, rounds, digest(owed)])
        }
        Request::Read { .. } => unreachable!("a reading has its caller"),
    }
}

/// The library's answer.
pub fn library_answer(
    book: &mut settlement_day::Book,
    caller: &Caller,
    request: &Request,
    out: &mut [u32],
) -> Answer {
    let caller = &library_caller(caller);
    let call = match request {
        Request::Call(call) => call,
        Request::Simulate(Plan { settlement, inventories, size }) => {
            let tried = raw::simulate_as(caller, &book.columns(), settlement, inventories, *size);
            let owed = digest(tried.owed.map(u64::from));
            return plain(tried.refusal, &[tried.deliveries, tried.rounds, owed]);
        }
        Request::Read { issue, account, k } => {
            let seen = raw::look(caller, &book.columns(), *issue, *account, *k);
            let entry = (seen.some == 1).then_some(seen.entry);
            return seen_numbers(seen.refusal, seen.net, seen.charge, entry);
        }
    };
    let answer = match *call {
        Call::Sound => unreachable!("soundness is no request"),
        Call::Unit { issue, k } => {
            let unit = raw::unit_as(caller, &book.columns(), issue, k);
            let others = [unit.found.into(), unit.account.into(), unit.lots.into()];
            return plain(unit.refusal, &others);
        }
        Call::Status { issue, k } => {
            let status = raw::status_as(caller, &book.columns(), issue, k);
            return plain(status.refusal, &[status.case.into(), status.lots.into()]);
        }
        Call::Ask { issue, unit } => {
            let asked = raw::ask_as(caller, &book.columns(), issue, unit);
            return plain(asked.refusal, &asked.ticket.map(u64::from));
        }
        Call::Commit { ref ticket, .. } => {
            raw::commit_as(caller, &mut book.columns_mut(), &library_ticket(ticket).numbers(), out)
        }
        Call::Roll { days, rate, ref quotes } => {
            let roll = settlement_day::Instruction::Roll { days, rate };
            raw::call_as(caller, &mut book.columns_mut(), &roll.fields(), quotes, out)
        }
        ref call => {
            raw::call_as(caller, &mut book.columns_mut(), &instruction(call).fields(), &[], out)
        }
    };
    plain(answer.refusal, &[answer.count as u64, answer.cancelled])
}

/// The instruction of a call that is one.
pub(crate) fn instruction(call: &Call) -> settlement_day::Instruction {
    use settlement_day::Instruction;
    match *call {
        Call::Trade { issue, from, to, lots } => Instruction::Trade { issue, from, to, lots },
        Call::Close => Instruction::Close,
        Call::Deliver { issue, account, lots, .. } => Instruction::Deliver { issue, account, lots },
        Call::Cutoff { .. } => Instruction::Cutoff,
        Call::Resolve { issue, account, lots, .. } => Instruction::Resolve { issue, account, lots },
        Call::PairOff { issue, account } => Instruction::PairOff { issue, account },
        Call::Mark { issue, mark } => Instruction::Mark { issue, mark },
        Call::Turn { day } => Instruction::Turn { day },
        ref other => unreachable!("{other:?} is no instruction by itself"),
    }
}

/// What a caller is told of an answer: the operator all, another of a call the number alone.
pub fn told(caller: &Caller, request: &Request, answer: Answer) -> Answer {
    if caller.is_operator() || !request.is_call() {
        answer
    } else {
        plain(answer.number, &[])
    }
}

/// A reading of the second engine in plain numbers.
fn seen(answer: ReadAnswer) -> Answer {
    let entry = answer.entry.map(library_entry);
    seen_numbers(answer.number, answer.net, answer.charge, entry)
}

/// A reading in plain numbers: net, charge, whether there is an entry, its issue and accounts, lots, day.
fn seen_numbers(
    number: u32,
    net: i32,
    charge: i64,
    entry: Option<settlement_day::Entry>,
) -> Answer {
    let found = u64::from(entry.is_some());
    let (ends, lots, day) = entry.map_or((0, 0, 0), |e| {
        let ends = u64::from(e.issue) << 16 | u64::from(e.from) << 8 | u64::from(e.to);
        (ends, u64::from(e.lots), u64::from(e.day))
    });
    plain(number, &[net as u64, charge as u64, found, ends, lots, day])
}

/// One number of sixteen, in which each counts at its place.
fn digest(owed: [u64; 16]) -> u64 {
    owed.iter()
        .fold(0, |sum: u64, &lots| sum.wrapping_mul(0x9e37_79b9_7f4a_7c15).wrapping_add(lots))
}

/// A request that suits a book, mostly of the accounts given.
pub fn random_request(
    rng: &mut Rng,
    shape: &Shape,
    book: &Book,
    tickets: &mut Tickets,
    accounts: &[u32],
) -> Request {
    match rng.range(0, 19) {
        0..=5 => {
            let any = if accounts.is_empty() { &shape.accounts } else { accounts };
            let (issue, account) = (*rng.pick(&shape.issues), *rng.pick(any));
            let odd = rng.chance(1, 10);
            let issue = if odd { *rng.pick(&[16, 255, u32::MAX, issue]) } else { issue };
            let account = if odd { *rng.pick(&[64, 63, u32::MAX, account]) } else { account };
            Request::Read { issue, account, k: random_k(rng) }
        }
        6 => Request::Simulate(random_plan(rng)),
        7..=8 => Request::Call(tickets.random_call(rng, shape, book)),
        _ => {
            let call = random_call(rng, shape, book);
            Request::Call(own(rng, call, accounts))
        }
    }
}

/// The number of an entry, small mostly.
fn random_k(rng: &mut Rng) -> u32 {
    match rng.range(0, 9) {
        0 => u32::MAX,
        1 => rng.range(0, 2_048),
        _ => rng.range(0, 4),
    }
}

/// A plan for few rounds; settlement accounts or size now and then out of range.
fn random_plan(rng: &mut Rng) -> Plan {
    let mut plan = Trial::of_size(*rng.pick(&[0, 50_000, 100_000, 100_001])).plan;
    if rng.chance(1, 3) {
        plan.settlement[63] = 16;
    }
    plan
}

/// A delivery or a resolve, half the time for one of the accounts.
fn own(rng: &mut Rng, mut call: Call, accounts: &[u32]) -> Call {
    if let Call::Deliver { account, .. } | Call::Resolve { account, .. } = &mut call {
        if !accounts.is_empty() && rng.chance(1, 2) {
            *account = *rng.pick(accounts);
        }
    }
    call
}
