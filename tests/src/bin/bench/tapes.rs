//! The tapes that are measured. Each is made along the second engine's book, so that it is known of every
//! call whether it is accepted; the programs have to accept just as many.

use reference::book::{Book, Phase, ACCOUNTS, ENTRIES, ISSUES};
use reference::measures::same_quotes;
use tests::engines::by_reference_on_sound;
use tests::random_tapes::words_of;
use tests::rng::Rng;
use tests::steps::Call;

/// The words of a lent output.
const OUT: usize = 4_096;
/// The lots of a small call, which nets and fails allow often.
const FEW: u32 = 900;
/// The lots that one account fails another to fill the ledger.
const FAIL: u32 = 90_000;

/// A tape, and how many of its calls are made and accepted behind its first part, which only leads there.
pub struct Tape {
    pub name: &'static str,
    /// What leads to the book on which the calls are measured.
    pub first: Vec<u8>,
    /// The calls that are measured, behind the first part.
    pub measured: Vec<u8>,
    pub calls: usize,
    pub accepted: usize,
    /// The calls of the first part, all of them accepted.
    pub before: usize,
}

impl Tape {
    /// Both parts.
    pub fn whole(&self) -> Vec<u8> {
        [self.first.as_slice(), &self.measured].concat()
    }
}

/// What makes a tape of so many measured calls.
pub type Make = fn(usize) -> Tape;

/// What makes each of the tapes.
pub const TAPES: [Make; 9] = [
    trades,
    busy_days,
    full_ledger_days,
    full_ledger_calls,
    resolves,
    pair_offs,
    deliveries,
    empty_cutoffs,
    refused_cutoffs,
];

/// A tape in the making: the book that it leads to, the words so far.
struct Maker {
    book: Book,
    output: Vec<u32>,
    bytes: Vec<u8>,
    calls: usize,
    accepted: usize,
    rng: Rng,
}

impl Maker {
    fn new(seed: u64) -> Maker {
        Maker {
            book: Book::fresh(),
            output: vec![0; OUT],
            bytes: Vec::new(),
            calls: 0,
            accepted: 0,
            rng: Rng::new(seed),
        }
    }

    /// Puts a call on the tape where the book accepts it.
    fn accepted(&mut self, call: Call) -> bool {
        let done = by_reference_on_sound(&mut self.book, &call, &mut self.output).number == 0;
        if done {
            self.put(&call);
            self.accepted += 1;
        }
        done
    }

    /// Puts a call on the tape that the book has to accept.
    fn must(&mut self, call: Call) {
        assert!(self.accepted(call.clone()), "{call:?} is accepted");
    }

    /// Puts a call on the tape that the book has to refuse by this number.
    fn refused(&mut self, call: Call, number: u32) {
        let answer = by_reference_on_sound(&mut self.book, &call, &mut self.output);
        assert_eq!(answer.number, number, "{call:?} is refused");
        self.put(&call);
    }

    fn put(&mut self, call: &Call) {
        let words = words_of(call).expect("the call is one of a tape");
        self.bytes.extend(words.iter().flat_map(|word| word.to_le_bytes()));
        self.calls += 1;
    }

    /// What was put so far becomes the first part; what comes then is measured.
    fn measured(&mut self) -> (Vec<u8>, usize) {
        assert_eq!(self.calls, self.accepted, "the first part is accepted");
        let before = std::mem::take(&mut self.calls);
        self.accepted = 0;
        (std::mem::take(&mut self.bytes), before)
    }

    fn done(self, name: &'static str, (first, before): (Vec<u8>, usize)) -> Tape {
        let Maker { bytes: measured, calls, accepted, .. } = self;
        Tape { name, first, measured, calls, accepted, before }
    }

    /// An issue, and an account.
    fn cell(&mut self) -> (u32, u32) {
        (self.rng.range(0, ISSUES as u32 - 1), self.rng.range(0, ACCOUNTS as u32 - 1))
    }

    /// A trade of few lots, which the book accepts.
    fn trade(&mut self) {
        loop {
            let (issue, from) = self.cell();
            let to = (from + self.rng.range(1, 63)) % 64;
            let lots = self.rng.range(1, 100_000);
            if self.accepted(Call::Trade { issue, from, to, lots }) {
                return;
            }
        }
    }

    /// A delivery of at most so many lots, which the book accepts; none where nothing is owed in 200 cells.
    fn deliver(&mut self, most: u32) -> bool {
        (0..200).any(|_| {
            let (issue, account) = self.cell();
            let owed = self.book.owed_today(issue as usize, account as usize);
            let lots = self.rng.range(1, most).min(owed as u32);
            lots > 0 && self.accepted(Call::Deliver { issue, account, lots, out: OUT })
        })
    }

    /// The fails of one of the entries met in full or in part; none where there is no entry.
    fn resolve(&mut self, most: u32) -> bool {
        if self.book.count == 0 {
            return false;
        }
        let at = self.rng.range(0, self.book.count as u32 - 1) as usize;
        let (issue, account) = (self.book.issues[at] as u32, self.book.froms[at] as u32);
        let owed = self.book.owed_in_ledger(issue, account).min(u64::from(most)) as u32;
        let lots = self.rng.range(1, owed);
        self.accepted(Call::Resolve { issue, account, lots, out: OUT })
    }

    /// To the next day.
    fn roll(&mut self) {
        let quotes = same_quotes(99_999, 501).to_vec();
        self.must(Call::Roll { days: 1, rate: 300, quotes });
    }

    /// A day on which one account fails each of these places' receivers, and a ledger so much longer.
    fn failed_day(&mut self, fails: u32) {
        for at in 0..fails {
            let lots = FAIL - at % 7;
            self.must(Call::Trade { issue: at / 63, from: 0, to: 1 + at % 63, lots });
        }
        self.must(Call::Close);
        self.must(Call::Cutoff { out: OUT });
        self.roll();
    }

    /// Three days that fill the ledger: account 0 has failed all others, and nobody has failed it.
    fn full(&mut self) {
        [1_000, 1_000, 48].into_iter().for_each(|fails| self.failed_day(fails));
        assert_eq!(self.book.count, ENTRIES, "the ledger is full");
    }
}

/// Trades alone.
fn trades(calls: usize) -> Tape {
    let mut maker = Maker::new(11);
    let first = maker.measured();
    (0..calls).for_each(|_| maker.trade());
    maker.done("trades", first)
}

/// Days of 600 trades and some 340 deliveries, with resolves and pair-offs that keep the ledger at some hundred.
fn busy_days(calls: usize) -> Tape {
    let mut maker = Maker::new(12);
    let first = maker.measured();
    while maker.calls < calls {
        match maker.calls % 1_000 {
            _ if maker.book.phase == Phase::Cut => cut(&mut maker),
            0..=599 if maker.book.phase == Phase::Taking => maker.trade(),
            600..=939 if maker.book.phase == Phase::Settling => {
                if !maker.deliver(90_000) {
                    maker.must(Call::Cutoff { out: OUT });
                }
            }
            _ if maker.book.phase == Phase::Taking => maker.must(Call::Close),
            _ => maker.must(Call::Cutoff { out: OUT }),
        }
    }
    maker.done("busy days", first)
}

/// Behind a cutoff: resolves, pair-offs, and a roll once the ledger is short enough for another day.
fn cut(maker: &mut Maker) {
    if maker.book.count <= 130 {
        return maker.roll();
    }
    let (issue, account) = maker.cell();
    if maker.rng.chance(1, 8) {
        maker.must(Call::PairOff { issue, account });
    } else {
        let at = maker.rng.range(0, maker.book.count as u32 - 1) as usize;
        let (issue, account) = (maker.book.issues[at] as u32, maker.book.froms[at] as u32);
        let lots = maker.book.owed_in_ledger(issue, account).min(20_000_000) as u32;
        maker.must(Call::Resolve { issue, account, lots, out: OUT });
    }
}

/// Days without a trade on a full ledger: pair-off, close, cutoff, roll.
fn full_ledger_days(calls: usize) -> Tape {
    let mut maker = Maker::new(13);
    maker.full();
    let first = maker.measured();
    while maker.calls < calls {
        match maker.calls % 4 {
            0 => {
                let (issue, account) = maker.cell();
                maker.must(Call::PairOff { issue, account });
            }
            1 => maker.must(Call::Close),
            2 => maker.must(Call::Cutoff { out: OUT }),
            _ => maker.roll(),
        }
    }
    maker.done("full ledger, days", first)
}

/// Trades, deliveries, small resolves and pair-offs on a full ledger.
fn full_ledger_calls(calls: usize) -> Tape {
    let mut maker = Maker::new(14);
    maker.full();
    (0..4_000).for_each(|_| maker.trade());
    maker.must(Call::Close);
    let first = maker.measured();
    while maker.calls < calls {
        let (issue, account) = maker.cell();
        match maker.calls % 4 {
            0 | 1 => assert!(maker.deliver(FEW), "something is owed"),
            2 => assert!(maker.resolve(FEW), "there is an entry"),
            _ => maker.must(Call::PairOff { issue, account }),
        }
    }
    maker.done("full ledger, calls", first)
}

/// Small resolves on a full ledger.
fn resolves(calls: usize) -> Tape {
    let mut maker = Maker::new(15);
    maker.full();
    let first = maker.measured();
    (0..calls).for_each(|_| assert!(maker.resolve(FEW), "there is an entry"));
    maker.done("resolves, full ledger", first)
}

/// Pair-offs on a full ledger, of accounts that have nothing to set off, so that it stays full.
fn pair_offs(calls: usize) -> Tape {
    let mut maker = Maker::new(16);
    maker.full();
    let first = maker.measured();
    for _ in 0..calls {
        let (issue, account) = maker.cell();
        maker.must(Call::PairOff { issue, account });
    }
    maker.done("pair-offs, full ledger", first)
}

/// Deliveries of a lot each, to 63 receivers.
fn deliveries(calls: usize) -> Tape {
    let mut maker = Maker::new(17);
    for at in 0..63 {
        let lots = 250_000 + at * 1_000;
        maker.must(Call::Trade { issue: 0, from: 63, to: at, lots });
    }
    maker.must(Call::Close);
    let first = maker.measured();
    for _ in 0..calls {
        maker.must(Call::Deliver { issue: 0, account: 63, lots: 1, out: OUT });
    }
    maker.done("deliveries, 63 receivers", first)
}

/// Days without a trade on an empty ledger, of which the cutoff takes most.
fn empty_cutoffs(calls: usize) -> Tape {
    let mut maker = Maker::new(18);
    let first = maker.measured();
    while maker.calls < calls {
        match maker.calls % 3 {
            0 => maker.must(Call::Close),
            1 => maker.must(Call::Cutoff { out: OUT }),
            _ => maker.roll(),
        }
    }
    maker.done("days without nets", first)
}

/// Cutoffs that are refused by 10: 63 receivers in each of 16 issues, and a ledger with too little room.
fn refused_cutoffs(calls: usize) -> Tape {
    let mut maker = Maker::new(19);
    maker.failed_day(1_008);
    maker.failed_day(1_008);
    for at in 0..1_008 {
        maker.must(Call::Trade { issue: at / 63, from: 0, to: 1 + at % 63, lots: FAIL });
    }
    maker.must(Call::Close);
    let first = maker.measured();
    for _ in 0..calls {
        maker.refused(Call::Cutoff { out: OUT }, 10);
    }
    maker.done("cutoffs refused by 10", first)
}
