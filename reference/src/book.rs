//! The book: day, phase, marks, change-over day, nets, delivered lots, lifts, charges and the ledger of
//! fails.

/// Issues 0 to 15.
pub const ISSUES: usize = 16;
/// What a roll is given: a price for each issue, then an accrued amount for each.
pub const QUOTES: usize = 2 * ISSUES;
/// Netting accounts 0 to 63.
pub const ACCOUNTS: usize = 64;
/// The most fail entries of the ledger.
pub const ENTRIES: usize = 2_048;
/// The most lifts that stand for an issue.
pub const LIFTS: usize = 8;

/// The phase of the day.
#[derive(Clone, Copy, Debug, PartialEq, Eq)]
pub enum Phase {
    Taking,
    Settling,
    Cut,
}

/// One fail entry of the ledger.
#[derive(Clone, Copy, Debug, PartialEq, Eq)]
pub struct Entry {
    pub issue: u8,
    pub from: u8,
    pub to: u8,
    pub lots: u32,
    pub day: u16,
}

/// One lift: the place of a unit in the order before it was moved, and its place after.
#[derive(Clone, Copy, Debug, Default, PartialEq, Eq)]
pub struct Lift {
    pub old: u32,
    pub new: u32,
}

/// An issue's lifts: how many stand, the count of the day's accepted deliveries and lifts, and the
/// lifts in the order in which they were made; those after the number are unused.
#[derive(Clone, Copy, Debug, Default, PartialEq, Eq)]
pub struct Lifts {
    pub number: u32,
    pub count: u32,
    pub moves: [Lift; LIFTS],
}

/// The book in plain columns; nets and delivered lots stand at issue × 64 + account. An issue whose
/// mark is any number but 0 is marked; a change-over day of 0 is none.
#[derive(Clone, Debug, PartialEq, Eq)]
pub struct Book {
    pub day: u16,
    pub phase: Phase,
    pub marks: [u8; ISSUES],
    /// The first day on which full units are dealt in turn.
    pub turn: u32,
    pub nets: [i32; ISSUES * ACCOUNTS],
    pub delivered: [u32; ISSUES * ACCOUNTS],
    pub lifts: [Lifts; ISSUES],
    pub charges: [i64; ACCOUNTS],
    pub count: usize,
    pub issues: [u8; ENTRIES],
    pub froms: [u8; ENTRIES],
    pub tos: [u8; ENTRIES],
    pub lots: [u32; ENTRIES],
    pub days: [u16; ENTRIES],
}

/// The place of an issue and account in the columns of nets and delivered lots.
pub fn place(issue: usize, account: usize) -> usize {
    issue * ACCOUNTS + account
}

impl Book {
    /// A fresh book: day 0, Taking, all zero, no issue marked, no change-over day, ledger empty.
    pub fn fresh() -> Book {
        Book {
            day: 0,
            phase: Phase::Taking,
            marks: [0; ISSUES],
            turn: 0,
            nets: [0; ISSUES * ACCOUNTS],
            delivered: [0; ISSUES * ACCOUNTS],
            lifts: [Lifts::default(); ISSUES],
            charges: [0; ACCOUNTS],
            count: 0,
            issues: [0; ENTRIES],
            froms: [0; ENTRIES],
            tos: [0; ENTRIES],
            lots: [0; ENTRIES],
            days: [0; ENTRIES],
        }
    }

    /// Is the issue marked, so that it takes even lots only? An issue above 15 is not.
    pub fn is_marked(&self, issue: usize) -> bool {
        self.marks.get(issue).is_some_and(|&mark| mark != 0)
    }

    /// Are full units dealt in turn today?
    pub fn deals_in_turn(&self) -> bool {
        self.turn != 0 && self.turn <= u32::from(self.day)
    }

    /// The nets of an issue, by account.
    pub fn nets_of(&self, issue: usize) -> &[i32] {
        &self.nets[place(issue, 0)..place(issue + 1, 0)]
    }

    /// The lots delivered today in an issue, by account.
    pub fn delivered_of(&self, issue: usize) -> &[u32] {
        &self.delivered[place(issue, 0)..place(issue + 1, 0)]
    }

    /// The lots delivered today in an issue, all accounts together.
    pub fn delivered_total(&self, issue: usize) -> u64 {
        self.delivered_of(issue).iter().map(|&lots| u64::from(lots)).sum()
    }

    /// What an account still owes today in an issue: −net less delivered, if the net is negative.
    pub fn owed_today(&self, issue: usize, account: usize) -> u64 {
        let owed = -i64::from(self.nets[place(issue, account)]);
        let delivered = i64::from(self.delivered[place(issue, account)]);
        u64::try_from(owed - delivered).unwrap_or(0)
    }

    /// What an account still owes in the ledger in an issue.
    pub fn owed_in_ledger(&self, issue: u32, account: u32) -> u64 {
        let owed = self.entries().filter(|entry| entry.is_from(issue, account));
        owed.map(|entry| u64::from(entry.lots)).sum()
    }

    /// The used entries of the ledger, in order; of a count above 2,048, the 2,048 there are.
    pub fn entries(&self) -> impl Iterator<Item = Entry> + '_ {
        (0..self.count.min(ENTRIES)).map(|at| self.entry(at))
    }

    /// The used entries of the ledger as a list of their own.
    pub fn ledger(&self) -> Vec<Entry> {
        self.entries().collect()
    }

    /// The entry at a place of the ledger, used or not.
    fn entry(&self, at: usize) -> Entry {
        Entry {
            issue: self.issues[at],
            from: self.froms[at],
            to: self.tos[at],
            lots: self.lots[at],
            day: self.days[at],
        }
    }

    /// Makes these the used entries of the ledger, at most 2,048; unused entries are zero.
    pub fn set_ledger(&mut self, entries: &[Entry]) {
        const UNUSED: Entry = Entry { issue: 0, from: 0, to: 0, lots: 0, day: 0 };
        assert!(entries.len() <= ENTRIES, "a ledger of {} entries", entries.len());
        self.count = entries.len();
        for at in 0..ENTRIES {
            let entry = entries.get(at).unwrap_or(&UNUSED);
            self.issues[at] = entry.issue;
            self.froms[at] = entry.from;
            self.tos[at] = entry.to;
            self.lots[at] = entry.lots;
            self.days[at] = entry.day;
        }
    }
}

impl Lifts {
    /// The lifts that stand, in the order in which they were made; of a number above 8, the eight.
    pub fn standing(&self) -> &[Lift] {
        let number = usize::try_from(self.number).unwrap_or(LIFTS);
        &self.moves[..number.min(LIFTS)]
    }

    /// One lift more stands, and the count rises by 1; there is room for it.
    pub fn add(&mut self, lift: Lift) {
        self.moves[self.standing().len()] = lift;
        self.number += 1;
        self.count += 1;
    }
}

impl Entry {
    /// Lowers the lots by at most so many, and answers how many were met.
    pub fn meet(&mut self, lots: u32) -> u32 {
        let met = lots.min(self.lots);
        self.lots -= met;
        met
    }

    /// Is this an entry of that issue from that account?
    pub fn is_from(&self, issue: u32, account: u32) -> bool {
        u32::from(self.issue) == issue && u32::from(self.from) == account
    }

    /// Is this an entry of that issue to that account?
    pub fn is_to(&self, issue: u32, account: u32) -> bool {
        u32::from(self.issue) == issue && u32::from(self.to) == account
    }
}
