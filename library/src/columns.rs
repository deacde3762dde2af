//! The nine columns of a book, spelled in this one place. What lends them, what holds them, the functions
//! that take them and the calls of these functions are made from the list.

/// Gives the list to another macro, behind what is given to that one: of each column what it has, its name,
/// the type of a place and the number of places, in the order in which the library takes the columns.
macro_rules! columns {
    ($make:ident! { $($given:tt)* }) => {
        $make! {
            { $($given)* }
            /// Nets, above 0 to receive and below 0 to deliver, at issue × 64 + account.
            nets: i32, PLACES;
            /// The lots delivered today, at issue × 64 + account.
            delivered: u32, PLACES;
            /// The lifts, an issue's from issue × 18 on: their number, the count of the day's accepted
            /// deliveries and lifts, then eight times an old and a new place.
            lifts: u32, LIFT_PLACES;
            /// The yen charged to each account.
            charges: i64, ACCOUNTS;
            /// The issue of each fail entry.
            issues: u8, ENTRIES;
            /// The account that fails it.
            froms: u8, ENTRIES;
            /// The account that is owed it.
            tos: u8, ENTRIES;
            /// Its lots.
            lots: u32, ENTRIES;
            /// The day of its cutoff.
            days: u16, ENTRIES;
        }
    };
}
