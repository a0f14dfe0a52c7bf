//! A list over tables that stand elsewhere, kept right from a feed of row changes.
//!
//! The calls are those of the static library, each proved to answer and to leave the store as the rules say, for every input.
//! This crate lends them slices and gives their numbers names; it adds nothing else. Linux on x86-64 only.
//!
//! The loans of a branch with the borrower's desk, as in `examples/desk.sheet`:
//!
//! ```
//! use oratjolet::{Answer, Change, Refusal, Sheet, Store};
//!
//! let sheet = Sheet::new(&[
//!     4, 3, 2, 5, 4, 3, 3, 3, // four tables: loan, copy, title, borrower
//!     0, 2, 1, 1, 1, 1, 2, 1, 0, 1, 3, 1, // a loan has a copy, a copy a title, a loan a borrower
//!     1, 2, 7, 7, 2, 1, 20, 29, // branch 7, categories 20 to 29
//!     0, 0, 1, 0, 2, 2, 3, 0, 3, 2, // the listed columns
//!     8, 8, 8, 8, 8, // rooms
//! ])?;
//! assert_eq!(sheet.plan().store, 97);
//!
//! // one title, two copies whose barcodes differ by 2^32, one borrower, no loan yet
//! let mut store = Store::filled(
//!     &sheet,
//!     &[0, 2, 1, 1, 31234000000001, 500, 7, 31238294967297, 500, 7, 500, 24, 3, 21234000000001, 1, 6],
//! )?;
//! assert_eq!(store.show(&sheet, 1)?, [31234000000001, 500, 31238294967297, 500]);
//!
//! let loan = [9001, 21234000000001, 31238294967297, 20520];
//! assert_eq!(store.change(&sheet, Change::Insert { table: 0, row: &loan })?, Answer { taken: 0, added: 1 });
//! assert_eq!(store.list(&sheet)?, [9001, 31238294967297, 3, 21234000000001, 6]);
//!
//! let again = Change::Insert { table: 1, row: &[31238294967297, 500, 7] };
//! assert_eq!(store.change(&sheet, again), Err(Refusal::Contradiction));
//! # Ok::<(), Refusal>(())
//! ```

use std::fmt;

mod ffi {
    extern "C" {
        pub fn oratjolet_plan(sheet: *const u64, sheet_length: usize, plan: *mut u64) -> u64;
        pub fn oratjolet_fill(
            sheet: *const u64,
            sheet_length: usize,
            base: *const u64,
            base_length: usize,
            store: *mut u64,
            store_length: usize,
            taken: *mut u64,
            added: *mut u64,
        ) -> u64;
        pub fn oratjolet_change(
            sheet: *const u64,
            sheet_length: usize,
            store: *mut u64,
            store_length: usize,
            kind: u64,
            table: u64,
            old: *const u64,
            old_length: usize,
            new: *const u64,
            new_length: usize,
            taken: *mut u64,
            added: *mut u64,
        ) -> u64;
        pub fn oratjolet_show(
            sheet: *const u64,
            sheet_length: usize,
            store: *const u64,
            store_length: usize,
            part: u64,
            first: *mut u64,
            count: *mut u64,
        ) -> u64;
    }
}

/// Why a call was turned down. A refused call has altered no word of the store.
#[derive(Clone, Copy, Debug, PartialEq, Eq, Hash)]
pub enum Refusal {
    SheetLength,
    SheetWords,
    SheetTree,
    StoreLength,
    NotAskedSo,
    TiedColumn,
    StoreUnsound,
    Contradiction,
    NoRoom,
    BaseTables,
}

impl Refusal {
    const ALL: [Refusal; 10] = [
        Refusal::SheetLength,
        Refusal::SheetWords,
        Refusal::SheetTree,
        Refusal::StoreLength,
        Refusal::NotAskedSo,
        Refusal::TiedColumn,
        Refusal::StoreUnsound,
        Refusal::Contradiction,
        Refusal::NoRoom,
        Refusal::BaseTables,
    ];

    /// The refusal's number in the rules, 1 to 10.
    ///
    /// ```
    /// assert_eq!(oratjolet::Refusal::NoRoom.number(), 9);
    /// ```
    pub fn number(self) -> u64 {
        self as u64 + 1
    }
}

impl fmt::Display for Refusal {
    fn fmt(&self, f: &mut fmt::Formatter<'_>) -> fmt::Result {
        f.write_str(match self {
            Refusal::SheetLength => "a sheet count out of range, e not n - 1, or the wrong sheet length",
            Refusal::SheetWords => "a width, table, column, promise, condition, room word or repeated listing breaks the sheet's rules",
            Refusal::SheetTree => "the edges aren't a tree",
            Refusal::StoreLength => "the store's length differs",
            Refusal::NotAskedSo => "no such kind, table or part, a row not of the table's width, or an update with two keys",
            Refusal::TiedColumn => "an update alters a tied column",
            Refusal::StoreUnsound => "the store isn't sound",
            Refusal::Contradiction => "the change contradicts the store",
            Refusal::NoRoom => "a count after the call would exceed its room",
            Refusal::BaseTables => "base run of the wrong length, a count above 65,535, or base tables not lawful",
        })
    }
}

impl std::error::Error for Refusal {}

fn numbered<T>(number: u64, accepted: T) -> Result<T, Refusal> {
    match number {
        0 => Ok(accepted),
        _ => Err(Refusal::ALL[number as usize - 1]),
    }
}

/// How many rows an accepted call took from the list and added to it.
#[derive(Clone, Copy, Debug, Default, PartialEq, Eq)]
pub struct Answer {
    pub taken: u64,
    pub added: u64,
}

/// What is derived for one table.
#[derive(Clone, Debug, PartialEq, Eq)]
pub struct TablePlan {
    /// Whether it has a side table.
    pub kept: bool,
    /// The columns that its side table shows.
    pub columns: Vec<usize>,
    /// Its parents along promised edges.
    pub dep: Vec<usize>,
    /// The tables that it needs.
    pub need: Vec<usize>,
    /// Where its part of the store begins; without a side table the part has no words.
    pub start: u64,
    /// The sheet's room word for it: how many rows its side table has room for, if it has one.
    pub room: u64,
}

/// What is derived from a sheet.
#[derive(Clone, Debug, PartialEq, Eq)]
pub struct Plan {
    pub root: u64,
    /// How many words a store of this sheet has.
    pub store: u64,
    pub tables: Vec<TablePlan>,
}

/// The plan call: what is derived from any words.
///
/// ```
/// let refused = oratjolet::plan(&[]);
/// assert_eq!(refused, Err(oratjolet::Refusal::SheetLength));
/// ```
pub fn plan(sheet: &[u64]) -> Result<Plan, Refusal> {
    let mut words = [0u64; 220];
    // A slice's pointer is aligned and never null, not even an empty one's. The call writes the 220 words of `words`: our own, and so apart from the sheet.
    let number = unsafe { ffi::oratjolet_plan(sheet.as_ptr(), sheet.len(), words.as_mut_ptr()) };
    let set = |from: usize, t: usize| (0..8).filter(|x| words[from + 8 * t + x] == 1).collect();
    let tables = (0..words[1] as usize)
        .map(|t| TablePlan {
            kept: words[4 + t] == 1,
            columns: set(12, t),
            dep: set(76, t),
            need: set(140, t),
            start: words[204 + t],
            room: words[212 + t],
        })
        .collect();
    numbered(
        number,
        Plan {
            root: words[2],
            store: words[3],
            tables,
        },
    )
}

/// The fill call: the base tables' rows into a store, whatever it held.
pub fn fill(sheet: &[u64], base: &[u64], store: &mut [u64]) -> Result<Answer, Refusal> {
    let mut answer = Answer::default();
    // As for plan; `store` is borrowed for writing, so it overlaps none of the other slices, and the two words of `answer` are our own.
    let number = unsafe {
        ffi::oratjolet_fill(
            sheet.as_ptr(),
            sheet.len(),
            base.as_ptr(),
            base.len(),
            store.as_mut_ptr(),
            store.len(),
            &mut answer.taken,
            &mut answer.added,
        )
    };
    numbered(number, answer)
}

/// The change call: one change of any kind (1 insert, 2 delete, 3 update) of any table.
pub fn change(
    sheet: &[u64],
    store: &mut [u64],
    kind: u64,
    table: u64,
    old: &[u64],
    new: &[u64],
) -> Result<Answer, Refusal> {
    let mut answer = Answer::default();
    // As for fill.
    let number = unsafe {
        ffi::oratjolet_change(
            sheet.as_ptr(),
            sheet.len(),
            store.as_mut_ptr(),
            store.len(),
            kind,
            table,
            old.as_ptr(),
            old.len(),
            new.as_ptr(),
            new.len(),
            &mut answer.taken,
            &mut answer.added,
        )
    };
    numbered(number, answer)
}

/// The show call: the stretch of the store that holds a side table's rows, or at n the list's.
pub fn show<'a>(sheet: &[u64], store: &'a [u64], part: u64) -> Result<&'a [u64], Refusal> {
    let (mut first, mut count) = (0, 0);
    // As for plan: the store is only read, and the two words are our own.
    let number = unsafe {
        ffi::oratjolet_show(
            sheet.as_ptr(),
            sheet.len(),
            store.as_ptr(),
            store.len(),
            part,
            &mut first,
            &mut count,
        )
    };
    numbered(number, &store[first as usize..][..count as usize])
}

/// A good sheet: what the list is and which tables it joins.
#[derive(Clone, Debug)]
pub struct Sheet {
    words: Vec<u64>,
    plan: Plan,
}

impl Sheet {
    /// Takes the words of a sheet, if they are one.
    pub fn new(words: &[u64]) -> Result<Sheet, Refusal> {
        let plan = plan(words)?;
        Ok(Sheet {
            words: words.to_vec(),
            plan,
        })
    }

    pub fn words(&self) -> &[u64] {
        &self.words
    }

    pub fn plan(&self) -> &Plan {
        &self.plan
    }
}

/// A change of one table's rows.
#[derive(Clone, Copy, Debug)]
pub enum Change<'a> {
    Insert {
        table: u64,
        row: &'a [u64],
    },
    Delete {
        table: u64,
        row: &'a [u64],
    },
    Update {
        table: u64,
        old: &'a [u64],
        new: &'a [u64],
    },
}

/// The words of a list and its side tables.
#[derive(Clone, Debug, PartialEq, Eq)]
pub struct Store {
    words: Vec<u64>,
}

impl Store {
    /// The store of empty tables.
    pub fn empty(sheet: &Sheet) -> Store {
        Store {
            words: vec![0; sheet.plan.store as usize],
        }
    }

    /// A store filled from base tables: n counts, then the rows, table by table.
    pub fn filled(sheet: &Sheet, base: &[u64]) -> Result<Store, Refusal> {
        let mut store = Store::empty(sheet);
        store.fill(sheet, base)?;
        Ok(store)
    }

    /// A store as it was saved. Any words are taken: every call tests them.
    pub fn from_words(words: Vec<u64>) -> Store {
        Store { words }
    }

    pub fn words(&self) -> &[u64] {
        &self.words
    }

    pub fn fill(&mut self, sheet: &Sheet, base: &[u64]) -> Result<Answer, Refusal> {
        fill(&sheet.words, base, &mut self.words)
    }

    pub fn change(&mut self, sheet: &Sheet, asked: Change<'_>) -> Result<Answer, Refusal> {
        let (kind, table, old, new): (u64, u64, &[u64], &[u64]) = match asked {
            Change::Insert { table, row } => (1, table, &[], row),
            Change::Delete { table, row } => (2, table, row, &[]),
            Change::Update { table, old, new } => (3, table, old, new),
        };
        change(&sheet.words, &mut self.words, kind, table, old, new)
    }

    /// The rows of a table's side table, or at n the list's, one after the other.
    pub fn show(&self, sheet: &Sheet, part: u64) -> Result<&[u64], Refusal> {
        show(&sheet.words, &self.words, part)
    }

    /// The list's rows, one after the other.
    pub fn list(&self, sheet: &Sheet) -> Result<&[u64], Refusal> {
        self.show(sheet, sheet.plan.tables.len() as u64)
    }
}
