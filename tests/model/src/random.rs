//! A small random source whose numbers depend on its seed alone, and the values drawn from it.

pub mod calls;
pub mod chains;
pub mod changes;
pub mod damage;
pub mod rows;
pub mod scene;
pub mod sheets;
pub mod stores;

/// Two values this far apart are equal in their low 32 bits.
pub const APART: u64 = 1 << 32;

/// Splitmix64.
#[derive(Clone, Debug)]
pub struct Random(u64);

impl Random {
    pub fn new(seed: u64) -> Random {
        Random(seed)
    }

    pub fn word(&mut self) -> u64 {
        self.0 = self.0.wrapping_add(0x9e37_79b9_7f4a_7c15);
        let mut word = self.0;
        word = (word ^ (word >> 30)).wrapping_mul(0xbf58_476d_1ce4_e5b9);
        word = (word ^ (word >> 27)).wrapping_mul(0x94d0_49bb_1331_11eb);
        word ^ (word >> 31)
    }

    /// A number from 0 to `end` - 1.
    pub fn below(&mut self, end: usize) -> usize {
        (self.word() % end as u64) as usize
    }

    /// A number from `first` to `last`.
    pub fn between(&mut self, first: usize, last: usize) -> usize {
        first + self.below(last - first + 1)
    }

    pub fn chance(&mut self, percent: usize) -> bool {
        self.below(100) < percent
    }

    pub fn pick<T: Clone>(&mut self, from: &[T]) -> T {
        from[self.below(from.len())].clone()
    }

    pub fn shuffle<T>(&mut self, items: &mut [T]) {
        for last in (1..items.len()).rev() {
            items.swap(last, self.below(last + 1));
        }
    }

    /// Mostly small, so that rows join; the rest at the end of the range or equal in the low 32 bits.
    pub fn value(&mut self) -> u64 {
        let small = self.below(4) as u64;
        match self.below(20) {
            0..=11 => small,
            12..=14 => small + APART,
            15 => u64::MAX,
            16 => u64::MAX - APART,
            17 => 0,
            18 => self.pick(&[31_234_000_000_001, 31_238_294_967_297]),
            _ => self.word(),
        }
    }

    /// A word that is not `word`, but near it, equal in the low 32 bits, or at the end of the range.
    pub fn other(&mut self, word: u64) -> u64 {
        let others = [
            word.wrapping_add(1),
            word.wrapping_sub(1),
            word.wrapping_add(APART),
            word ^ (1 << 63),
            word ^ u64::MAX,
            word.wrapping_add(1 + self.below(8) as u64),
        ];
        self.pick(&others)
    }
}

/// How large random calls may become.
#[derive(Clone, Copy, Debug)]
pub struct Size {
    /// Rows of one base table other than the root's.
    pub rows: usize,
    /// Rows of the root's base table. They share their parents, so that one change touches many list rows.
    pub root_rows: usize,
    /// Words of the store.
    pub words: usize,
    /// How often, in percent, a sheet has more than five tables.
    pub many_tables: usize,
}

pub const SMALL: Size = Size {
    rows: 5,
    root_rows: 7,
    words: 150,
    many_tables: 12,
};

pub const BIG: Size = Size {
    rows: 40,
    root_rows: 42,
    words: 3000,
    many_tables: 35,
};

/// Few parents with hundreds of children: a change of a parent takes, adds or replaces a large share of the list.
pub const CROWDED: Size = Size {
    rows: 4,
    root_rows: 900,
    words: 50_000,
    many_tables: 0,
};
