//! A scene for random calls: a good sheet, lawful base tables, and the store filled from them.

use super::changes::lawful_change;
use super::rows::lawful_base;
use super::sheets::good_sheet;
use super::{Random, Size};
use crate::base::{self, Base};
use crate::change::change_call;
use crate::fill::meaning;
use crate::plan::Plan;
use crate::store::Contents;

pub struct Scene {
    pub plan: Plan,
    pub sheet: Vec<u64>,
    pub base: Base,
    pub contents: Contents,
    pub store: Vec<u64>,
}

/// How a scene's rooms stand to the rows that its base tables give.
#[derive(Clone, Copy, PartialEq, Eq)]
pub enum Rooms {
    /// Enough for the store, with little to spare.
    Enough,
    /// Perhaps too few, for a fill that is to be refused.
    Short,
}

impl Scene {
    /// The store is that of the base tables, as far as room allows: with short rooms it is empty.
    pub fn new(random: &mut Random, size: Size, rooms: Rooms) -> Scene {
        loop {
            let mut sheet = good_sheet(random, size);
            let mut size = size;
            if sheet.tables() > 5 {
                size.rows = size.rows * 3 / 5;
                size.root_rows = size.root_rows * 3 / 5;
            }
            let plan = Plan::of(sheet.clone());
            let base = lawful_base(random, &plan, size);
            let contents = meaning(&plan, &base);
            let mut counts: Vec<usize> = contents.sides.iter().map(Vec::len).collect();
            counts.push(contents.list.len());
            for (part, (room, count)) in sheet.rooms.iter_mut().zip(counts).enumerate() {
                let many = match part == plan.root || part == plan.tables() {
                    true => size.root_rows,
                    false => size.rows,
                };
                let more = random.pick(&[0, 0, 1, 1, 1, 2, 3, many, many]);
                *room = match rooms {
                    Rooms::Short if random.chance(25) => count.saturating_sub(1),
                    _ => count + more,
                };
            }
            let plan = Plan::of(sheet);
            if plan.length > size.words {
                continue;
            }
            let contents = match rooms {
                Rooms::Enough => contents,
                Rooms::Short => Contents {
                    sides: vec![Vec::new(); plan.tables()],
                    list: Vec::new(),
                },
            };
            return Scene {
                sheet: plan.sheet.words(),
                store: contents.words(&plan),
                plan,
                base,
                contents,
            };
        }
    }

    /// Goes on by some lawful changes; those without room are left out.
    pub fn go_on(&mut self, random: &mut Random, changes: usize) {
        for _ in 0..changes {
            let Some(change) = lawful_change(random, &self.plan, &self.base) else {
                return;
            };
            let (kind, table) = (change.kind(), change.table() as u64);
            let (old, new) = (change.old_row(), change.new_row());
            let outcome = change_call(&self.sheet, &self.store, kind, table, old, new);
            if outcome.number == 0 {
                base::apply(&mut self.base, &change);
                self.set_store(outcome.store);
            }
        }
    }

    pub fn set_contents(&mut self, contents: Contents) {
        self.store = contents.words(&self.plan);
        self.contents = contents;
    }

    fn set_store(&mut self, store: Vec<u64>) {
        self.contents = Contents::read(&self.plan, &store).expect("the store stays sound");
        self.store = store;
    }
}
