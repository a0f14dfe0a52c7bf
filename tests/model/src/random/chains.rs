//! A store's life: filled from lawful base tables, then lawful changes one after another, each on the store that the last one left.

use super::calls::Call;
use super::changes::{lawful_change, Words};
use super::scene::{Rooms, Scene};
use super::{Random, Size};
use crate::base;
use crate::change::change_call;
use crate::fill::meaning;

pub struct Chain {
    scene: Scene,
    filled: bool,
    left: usize,
}

/// A call of a chain, and the store that it must leave, from the base tables alone.
pub struct Link {
    pub call: Call,
    pub store: Vec<u64>,
}

impl Chain {
    pub fn new(random: &mut Random, size: Size) -> Chain {
        Chain {
            scene: Scene::new(random, size, Rooms::Enough),
            filled: false,
            left: random.between(1, 8),
        }
    }

    /// The next call: the fill first, then lawful changes; none once the chain has ended.
    pub fn next(&mut self, random: &mut Random) -> Option<Link> {
        if !self.filled {
            self.filled = true;
            return Some(self.fill(random));
        }
        if self.left == 0 {
            return None;
        }
        self.left -= 1;
        self.change(random)
    }

    fn fill(&self, random: &mut Random) -> Link {
        let scene = &self.scene;
        let mut store = scene.store.clone();
        for word in &mut store {
            *word = random.value();
        }
        Link {
            call: Call::Fill {
                sheet: scene.sheet.clone(),
                store,
                run: base::run(&scene.base),
            },
            store: scene.store.clone(),
        }
    }

    /// Demand 3: the store after a lawful change is the fill of the changed base tables, unless that has no room.
    fn change(&mut self, random: &mut Random) -> Option<Link> {
        let scene = &mut self.scene;
        let change = lawful_change(random, &scene.plan, &scene.base)?;
        let before = scene.store.clone();
        let words = Words::of(&change);
        let (kind, table) = (words.kind, words.table);
        let outcome = change_call(&scene.sheet, &before, kind, table, &words.old, &words.new);
        let mut after = scene.base.clone();
        base::apply(&mut after, &change);
        let contents = meaning(&scene.plan, &after);
        match contents.exceeds_room(&scene.plan) {
            true => assert_eq!(outcome.number, 9, "a lawful change without room"),
            false => {
                assert_eq!(outcome.number, 0, "a lawful change with room");
                scene.base = after;
                scene.set_contents(contents);
            }
        }
        Some(Link {
            call: Call::Change {
                sheet: scene.sheet.clone(),
                store: before,
                change: words,
            },
            store: scene.store.clone(),
        })
    }
}
