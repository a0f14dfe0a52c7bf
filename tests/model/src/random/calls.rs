//! Random calls of every kind, whose mix makes each refusal number frequent.

use super::changes::{any_change, lawful_change, misshapen, tied_update, Words};
use super::damage::{damaged_run, damaged_sheet, damaged_store, misfit_store};
use super::scene::{Rooms, Scene};
use super::sheets::{any_rooms, good_sheet};
use super::stores::{any_contents, disturbed, one_copy_fewer, table_altered};
use super::{Random, Size};
use crate::base;
use crate::change::ways_can_be_taken;

/// One call with all that it is given.
#[derive(Clone, Debug, PartialEq, Eq)]
pub enum Call {
    Plan {
        sheet: Vec<u64>,
    },
    Change {
        sheet: Vec<u64>,
        store: Vec<u64>,
        change: Words,
    },
    Show {
        sheet: Vec<u64>,
        store: Vec<u64>,
        part: u64,
    },
    Fill {
        sheet: Vec<u64>,
        store: Vec<u64>,
        run: Vec<u64>,
    },
}

pub fn any_call(random: &mut Random, size: Size) -> Call {
    match random.below(20) {
        0..=3 => plan(random, size),
        4..=6 => show(random, size),
        7..=9 => fill(random, size),
        _ => change(random, size),
    }
}

fn plan(random: &mut Random, size: Size) -> Call {
    let mut sheet = good_sheet(random, size);
    any_rooms(random, &mut sheet);
    let sheet = match random.chance(55) {
        true => damaged_sheet(random, &sheet),
        false => sheet.words(),
    };
    Call::Plan { sheet }
}

/// A scene whose store has been filled, changed, and perhaps disturbed or made up.
fn scene(random: &mut Random, size: Size) -> Scene {
    let mut scene = Scene::new(random, size, Rooms::Enough);
    let changes = random.below(6);
    scene.go_on(random, changes);
    match random.below(20) {
        0..=6 => {
            let contents = disturbed(random, &scene.plan, &scene.contents);
            scene.set_contents(contents);
        }
        7..=9 => {
            let contents = any_contents(random, &scene.plan);
            scene.set_contents(contents);
        }
        _ => {}
    }
    scene
}

/// The scene's sheet and store, each damaged now and then.
fn sheet_and_store(
    random: &mut Random,
    scene: &Scene,
    unsound: usize,
    misfit: usize,
) -> (Vec<u64>, Vec<u64>) {
    let mut sheet = scene.sheet.clone();
    let mut store = scene.store.clone();
    if random.chance(9) {
        sheet = damaged_sheet(random, &scene.plan.sheet);
    }
    if random.chance(unsound) {
        store = damaged_store(random, &scene.plan, &store);
    }
    if random.chance(misfit) {
        store = misfit_store(random, &store);
    }
    (sheet, store)
}

fn change(random: &mut Random, size: Size) -> Call {
    let mut scene = scene(random, size);
    let (plan, base) = (&scene.plan, &scene.base);
    let change = match random.below(20) {
        0..=8 => lawful_change(random, plan, base),
        9..=10 => tied_update(random, plan, base),
        _ => None,
    };
    let change = change.unwrap_or_else(|| any_change(random, plan, base, &scene.contents));
    let words = match random.chance(9) {
        true => misshapen(random, plan, &change),
        false => Words::of(&change),
    };
    // Contradictions on the list are rare by chance alone, those by key most of all.
    let aimed = match change.kind() {
        3 if !ways_can_be_taken(plan, change.table()) => 40,
        3 => 10,
        _ => 0,
    };
    if random.chance(aimed) {
        let contents = table_altered(random, plan, &scene.contents, change.table());
        scene.set_contents(contents);
    } else if random.chance(30) {
        let contents = one_copy_fewer(random, &scene.contents);
        scene.set_contents(contents);
    }
    let (sheet, store) = sheet_and_store(random, &scene, 8, 4);
    Call::Change {
        sheet,
        store,
        change: words,
    }
}

fn show(random: &mut Random, size: Size) -> Call {
    let scene = scene(random, size);
    let tables = scene.plan.tables();
    let part = match random.chance(15) {
        true => random.other(tables as u64),
        false => random.between(0, tables) as u64,
    };
    let (sheet, store) = sheet_and_store(random, &scene, 25, 8);
    Call::Show { sheet, store, part }
}

fn fill(random: &mut Random, size: Size) -> Call {
    let rooms = random.pick(&[Rooms::Enough, Rooms::Enough, Rooms::Short]);
    let scene = Scene::new(random, size, rooms);
    let mut run = base::run(&scene.base);
    if random.chance(30) {
        run = damaged_run(random, &scene.plan.sheet, &run);
    }
    let (sheet, mut store) = sheet_and_store(random, &scene, 0, 8);
    // Fill doesn't read the old store, so anything may stand in it.
    if random.chance(60) {
        for word in &mut store {
            *word = random.value();
        }
    }
    Call::Fill { sheet, store, run }
}
