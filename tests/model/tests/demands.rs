//! Demand 3 on the model itself, and that the random calls reach every refusal and every way of an update.

use model::base::{self, Base, Change};
use model::change::{change_call, step, ways_can_be_taken, Contradiction};
use model::fill::{fill_call, meaning};
use model::list::list;
use model::plan::{plan_call, Plan};
use model::random::calls::{any_call, Call};
use model::random::changes::{lawful_change, Words};
use model::random::scene::{Rooms, Scene};
use model::random::{Random, Size, BIG, CROWDED, SMALL};
use model::store::{show_call, Contents};
use std::collections::BTreeMap;

/// How often each thing was reached.
#[derive(Default)]
struct Reached(BTreeMap<String, usize>);

impl Reached {
    fn count(&mut self, what: String) {
        *self.0.entry(what).or_default() += 1;
    }

    fn demand(&self, what: &str, least: usize) {
        let times = self.0.get(what).copied().unwrap_or(0);
        assert!(times >= least, "{what}: {times} times, {least} wanted");
    }

    fn print(&self) {
        for (what, times) in &self.0 {
            println!("{what}: {times}");
        }
    }
}

/// The ways through a row, counted in the base tables alone.
fn ways_in_base(plan: &Plan, base: &Base, table: usize, row: &[u64]) -> u64 {
    let mut only_row = base.clone();
    only_row[table] = vec![row.to_vec()];
    list(plan, &only_row).len() as u64
}

/// How often a walk by key passes on from a table.
fn steps_of_walk(plan: &Plan, table: usize) -> usize {
    let (mut at, mut steps) = (table, 0);
    while !plan.sheet.lists(at, 0) {
        at = plan.sheet.edges_into(at).next().unwrap().child;
        steps += 1;
    }
    steps
}

/// One lawful change on the store of a base, checked against the base tables after it.
fn check_lawful(scene: &mut Scene, change: &Change, reached: &mut Reached) {
    let (plan, base) = (&scene.plan, &scene.base);
    let table = change.table();
    let (old, new) = (change.old_row(), change.new_row());
    let (kind, number) = (change.kind(), table as u64);
    let outcome = change_call(&scene.sheet, &scene.store, kind, number, old, new);
    let mut after = base.clone();
    base::apply(&mut after, change);
    assert!(base::is_lawful(&plan.sheet, &after));
    let wanted = meaning(plan, &after);
    if wanted.exceeds_room(plan) {
        assert_eq!(outcome.number, 9, "{:?} {change:?}", scene.sheet);
        assert_eq!((outcome.taken, outcome.added), (0, 0));
        assert_eq!(outcome.store, scene.store);
        reached.count(format!("lawful {kind} without room"));
        return;
    }
    assert_eq!(outcome.number, 0, "{:?} {change:?}", scene.sheet);
    assert_eq!(outcome.store, wanted.words(plan), "{:?}", scene.sheet);
    for other in (0..plan.tables()).filter(|&other| other != table) {
        assert_eq!(wanted.sides[other], scene.contents.sides[other]);
    }
    let taken = match change {
        Change::Insert { .. } => 0,
        _ => ways_in_base(plan, base, table, old),
    };
    let added = match change {
        Change::Delete { .. } => 0,
        _ => ways_in_base(plan, &after, table, new),
    };
    assert_eq!((outcome.taken, outcome.added), (taken, added));
    if taken + added > 0 {
        let way = match change {
            Change::Update { .. } if ways_can_be_taken(plan, table) => " by ways".to_string(),
            Change::Update { .. } => format!(" by key, {} steps", steps_of_walk(plan, table)),
            _ => String::new(),
        };
        reached.count(format!("lawful {kind} with list rows{way}"));
        if outcome.store != scene.store {
            reached.count(format!("lawful {kind} with list rows written{way}"));
        }
        if taken.max(added) > 1 {
            reached.count(format!("lawful {kind} with many list rows{way}"));
        }
        if taken.max(added) > 100 {
            reached.count(format!("lawful {kind} with hundreds of list rows{way}"));
        }
    } else if outcome.store != scene.store {
        reached.count(format!("lawful {kind} in a side table alone"));
    } else {
        reached.count(format!("lawful {kind} changes nothing"));
    }
    scene.base = after;
    scene.store = outcome.store;
    scene.contents = wanted;
}

fn check_fill(scene: &Scene) {
    let junk = vec![u64::MAX; scene.plan.length];
    let outcome = fill_call(&scene.sheet, &junk, &base::run(&scene.base));
    let added = scene.contents.list.len() as u64;
    assert_eq!((outcome.number, outcome.taken), (0, 0));
    assert_eq!((outcome.added, &outcome.store), (added, &scene.store));
}

fn demand_3(seed: u64, scenes: usize, changes: usize, size: Size) -> Reached {
    let mut random = Random::new(seed);
    let mut reached = Reached::default();
    for _ in 0..scenes {
        let mut scene = Scene::new(&mut random, size, Rooms::Enough);
        for _ in 0..changes {
            check_fill(&scene);
            let lawful = lawful_change(&mut random, &scene.plan, &scene.base);
            let Some(change) = lawful else {
                reached.count("no lawful change found".to_string());
                break;
            };
            check_lawful(&mut scene, &change, &mut reached);
        }
    }
    reached.print();
    reached
}

#[test]
fn demand_3_on_small_scenes() {
    let reached = demand_3(3, 4000, 20, SMALL);
    for kind in 1..=3 {
        reached.demand(&format!("lawful {kind} in a side table alone"), 100);
        reached.demand(&format!("lawful {kind} changes nothing"), 100);
    }
    reached.demand("lawful 1 without room", 100);
    reached.demand("lawful 1 with list rows", 100);
    reached.demand("lawful 1 with many list rows", 20);
    reached.demand("lawful 2 with list rows", 100);
    reached.demand("lawful 2 with many list rows", 20);
    reached.demand("lawful 3 with list rows written by ways", 100);
    reached.demand("lawful 3 with many list rows by ways", 100);
    reached.demand("lawful 3 with many list rows by key, 0 steps", 100);
    for steps in 0..=2 {
        let written = "lawful 3 with list rows written by key";
        reached.demand(&format!("{written}, {steps} steps"), 20);
    }
    assert!(!reached.0.contains_key("lawful 2 without room"));
    assert!(!reached.0.contains_key("lawful 3 without room"));
}

#[test]
fn demand_3_on_big_scenes() {
    let reached = demand_3(4, 60, 30, BIG);
    reached.demand("lawful 3 with list rows written by ways", 5);
    reached.demand("lawful 3 with list rows written by key, 0 steps", 5);
}

#[test]
fn demand_3_on_crowded_scenes() {
    let reached = demand_3(6, 400, 10, CROWDED);
    reached.demand("lawful 1 with hundreds of list rows", 10);
    reached.demand("lawful 2 with hundreds of list rows", 20);
    reached.demand("lawful 3 with hundreds of list rows by ways", 20);
    for steps in 0..=2 {
        let found = "lawful 3 with hundreds of list rows by key";
        reached.demand(&format!("{found}, {steps} steps"), 10);
    }
}

/// What a change call that was accepted or refused with 8 or 9 did.
fn count_change(call: (&[u64], &[u64], &Words), number: u64, reached: &mut Reached) {
    let (sheet, store, words) = call;
    if ![0, 8, 9].contains(&number) {
        return;
    }
    let plan = Plan::read(sheet).unwrap();
    let contents = Contents::read(&plan, store).unwrap();
    let table = words.table as usize;
    let (old, new) = (words.old.clone(), words.new.clone());
    let change = match words.kind {
        1 => Change::Insert { table, new },
        2 => Change::Delete { table, old },
        _ => Change::Update { table, old, new },
    };
    match step(&plan, &contents, &change) {
        Err(contradiction) => {
            assert_eq!(number, 8);
            reached.count(format!("{contradiction:?} of {}", words.kind));
        }
        Ok(step) if number == 9 => {
            let list = step.after.list.len() > plan.sheet.rooms[plan.tables()];
            reached.count(format!("no room on the list {list}"));
        }
        Ok(step) => {
            assert_eq!(number, 0);
            let by_ways = ways_can_be_taken(&plan, table);
            let listed = step.taken + step.added > 0;
            let kind = words.kind;
            reached.count(format!(
                "{kind} accepted, by ways {by_ways}, list rows {listed}"
            ));
        }
    }
}

/// Every call answers, and the mix reaches every number in each kind of call.
#[test]
fn random_calls_reach_everything() {
    let mut random = Random::new(5);
    let mut reached = Reached::default();
    for _ in 0..30_000 {
        match any_call(&mut random, SMALL) {
            Call::Plan { sheet } => {
                let answer = plan_call(&sheet);
                reached.count(format!("plan {}", answer.number));
            }
            Call::Show { sheet, store, part } => {
                let (number, words) = show_call(&sheet, &store, part);
                assert!(number == 0 || words.is_empty());
                reached.count(format!("show {number}"));
            }
            Call::Fill { sheet, store, run } => {
                let outcome = fill_call(&sheet, &store, &run);
                assert!(outcome.number == 0 || outcome.store == store);
                reached.count(format!("fill {}", outcome.number));
            }
            Call::Change {
                sheet,
                store,
                change,
            } => {
                let (kind, table) = (change.kind, change.table);
                let outcome = change_call(&sheet, &store, kind, table, &change.old, &change.new);
                assert!(outcome.number == 0 || outcome.store == store);
                assert!(outcome.number == 0 || outcome.taken + outcome.added == 0);
                reached.count(format!("change {}", outcome.number));
                count_change((&sheet, &store, &change), outcome.number, &mut reached);
            }
        }
    }
    reached.print();
    for (call, numbers) in [
        ("plan", vec![0, 1, 2, 3]),
        ("show", vec![0, 1, 2, 3, 4, 5, 7]),
        ("fill", vec![0, 1, 2, 3, 4, 9, 10]),
        ("change", vec![0, 1, 2, 3, 4, 5, 6, 7, 8, 9]),
    ] {
        for number in 0..=10 {
            let what = format!("{call} {number}");
            match numbers.contains(&number) {
                true => reached.demand(&what, 20),
                false => assert!(!reached.0.contains_key(&what), "{what}"),
            }
        }
    }
    reached.demand(&format!("{:?} of 1", Contradiction::KeyStands), 20);
    for kind in 2..=3 {
        reached.demand(&format!("{:?} of {kind}", Contradiction::RowMissing), 20);
        let unqualified = Contradiction::UnqualifiedStands;
        reached.demand(&format!("{unqualified:?} of {kind}"), 20);
        let missing = Contradiction::ListRowMissing;
        reached.demand(&format!("{missing:?} of {kind}"), 20);
    }
    reached.demand(&format!("{:?} of 3", Contradiction::OtherValues), 20);
    reached.demand("no room on the list true", 20);
    reached.demand("no room on the list false", 20);
    for by_ways in [true, false] {
        for kind in 1..=3 {
            let what = format!("{kind} accepted, by ways {by_ways}, list rows false");
            reached.demand(&what, 20);
        }
        let what = format!("3 accepted, by ways {by_ways}, list rows true");
        reached.demand(&what, 20);
    }
}
