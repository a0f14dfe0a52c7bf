//! Random good sheets: trees, promises, conditions and listings of every kind.

use super::{Random, Size, APART};
use crate::sheet::{Condition, Edge, Listed, Sheet};

/// A good sheet; its rooms are all 0, since who asks for it sets them.
pub fn good_sheet(random: &mut Random, size: Size) -> Sheet {
    let tables = match random.chance(size.many_tables) {
        true => random.between(6, 8),
        false => random.pick(&[1, 2, 2, 3, 3, 3, 4, 4, 4, 5, 5]),
    };
    let style = Style::any(random);
    let mut edges = tree(random, style, tables);
    let mut widths = Vec::new();
    for table in 0..tables {
        let has_parents = edges.iter().any(|edge| edge.child == table);
        let least = match has_parents || random.chance(70) {
            true => 2,
            false => 1,
        };
        let most = match random.chance(10) {
            true => 8,
            false => 4,
        };
        widths.push(random.between(least, most));
    }
    for edge in &mut edges {
        edge.column = random.between(1, widths[edge.child] - 1);
    }
    promise(random, style, &mut edges);
    let conditions = conditions(random, &widths);
    let listed = listed(random, style, &widths, &edges);
    Sheet {
        rooms: vec![0; tables + 1],
        widths,
        edges,
        conditions,
        listed,
    }
}

/// Which keys a sheet lists: this decides Need, and with it the root's side table.
#[derive(Clone, Copy, PartialEq, Eq)]
enum Style {
    EveryKey,
    NoKey,
    EveryKeyButTheRoots,
    /// The keys of the root's parents, and all edges promised: the root has no
    /// side table, and updates of other tables go by key.
    ByKey,
    AnyKeys,
}

impl Style {
    fn any(random: &mut Random) -> Style {
        match random.below(20) {
            0..=2 => Style::EveryKey,
            3..=5 => Style::NoKey,
            6..=8 => Style::EveryKeyButTheRoots,
            9..=15 => Style::ByKey,
            _ => Style::AnyKeys,
        }
    }
}

/// The edges of a tree on shuffled table numbers; the columns are chosen later.
fn tree(random: &mut Random, style: Style, tables: usize) -> Vec<Edge> {
    let mut order: Vec<usize> = (0..tables).collect();
    random.shuffle(&mut order);
    // A walk by key passes on only in a tree that is deep enough.
    let shape = match style {
        Style::ByKey => random.pick(&[0, 0, 1, 2]),
        _ => random.below(4),
    };
    let mut edges = Vec::new();
    for place in 1..tables {
        let child = match shape {
            0 => place - 1,
            1 => 0,
            _ => random.below(place),
        };
        edges.push(Edge {
            child: order[child],
            column: 1,
            parent: order[place],
            promised: false,
        });
    }
    random.shuffle(&mut edges);
    edges
}

/// All edges are promised in half of the sheets: only there can the root go without a side table.
fn promise(random: &mut Random, style: Style, edges: &mut [Edge]) {
    let percent = match style {
        Style::ByKey => 100,
        _ => random.pick(&[100, 100, 100, 0, 50, 60, 70, 80]),
    };
    for edge in edges {
        edge.promised = random.chance(percent);
    }
}

fn conditions(random: &mut Random, widths: &[usize]) -> Vec<Condition> {
    let count = match random.below(20) {
        0..=8 => 0,
        9..=13 => 1,
        14..=16 => 2,
        17..=18 => random.between(3, 5),
        _ => random.between(6, 16),
    };
    let mut conditions = Vec::new();
    for _ in 0..count {
        let table = random.below(widths.len());
        // Many narrow conditions would leave no qualified row.
        let (lowest, highest) = match count > 3 && random.chance(80) {
            true => (0, u64::MAX - random.below(2) as u64),
            false => range(random),
        };
        conditions.push(Condition {
            table,
            column: random.below(widths[table]),
            lowest,
            highest,
        });
    }
    conditions
}

fn range(random: &mut Random) -> (u64, u64) {
    let small = random.below(4) as u64;
    match random.below(10) {
        0 => (0, u64::MAX),
        1 => (0, small),
        2 => (small, u64::MAX),
        3 => (small, small),
        4 => (1, APART + 2),
        5 => (0, APART + small),
        6 => (APART, u64::MAX),
        7 => (u64::MAX, u64::MAX),
        8 => (0, 2),
        _ => {
            let (one, two) = (random.value(), random.value());
            (one.min(two), one.max(two))
        }
    }
}

/// Listings with and without keys, by the style; other columns as chance has it.
fn listed(random: &mut Random, style: Style, widths: &[usize], edges: &[Edge]) -> Vec<Listed> {
    let root = (0..widths.len())
        .find(|&table| edges.iter().all(|edge| edge.parent != table))
        .expect("a tree has a root");
    let next_to_root = |table| {
        let joins = |edge: &Edge| edge.child == root && edge.parent == table;
        edges.iter().any(joins)
    };
    let rest = match style {
        Style::ByKey => random.pick(&[30, 60, 80]),
        _ => random.pick(&[0, 25, 50, 80]),
    };
    let (mut first, mut others) = (Vec::new(), Vec::new());
    for (table, &width) in widths.iter().enumerate() {
        for column in 0..width {
            let (wanted, percent) = match (style, column) {
                (Style::EveryKey, 0) => (true, 0),
                (Style::NoKey, 0) => (false, 0),
                (Style::EveryKeyButTheRoots, 0) => (table != root, 0),
                (Style::ByKey, 0) => (next_to_root(table), 15),
                (Style::AnyKeys, 0) => (false, 50),
                _ => (false, rest),
            };
            let listed = Listed { table, column };
            match wanted {
                true => first.push(listed),
                false if random.chance(percent) => others.push(listed),
                false => {}
            }
        }
    }
    random.shuffle(&mut others);
    first.extend(others);
    let most = match random.chance(10) {
        true => 16,
        false => first.len().min(16).clamp(1, 7),
    };
    first.truncate(most.max(1));
    if first.is_empty() {
        let table = random.below(widths.len());
        let column = random.below(widths[table]);
        first.push(Listed { table, column });
    }
    random.shuffle(&mut first);
    // Columns that an update may alter decide the order of list rows only where keys, and columns equal to keys, come behind them.
    if random.chance(40) {
        let child = |one: &Listed| {
            edges
                .iter()
                .any(|edge| edge.child == one.table && edge.column == one.column)
        };
        first.sort_by_key(|one| one.column == 0 || child(one));
    }
    first
}

/// Any room words: mostly small, now and then the largest.
pub fn any_rooms(random: &mut Random, sheet: &mut Sheet) {
    for room in &mut sheet.rooms {
        *room = match random.below(10) {
            0..=1 => 0,
            2..=7 => random.between(1, 9),
            8 => 4096,
            _ => random.between(10, 4096),
        };
    }
}
