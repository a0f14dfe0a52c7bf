//! Random changes: lawful ones, ones that stray from the base or the store, and ones of the wrong shape.

use super::rows::{keys, row, unpromised_parents, value};
use super::{Random, APART};
use crate::base::{is_lawful_change, Base, Change};
use crate::plan::Plan;
use crate::store::Contents;
use crate::Row;

/// A change as the call takes it, of whatever shape.
#[derive(Clone, Debug, PartialEq, Eq)]
pub struct Words {
    pub kind: u64,
    pub table: u64,
    pub old: Vec<u64>,
    pub new: Vec<u64>,
}

impl Words {
    pub fn of(change: &Change) -> Words {
        Words {
            kind: change.kind(),
            table: change.table() as u64,
            old: change.old_row().to_vec(),
            new: change.new_row().to_vec(),
        }
    }
}

/// A lawful change, if some tries find one.
pub fn lawful_change(random: &mut Random, plan: &Plan, base: &Base) -> Option<Change> {
    for _ in 0..30 {
        let kind = random.below(10);
        let table = match kind >= 6 {
            true => alterable_table(random, plan),
            false => movable_table(random, plan),
        };
        let rows = &base[table];
        let change = match kind {
            0..=3 => Change::Insert {
                table,
                new: new_row(random, plan, base, table),
            },
            4..=5 if !rows.is_empty() => Change::Delete {
                table,
                old: random.pick(rows),
            },
            _ if !rows.is_empty() => {
                let old = random.pick(rows);
                let new = untied_altered(random, plan, table, &old);
                Change::Update { table, old, new }
            }
            _ => continue,
        };
        if is_lawful_change(&plan.sheet, base, &change) {
            return Some(change);
        }
    }
    None
}

/// A table for an insert or a delete: any, but often one whose rows may come and go under their children.
fn movable_table(random: &mut Random, plan: &Plan) -> usize {
    let parents = unpromised_parents(plan);
    match !parents.is_empty() && random.chance(40) {
        true => random.pick(&parents),
        false => random.below(plan.tables()),
    }
}

/// A row to insert; perhaps one that rows of its child wait for.
fn new_row(random: &mut Random, plan: &Plan, base: &Base, table: usize) -> Row {
    let mut new = row(random, plan, table, &keys(base));
    if let Some(edge) = plan.sheet.edges_into(table).find(|edge| !edge.promised) {
        let stands = |key: u64| base[table].iter().any(|row| row[0] == key);
        let wanted = base[edge.child].iter().map(|row| row[edge.column]);
        let waited_for: Vec<u64> = wanted.filter(|&key| !stands(key)).collect();
        if !waited_for.is_empty() && random.chance(70) {
            new[0] = random.pick(&waited_for);
        }
    }
    new
}

/// Mostly a table with a listed column that an update may alter.
fn alterable_table(random: &mut Random, plan: &Plan) -> usize {
    let sheet = &plan.sheet;
    let listed = sheet.listed.iter();
    let free = listed.filter(|one| one.column > 0 && !sheet.tied(one.table, one.column));
    let tables: Vec<usize> = free.map(|one| one.table).collect();
    // Without its key on the list, an update must walk or take ways.
    let walks = tables.iter().filter(|&&table| !sheet.lists(table, 0));
    let walking: Vec<usize> = walks.copied().collect();
    if !walking.is_empty() && random.chance(40) {
        return random.pick(&walking);
    }
    match !tables.is_empty() && random.chance(80) {
        true => random.pick(&tables),
        false => random.below(plan.tables()),
    }
}

/// The row with other values in some columns, none of them tied or the key.
fn untied_altered(random: &mut Random, plan: &Plan, table: usize, old: &[u64]) -> Row {
    let mut new = old.to_vec();
    let percent = random.pick(&[0, 50, 80, 100, 100, 100]);
    for (column, value) in new.iter_mut().enumerate().skip(1) {
        if !plan.sheet.tied(table, column) && random.chance(percent) {
            *value = match random.chance(15) {
                true => value.wrapping_add(APART),
                false => random.value(),
            };
        }
    }
    new
}

/// A change of the right shape that need not be lawful.
pub fn any_change(random: &mut Random, plan: &Plan, base: &Base, contents: &Contents) -> Change {
    // The root has most ways, and only it may go without a side table.
    let kind = random.below(10);
    let table = match random.below(10) {
        0..=2 => plan.root,
        3..=7 if kind >= 6 => alterable_table(random, plan),
        _ => random.below(plan.tables()),
    };
    let old = some_row(random, plan, base, contents, table);
    match kind {
        0..=2 => Change::Insert { table, new: old },
        3..=5 => Change::Delete { table, old },
        _ => {
            let mut new = untied_altered(random, plan, table, &old);
            if random.chance(12) && new.len() > 1 {
                let column = random.between(1, new.len() - 1);
                new[column] = random.other(new[column]);
            }
            Change::Update { table, old, new }
        }
    }
}

/// A row from the base, from a side table, from the list, or out of nowhere; sometimes with one value altered.
fn some_row(
    random: &mut Random,
    plan: &Plan,
    base: &Base,
    contents: &Contents,
    table: usize,
) -> Row {
    let side = &contents.sides[table];
    let side_keys = keys(&contents.sides);
    let mut found = match random.below(8) {
        0..=3 if !base[table].is_empty() => random.pick(&base[table]),
        4..=5 if !side.is_empty() => {
            let shown = random.pick(side);
            let mut whole = row(random, plan, table, &side_keys);
            for (&column, &value) in plan.columns[table].iter().zip(&shown) {
                whole[column] = value;
            }
            whole
        }
        6 if !contents.list.is_empty() => {
            let listed = random.pick(&contents.list);
            let mut whole = row(random, plan, table, &side_keys);
            for (listing, &value) in plan.sheet.listed.iter().zip(&listed) {
                if listing.table == table {
                    whole[listing.column] = value;
                }
            }
            whole
        }
        _ => row(random, plan, table, &side_keys),
    };
    if random.chance(15) {
        // Perhaps it is no longer qualified, though its key may stand.
        for (column, value) in found.iter_mut().enumerate().skip(1) {
            if plan.sheet.tied(table, column) && random.chance(60) {
                *value = random.other(*value);
            }
        }
    } else if random.chance(20) {
        let column = random.below(found.len());
        found[column] = match random.chance(50) {
            true => value(random, plan, table, column, &side_keys),
            false => random.other(found[column]),
        };
    }
    found
}

/// A change of the wrong shape, for refusal 5; now and then its shape is still right.
pub fn misshapen(random: &mut Random, plan: &Plan, change: &Change) -> Words {
    let mut words = Words::of(change);
    let tables = plan.tables() as u64;
    let kinds = [0, 4, 5, u64::MAX, words.kind + APART, 1 << 63, 1, 2, 3];
    match random.below(8) {
        0 | 1 => words.kind = random.pick(&kinds),
        2 => words.table = random.pick(&[tables, tables + 1, 8, u64::MAX, words.table + APART]),
        3 => words.table = random.below(9) as u64,
        4 => reshape(random, &mut words.old),
        5 => reshape(random, &mut words.new),
        6 if words.kind == 3 => words.new[0] = random.other(words.new[0]),
        6 => {
            // The unused row is there all the same.
            let row = [words.old.clone(), words.new.clone()].concat();
            words.old.clone_from(&row);
            words.new = row;
        }
        _ => {
            words.old.clear();
            words.new.clear();
        }
    }
    words
}

fn reshape(random: &mut Random, row: &mut Vec<u64>) {
    match random.below(4) {
        0 => row.push(0),
        1 => {
            row.pop();
        }
        2 => row.clear(),
        _ => row.extend_from_within(..),
    }
}

/// An update that alters a tied column, for refusal 6, if the table has one.
pub fn tied_update(random: &mut Random, plan: &Plan, base: &Base) -> Option<Change> {
    for _ in 0..10 {
        let table = random.below(plan.tables());
        let columns = 1..plan.sheet.widths[table];
        let tied: Vec<usize> = columns
            .filter(|&column| plan.sheet.tied(table, column))
            .collect();
        if tied.is_empty() || base[table].is_empty() {
            continue;
        }
        let old = random.pick(&base[table]);
        let mut new = untied_altered(random, plan, table, &old);
        let column = random.pick(&tied);
        new[column] = random.other(new[column]);
        return Some(Change::Update { table, old, new });
    }
    None
}
