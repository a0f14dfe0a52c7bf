//! Random rows that often join and often meet the conditions, and lawful base tables of them.

use super::{Random, Size, APART};
use crate::base::{is_lawful_change, Base, Change};
use crate::list::root_first;
use crate::plan::Plan;
use crate::Row;

/// A row of the table, with child columns that often are one of the parent's keys.
pub fn row(random: &mut Random, plan: &Plan, table: usize, keys: &[Vec<u64>]) -> Row {
    let width = plan.sheet.widths[table];
    (0..width)
        .map(|column| value(random, plan, table, column, keys))
        .collect()
}

/// A value for a column of the table.
pub fn value(
    random: &mut Random,
    plan: &Plan,
    table: usize,
    column: usize,
    keys: &[Vec<u64>],
) -> u64 {
    let sheet = &plan.sheet;
    let mut wanted = Vec::new();
    for edge in sheet.edges_from(table) {
        if edge.column == column {
            wanted.extend(&keys[edge.parent]);
        }
    }
    let conditions = sheet.conditions.iter();
    let on_column = conditions.filter(|one| one.table == table && one.column == column);
    let ranges: Vec<(u64, u64)> = on_column.map(|one| (one.lowest, one.highest)).collect();
    let holds = |value: u64| {
        ranges
            .iter()
            .all(|range| range.0 <= value && value <= range.1)
    };
    if !wanted.is_empty() && random.chance(88) {
        let held: Vec<u64> = wanted.iter().copied().filter(|&one| holds(one)).collect();
        return match !held.is_empty() && random.chance(90) {
            true => random.pick(&held),
            false => random.pick(&wanted),
        };
    }
    if !ranges.is_empty() && random.chance(85) {
        // Inside, at either end, or just beyond it.
        let (lowest, highest) = random.pick(&ranges);
        let mut near = vec![lowest, highest, lowest.midpoint(highest)];
        near.extend((0..4).map(|_| random.value()));
        near.extend(ranges.iter().flat_map(|range| [range.0, range.1]));
        near.retain(|&one| holds(one));
        let beyond = [highest.wrapping_add(1), lowest.wrapping_sub(1)];
        return match !near.is_empty() && random.chance(85) {
            true => random.pick(&near),
            false => random.pick(&beyond),
        };
    }
    random.value()
}

/// The keys that stand in each table.
pub fn keys(tables: &[Vec<Row>]) -> Vec<Vec<u64>> {
    let keys_of = |rows: &Vec<Row>| rows.iter().map(|row| row[0]).collect();
    tables.iter().map(keys_of).collect()
}

/// The tables, each parent before its child.
pub fn parents_first(plan: &Plan) -> Vec<usize> {
    let mut order = root_first(&plan.sheet);
    order.reverse();
    order
}

/// A key out of enough that so many rows can each have their own; some are equal in the low 32 bits.
fn own_key(random: &mut Random, rows: usize) -> u64 {
    let key = random.below(4 * rows) as u64;
    match random.chance(20) {
        true => key + APART,
        false => key,
    }
}

/// Lawful base tables, built by lawful inserts alone; perhaps without a parent that children on an unpromised edge refer to.
pub fn lawful_base(random: &mut Random, plan: &Plan, size: Size) -> Base {
    let mut base: Base = vec![Vec::new(); plan.tables()];
    let few = random.chance(10);
    for table in parents_first(plan) {
        let (rows, few) = match table == plan.root {
            true => (size.root_rows, few && random.chance(50)),
            false => (size.rows, few),
        };
        let tries = match few {
            true => random.between(0, 2),
            false => random.between(rows / 2, rows + 1),
        };
        let parents = keys(&base);
        let key_is_free = !plan.sheet.tied(table, 0);
        for _ in 0..tries {
            if base[table].len() == rows {
                break;
            }
            let mut new = row(random, plan, table, &parents);
            // The values that are drawn otherwise are too few for many keys.
            if table == plan.root && key_is_free && random.chance(80) {
                new[0] = own_key(random, rows);
            }
            let insert = Change::Insert {
                table,
                new: new.clone(),
            };
            if is_lawful_change(&plan.sheet, &base, &insert) {
                base[table].push(new);
            }
        }
    }
    if random.chance(40) {
        leave_children_waiting(random, plan, &mut base);
    }
    for rows in &mut base {
        random.shuffle(rows);
    }
    base
}

/// The tables whose edge isn't promised: their rows may come and go under their children, and many list rows with them.
pub fn unpromised_parents(plan: &Plan) -> Vec<usize> {
    let unpromised = plan.sheet.edges.iter().filter(|edge| !edge.promised);
    unpromised.map(|edge| edge.parent).collect()
}

/// Takes a row from one of these tables, if there is one.
fn leave_children_waiting(random: &mut Random, plan: &Plan, base: &mut Base) {
    let tables = unpromised_parents(plan);
    if tables.is_empty() {
        return;
    }
    let rows = &mut base[random.pick(&tables)];
    if !rows.is_empty() {
        rows.remove(random.below(rows.len()));
    }
}
