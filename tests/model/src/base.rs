//! Base tables: the run they come in, refusal 10, and lawful changes to them.

use crate::sheet::Sheet;
use crate::{Refusal, Row};
use std::collections::BTreeSet;

/// The rows of each table, in no particular order.
pub type Base = Vec<Vec<Row>>;

/// One change to one table.
#[derive(Clone, Debug, PartialEq, Eq)]
pub enum Change {
    Insert { table: usize, new: Row },
    Delete { table: usize, old: Row },
    Update { table: usize, old: Row, new: Row },
}

impl Change {
    pub fn table(&self) -> usize {
        match self {
            Change::Insert { table, .. } => *table,
            Change::Delete { table, .. } => *table,
            Change::Update { table, .. } => *table,
        }
    }

    pub fn kind(&self) -> u64 {
        match self {
            Change::Insert { .. } => 1,
            Change::Delete { .. } => 2,
            Change::Update { .. } => 3,
        }
    }

    /// The old row; an insert carries none.
    pub fn old_row(&self) -> &[u64] {
        match self {
            Change::Insert { .. } => &[],
            Change::Delete { old, .. } | Change::Update { old, .. } => old,
        }
    }

    /// The new row; a delete carries none.
    pub fn new_row(&self) -> &[u64] {
        match self {
            Change::Delete { .. } => &[],
            Change::Insert { new, .. } | Change::Update { new, .. } => new,
        }
    }
}

/// Reads the run of base tables, or gives refusal 10.
pub fn read(sheet: &Sheet, run: &[u64]) -> Result<Base, Refusal> {
    let tables = sheet.tables();
    if run.len() < tables {
        return Err(10);
    }
    let (counts, mut rest) = run.split_at(tables);
    // A count above 65,535 goes first: after it no length can overflow.
    if counts.iter().any(|&count| count > 65_535) {
        return Err(10);
    }
    let mut wanted = 0;
    for (&count, &width) in counts.iter().zip(&sheet.widths) {
        wanted += count as usize * width;
    }
    if rest.len() != wanted {
        return Err(10);
    }
    let mut base = Vec::new();
    for (&count, &width) in counts.iter().zip(&sheet.widths) {
        let (rows, after) = rest.split_at(count as usize * width);
        base.push(rows.chunks(width).map(<[u64]>::to_vec).collect());
        rest = after;
    }
    if !is_lawful(sheet, &base) {
        return Err(10);
    }
    Ok(base)
}

/// The run in which base tables come.
pub fn run(base: &Base) -> Vec<u64> {
    let mut words: Vec<u64> = base.iter().map(|rows| rows.len() as u64).collect();
    words.extend(base.iter().flatten().flatten());
    words
}

fn keys(rows: &[Row]) -> BTreeSet<u64> {
    rows.iter().map(|row| row[0]).collect()
}

/// Lawful if no key stands twice in a table and every promised edge finds its parent.
pub fn is_lawful(sheet: &Sheet, base: &Base) -> bool {
    let no_key_twice = base.iter().all(|rows| keys(rows).len() == rows.len());
    let parents_found = sheet.edges.iter().filter(|edge| edge.promised).all(|edge| {
        let parents = keys(&base[edge.parent]);
        let children = &base[edge.child];
        children
            .iter()
            .all(|row| parents.contains(&row[edge.column]))
    });
    no_key_twice && parents_found
}

fn has_key(rows: &[Row], key: u64) -> bool {
    rows.iter().any(|row| row[0] == key)
}

/// Whether the change is lawful on these base tables.
pub fn is_lawful_change(sheet: &Sheet, base: &Base, change: &Change) -> bool {
    let table = change.table();
    if table >= sheet.tables() {
        return false;
    }
    let width = sheet.widths[table];
    let rows = &base[table];
    match change {
        Change::Insert { new, .. } => {
            new.len() == width
                && !has_key(rows, new[0])
                && sheet
                    .edges_from(table)
                    .filter(|edge| edge.promised)
                    .all(|edge| has_key(&base[edge.parent], new[edge.column]))
        }
        Change::Delete { old, .. } => {
            old.len() == width
                && rows.contains(old)
                && sheet
                    .edges_into(table)
                    .filter(|edge| edge.promised)
                    .all(|edge| {
                        !base[edge.child]
                            .iter()
                            .any(|row| row[edge.column] == old[0])
                    })
        }
        Change::Update { old, new, .. } => {
            old.len() == width
                && new.len() == width
                && rows.contains(old)
                && old[0] == new[0]
                && (0..width).all(|column| old[column] == new[column] || !sheet.tied(table, column))
        }
    }
}

/// The base tables after a lawful change.
pub fn apply(base: &mut Base, change: &Change) {
    let rows = &mut base[change.table()];
    match change {
        Change::Insert { new, .. } => rows.push(new.clone()),
        Change::Delete { old, .. } => rows.retain(|row| row != old),
        Change::Update { old, new, .. } => {
            for row in rows.iter_mut().filter(|row| *row == old) {
                row.clone_from(new);
            }
        }
    }
}
