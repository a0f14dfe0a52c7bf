//! The plan: what is derived from a sheet, the plan call's answer, and its printed text.

use crate::sheet::Sheet;
use crate::Refusal;
use std::collections::BTreeSet;

/// A good sheet with everything that is derived from it.
#[derive(Clone, Debug, PartialEq, Eq)]
pub struct Plan {
    pub sheet: Sheet,
    pub root: usize,
    pub dep: Vec<BTreeSet<usize>>,
    pub dep_plus: Vec<BTreeSet<usize>>,
    pub need: Vec<BTreeSet<usize>>,
    pub kept: Vec<bool>,
    /// The columns that a table's side table shows; none if it is not kept.
    pub columns: Vec<Vec<usize>>,
    /// The place of each table's part in the store, then that of the list.
    pub starts: Vec<usize>,
    /// The length of the store.
    pub length: usize,
}

/// The counts stand before the rows: tables 0 to 7, then the list.
pub const COUNTS: usize = 9;

/// The place of the list's count.
pub const LIST_COUNT: usize = 8;

impl Plan {
    pub fn read(words: &[u64]) -> Result<Plan, Refusal> {
        Ok(Plan::of(Sheet::read(words)?))
    }

    pub fn of(sheet: Sheet) -> Plan {
        let tables = 0..sheet.tables();
        let root = root(&sheet);
        let dep: Vec<_> = tables.clone().map(|table| dep(&sheet, table)).collect();
        let dep_plus: Vec<_> = tables.clone().map(|table| dep_plus(&dep, table)).collect();
        let need: Vec<_> = tables.clone().map(|table| need(&sheet, table)).collect();
        let kept: Vec<bool> = tables
            .clone()
            .map(|table| {
                let needed = need.iter().any(|need| need.contains(&table));
                dep_plus[table] != others(&sheet, table) || needed
            })
            .collect();
        let columns: Vec<Vec<usize>> = tables
            .clone()
            .map(|table| match kept[table] {
                true => shown_columns(&sheet, table),
                false => Vec::new(),
            })
            .collect();
        let mut starts = Vec::new();
        let mut length = COUNTS;
        for table in tables {
            starts.push(length);
            length += sheet.rooms[table] * columns[table].len();
        }
        starts.push(length);
        length += sheet.rooms[sheet.tables()] * sheet.listed.len();
        Plan {
            sheet,
            root,
            dep,
            dep_plus,
            need,
            kept,
            columns,
            starts,
            length,
        }
    }

    pub fn tables(&self) -> usize {
        self.sheet.tables()
    }

    /// What the side table shows of a row of the table.
    pub fn shown(&self, table: usize, row: &[u64]) -> Vec<u64> {
        let columns = &self.columns[table];
        columns.iter().map(|&column| row[column]).collect()
    }

    /// Where the side table shows a column of the table.
    pub fn place(&self, table: usize, column: usize) -> Option<usize> {
        self.columns[table]
            .iter()
            .position(|&shown| shown == column)
    }
}

fn root(sheet: &Sheet) -> usize {
    (0..sheet.tables())
        .find(|&table| sheet.edges_into(table).count() == 0)
        .expect("a good sheet has a root")
}

fn others(sheet: &Sheet, table: usize) -> BTreeSet<usize> {
    (0..sheet.tables())
        .filter(|&other| other != table)
        .collect()
}

/// The parents along promised edges.
fn dep(sheet: &Sheet, table: usize) -> BTreeSet<usize> {
    sheet
        .edges_from(table)
        .filter(|edge| edge.promised)
        .map(|edge| edge.parent)
        .collect()
}

/// All tables reached by repeating Dep.
fn dep_plus(dep: &[BTreeSet<usize>], table: usize) -> BTreeSet<usize> {
    let mut reached = dep[table].clone();
    for &parent in &dep[table] {
        reached.extend(dep_plus(dep, parent));
    }
    reached
}

fn need(sheet: &Sheet, table: usize) -> BTreeSet<usize> {
    if sheet.lists(table, 0) {
        return BTreeSet::new();
    }
    let Some(edge) = sheet.edges_into(table).next() else {
        return others(sheet, table);
    };
    let mut needed = need(sheet, edge.child);
    needed.insert(edge.child);
    needed
}

/// Column 0, the child columns of edges that leave the table, and its listed columns, in rising order.
fn shown_columns(sheet: &Sheet, table: usize) -> Vec<usize> {
    (0..sheet.widths[table])
        .filter(|&column| {
            let child = sheet.edges_from(table).any(|edge| edge.column == column);
            column == 0 || child || sheet.lists(table, column)
        })
        .collect()
}

/// The facts of one table in the plan call's answer.
#[derive(Clone, Debug, PartialEq, Eq)]
pub struct TablePlan {
    pub kept: bool,
    pub columns: Vec<usize>,
    pub dep: Vec<usize>,
    pub need: Vec<usize>,
    pub start: usize,
    pub room: usize,
}

/// The plan call's answer; for a refusal every field but the number is zero.
#[derive(Clone, Debug, PartialEq, Eq)]
pub struct PlanAnswer {
    pub number: u64,
    pub root: usize,
    pub length: usize,
    pub tables: Vec<TablePlan>,
}

pub fn plan_call(sheet: &[u64]) -> PlanAnswer {
    let plan = match Plan::read(sheet) {
        Ok(plan) => plan,
        Err(number) => {
            return PlanAnswer {
                number,
                root: 0,
                length: 0,
                tables: Vec::new(),
            }
        }
    };
    let tables = (0..plan.tables())
        .map(|table| TablePlan {
            kept: plan.kept[table],
            columns: plan.columns[table].clone(),
            dep: plan.dep[table].iter().copied().collect(),
            need: plan.need[table].iter().copied().collect(),
            start: plan.starts[table],
            room: plan.sheet.rooms[table],
        })
        .collect();
    PlanAnswer {
        number: 0,
        root: plan.root,
        length: plan.length,
        tables,
    }
}

impl PlanAnswer {
    /// The text that the program prints.
    pub fn text(&self) -> String {
        if self.number != 0 {
            return format!("refused {}\n", self.number);
        }
        let mut text = format!("root {} store {}\n", self.root, self.length);
        for (table, plan) in self.tables.iter().enumerate() {
            let kept = u8::from(plan.kept);
            let columns = commas(&plan.columns);
            let (dep, need) = (commas(&plan.dep), commas(&plan.need));
            text += &format!("{table} kept {kept} cols {columns} dep {dep} need {need}\n");
        }
        text
    }
}

fn commas(set: &[usize]) -> String {
    if set.is_empty() {
        return "-".to_string();
    }
    let numbers: Vec<String> = set.iter().map(usize::to_string).collect();
    numbers.join(",")
}
