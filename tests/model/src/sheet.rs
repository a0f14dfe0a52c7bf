//! The sheet: its words taken apart, and refusals 1 to 3 in their order.

use crate::Refusal;
use std::collections::BTreeSet;

/// The child's column is joined to the parent's key.
#[derive(Clone, Debug, PartialEq, Eq)]
pub struct Edge {
    pub child: usize,
    pub column: usize,
    pub parent: usize,
    pub promised: bool,
}

/// Both ends are included.
#[derive(Clone, Debug, PartialEq, Eq)]
pub struct Condition {
    pub table: usize,
    pub column: usize,
    pub lowest: u64,
    pub highest: u64,
}

#[derive(Clone, Debug, PartialEq, Eq, PartialOrd, Ord)]
pub struct Listed {
    pub table: usize,
    pub column: usize,
}

/// A sheet that breaks no rule.
#[derive(Clone, Debug, PartialEq, Eq)]
pub struct Sheet {
    pub widths: Vec<usize>,
    pub edges: Vec<Edge>,
    pub conditions: Vec<Condition>,
    pub listed: Vec<Listed>,
    /// Tables 0 to n - 1, then the list.
    pub rooms: Vec<usize>,
}

impl Sheet {
    pub fn read(words: &[u64]) -> Result<Sheet, Refusal> {
        let parts = Parts::cut(words)?;
        if !parts.words_in_range() {
            return Err(2);
        }
        let sheet = parts.sheet();
        if !sheet.is_tree() {
            return Err(3);
        }
        Ok(sheet)
    }

    pub fn tables(&self) -> usize {
        self.widths.len()
    }

    pub fn words(&self) -> Vec<u64> {
        let counts = [
            self.widths.len(),
            self.edges.len(),
            self.conditions.len(),
            self.listed.len(),
        ];
        let mut words: Vec<u64> = counts.iter().map(|&count| count as u64).collect();
        words.extend(self.widths.iter().map(|&width| width as u64));
        for edge in &self.edges {
            words.extend([edge.child as u64, edge.column as u64]);
            words.extend([edge.parent as u64, u64::from(edge.promised)]);
        }
        for condition in &self.conditions {
            words.extend([condition.table as u64, condition.column as u64]);
            words.extend([condition.lowest, condition.highest]);
        }
        for listed in &self.listed {
            words.extend([listed.table as u64, listed.column as u64]);
        }
        words.extend(self.rooms.iter().map(|&room| room as u64));
        words
    }

    pub fn edges_from(&self, table: usize) -> impl Iterator<Item = &Edge> {
        self.edges.iter().filter(move |edge| edge.child == table)
    }

    pub fn edges_into(&self, table: usize) -> impl Iterator<Item = &Edge> {
        self.edges.iter().filter(move |edge| edge.parent == table)
    }

    pub fn lists(&self, table: usize, column: usize) -> bool {
        self.listed.contains(&Listed { table, column })
    }

    /// Tied columns are those in a condition or used as a child column.
    pub fn tied(&self, table: usize, column: usize) -> bool {
        let in_condition = self
            .conditions
            .iter()
            .any(|condition| condition.table == table && condition.column == column);
        in_condition || self.edges_from(table).any(|edge| edge.column == column)
    }

    /// Whether the row meets all conditions on its table.
    pub fn meets_conditions(&self, table: usize, row: &[u64]) -> bool {
        self.conditions
            .iter()
            .filter(|condition| condition.table == table)
            .all(|condition| {
                let value = row[condition.column];
                condition.lowest <= value && value <= condition.highest
            })
    }

    fn is_tree(&self) -> bool {
        let tables = 0..self.tables();
        let without: Vec<usize> = tables
            .clone()
            .filter(|&table| self.edges_into(table).count() == 0)
            .collect();
        let &[root] = without.as_slice() else {
            return false;
        };
        let one_edge_each = tables
            .clone()
            .filter(|&table| table != root)
            .all(|table| self.edges_into(table).count() == 1);
        let mut reached = BTreeSet::from([root]);
        for _ in tables.clone() {
            for edge in &self.edges {
                if reached.contains(&edge.child) {
                    reached.insert(edge.parent);
                }
            }
        }
        one_edge_each && reached.len() == self.tables()
    }
}

/// The stretches of a sheet whose counts and length are right.
struct Parts<'a> {
    widths: &'a [u64],
    edges: Vec<&'a [u64]>,
    conditions: Vec<&'a [u64]>,
    listed: Vec<&'a [u64]>,
    rooms: &'a [u64],
}

impl<'a> Parts<'a> {
    /// Refusal 1. The counts are judged before the length is reckoned, so that no count can overflow it.
    fn cut(words: &'a [u64]) -> Result<Parts<'a>, Refusal> {
        let &[n, e, c, p, ref rest @ ..] = words else {
            return Err(1);
        };
        if !(1..=8).contains(&n) || e != n - 1 || c > 16 || !(1..=16).contains(&p) {
            return Err(1);
        }
        if words.len() as u64 != 4 + 2 * n + 1 + 4 * e + 4 * c + 2 * p {
            return Err(1);
        }
        let (widths, rest) = rest.split_at(n as usize);
        let (edges, rest) = rest.split_at(4 * e as usize);
        let (conditions, rest) = rest.split_at(4 * c as usize);
        let (listed, rooms) = rest.split_at(2 * p as usize);
        Ok(Parts {
            widths,
            edges: edges.chunks(4).collect(),
            conditions: conditions.chunks(4).collect(),
            listed: listed.chunks(2).collect(),
            rooms,
        })
    }

    /// Whether there is such a table and it has such a column.
    fn has_column(&self, table: u64, column: u64) -> bool {
        table < self.widths.len() as u64 && column < self.widths[table as usize]
    }

    /// Refusal 2, which looks at each word by itself and at repeated listings.
    fn words_in_range(&self) -> bool {
        let tables = self.widths.len() as u64;
        let widths = self.widths.iter().all(|width| (1..=8).contains(width));
        let edges = self.edges.iter().all(|edge| {
            let (child, column, parent, promise) = (edge[0], edge[1], edge[2], edge[3]);
            self.has_column(child, column) && column >= 1 && parent < tables && promise <= 1
        });
        let conditions = self.conditions.iter().all(|condition| {
            let (table, column) = (condition[0], condition[1]);
            let (lowest, highest) = (condition[2], condition[3]);
            self.has_column(table, column) && lowest <= highest
        });
        let listed = self.listed.iter().all(|pair| {
            let times = self.listed.iter().filter(|other| *other == pair).count();
            self.has_column(pair[0], pair[1]) && times == 1
        });
        let rooms = self.rooms.iter().all(|&room| room <= 4096);
        widths && edges && conditions && listed && rooms
    }

    fn sheet(&self) -> Sheet {
        Sheet {
            widths: self.widths.iter().map(|&width| width as usize).collect(),
            edges: self.edges.iter().map(|words| edge(words)).collect(),
            conditions: self
                .conditions
                .iter()
                .map(|words| condition(words))
                .collect(),
            listed: self.listed.iter().map(|words| listed(words)).collect(),
            rooms: self.rooms.iter().map(|&room| room as usize).collect(),
        }
    }
}

fn edge(words: &[u64]) -> Edge {
    Edge {
        child: words[0] as usize,
        column: words[1] as usize,
        parent: words[2] as usize,
        promised: words[3] == 1,
    }
}

fn condition(words: &[u64]) -> Condition {
    Condition {
        table: words[0] as usize,
        column: words[1] as usize,
        lowest: words[2],
        highest: words[3],
    }
}

fn listed(words: &[u64]) -> Listed {
    Listed {
        table: words[0] as usize,
        column: words[1] as usize,
    }
}
