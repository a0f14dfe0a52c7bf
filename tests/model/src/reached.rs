//! What random calls have reached, counted by the model, and what they must.

use crate::base::Change;
use crate::change::{step, ways_can_be_taken};
use crate::frame::REPLY;
use crate::plan::Plan;
use crate::random::calls::Call;
use crate::random::changes::Words;
use crate::store::Contents;
use crate::Row;
use std::collections::BTreeMap;

/// How often each thing was reached.
#[derive(Default)]
pub struct Reached(BTreeMap<String, usize>);

/// The four calls by name, in the order of their numbers.
pub const CALLS: [&str; 4] = ["plan", "fill", "change", "show"];

pub fn name(call: &Call) -> &'static str {
    match call {
        Call::Plan { .. } => "plan",
        Call::Fill { .. } => "fill",
        Call::Change { .. } => "change",
        Call::Show { .. } => "show",
    }
}

impl Reached {
    fn count(&mut self, what: String) {
        *self.0.entry(what).or_default() += 1;
    }

    /// Notes a call with the model's outcome of it.
    pub fn note(&mut self, call: &Call, outcome: &[u64]) {
        let number = outcome[0];
        self.count(format!("{} {number}", name(call)));
        match call {
            Call::Plan { sheet } if number == 0 => self.note_sheet(sheet),
            Call::Change {
                sheet,
                store,
                change,
            } if [0, 8, 9].contains(&number) => self.note_change(sheet, store, change, outcome),
            Call::Show { sheet, part, .. } if number == 0 => {
                let n = sheet[0];
                let what = if *part == n { "list" } else { "side table" };
                let rows = if outcome[2] == 0 {
                    "empty"
                } else {
                    "with rows"
                };
                self.count(format!("show: {what} {rows}"));
            }
            Call::Fill { .. } if number == 0 => {
                for many in list_rows(outcome[2] as usize) {
                    self.count(format!("fill: {many}"));
                }
            }
            _ => {}
        }
    }

    /// Notes that demand 3 was tried.
    pub fn note_fill(&mut self) {
        self.count("a lawful change against the fill".to_string());
    }

    fn note_sheet(&mut self, words: &[u64]) {
        let plan = Plan::read(words).expect("a good sheet");
        let sheet = &plan.sheet;
        self.count(format!("sheet: {} tables", sheet.tables()));
        for edge in &sheet.edges {
            let what = if edge.promised {
                "promised"
            } else {
                "unpromised"
            };
            self.count(format!("sheet: {what} edge"));
            let leaving = sheet.edges_from(edge.child);
            if leaving.filter(|other| other.column == edge.column).count() > 1 {
                self.count("sheet: two edges on a column".to_string());
            }
        }
        for condition in &sheet.conditions {
            if condition.lowest == 0 {
                self.count("sheet: condition from 0".to_string());
            }
            if condition.highest == u64::MAX {
                self.count("sheet: condition to the largest value".to_string());
            }
        }
        let what = if plan.kept[plan.root] {
            "kept"
        } else {
            "unkept"
        };
        self.count(format!("sheet: root {what}"));
    }

    fn note_change(&mut self, sheet: &[u64], store: &[u64], words: &Words, outcome: &[u64]) {
        let plan = Plan::read(sheet).expect("a good sheet");
        let before = Contents::read(&plan, store).expect("a sound store");
        let change = change_of(words);
        let kind = ["insert", "delete", "update"][change.kind() as usize - 1];
        let step = match step(&plan, &before, &change) {
            Ok(step) => step,
            Err(contradiction) => return self.count(format!("{kind}: {contradiction:?}")),
        };
        let way = match change.kind() {
            3 if ways_can_be_taken(&plan, change.table()) => "update by ways",
            3 if plan.sheet.lists(change.table(), 0) => "update by its own key",
            3 => "update by a child's key",
            _ => kind,
        };
        let changed = step.taken.max(step.added);
        if outcome[0] == 9 {
            for many in list_rows(changed) {
                self.count(format!("{way}: no room, {many}"));
            }
            return;
        }
        for many in list_rows(changed) {
            self.count(format!("{way}: {many}"));
        }
        if outcome[REPLY..] == *store {
            self.count(format!("{way}: store as it was"));
        }
        self.note_places(way, &before.list, &step.after.list, changed);
    }

    /// Notes a change of many list rows that changes them all, or moves others. The list after it comes unsorted.
    fn note_places(&mut self, way: &str, before: &[Row], after: &[Row], changed: usize) {
        if changed > 16 && changed == before.len().max(after.len()) {
            self.count(format!("{way}: all list rows, more than 16"));
        }
        let mut after = after.to_vec();
        after.sort();
        let places = before.iter().zip(&after);
        let differ = places.filter(|(old, new)| old != new).count();
        // If only rows that were replaced stood elsewhere, no more places could differ.
        if way.starts_with("update") && changed > 100 && differ > changed {
            self.count(format!("{way}: more than 100 list rows, others move"));
        }
    }

    /// What was never reached, of all that the tried calls must reach.
    pub fn missing(&self, tried: &[&str]) -> Vec<String> {
        let wanted = wanted();
        let of_tried = |what: &&String| {
            let call = match what.split([' ', ':']).next() {
                Some("sheet") => "plan",
                Some("insert" | "delete" | "update" | "a") => "change",
                Some(call) => call,
                None => "",
            };
            tried.contains(&call)
        };
        let wanted = wanted.iter().filter(of_tried);
        let missing = wanted.filter(|what| !self.0.contains_key(*what));
        missing.cloned().collect()
    }

    pub fn print(&self) {
        for (what, times) in &self.0 {
            println!("{times:>9} {what}");
        }
    }
}

/// How many list rows these are, by every name that fits.
fn list_rows(count: usize) -> Vec<&'static str> {
    let names = [
        (count == 0, "no list rows"),
        (count == 1, "a list row"),
        (count > 1, "several list rows"),
        (count > 16, "more than 16 list rows"),
        (count > 100, "more than 100 list rows"),
    ];
    let fitting = names.into_iter().filter(|(fits, _)| *fits);
    fitting.map(|(_, name)| name).collect()
}

/// The change of words that no call turns down by 5.
fn change_of(words: &Words) -> Change {
    let (table, old, new) = (words.table as usize, words.old.clone(), words.new.clone());
    match words.kind {
        1 => Change::Insert { table, new },
        2 => Change::Delete { table, old },
        _ => Change::Update { table, old, new },
    }
}

fn wanted() -> Vec<String> {
    let mut wanted = Vec::new();
    let numbers: [(&str, &[u64]); 4] = [
        ("plan", &[0, 1, 2, 3]),
        ("fill", &[0, 1, 2, 3, 4, 10, 9]),
        ("change", &[0, 1, 2, 3, 4, 5, 6, 7, 8, 9]),
        ("show", &[0, 1, 2, 3, 4, 5, 7]),
    ];
    for (call, numbers) in numbers {
        wanted.extend(numbers.iter().map(|number| format!("{call} {number}")));
    }
    wanted.extend((1..=8).map(|tables| format!("sheet: {tables} tables")));
    let ways = [
        "insert",
        "delete",
        "update by ways",
        "update by its own key",
        "update by a child's key",
    ];
    for way in ways {
        for what in [
            "no list rows",
            "a list row",
            "several list rows",
            "more than 16 list rows",
            "more than 100 list rows",
            "all list rows, more than 16",
            "store as it was",
        ] {
            wanted.push(format!("{way}: {what}"));
        }
        if way.starts_with("update") {
            wanted.push(format!("{way}: more than 100 list rows, others move"));
        }
    }
    let others = [
        "sheet: promised edge",
        "sheet: unpromised edge",
        "sheet: two edges on a column",
        "sheet: condition from 0",
        "sheet: condition to the largest value",
        "sheet: root kept",
        "sheet: root unkept",
        "show: list empty",
        "show: list with rows",
        "show: side table empty",
        "show: side table with rows",
        "fill: no list rows",
        "fill: several list rows",
        "fill: more than 100 list rows",
        "insert: no room, more than 100 list rows",
        "insert: KeyStands",
        "delete: RowMissing",
        "delete: UnqualifiedStands",
        "delete: ListRowMissing",
        "update: RowMissing",
        "update: UnqualifiedStands",
        "update: ListRowMissing",
        "update: OtherValues",
        "a lawful change against the fill",
    ];
    wanted.extend(others.map(str::to_string));
    wanted
}
