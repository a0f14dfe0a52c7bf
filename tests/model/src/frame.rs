//! Calls and their outcomes as the words that the program `calls` reads and writes (docs/CALLS.md).

use crate::change::change_call;
use crate::fill::fill_call;
use crate::plan::{plan_call, Plan};
use crate::random::calls::Call;
use crate::store::show_call;
use crate::Outcome;

/// The words of a call's head, and of an outcome's.
pub const HEAD: usize = 8;
pub const REPLY: usize = 4;

/// Words of the plan call's answer.
const ANSWER: usize = 220;

/// The call's head and its runs: sheet, base tables, store, old row, new row.
pub fn words(call: &Call) -> Vec<u64> {
    let none = Vec::new();
    let (number, sheet, base, store, old, new, kind, table) = match call {
        Call::Plan { sheet } => (1, sheet, &none, &none, &none, &none, 0, 0),
        Call::Fill { sheet, store, run } => (2, sheet, run, store, &none, &none, 0, 0),
        Call::Change {
            sheet,
            store,
            change,
        } => {
            let (old, new) = (&change.old, &change.new);
            let (kind, table) = (change.kind, change.table);
            (3, sheet, &none, store, old, new, kind, table)
        }
        Call::Show { sheet, store, part } => (4, sheet, &none, store, &none, &none, *part, 0),
    };
    let runs = [sheet, base, store, old, new];
    let mut words = vec![number];
    words.extend(runs.iter().map(|run| run.len() as u64));
    words.extend([kind, table]);
    words.extend(runs.into_iter().flatten());
    words
}

/// The model's outcome of the call: number, two words of the answer, how many words follow, and these.
pub fn outcome(call: &Call) -> Vec<u64> {
    match call {
        Call::Plan { sheet } => plan_outcome(sheet),
        Call::Fill { sheet, store, run } => store_outcome(&fill_call(sheet, store, run)),
        Call::Change {
            sheet,
            store,
            change,
        } => {
            let (old, new) = (&change.old, &change.new);
            let outcome = change_call(sheet, store, change.kind, change.table, old, new);
            store_outcome(&outcome)
        }
        Call::Show { sheet, store, part } => show_outcome(sheet, store, *part),
    }
}

fn reply(number: u64, first: u64, second: u64, words: &[u64]) -> Vec<u64> {
    let mut reply = vec![number, first, second, words.len() as u64];
    reply.extend(words);
    reply
}

fn store_outcome(outcome: &Outcome) -> Vec<u64> {
    reply(outcome.number, outcome.taken, outcome.added, &outcome.store)
}

/// Where the rows begin, how many words they are, and the store, which no show writes.
fn show_outcome(sheet: &[u64], store: &[u64], part: u64) -> Vec<u64> {
    let (number, words) = show_call(sheet, store, part);
    let first = match Plan::read(sheet) {
        Ok(plan) if number == 0 => plan.starts[part as usize],
        _ => 0,
    };
    if number == 0 {
        assert_eq!(store[first..first + words.len()], words);
    }
    reply(number, first as u64, words.len() as u64, store)
}

fn plan_outcome(sheet: &[u64]) -> Vec<u64> {
    let plan = plan_call(sheet);
    let mut words = vec![0; ANSWER];
    let head = [plan.number, plan.tables.len() as u64];
    words[..2].copy_from_slice(&head);
    words[2..4].copy_from_slice(&[plan.root as u64, plan.length as u64]);
    for (table, facts) in plan.tables.iter().enumerate() {
        words[4 + table] = u64::from(facts.kept);
        let sets = [&facts.columns, &facts.dep, &facts.need];
        for (place, set) in sets.into_iter().enumerate() {
            for &number in set {
                words[12 + 64 * place + 8 * table + number] = 1;
            }
        }
        words[204 + table] = facts.start as u64;
        words[212 + table] = facts.room as u64;
    }
    reply(plan.number, 0, 0, &words)
}
