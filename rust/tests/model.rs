//! The wrapper's calls against the independent model on random calls, good and damaged: numbers, counts and every word.

use model::frame::outcome;
use model::random::calls::{any_call, Call};
use model::random::{Random, BIG, CROWDED, SMALL};
use oratjolet::{change, fill, plan, show, Answer, Plan, Refusal};

/// How many calls are tried.
const COUNT: usize = 20_000;

fn number<T>(result: &Result<T, Refusal>) -> u64 {
    result.as_ref().err().map_or(0, |refusal| refusal.number())
}

/// A store call's outcome as the model lays it out: number, taken, added, how many words, and these.
fn stored(result: Result<Answer, Refusal>, store: &[u64]) -> Vec<u64> {
    let number = number(&result);
    let answer = result.unwrap_or_default();
    [
        &[number, answer.taken, answer.added, store.len() as u64],
        store,
    ]
    .concat()
}

/// Where in the store a part of it begins, an empty part too: the place that the library gave.
fn place(part: &[u64], store: &[u64]) -> u64 {
    let bytes = part.as_ptr() as usize - store.as_ptr() as usize;
    (bytes / std::mem::size_of::<u64>()) as u64
}

/// The plan's 220 words behind its head, as the model lays them out.
fn planned(result: Result<Plan, Refusal>) -> Vec<u64> {
    let mut words = vec![0; 224];
    words[3] = 220;
    words[0] = number(&result);
    words[4] = words[0];
    let Ok(plan) = result else {
        return words;
    };
    words[5..8].copy_from_slice(&[plan.tables.len() as u64, plan.root, plan.store]);
    for (t, table) in plan.tables.iter().enumerate() {
        words[8 + t] = u64::from(table.kept);
        for (place, set) in [&table.columns, &table.dep, &table.need]
            .into_iter()
            .enumerate()
        {
            for x in set {
                words[16 + 64 * place + 8 * t + x] = 1;
            }
        }
        words[208 + t] = table.start;
        words[216 + t] = table.room;
    }
    words
}

#[test]
fn the_calls_are_the_models() {
    let mut random = Random::new(7);
    for tried in 0..COUNT {
        let size = match tried % 50 {
            0 => BIG,
            25 => CROWDED,
            _ => SMALL,
        };
        let call = any_call(&mut random, size);
        let expected = outcome(&call);
        let found = match &call {
            Call::Plan { sheet } => planned(plan(sheet)),
            Call::Fill { sheet, store, run } => {
                let mut words = store.clone();
                stored(fill(sheet, run, &mut words), &words)
            }
            Call::Change {
                sheet,
                store,
                change: c,
            } => {
                let mut words = store.clone();
                stored(
                    change(sheet, &mut words, c.kind, c.table, &c.old, &c.new),
                    &words,
                )
            }
            Call::Show { sheet, store, part } => {
                let part = show(sheet, store, *part);
                let count = part.map_or(0, |shown| shown.len() as u64);
                let first = part.map_or(0, |shown| place(shown, store));
                [
                    &[number(&part), first, count, store.len() as u64],
                    store.as_slice(),
                ]
                .concat()
            }
        };
        assert_eq!(found, expected, "call {tried}: {call:?}");
    }
}
