//! Prints random calls with the model's outcome: `calls SEED COUNT [big]`, one call per line.
//!
//! Words are parted by spaces and fields by `|`; an empty row or part is an empty field.
//!
//! - `plan|SHEET|OUTCOME`, where the outcome is number, root, store length and,
//!   for each table, kept, the counted sets of shown columns, Dep and Need,
//!   then start and room (for a refusal: the number, 0, 0);
//! - `change|SHEET|STORE|KIND TABLE|OLD|NEW|NUMBER TAKEN ADDED|STORE AFTER`;
//! - `show|SHEET|STORE|PART|NUMBER|WORDS`;
//! - `fill|SHEET|STORE|BASE|NUMBER TAKEN ADDED|STORE AFTER`.

use model::change::change_call;
use model::fill::fill_call;
use model::plan::{plan_call, PlanAnswer};
use model::random::calls::{any_call, Call};
use model::random::{Random, BIG, SMALL};
use model::store::show_call;
use model::Outcome;
use std::io::{BufWriter, Write};
use std::process::ExitCode;

fn main() -> ExitCode {
    let arguments: Vec<String> = std::env::args().skip(1).collect();
    let (seed, count, size) = match arguments.as_slice() {
        [seed, count] => (seed.parse(), count.parse(), SMALL),
        [seed, count, big] if big == "big" => (seed.parse(), count.parse(), BIG),
        _ => return usage(),
    };
    let (Ok(seed), Ok(count)): (Result<u64, _>, Result<u64, _>) = (seed, count) else {
        return usage();
    };
    let mut random = Random::new(seed);
    let mut output = BufWriter::new(std::io::stdout().lock());
    for _ in 0..count {
        let line = line(&any_call(&mut random, size));
        if writeln!(output, "{line}").is_err() {
            // Whoever reads has seen enough.
            return ExitCode::SUCCESS;
        }
    }
    ExitCode::SUCCESS
}

fn usage() -> ExitCode {
    eprintln!("calls SEED COUNT [big]");
    ExitCode::FAILURE
}

fn line(call: &Call) -> String {
    match call {
        Call::Plan { sheet } => {
            let outcome = plan_words(&plan_call(sheet));
            format!("plan|{}|{}", spaced(sheet), spaced(&outcome))
        }
        Call::Change {
            sheet,
            store,
            change,
        } => {
            let (kind, table) = (change.kind, change.table);
            let (old, new) = (&change.old, &change.new);
            let outcome = change_call(sheet, store, kind, table, old, new);
            let (sheet, store) = (spaced(sheet), spaced(store));
            let (old, new) = (spaced(old), spaced(new));
            let after = outcome_text(&outcome);
            format!("change|{sheet}|{store}|{kind} {table}|{old}|{new}|{after}")
        }
        Call::Show { sheet, store, part } => {
            let (number, words) = show_call(sheet, store, *part);
            let (sheet, store) = (spaced(sheet), spaced(store));
            let words = spaced(&words);
            format!("show|{sheet}|{store}|{part}|{number}|{words}")
        }
        Call::Fill { sheet, store, run } => {
            let outcome = fill_call(sheet, store, run);
            let (sheet, store, run) = (spaced(sheet), spaced(store), spaced(run));
            let after = outcome_text(&outcome);
            format!("fill|{sheet}|{store}|{run}|{after}")
        }
    }
}

fn outcome_text(outcome: &Outcome) -> String {
    let (number, taken, added) = (outcome.number, outcome.taken, outcome.added);
    format!("{number} {taken} {added}|{}", spaced(&outcome.store))
}

fn plan_words(plan: &PlanAnswer) -> Vec<u64> {
    let mut words = vec![plan.number, plan.root as u64, plan.length as u64];
    for table in &plan.tables {
        words.push(u64::from(table.kept));
        for set in [&table.columns, &table.dep, &table.need] {
            words.push(set.len() as u64);
            words.extend(set.iter().map(|&number| number as u64));
        }
        words.extend([table.start as u64, table.room as u64]);
    }
    words
}

fn spaced(words: &[u64]) -> String {
    let words: Vec<String> = words.iter().map(u64::to_string).collect();
    words.join(" ")
}
