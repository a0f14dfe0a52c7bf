//! Runs a script of worked cases by the model and prints what the program `cases` must print: `cases < SCRIPT`.
//!
//! The top of `crates/cases/src/main.rt` says what the lines are. `crates/cases/stdout` is written by this program.

use model::change::change_call;
use model::fill::fill_call;
use model::plan::plan_call;
use model::store::show_call;
use model::text::words;
use model::Outcome;
use std::io::Read;
use std::process::ExitCode;

/// The words that a sheet and a store have room for.
const ROOM: usize = 146;

/// The sheet, and the words of which the store is the first `long`.
struct Scene {
    sheet: Vec<u64>,
    words: Vec<u64>,
    long: usize,
}

fn main() -> ExitCode {
    let mut script = String::new();
    if let Err(error) = std::io::stdin().read_to_string(&mut script) {
        eprintln!("cases: {error}");
        return ExitCode::FAILURE;
    }
    let mut scene = Scene {
        sheet: Vec::new(),
        words: vec![0; ROOM],
        long: 0,
    };
    for line in script.lines() {
        let Some(printed) = scene.run(line) else {
            eprintln!("cases: no such line: {line}");
            return ExitCode::FAILURE;
        };
        print!("{printed}");
    }
    ExitCode::SUCCESS
}

impl Scene {
    /// What a line prints, or nothing if there is no such line.
    fn run(&mut self, line: &str) -> Option<String> {
        if line.starts_with('#') {
            return Some(format!("{line}\n"));
        }
        let letters = line.find(|c: char| !c.is_ascii_lowercase());
        let (name, numbers) = line.split_at(letters.unwrap_or(line.len()));
        let numbers = words(numbers.as_bytes()).ok()?;
        if numbers.len() > ROOM {
            return None;
        }
        match (name, numbers.as_slice()) {
            ("sheet", sheet) => self.set_sheet(sheet),
            ("long", &[long]) => self.long = usize::try_from(long).ok().filter(|&n| n <= ROOM)?,
            ("store", start) => {
                self.words.fill(0);
                self.words[..start.len()].copy_from_slice(start);
            }
            ("every", &[word]) => self.words.fill(word),
            ("put", &[place, word]) => *self.words.get_mut(usize::try_from(place).ok()?)? = word,
            ("fill", run) => return Some(self.fill(run)),
            ("show", &[number]) => return Some(self.show(number)),
            ("largest", []) => return Some(self.largest()),
            ("", [kind, table, old, new, rows @ ..]) => {
                let old = usize::try_from(*old).ok().filter(|&n| n <= rows.len())?;
                let (old, rows) = rows.split_at(old);
                if rows.len() as u64 != *new {
                    return None;
                }
                return Some(self.change(*kind, *table, old, rows));
            }
            _ => return None,
        }
        Some(String::new())
    }

    /// A good sheet brings its store's length; with any other, and if there is no room for the store, the length stays.
    fn set_sheet(&mut self, sheet: &[u64]) {
        let plan = plan_call(sheet);
        if plan.number == 0 && plan.length <= ROOM {
            self.long = plan.length;
        }
        self.sheet = sheet.to_vec();
    }

    fn store(&self) -> &[u64] {
        &self.words[..self.long]
    }

    /// Leaves the store as the call does; gives the number, taken and added.
    fn leave(&mut self, outcome: Outcome) -> String {
        self.words[..self.long].copy_from_slice(&outcome.store);
        answer(&outcome)
    }

    fn fill(&mut self, run: &[u64]) -> String {
        let answer = self.leave(fill_call(&self.sheet, self.store(), run));
        format!("fill{}:{answer} |{}\n", text(run), text(self.store()))
    }

    fn show(&self, number: u64) -> String {
        let (refusal, part) = show_call(&self.sheet, self.store(), number);
        format!("show {number}: {refusal} |{}\n", text(&part))
    }

    fn change(&mut self, kind: u64, table: u64, old: &[u64], new: &[u64]) -> String {
        let outcome = change_call(&self.sheet, self.store(), kind, table, old, new);
        let answer = self.leave(outcome);
        let name = match kind {
            1 => "insert",
            2 => "delete",
            3 => "update",
            _ => "no kind",
        };
        let to = if kind == 3 { " to" } else { "" };
        let (old, new) = (text(old), text(new));
        let mut line = format!("{name} {table}{old}{to}{new}:{answer}");
        for part in [Some(table), self.sheet.first().copied()] {
            if let Some(part) = part {
                let (_, rows) = show_call(&self.sheet, self.store(), part);
                line += &format!(" |{}", text(&rows));
            }
        }
        line + "\n"
    }

    /// The counts, the first two rows of the list and its last.
    fn largest(&self) -> String {
        let store = vec![77; plan_call(&self.sheet).length];
        let outcome = fill_call(&self.sheet, &store, &largest_run());
        let list = show_call(&self.sheet, &outcome.store, self.sheet[0]).1;
        let (counts, first) = (text(&outcome.store[..9]), text(&list[..16]));
        let (answer, last) = (answer(&outcome), text(&list[list.len() - 8..]));
        format!("largest:{answer} |{counts} |{first} |{last}\n")
    }
}

/// 65,535 rows in each of eight tables; the root's refer to their own key, and any two keys are alike in their low 32 bits.
fn largest_run() -> Vec<u64> {
    let barcode = |i: u64| 31_234_000_000_001 + (i * 28657 % 65535 << 32);
    let mut run = vec![65535; 8];
    run.extend((0..65535).flat_map(|i| [barcode(i), barcode(i)]));
    for _ in 1..8 {
        run.extend((0..65535).rev().map(barcode));
    }
    run
}

fn answer(outcome: &Outcome) -> String {
    text(&[outcome.number, outcome.taken, outcome.added])
}

/// Each word with a space before it.
fn text(words: &[u64]) -> String {
    words.iter().map(|word| format!(" {word}")).collect()
}
