//! Damage to sheets, runs of base tables and stores, so that each refusal is frequent.

use super::Random;
use crate::plan::Plan;
use crate::sheet::Sheet;

/// The words of a sheet with some damage; now and then the damage leaves a good sheet.
pub fn damaged_sheet(random: &mut Random, sheet: &Sheet) -> Vec<u64> {
    if random.chance(4) {
        return any_words(random);
    }
    let mut words = sheet.words();
    // The first number must win, so two kinds of damage come together now and then.
    let kinds = match random.chance(15) {
        true => 2,
        false => 1,
    };
    let mut chosen: Vec<usize> = (0..kinds).map(|_| random.below(3)).collect();
    // Damage to counts comes last and once: all find their places by the counts.
    chosen.sort();
    chosen.dedup();
    for kind in chosen {
        match kind {
            0 => break_tree(random, sheet, &mut words),
            1 => break_word(random, sheet, &mut words),
            _ => break_count(random, sheet, &mut words),
        }
    }
    words
}

fn any_words(random: &mut Random) -> Vec<u64> {
    let length = random.pick(&[0, 1, 3, 4, 9, 11, 13, 20, 43, 145, 146]);
    let mut words: Vec<u64> = (0..length).map(|_| random.value()).collect();
    if length > 4 && random.chance(50) {
        words[..4].copy_from_slice(&[1, 0, 0, 1]);
    }
    words
}

/// For refusal 1.
fn break_count(random: &mut Random, sheet: &Sheet, words: &mut Vec<u64>) {
    let (edges, conditions, listed) = places(sheet);
    match random.below(13) {
        0 => words[0] = random.pick(&[0, 9, words[0] + 1, words[0] - 1]),
        1 => words[1] = random.other(words[1]),
        2 => words[2] = random.pick(&[17, words[2] + 1, words[2] + (1 << 62)]),
        3 => words[3] = random.pick(&[0, 17, words[3] + 1, words[3] + (1 << 63)]),
        4 => {
            let place = random.below(4);
            words[place] = random.other(words[place]);
        }
        5 => {
            words.pop();
        }
        6 => words.push(random.value()),
        7 => {
            let length = random.below(words.len());
            words.truncate(length);
        }
        // From here on the length agrees with the count that is out of range.
        8 => {
            let more = 17 - sheet.conditions.len();
            words[2] = 17;
            let condition = [0, 0, 0, u64::MAX];
            words.splice(conditions..conditions, condition.repeat(more));
        }
        9 => {
            words[3] = 0;
            words.drain(listed..listed + 2 * sheet.listed.len());
        }
        10 => {
            words[1] += 1;
            words.splice(edges..edges, [0, 1, 0, 1]);
        }
        11 => {
            let more = 17 - sheet.listed.len();
            words[3] = 17;
            words.splice(listed..listed, [0, 0].repeat(more));
        }
        _ => {
            // Nine tables in a row, each with two columns.
            *words = vec![9, 8, 0, 1];
            words.extend([2; 9]);
            for child in 0..8 {
                words.extend([child, 1, child + 1, 1]);
            }
            words.extend([0, 0]);
            words.extend([1; 10]);
        }
    }
}

/// For refusal 2.
fn break_word(random: &mut Random, sheet: &Sheet, words: &mut [u64]) {
    let tables = sheet.tables();
    let (edges, conditions, listed) = places(sheet);
    let rooms = listed + 2 * sheet.listed.len();
    let far = random.pick(&[1 << 32, 1 << 63]);
    match random.below(10) {
        0 => words[4 + random.below(tables)] = random.pick(&[0, 9, 2 + far, u64::MAX]),
        1 => {
            let place = 4 + random.below(tables);
            words[place] = random.other(words[place]);
        }
        2..=4 if !sheet.edges.is_empty() => {
            let edge = random.below(sheet.edges.len());
            let width = sheet.widths[sheet.edges[edge].child] as u64;
            let (place, word) = match random.below(6) {
                0 => (0, random.pick(&[tables as u64, far, 8])),
                1..=2 => (1, random.pick(&[0, width, 1 + far])),
                3 => (2, random.pick(&[tables as u64, far, 8])),
                _ => (3, random.pick(&[2, far, 1 + far, u64::MAX])),
            };
            words[edges + 4 * edge + place] = word;
        }
        5 | 6 if !sheet.conditions.is_empty() => {
            let condition = random.below(sheet.conditions.len());
            let place = conditions + 4 * condition;
            let width = sheet.widths[sheet.conditions[condition].table] as u64;
            match random.below(3) {
                0 => words[place] = random.pick(&[tables as u64, far, 8]),
                1 => words[place + 1] = random.pick(&[width, far]),
                _ => {
                    words[place + 3] = random.pick(&[0, 2, words[place + 2].wrapping_sub(1)]);
                    words[place + 2] = random.pick(&[3, words[place + 3].wrapping_add(1), far]);
                }
            }
        }
        7 | 8 => {
            let one = random.below(sheet.listed.len());
            let other = random.below(sheet.listed.len());
            let place = listed + 2 * one;
            let width = sheet.widths[sheet.listed[one].table] as u64;
            match random.below(3) {
                0 => words[place] = random.pick(&[tables as u64, far, 8]),
                1 => words[place + 1] = random.pick(&[width, far, 8]),
                _ => {
                    words[place] = words[listed + 2 * other];
                    words[place + 1] = words[listed + 2 * other + 1];
                }
            }
        }
        _ => words[rooms + random.below(tables + 1)] = random.pick(&[4097, far, 1 + far, u64::MAX]),
    }
}

/// For refusal 3: every word stays in range.
fn break_tree(random: &mut Random, sheet: &Sheet, words: &mut [u64]) {
    if sheet.edges.is_empty() {
        return;
    }
    let (edges, _, _) = places(sheet);
    let edge = random.below(sheet.edges.len());
    let place = edges + 4 * edge;
    match random.below(4) {
        // A self edge.
        0 => words[place + 2] = words[place],
        // Two edges into one table, or into the root.
        1 => words[place + 2] = random.below(sheet.tables()) as u64,
        // Another child: below its own parent it makes a circle that the root doesn't reach.
        _ => {
            let child = random.below(sheet.tables());
            if sheet.widths[child] > 1 {
                words[place] = child as u64;
                words[place + 1] = random.between(1, sheet.widths[child] - 1) as u64;
            }
        }
    }
}

/// Where the edges, the conditions and the listed columns begin.
fn places(sheet: &Sheet) -> (usize, usize, usize) {
    let edges = 4 + sheet.tables();
    let conditions = edges + 4 * sheet.edges.len();
    (edges, conditions, conditions + 4 * sheet.conditions.len())
}

/// A run of base tables with some damage; now and then the damage leaves a lawful run.
pub fn damaged_run(random: &mut Random, sheet: &Sheet, run: &[u64]) -> Vec<u64> {
    let tables = sheet.tables();
    let mut words = run.to_vec();
    let table = random.below(tables);
    let width = sheet.widths[table];
    let start = tables + rows_before(sheet, run, table);
    let count = run[table] as usize;
    match random.below(9) {
        0 => words[table] = random.pick(&[65_536, u64::MAX, run[table] + (1 << 32)]),
        // The length agrees modulo 2 to the 64.
        1 => words[table] += random.pick(&[1 << 61, 1 << 62, 1 << 63]),
        2 => {
            words.pop();
        }
        3 => words.push(random.value()),
        4 => words.truncate(random.below(tables + 1)),
        5 => words[table] = random.other(run[table]),
        6 if count > 0 => {
            // A row that stands twice, sometimes with other values behind its key.
            let from = start + width * random.below(count);
            let mut row = words[from..from + width].to_vec();
            if random.chance(50) {
                row[width - 1] = random.value();
            }
            words[table] += 1;
            let to = start + width * random.between(0, count);
            words.splice(to..to, row);
        }
        7 if count > 0 => {
            // A row that goes away, and may have children.
            let from = start + width * random.below(count);
            words[table] -= 1;
            words.drain(from..from + width);
        }
        _ if words.len() > tables => {
            let place = random.between(tables, words.len() - 1);
            words[place] = random.other(words[place]);
        }
        _ => words.push(0),
    }
    words
}

fn rows_before(sheet: &Sheet, run: &[u64], table: usize) -> usize {
    let tables = run.iter().zip(&sheet.widths).take(table);
    tables.map(|(&count, &width)| count as usize * width).sum()
}

/// A store with some damage; now and then the damage leaves a sound one.
pub fn damaged_store(random: &mut Random, plan: &Plan, store: &[u64]) -> Vec<u64> {
    let mut words = store.to_vec();
    let part = random.below(plan.tables() + 1);
    let count = match part == plan.tables() {
        true => 8,
        false => part,
    };
    match random.below(10) {
        0 => words[random.below(9)] = random.pick(&[1, 2, u64::MAX, 1 << 61, 1 << 63]),
        1 => words[count] = plan.sheet.rooms[part] as u64 + 1,
        2 => words[count] = random.other(words[count]),
        3 => words[count] += 1 << 32,
        4..=6 if words.len() > 9 => {
            let place = random.between(9, words.len() - 1);
            let value = random.value();
            words[place] = random.pick(&[value, u64::MAX, words[place] ^ 1]);
        }
        // Two rows change places, or the key of one becomes the other's.
        7 | 8 if words.len() > 10 => {
            let columns = match part == plan.tables() {
                true => plan.sheet.listed.len(),
                false => plan.columns[part].len(),
            };
            let (start, rows) = (plan.starts[part], store[count] as usize);
            if columns > 0 && rows > 1 {
                let one = start + columns * random.below(rows - 1);
                let two = one + columns;
                if random.chance(50) {
                    words[two] = words[one];
                } else {
                    for column in 0..columns {
                        words.swap(one + column, two + column);
                    }
                }
            } else {
                words[count] = random.value();
            }
        }
        _ => {
            for word in &mut words {
                *word = random.below(3) as u64;
            }
        }
    }
    words
}

/// A store of another length.
pub fn misfit_store(random: &mut Random, store: &[u64]) -> Vec<u64> {
    let mut words = store.to_vec();
    match random.below(4) {
        0 => words.push(0),
        1 => {
            words.pop();
        }
        2 => words.truncate(random.below(store.len())),
        _ => words.extend([0; 9]),
    }
    words
}
