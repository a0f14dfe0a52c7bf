//! The store: its words from rows and back, whether it is sound, and the show call.

use crate::plan::{Plan, LIST_COUNT};
use crate::{Refusal, Row};

/// The rows that a sound store holds.
#[derive(Clone, Debug, PartialEq, Eq)]
pub struct Contents {
    /// The rows of each side table; none for a table that is not kept.
    pub sides: Vec<Vec<Row>>,
    pub list: Vec<Row>,
}

impl Contents {
    /// Whether some count exceeds its room.
    pub fn exceeds_room(&self, plan: &Plan) -> bool {
        let rooms = &plan.sheet.rooms;
        let sides = self.sides.iter().zip(rooms);
        let mut over = sides.map(|(rows, &room)| rows.len() > room);
        over.any(|over| over) || self.list.len() > rooms[plan.tables()]
    }

    pub fn sort(&mut self) {
        for rows in &mut self.sides {
            rows.sort();
        }
        self.list.sort();
    }

    /// The words of the store that holds these rows.
    pub fn words(&self, plan: &Plan) -> Vec<u64> {
        let mut words = vec![0; plan.length];
        let mut put = |count: usize, start: usize, rows: &[Row]| {
            words[count] = rows.len() as u64;
            for (place, &value) in rows.iter().flatten().enumerate() {
                words[start + place] = value;
            }
        };
        for (table, rows) in self.sides.iter().enumerate() {
            put(table, plan.starts[table], rows);
        }
        put(LIST_COUNT, plan.starts[plan.tables()], &self.list);
        words
    }

    /// The rows of a store of the right length, or refusal 7 if it is not sound.
    pub fn read(plan: &Plan, store: &[u64]) -> Result<Contents, Refusal> {
        let tables = plan.tables();
        for (table, &count) in store[..LIST_COUNT].iter().enumerate() {
            if (table >= tables || !plan.kept[table]) && count != 0 {
                return Err(7);
            }
        }
        let mut sides = Vec::new();
        for table in 0..tables {
            let mut rows = Vec::new();
            if plan.kept[table] {
                let part = &store[plan.starts[table]..plan.starts[table + 1]];
                rows = part_rows(part, store[table], plan.columns[table].len())?;
                let twice = |row: &Row| rows.iter().filter(|other| other[0] == row[0]).count() > 1;
                if rows.iter().any(twice) {
                    return Err(7);
                }
            }
            sides.push(rows);
        }
        let part = &store[plan.starts[tables]..];
        let list = part_rows(part, store[LIST_COUNT], plan.sheet.listed.len())?;
        Ok(Contents { sides, list })
    }
}

/// The rows of one part, or 7 if the count exceeds the room, the rows do not rise, or unused room is not zero.
fn part_rows(part: &[u64], count: u64, columns: usize) -> Result<Vec<Row>, Refusal> {
    let room = part.len() / columns;
    if count > room as u64 {
        return Err(7);
    }
    let (used, unused) = part.split_at(count as usize * columns);
    let rows: Vec<Row> = used.chunks(columns).map(<[u64]>::to_vec).collect();
    let rising = rows.windows(2).all(|pair| pair[0] <= pair[1]);
    let zero = unused.iter().all(|&word| word == 0);
    match rising && zero {
        true => Ok(rows),
        false => Err(7),
    }
}

/// The words of the store that hold the side table's rows, or the list's, and the number.
pub fn show_call(sheet: &[u64], store: &[u64], part: u64) -> (u64, Vec<u64>) {
    match shown_words(sheet, store, part) {
        Ok(words) => (0, words),
        Err(number) => (number, Vec::new()),
    }
}

fn shown_words(sheet: &[u64], store: &[u64], part: u64) -> Result<Vec<u64>, Refusal> {
    let plan = Plan::read(sheet)?;
    if store.len() != plan.length {
        return Err(4);
    }
    let tables = plan.tables();
    if part > tables as u64 {
        return Err(5);
    }
    Contents::read(&plan, store)?;
    let part = part as usize;
    let (count, columns) = match part < tables {
        true => (store[part], plan.columns[part].len()),
        false => (store[LIST_COUNT], plan.sheet.listed.len()),
    };
    let start = plan.starts[part];
    Ok(store[start..start + count as usize * columns].to_vec())
}
