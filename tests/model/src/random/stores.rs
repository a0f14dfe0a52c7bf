//! Random sound stores that need not be the meaning of any base.

use super::rows::{keys, parents_first, row};
use super::Random;
use crate::list::{joined, list_row, Sight};
use crate::plan::Plan;
use crate::store::Contents;
use crate::Row;

/// Sound contents out of nowhere; rows join often, since child columns are taken from keys that stand.
pub fn any_contents(random: &mut Random, plan: &Plan) -> Contents {
    let mut sides: Vec<Vec<Row>> = vec![Vec::new(); plan.tables()];
    for table in parents_first(plan) {
        if !plan.kept[table] {
            continue;
        }
        let count = random.between(0, plan.sheet.rooms[table]);
        for _ in 0..count {
            let row = row(random, plan, table, &keys(&sides));
            let shown = plan.shown(table, &row);
            if sides[table].iter().all(|side| side[0] != shown[0]) {
                sides[table].push(shown);
            }
        }
    }
    let mut list = Vec::new();
    if plan.kept[plan.root] {
        for row in joined_rows(plan, &sides) {
            if random.chance(80) {
                list.push(row);
            }
        }
    }
    let room = plan.sheet.rooms[plan.tables()];
    while list.len() < room && random.chance(60) {
        list.push(list_row_of_parts(random, plan, &sides));
    }
    list.truncate(room);
    let mut contents = Contents { sides, list };
    contents.sort();
    contents
}

fn joined_rows(plan: &Plan, sides: &[Vec<Row>]) -> Vec<Row> {
    let in_sight = |table: usize| {
        let sight = |side: &Row| {
            let columns = 0..plan.sheet.widths[table];
            let value = |column| plan.place(table, column).map(|place| side[place]);
            columns.map(value).collect()
        };
        sides[table].iter().map(sight).collect()
    };
    let tables: Vec<Vec<Sight>> = (0..plan.tables()).map(in_sight).collect();
    let ways = joined(&plan.sheet, &tables);
    ways.iter().map(|way| list_row(&plan.sheet, way)).collect()
}

/// A list row of values that some side rows show.
fn list_row_of_parts(random: &mut Random, plan: &Plan, sides: &[Vec<Row>]) -> Row {
    let mut chosen: Vec<Option<Row>> = Vec::new();
    for side in sides {
        chosen.push(match side.is_empty() {
            true => None,
            false => Some(random.pick(side)),
        });
    }
    let mut values = Vec::new();
    for listed in &plan.sheet.listed {
        let place = plan.place(listed.table, listed.column);
        values.push(match (&chosen[listed.table], place) {
            (Some(side), Some(place)) if random.chance(90) => side[place],
            _ => random.value(),
        });
    }
    values
}

/// The contents with a few rows taken, added or altered, and still sound.
pub fn disturbed(random: &mut Random, plan: &Plan, contents: &Contents) -> Contents {
    let mut contents = contents.clone();
    for _ in 0..random.between(1, 3) {
        disturb(random, plan, &mut contents);
    }
    contents.sort();
    contents
}

fn disturb(random: &mut Random, plan: &Plan, contents: &mut Contents) {
    let tables = plan.tables();
    let side_keys = keys(&contents.sides);
    let rooms = &plan.sheet.rooms;
    if random.chance(50) {
        let list = &mut contents.list;
        match random.below(3) {
            0 if list.len() < rooms[tables] => {
                let row = match list.is_empty() || random.chance(30) {
                    true => list_row_of_parts(random, plan, &contents.sides),
                    false => random.pick(list),
                };
                list.push(row);
            }
            1 if !list.is_empty() => {
                let place = random.below(list.len());
                list.remove(place);
            }
            _ if !list.is_empty() => {
                let row = random.below(list.len());
                let column = random.below(list[row].len());
                list[row][column] = random.other(list[row][column]);
            }
            _ => {}
        }
        return;
    }
    let table = random.below(tables);
    if !plan.kept[table] {
        return;
    }
    let new = row(random, plan, table, &side_keys);
    let side = &mut contents.sides[table];
    match random.below(3) {
        0 if side.len() < rooms[table] && !side_keys[table].contains(&new[0]) => {
            side.push(plan.shown(table, &new));
        }
        1 if !side.is_empty() => {
            side.remove(random.below(side.len()));
        }
        _ if !side.is_empty() => {
            let row = random.below(side.len());
            let column = random.below(side[row].len());
            let value = random.other(side[row][column]);
            if column > 0 || !side_keys[table].contains(&value) {
                side[row][column] = value;
            }
        }
        _ => {}
    }
}

/// The contents with one value of the table altered in a list row, if the list shows one besides the key.
pub fn table_altered(
    random: &mut Random,
    plan: &Plan,
    contents: &Contents,
    table: usize,
) -> Contents {
    let mut contents = contents.clone();
    let mut places = Vec::new();
    for (place, listed) in plan.sheet.listed.iter().enumerate() {
        if listed.table == table && listed.column > 0 {
            places.push(place);
        }
    }
    if !places.is_empty() && !contents.list.is_empty() {
        let row = random.below(contents.list.len());
        let place = random.pick(&places);
        contents.list[row][place] = random.other(contents.list[row][place]);
    }
    contents.sort();
    contents
}

/// The contents with one copy fewer of a list row that stands more than once, if there is one.
pub fn one_copy_fewer(random: &mut Random, contents: &Contents) -> Contents {
    let mut contents = contents.clone();
    let list = &contents.list;
    let twice = |place: &usize| list[*place] == list[*place - 1];
    let places: Vec<usize> = (1..list.len()).filter(twice).collect();
    if !places.is_empty() {
        contents.list.remove(random.pick(&places));
    }
    contents
}
