//! The fill call: the whole store from base tables, with refusals 1, 2, 3, 4, 10, 9 in this order.

use crate::base::{self, Base};
use crate::list::{list, side_tables};
use crate::plan::Plan;
use crate::store::Contents;
use crate::{Outcome, Refusal};

/// The rows that the store of these base tables holds, whatever its room.
pub fn meaning(plan: &Plan, base: &Base) -> Contents {
    Contents {
        sides: side_tables(plan, base),
        list: list(plan, base),
    }
}

/// The old store is only measured, never read.
pub fn fill_call(sheet: &[u64], store: &[u64], run: &[u64]) -> Outcome {
    filled(sheet, store, run).unwrap_or_else(|number| Outcome::refused(number, store))
}

fn filled(sheet: &[u64], store: &[u64], run: &[u64]) -> Result<Outcome, Refusal> {
    let plan = Plan::read(sheet)?;
    if store.len() != plan.length {
        return Err(4);
    }
    let base = base::read(&plan.sheet, run)?;
    let contents = meaning(&plan, &base);
    if contents.exceeds_room(&plan) {
        return Err(9);
    }
    Ok(Outcome {
        number: 0,
        taken: 0,
        added: contents.list.len() as u64,
        store: contents.words(&plan),
    })
}
