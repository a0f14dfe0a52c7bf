//! An independent and deliberately naive model of the rules in document 01, written from that document alone.

pub mod base;
pub mod change;
pub mod fill;
pub mod frame;
pub mod list;
pub mod plan;
pub mod random;
pub mod reached;
pub mod sheet;
pub mod store;
pub mod text;

/// The number with which a call is turned down.
pub type Refusal = u64;

/// The values of one row, column 0 first.
pub type Row = Vec<u64>;

/// What a call that writes the store leaves behind.
#[derive(Clone, Debug, PartialEq, Eq)]
pub struct Outcome {
    pub number: u64,
    pub taken: u64,
    pub added: u64,
    pub store: Vec<u64>,
}

impl Outcome {
    /// A refusal leaves the store untouched and counts nothing.
    pub fn refused(number: Refusal, store: &[u64]) -> Outcome {
        Outcome {
            number,
            taken: 0,
            added: 0,
            store: store.to_vec(),
        }
    }
}
