//! What the converter has to convert: stores out of order in every way.

use std::fmt;

use super::cell::Cell;
use crate::store::*;

/// How the packet records of a store stand that was converted.
#[derive(Clone, Copy, Debug, PartialEq, Eq, PartialOrd, Ord)]
pub struct Disorder {
    rising: bool,
    /// A free one stands before one in use.
    gap: bool,
    full: bool,
}

/// The cells that a run can reach here.
pub fn possible() -> Vec<Cell> {
    let ways = [(false, false), (true, false), (false, true)];
    let of_order = |rising| ways.map(|(gap, full)| Cell::Converted(Disorder { rising, gap, full }));
    [true, false].into_iter().flat_map(of_order).collect()
}

/// The cell that a call of the converter reaches, by the answers of the handler before it, of the converter, and of the
/// handler behind it: a call is refused for the order alone, and then accepted.
pub fn reached(store: &[u8], answers: [u8; 3]) -> Option<Cell> {
    if answers[1] != 0 {
        return None;
    }
    let mut keys: Vec<u128> = records(store).iter().map(|bytes| key_of(bytes)).collect();
    let last = keys.iter().rposition(|key| *key != 0).map_or(0, |index| index + 1);
    let gap = keys[..last].contains(&0);
    keys.retain(|key| *key != 0);
    let (rising, full) = (keys.is_sorted(), keys.len() == record_count(store));
    let needed = [u8::from(gap || !rising), 0, 0];
    (answers == needed).then_some(Cell::Converted(Disorder { rising, gap, full }))
}

impl fmt::Display for Disorder {
    fn fmt(&self, out: &mut fmt::Formatter) -> fmt::Result {
        let order = if self.rising { "rising" } else { "not rising" };
        let free = match (self.gap, self.full) {
            (true, _) => "a free one in between",
            (_, true) => "none free",
            _ => "the free ones behind",
        };
        write!(out, "records {order}, {free}")
    }
}
