//! How the packet records of a damaged store stand: what is unfit has to be found in any slots, and of two of one key
//! both, whatever stands between them.

use std::fmt;

use crate::generate::damage::{converter_answer, TWO_OF_ONE_KEY};
use crate::places::{PACKET_RECORDS, RECORD};
use crate::store::key_of;
use Standing::*;

#[derive(Clone, Copy, Debug, PartialEq, Eq, PartialOrd, Ord)]
pub enum Standing {
    /// None is lower than the one before it, and the free ones stand behind.
    InOrder,
    /// In other slots; two of one key, if there are, next to each other.
    Scattered,
    /// Two of one key have others in between, free ones, or both.
    Apart { others: bool, free: bool },
}

/// How the records can stand in a store that is damaged in the way of this index: damage to the order alone scatters
/// them, and any other does where they may stand in any slots.
pub fn possible(way: usize, any_slots: bool) -> Vec<Standing> {
    let of_order = converter_answer(way) == 0;
    let mut all = if of_order { vec![Scattered] } else { vec![InOrder] };
    if any_slots && !of_order {
        all.push(Scattered);
    }
    if way == TWO_OF_ONE_KEY {
        all.extend([(true, false), (false, true), (true, true)].map(|(others, free)| Apart { others, free }));
    }
    all
}

/// How the records of this slice stand, which may be too short to have any.
pub fn of(store: &[u8]) -> Standing {
    let slots = store.get(PACKET_RECORDS..).unwrap_or_default().as_chunks::<RECORD>().0;
    let keys: Vec<u128> = slots.iter().map(|bytes| key_of(bytes)).collect();
    if keys.is_sorted_by(|one, next| *next == 0 || (1..=*next).contains(one)) {
        return InOrder;
    }
    let between = (0..keys.len()).filter(|index| keys[*index] != 0).find_map(|index| {
        let behind = &keys[index + 1..];
        behind.iter().position(|key| *key == keys[index]).map(|count| &behind[..count])
    });
    match between {
        None | Some([]) => Scattered,
        Some(keys) => Apart { others: keys.iter().any(|key| *key != 0), free: keys.contains(&0) },
    }
}

impl fmt::Display for Standing {
    fn fmt(&self, out: &mut fmt::Formatter) -> fmt::Result {
        out.write_str(match self {
            InOrder => "records in order",
            Scattered => "records scattered",
            Apart { free: false, .. } => "apart by others",
            Apart { others: false, .. } => "apart by free ones",
            Apart { .. } => "apart by others and free ones",
        })
    }
}
