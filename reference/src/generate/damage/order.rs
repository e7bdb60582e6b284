//! Damage to the order of packet records, and to nothing else.

// Standing in the table with kinds of damage that change the length, these need their type.
#![allow(clippy::ptr_arg)]

use crate::generate::rng::Rng;
use crate::store::*;

/// Two neighbours change places, of which this is true.
pub fn swapped(rng: &mut Rng, store: &mut [u8], wanted: fn(&Record, &Record) -> bool) -> Option<()> {
    let mut choice: Vec<usize> = (1..used_count(store)).collect();
    choice.retain(|index| wanted(&record_at(store, index - 1), &record_at(store, *index)));
    let index = rng.pick_any(&choice)?;
    records_mut(store).swap(index - 1, index);
    Some(())
}

/// The records from one in use on move up by one.
pub fn gap(rng: &mut Rng, store: &mut Vec<u8>) -> Option<()> {
    let used = used_count(store);
    if used == 0 || !has_room(store) {
        return None;
    }
    insert_at(store, rng.index(used), &Record::FREE);
    Some(())
}
