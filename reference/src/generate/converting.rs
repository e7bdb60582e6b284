//! Calls of the converter.

use super::call::{Call, Origin, Task};
use super::damage::{converter_answer, damage};
use super::rng::Rng;
use crate::bytes::all_zero;
use crate::places::{PACKET_RECORDS, RECORD};
use crate::store::records_mut;

/// A call of the converter, from a fit store and a datagram that it accepts.
pub fn converting(rng: &mut Rng, fit: &[u8], datagram: Vec<u8>) -> Call {
    let mut store = fit.to_vec();
    let (origin, intended) = match rng.below(8) {
        0 => {
            scatter(rng, &mut store);
            (Origin::Scattered, Some(0))
        }
        1..=5 => {
            let way = damage(rng, &mut store);
            let answer = converter_answer(way);
            // Any other damage may be met in any order.
            if answer != 0 && store.len() >= PACKET_RECORDS && !rng.one_in(3) {
                scatter(rng, &mut store);
            }
            (Origin::Damaged(way), Some(answer))
        }
        6 => {
            scatter(rng, &mut store);
            for _ in 0..1 + rng.index(3) {
                let at = rng.index(store.len());
                store[at] ^= 1 << rng.below(8);
            }
            (Origin::Flipped, None)
        }
        _ => {
            let from = rng.pick(&[0, PACKET_RECORDS]);
            let length = if rng.one_in(2) { rng.index(2000) } else { store.len() };
            store.truncate(from);
            store.extend(rng.bytes(length.saturating_sub(from)));
            (Origin::Garbage, None)
        }
    };
    Call { origin, task: Task::Convert { store, datagram }, intended }
}

/// Puts the packet records into other slots: in their order or not, with free ones in between or not.
pub fn scatter(rng: &mut Rng, store: &mut [u8]) {
    let slots = records_mut(store);
    let mut used: Vec<[u8; RECORD]> = slots.iter().filter(|bytes| !all_zero(*bytes)).copied().collect();
    if rng.one_in(2) {
        rng.shuffle(&mut used);
    }
    let mut places: Vec<usize> = (0..slots.len()).collect();
    if rng.one_in(2) {
        while places.len() > used.len() {
            places.remove(rng.index(places.len()));
        }
    }
    slots.fill([0; RECORD]);
    places.into_iter().zip(used).for_each(|(place, bytes)| slots[place] = bytes);
}
