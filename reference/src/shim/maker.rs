//! Makers that each break one rule of the orders.

use std::slice::{from_raw_parts, from_raw_parts_mut};

use crate::places::opening;
use crate::refusal::OPENINGS_MALFORMED;
use crate::store::ALLOW_TIMEOUT;
use crate::subject::MakeStore;

pub const WRONG: [(&str, MakeStore); 2] =
    [("makes no end where timeouts are allowed", two_orders), ("makes an end of a fourth order", four_orders)];

/// Wraps a function on slices in the C signature.
macro_rules! maker {
    ($name:ident, $inner:expr) => {
        unsafe extern "C" fn $name(store: *mut u8, store_len: usize, openings: *const u8, openings_len: usize) -> u8 {
            let inner: fn(&mut [u8], &[u8]) -> u8 = $inner;
            inner(from_raw_parts_mut(store, store_len), from_raw_parts(openings, openings_len))
        }
    };
}

maker!(two_orders, |store, openings| {
    let third = openings.chunks_exact(opening::LENGTH).any(|bytes| bytes[opening::ORDER] == ALLOW_TIMEOUT);
    match crate::make_store(&mut store.to_vec(), openings) {
        0 if third => OPENINGS_MALFORMED,
        _ => crate::make_store(store, openings),
    }
});

maker!(four_orders, |store, openings| {
    let mut list = openings.to_vec();
    for bytes in list.chunks_exact_mut(opening::LENGTH).filter(|bytes| bytes[opening::ORDER] == ALLOW_TIMEOUT + 1) {
        bytes[opening::ORDER] = ALLOW_TIMEOUT;
    }
    crate::make_store(store, &list)
});
