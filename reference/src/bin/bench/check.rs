//! The check of fitness alone, and one sweep over the store's bytes, which no check can beat by much.

use std::ffi::{c_int, c_void};

use reference::places::OUTPUT;
use reference::refusal::OUTPUT_SHORT;

use super::timing::Time;
use super::{library, NAMES};

extern "C" {
    /// Of the C library, which looks at many bytes at a time.
    fn memchr(bytes: *const c_void, wanted: c_int, length: usize) -> *mut c_void;
}

/// A call with an output too short: the store is checked, and nothing is done behind it.
pub fn library_check(store: &mut [u8], output: &mut [u8], datagram: &[u8]) -> (u8, u32) {
    answered_short(library(store, &mut output[..OUTPUT - 1], datagram))
}

pub fn plain_check(store: &mut [u8], output: &mut [u8], datagram: &[u8]) -> (u8, u32) {
    answered_short(reference::handle(store, &mut output[..OUTPUT - 1], datagram))
}

fn answered_short(answer: (u8, u32)) -> (u8, u32) {
    assert_eq!(answer, (OUTPUT_SHORT, 0));
    answer
}

/// Looks for a byte that is not there.
pub fn sweep(store: &mut [u8], _: &mut [u8], wanted: &[u8]) -> (u8, u32) {
    // SAFETY: the pointer is to as many bytes as the length says.
    let found = unsafe { memchr(store.as_ptr().cast(), c_int::from(wanted[0]), store.len()) };
    assert!(found.is_null());
    (0, 0)
}

/// The store, and a byte that is not in it. Where all are, one gives way to another.
pub fn without_one(store: &[u8]) -> (Vec<u8>, u8) {
    let mut store = store.to_vec();
    let absent = (0..=u8::MAX).find(|byte| !store.contains(byte)).unwrap_or_else(|| {
        store.iter_mut().filter(|byte| **byte == u8::MAX).for_each(|byte| *byte = 0);
        u8::MAX
    });
    (store, absent)
}

/// The checks of the two beside whole calls of the two, and beside the sweep over as many bytes.
pub fn show(calls: [Time; 2], checks: [Time; 2], sweep: Time, bytes: usize) {
    let title = ["best", "median", "part of a call", "bytes per ns", "sweeps"];
    println!("{:>14}{}", "check alone", title.map(|text| format!("{text:>16}")).concat());
    let per_ns = |time: Time| bytes as f64 / time.best;
    for (name, (check, call)) in NAMES.into_iter().zip(checks.into_iter().zip(calls)) {
        let (part, sweeps) = (check.best / call.best, check.best / sweep.best);
        print!("{name:>14}{:>16.0}{:>16.0}{part:>16.2}", check.best, check.median);
        println!("{:>16.1}{sweeps:>16.2}", per_ns(check));
    }
    print!("{:>14}{:>16.0}{:>16.0}{:>16}", "one sweep", sweep.best, sweep.median, "");
    println!("{:>16.1}{:>16.2}", per_ns(sweep), 1.0);
}
