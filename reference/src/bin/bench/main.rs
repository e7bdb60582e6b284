//! Measures the static library and the plain Rust of the reference on the same calls, in one run: `bench [rounds]`.

mod check;
mod timing;

use std::env;

use reference::places::MAX_RECORDS;
use reference::route::ROUTE;
use reference::workload::{shifting, unsorted, workload, SEGMENT};

use timing::{compared, in_turns, same_work, Handler, Segment, Time};

const CALLS: usize = 10_000;
/// Calls that are timed one by one.
const SINGLE_CALLS: usize = 200;
const SEED: u64 = 7;
const DEFAULT_ROUNDS: usize = 9;
const NAMES: [&str; 2] = ["library", "plain Rust"];
/// The numbers of packet records; growth is told from the last but one to the last.
const RECORDS: [usize; 3] = [8, 64, MAX_RECORDS];

const ABOUT: &str = "\
Time of a call with one datagram, from the call to the answer: fitness of the whole store checked, refusals asked,
store and output written. Two thirds of the datagrams or more are accepted, of the five kinds that are about packets.
The store is full at first; it is set back now and then, which is not measured. Rounds of the two take turns. Few calls
are timed at once; best is the sum of the best rounds of these, median that of their median rounds. Ratio: time of the
library over time of the plain Rust. The check alone: calls that are refused for a short output, which is asked right
behind it. One sweep: the C library looks for a byte that the store does not have. Then single calls: sends whose record
goes to the front or to the end, and the converter.";

fn library(store: &mut [u8], output: &mut [u8], datagram: &[u8]) -> (u8, u32) {
    let mut size = 0;
    // SAFETY: each pointer is to as many bytes as the length beside it says, and no two overlap.
    let number = unsafe {
        (ROUTE.handle)(
            store.as_mut_ptr(),
            store.len(),
            output.as_mut_ptr(),
            output.len(),
            datagram.as_ptr(),
            datagram.len(),
            &mut size,
        )
    };
    (number, size)
}

fn library_converter(store: &mut [u8], _: &mut [u8], _: &[u8]) -> (u8, u32) {
    // SAFETY: the pointer is to as many bytes as the length beside it says.
    (unsafe { (ROUTE.convert_store)(store.as_mut_ptr(), store.len()) }, 0)
}

fn plain_converter(store: &mut [u8], _: &mut [u8], _: &[u8]) -> (u8, u32) {
    (reference::convert_store(store), 0)
}

fn show(times: [Time; 2]) {
    let [library, plain] = times;
    println!("{:>14}{:>16}{:>16}", "ns per call", "best", "median");
    for (name, Time { best, median }) in NAMES.into_iter().zip(times) {
        println!("{name:>14}{best:>16.0}{median:>16.0}");
    }
    println!("{:>14}{:>16.2}{:>16.2}", "ratio", library.best / plain.best, library.median / plain.median);
}

/// Answers the times of a call.
fn measure(records: usize, rounds: usize) -> [Time; 2] {
    let workload = workload(SEED, records, CALLS);
    // Short chunks, so that most of them are not disturbed by whatever else the machine does.
    let chunk = (SEGMENT * 8 / records).max(4);
    let segments: Vec<Segment> = workload.datagrams.chunks(SEGMENT).map(|it| (&workload.store[..], it)).collect();
    let (swept, absent) = check::without_one(&workload.store);
    let wanted = vec![vec![absent]; SEGMENT];
    let sweeps = vec![(&swept[..], &wanted[..]); segments.len()];
    same_work([library, reference::handle], &segments, chunk);
    let jobs: [(Handler, &[Segment]); 5] = [
        (library, &segments),
        (reference::handle, &segments),
        (check::library_check, &segments),
        (check::plain_check, &segments),
        (check::sweep, &sweeps),
    ];
    let [library, plain, library_check, plain_check, sweep] = in_turns(jobs, chunk, rounds);
    let (accepted, free) = (workload.answers[&0], workload.free as f64 / CALLS as f64);
    println!("\nP = {records}: {CALLS} calls, {accepted} accepted, {free:.1} records free on average");
    println!("{rounds} rounds each, timed by {chunk}");
    show([library, plain]);
    check::show([library, plain], [library_check, plain_check], sweep, swept.len());
    [library, plain]
}

/// What eight times as many records cost.
fn show_growth([before, after]: [[Time; 2]; 2], [from, to]: [usize; 2]) {
    println!("\nFrom P = {from} to P = {to} a call takes so many times as long");
    println!("{:>14}{:>16}{:>16}", "", "best", "median");
    for (name, (before, after)) in NAMES.into_iter().zip(before.into_iter().zip(after)) {
        println!("{name:>14}{:>16.2}{:>16.2}", after.best / before.best, after.median / before.median);
    }
}

/// The two sends do the same, but for the records that shift.
fn measure_shift(rounds: usize) {
    let shifting = shifting(SEED, MAX_RECORDS);
    let cases = [(shifting.to_front, MAX_RECORDS - 1), (shifting.to_end, 0)];
    for (datagram, count) in cases {
        let datagrams = [datagram];
        let segments = vec![(&shifting.store[..], &datagrams[..]); SINGLE_CALLS];
        println!("\nP = {MAX_RECORDS}: a send for which {count} records shift, {SINGLE_CALLS} times");
        show(compared([library, reference::handle], &segments, rounds));
    }
}

fn measure_converter(rounds: usize) {
    let (shuffled, reversed) = unsorted(SEED, MAX_RECORDS, SINGLE_CALLS);
    // The converter takes no datagram.
    let datagrams = [Vec::new()];
    for (name, stores) in [("in no order", shuffled), ("the other way round", vec![reversed; SINGLE_CALLS])] {
        let segments: Vec<Segment> = stores.iter().map(|store| (&store[..], &datagrams[..])).collect();
        println!("\nP = {MAX_RECORDS}: the converter on a full store, records {name}, {SINGLE_CALLS} times");
        show(compared([library_converter, plain_converter], &segments, rounds));
    }
}

fn main() {
    let rounds = env::args().nth(1).and_then(|text| text.parse().ok()).unwrap_or(DEFAULT_ROUNDS).max(1);
    println!("{ABOUT} Seed {SEED}.");
    // Where a short loop stands in the lines of the cache decides much of its time: see docs/PERFORMANCE.md.
    println!("The library's code begins {} bytes behind a multiple of 64.", ROUTE.handle as usize % 64);
    let [_, before, after] = RECORDS.map(|records| measure(records, rounds));
    let [_, from, to] = RECORDS;
    show_growth([before, after], [from, to]);
    measure_shift(rounds);
    measure_converter(rounds);
}
