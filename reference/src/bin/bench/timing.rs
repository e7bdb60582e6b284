//! Timing of calls: rounds take turns, and few calls are timed at once.

use std::hash::{DefaultHasher, Hasher};
use std::hint::black_box;
use std::time::{Duration, Instant};

use reference::places::OUTPUT;

pub type Handler = fn(&mut [u8], &mut [u8], &[u8]) -> (u8, u32);

/// A store, and the datagrams that it is given one after the other.
pub type Segment<'a> = (&'a [u8], &'a [Vec<u8>]);

/// Nanoseconds for a call, from each chunk's best round and from each chunk's median round.
#[derive(Clone, Copy)]
pub struct Time {
    pub best: f64,
    pub median: f64,
}

/// A round: the time of each chunk of calls, and sums of its answers and of what it left, to see that two did the same
/// work.
struct Round {
    chunks: Vec<Duration>,
    answers: u64,
    left: u64,
}

/// Makes all calls once. Setting the store back is not measured.
fn round(handler: Handler, segments: &[Segment], chunk: usize) -> Round {
    let (mut chunks, mut answers, mut left) = (Vec::new(), 0u64, DefaultHasher::new());
    let (mut store, mut output) = (Vec::new(), [0; OUTPUT]);
    for (fresh, datagrams) in segments {
        store.clear();
        store.extend_from_slice(fresh);
        for datagrams in datagrams.chunks(chunk) {
            let start = Instant::now();
            for datagram in datagrams {
                let (number, size) = handler(&mut store, &mut output, black_box(datagram));
                answers = answers.wrapping_mul(31).wrapping_add(u64::from(number) << 8 | u64::from(size));
            }
            chunks.push(start.elapsed());
        }
        left.write(&store);
    }
    Round { chunks, answers, left: left.finish() }
}

fn summary(rounds: Vec<Vec<Duration>>, calls: usize) -> Time {
    let mut sums = [Duration::ZERO; 2];
    for chunk in 0..rounds[0].len() {
        let mut times: Vec<Duration> = rounds.iter().map(|round| round[chunk]).collect();
        times.sort_unstable();
        sums[0] += times[0];
        sums[1] += times[times.len() / 2];
    }
    let [best, median] = sums.map(|sum| sum.as_nanos() as f64 / calls as f64);
    Time { best, median }
}

/// The times of jobs whose rounds take turns, so that all of them meet the machine in the same state; whoever went
/// first goes last the next time.
pub fn in_turns<const N: usize>(jobs: [(Handler, &[Segment]); N], chunk: usize, rounds: usize) -> [Time; N] {
    let jobs = jobs.map(black_box);
    let mut times = [const { Vec::new() }; N];
    for number in 0..rounds {
        for which in (0..N).map(|turn| (number + turn) % N) {
            let (handler, segments) = jobs[which];
            times[which].push(round(handler, segments, chunk).chunks);
        }
    }
    let mut calls = jobs.iter().map(|(_, segments)| segments.iter().map(|(_, datagrams)| datagrams.len()).sum());
    times.map(|rounds| summary(rounds, calls.next().unwrap_or_default()))
}

/// Two have to do the same work. It warms up, too.
pub fn same_work(handlers: [Handler; 2], segments: &[Segment], chunk: usize) {
    let [first, second] = handlers.map(|handler| round(black_box(handler), segments, chunk));
    let same = first.answers == second.answers && first.left == second.left;
    assert!(same, "the two do not do the same work: run compare");
}

/// The times of two that do the same work.
pub fn compared(handlers: [Handler; 2], segments: &[Segment], rounds: usize) -> [Time; 2] {
    same_work(handlers, segments, 1);
    in_turns(handlers.map(|handler| (handler, segments)), 1, rounds)
}
