//! The sequences that were delivered and finished at each end, and which promise about their order is broken. It knows
//! nothing of how calls are decided.

use std::collections::{BTreeMap, BTreeSet};

use super::ends::End;
use super::Truth;
use crate::store::*;

/// Whether a promise that needs so much truth is broken, and its name.
pub type Fault = (Truth, bool, &'static str);

#[derive(Default)]
pub struct Sequences {
    delivered: BTreeMap<End, BTreeSet<u64>>,
    /// How many packets were acknowledged or timed out at an end, OPEN or not.
    finished: BTreeMap<End, u64>,
    /// How many packets were acknowledged at an end where timeouts are allowed, and how many were timed out there while
    /// it was OPEN.
    acknowledging: BTreeMap<End, u64>,
    timing_out: BTreeMap<End, u64>,
    /// Packets timed out at such an end that was not OPEN.
    not_open: u64,
}

impl Sequences {
    /// A packet was delivered at an end as it was before. Ordered, the sequences are 1, 2, 3 and on; and they rise,
    /// except on unordered channels.
    pub fn deliver(&mut self, at: End, end: &Channel, sequence: u64) -> [Fault; 2] {
        let before = self.delivered.entry(at).or_default();
        let early = end.is_ordered() && sequence != before.len() as u64 + 1;
        let falls = !end.is_unordered() && before.last().is_some_and(|last| *last >= sequence);
        before.insert(sequence);
        [(Truth::Nothing, early, "delivered out of order"), (Truth::Nothing, falls, "delivered and does not rise")]
    }

    /// A packet was finished at an end as it was before. While that is OPEN, what is acknowledged there, and where
    /// timeouts are allowed also what is timed out, is 1, 2, 3 and on; unordered, anything.
    pub fn finish(&mut self, at: End, end: &Channel, sequence: u64, timed_out: bool) -> Fault {
        let count = self.finished.entry(at).or_default();
        let in_order = end.is_open() && !end.is_unordered() && (!timed_out || end.allows_timeouts());
        let early = in_order && sequence != *count + 1;
        *count += 1;
        match (end.allows_timeouts(), timed_out) {
            (true, false) => *self.acknowledging.entry(at).or_default() += 1,
            (true, true) if end.is_open() => *self.timing_out.entry(at).or_default() += 1,
            (true, true) => self.not_open += 1,
            (false, _) => {}
        }
        (Truth::Nothing, early, "finished out of order")
    }

    /// Except on unordered channels, exactly those that have a timeout receipt, where timeouts are allowed, were not
    /// delivered of those below next receive; and none from there on was.
    pub fn missing(&self, at: End, end: &Channel, store: &[u8]) -> [Fault; 3] {
        let none = BTreeSet::new();
        let delivered = self.delivered.get(&at).unwrap_or(&none);
        let of_end = |record: &Record| (record.kind, record.channel) == (TIMEOUT_RECEIPT, end.channel);
        let records = (0..record_count(store)).map(|index| record_at(store, index)).filter(of_end);
        let lapsed: BTreeSet<u64> = records.filter(|_| end.allows_timeouts()).map(|record| record.sequence).collect();
        let taken = delivered.union(&lapsed).filter(|sequence| **sequence < end.next_sequence_recv).count() as u64;
        let counts = !end.is_unordered();
        let beyond = delivered.iter().any(|sequence| *sequence >= end.next_sequence_recv);
        [
            (Truth::Nothing, counts && taken + 1 != end.next_sequence_recv, "has packets missing"),
            (Truth::Nothing, counts && beyond, "delivered more than it counts"),
            (Truth::Nothing, counts && !delivered.is_disjoint(&lapsed), "delivered what has a timeout receipt"),
        ]
    }

    /// Next acknowledge of an OPEN end that is not unordered is one more than the packets finished there.
    pub fn uncounted(&self, at: End, end: &Channel) -> Fault {
        let finished = self.finished.get(&at).copied().unwrap_or(0);
        let counts = end.is_open() && !end.is_unordered();
        (Truth::Nothing, counts && end.next_sequence_ack != finished + 1, "finished another number than it counts")
    }

    /// Where timeouts are allowed: packets acknowledged, timed out while the end was OPEN, and when it was not; and the
    /// ends that did the first two, by one counter.
    pub fn totals(&self) -> [u64; 4] {
        let both = self.acknowledging.keys().filter(|at| self.timing_out.contains_key(at)).count() as u64;
        [self.acknowledging.values().sum(), self.timing_out.values().sum(), self.not_open, both]
    }
}
