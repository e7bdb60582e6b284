//! What is measured: mixed datagrams for one full store, records that shift all others, and stores out of order.

use std::collections::BTreeMap;

use crate::bytes::put_u32;
use crate::datagram::*;
use crate::generate::accept::{accepted, pick_record};
use crate::generate::draft::Draft;
use crate::generate::fault;
use crate::generate::making::openings;
use crate::generate::malform::malform;
use crate::generate::rng::Rng;
use crate::generate::shape::{channels, fill};
use crate::places::{opening, OUTPUT};
use crate::refusal::Line;
use crate::store::*;

/// After so many calls the store is set back, so that it stays full of the same mixture.
pub const SEGMENT: usize = 100;
/// Receipts of both sorts and acknowledgements written in a segment at most: nothing frees them.
const KEPT: usize = 4;
/// With more free records than this the next accepted call is a send, so that the store is never far from full.
const FREE: usize = 2;
/// The ends of the full store, at least so many of each order.
const ENDS: usize = 8;
const ENDS_OF_AN_ORDER: usize = 2;

/// Datagrams in segments, each made for the store as the segment's earlier ones leave it.
pub struct Workload {
    pub store: Vec<u8>,
    pub datagrams: Vec<Vec<u8>>,
    /// How often each answer comes.
    pub answers: BTreeMap<u8, u64>,
    /// Free records before each call, all calls together.
    pub free: u64,
}

/// A workload of that many datagrams for a store with that many records.
pub fn workload(seed: u64, records: usize, count: usize) -> Workload {
    let mut rng = Rng::new(seed);
    let store = full(&mut rng, records);
    let mut workload = Workload { store, datagrams: Vec::new(), answers: BTreeMap::new(), free: 0 };
    while workload.datagrams.len() < count {
        let mut segment = Segment { store: workload.store.clone(), kept: 0 };
        for _ in 0..SEGMENT.min(count - workload.datagrams.len()) {
            let datagram = segment.next(&mut rng);
            workload.free += free_count(&segment.store) as u64;
            let (number, _) = crate::handle(&mut segment.store, &mut [0; OUTPUT], &datagram);
            *workload.answers.entry(number).or_default() += 1;
            workload.datagrams.push(datagram);
        }
    }
    workload
}

/// Ends of all orders and no free record; records of all kinds, at least half of them commitments.
fn full(rng: &mut Rng, records: usize) -> Vec<u8> {
    loop {
        let mut store = vec![0; store_length(records)];
        crate::make_store(&mut store, &openings(rng, ENDS));
        for (index, end) in channels(&store) {
            Channel { next_sequence_recv: 1 + records as u64, ..end }.write(&mut store[channel_place(index)..]);
        }
        let filled = fill(rng, &mut store, 0, None);
        for (index, end) in channels(&store) {
            let next = pick_record(rng, &store, COMMITMENT, end.channel).map_or(1, |(_, record)| record.sequence);
            Channel { next_sequence_ack: next, ..end }.write(&mut store[channel_place(index)..]);
        }
        if filled && is_mixed(&store) {
            return store;
        }
    }
}

fn is_mixed(store: &[u8]) -> bool {
    let ends = channels(store);
    let of_order = |order| ends.iter().filter(|(_, end)| end.order == order).count();
    let of_kind = |kind| (0..record_count(store)).filter(|index| record_at(store, *index).kind == kind).count();
    ORDERS.into_iter().all(|order| of_order(order) >= ENDS_OF_AN_ORDER)
        && (COMMITMENT..=TIMEOUT_RECEIPT).all(|kind| of_kind(kind) > 0)
        && 2 * of_kind(COMMITMENT) >= record_count(store)
}

struct Segment {
    store: Vec<u8>,
    /// Records written in this segment that nothing will free.
    kept: usize,
}

impl Segment {
    /// Seven of ten are accepted; the others are refused for many reasons.
    fn next(&mut self, rng: &mut Rng) -> Vec<u8> {
        loop {
            let made = match rng.below(20) {
                0..=13 => self.accepted(rng).map(|draft| draft.encode()),
                14 => self.accepted(rng).map(|draft| {
                    let mut bytes = draft.encode();
                    malform(rng, &mut bytes);
                    bytes
                }),
                15 => self.again(rng),
                16 => self.send_anyway(rng),
                _ => self.refused(rng),
            };
            if let Some(datagram) = made {
                return datagram;
            }
        }
    }

    /// No ordered time-out, which would close the channel, and few records that stay.
    fn accepted(&mut self, rng: &mut Rng) -> Option<Draft> {
        let any = rng.pick(&[SEND, RECEIVE, WRITE, ACKNOWLEDGE, TIME_OUT]);
        let kind = if free_count(&self.store) > FREE { SEND } else { any };
        let draft = accepted(rng, &self.store, kind)?;
        let end = draft.end();
        let has_receipt = end.is_unordered() || end.allows_timeouts() && draft.is_late();
        let stays = kind == WRITE || kind == RECEIVE && has_receipt;
        if kind == TIME_OUT && end.is_ordered() || stays && self.kept >= KEPT {
            return None;
        }
        self.kept += usize::from(stays);
        Some(draft)
    }

    /// A fault of the datagram alone, as the store is the one that is there.
    fn refused(&mut self, rng: &mut Rng) -> Option<Vec<u8>> {
        let kind = rng.pick(&[SEND, RECEIVE, WRITE, ACKNOWLEDGE, TIME_OUT]);
        let mut draft = accepted(rng, &self.store, kind)?;
        let (numbers, parts) = (fault::numbers(draft.row()), fault::parts(draft.row()));
        // All parts of the verdict together come as often as any other refusal.
        let at = rng.index(numbers.len() + usize::from(!parts.is_empty()));
        let line = numbers.get(at).map_or_else(|| Line::from(rng.pick(&parts)), |number| Line::from(*number));
        let spoiled = fault::spoil(rng, &mut draft, &[line]);
        (spoiled && draft.store == self.store).then(|| draft.encode())
    }

    /// An unordered packet that was received before.
    fn again(&mut self, rng: &mut Rng) -> Option<Vec<u8>> {
        let mut draft = accepted(rng, &self.store, RECEIVE)?;
        draft.packet.sequence = pick_record(rng, &self.store, RECEIPT, draft.end().channel)?.1.sequence;
        draft.match_verdict();
        Some(draft.encode())
    }

    /// A send, whether a record is free or not: it is made for the store with one commitment less.
    fn send_anyway(&mut self, rng: &mut Rng) -> Option<Vec<u8>> {
        let mut store = self.store.clone();
        let index = (0..record_count(&store)).find(|index| record_at(&store, *index).kind == COMMITMENT)?;
        remove(&mut store, index);
        Some(accepted(rng, &store, SEND)?.encode())
    }
}

fn free_count(store: &[u8]) -> usize {
    record_count(store) - used_count(store)
}

/// A store with one free record, and two sends: the record of the first goes to the front, that of the second behind
/// all others.
pub struct Shifting {
    pub store: Vec<u8>,
    pub to_front: Vec<u8>,
    pub to_end: Vec<u8>,
}

/// All records that are in use are commitments of the second of three channels.
pub fn shifting(seed: u64, records: usize) -> Shifting {
    let mut rng = Rng::new(seed);
    let mut store = vec![0; store_length(records)];
    let mut list = openings(&mut rng, 3);
    (1..=3).zip(list.chunks_exact_mut(opening::LENGTH)).for_each(|(number, it)| put_u32(it, opening::CHANNEL, number));
    crate::make_store(&mut store, &list);
    let (index, end) = find_channel(&store, 2).expect("the maker made it");
    Channel { next_sequence_send: records as u64, ..end }.write(&mut store[channel_place(index)..]);
    for sequence in 1..records as u64 {
        let (timeout_height, timeout_timestamp, digest) = (rng.number(), rng.number(), rng.digest());
        insert(
            &mut store,
            &Record { kind: COMMITMENT, channel: 2, sequence, timeout_height, timeout_timestamp, digest },
        );
    }
    let mut send_on = |channel: u32| loop {
        if let Some(draft) = accepted(&mut rng, &store, SEND).filter(|draft| draft.end().channel == channel) {
            return draft.encode();
        }
    };
    let (to_front, to_end) = (send_on(1), send_on(3));
    Shifting { store, to_front, to_end }
}

/// Full stores whose records stand in no order, so many, and one in which they stand the other way round.
pub fn unsorted(seed: u64, records: usize, count: usize) -> (Vec<Vec<u8>>, Vec<u8>) {
    let mut rng = Rng::new(seed);
    let mut store = full(&mut rng, records);
    records_mut(&mut store).reverse();
    let shuffled = (0..count).map(|_| {
        let mut shuffled = store.clone();
        rng.shuffle(records_mut(&mut shuffled));
        shuffled
    });
    (shuffled.collect(), store)
}
