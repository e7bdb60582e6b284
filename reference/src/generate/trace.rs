//! Traces, the inputs of the replay program: good ones, ones that the maker refuses, and torn ones.

use super::draft::Draft;
use super::making::{openings, records};
use super::malform::{garbage, malform};
use super::rng::Rng;
use super::{fault, grow, making};
use crate::bytes::*;
use crate::places::{frame, MAX_RECORDS, OUTPUT};
use crate::store::store_length;

const FIRST_KIND: u16 = 0x0020;

/// One random trace.
pub fn trace(rng: &mut Rng) -> Vec<u8> {
    let mut input = first(rng);
    let store = &mut made(&input);
    let most = rng.pick(&[0, 3, 30, 30, 300]);
    for _ in 0..rng.index(most + 1) {
        input.extend(record(rng, store));
    }
    match rng.below(6) {
        // Cut anywhere: in the first record, in a datagram, in a length.
        0 => input.truncate(rng.index(input.len() + 1)),
        1 => input.extend(torn(rng)),
        _ => {}
    }
    input
}

/// The first record, mostly one that opens a store.
fn first(rng: &mut Rng) -> Vec<u8> {
    let count = rng.pick(&[0, 1, 2, 4, 16, 17, 50]);
    let (mut list, mut number) = (openings(rng, count), records(rng) as u16);
    let mut kind = FIRST_KIND;
    match rng.below(24) {
        0 => number = rng.pick(&[0, MAX_RECORDS as u16 + 1, u16::MAX]),
        1 => list = making::making(rng).openings,
        2 => kind = rng.pick(&[0, 1, 0x0010, 0x0021, 0x0120, 0x2000]),
        3 => list = rng.bytes(3),
        _ => {}
    }
    let mut bytes = vec![0; 8];
    put_u16(&mut bytes, frame::KIND, kind);
    put_u16(&mut bytes, frame::BODY, number);
    bytes.extend(list);
    if rng.one_in(30) {
        bytes.truncate(6 + rng.index(2));
    }
    let length = bytes.len() as u32;
    put_u32(&mut bytes, frame::LENGTH, length);
    bytes
}

/// The store that a first record opens, for datagrams that fit it; empty where none is opened.
fn made(first: &[u8]) -> Vec<u8> {
    let number = first.get(frame::BODY..8).map_or(0, |bytes| usize::from(get_u16(bytes, 0)));
    let mut store = vec![0; store_length(number)];
    match crate::make_store(&mut store, first.get(8..).unwrap_or_default()) {
        0 => store,
        _ => Vec::new(),
    }
}

/// A record with a length that the replay program takes: mostly a datagram that is accepted.
fn record(rng: &mut Rng, store: &mut [u8]) -> Vec<u8> {
    let draft = if store.is_empty() { None } else { (0..8).find_map(|_| grow::next_accepted(rng, store)) };
    let mut bytes = match draft {
        None => garbage(rng),
        Some(mut draft) => {
            spoil_verdict(rng, &mut draft);
            let mut bytes = draft.encode();
            if rng.one_in(5) {
                malform(rng, &mut bytes);
            }
            bytes
        }
    };
    let length = match rng.below(60) {
        0 => rng.pick(&[6, 7, 1023, 1024]),
        _ => bytes.len().max(6),
    };
    bytes.resize(length, 0);
    put_u32(&mut bytes, frame::LENGTH, length as u32);
    crate::handle(store, &mut [0; OUTPUT], &bytes);
    bytes
}

/// Of those that carry a verdict, some have a part of it that is not as needed.
fn spoil_verdict(rng: &mut Rng, draft: &mut Draft) {
    let parts = fault::parts(draft.row());
    if !parts.is_empty() && rng.one_in(5) {
        let part = rng.pick(&parts);
        fault::spoil(rng, draft, &[part.into()]);
    }
}

/// The front of a record that no input can go on with, and perhaps what would follow it.
fn torn(rng: &mut Rng) -> Vec<u8> {
    let length = rng.pick(&[0, 1, 5, 1025, 4096, 0x0100_0000, 0x0001_0006, u32::MAX]);
    let more = rng.index(40);
    [length.to_le_bytes().to_vec(), rng.bytes(more)].concat()
}
