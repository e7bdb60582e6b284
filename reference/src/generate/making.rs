//! Calls of the maker, for each of its answers.

use super::rng::Rng;
use crate::bytes::*;
use crate::places::{frame, opening, CHANNELS, HEADER, MAX_RECORDS, OPENING_KIND, PACKET_RECORDS, RECORD};
use crate::refusal::*;
use crate::store::{store_length, ORDERS};

/// What the maker is lent, and the answer that it was made for.
pub struct Making {
    pub store: Vec<u8>,
    pub openings: Vec<u8>,
    pub intended: u8,
}

/// A number of packet records: mostly small, so that most calls are fast.
pub fn records(rng: &mut Rng) -> usize {
    let most = match rng.below(200) {
        0 => return MAX_RECORDS,
        1..=5 => 200,
        6..=50 => 40,
        _ => 8,
    };
    1 + rng.index(most)
}

/// Well-formed openings with different channel numbers, of all orders.
pub fn openings(rng: &mut Rng, count: usize) -> Vec<u8> {
    let mut numbers: Vec<u32> = Vec::new();
    while numbers.len() < count {
        let number = if rng.one_in(8) { rng.draw() as u32 } else { rng.below(40) as u32 };
        if !numbers.contains(&number) {
            numbers.push(number);
        }
    }
    numbers.into_iter().flat_map(|number| one_opening(rng, number)).collect()
}

fn one_opening(rng: &mut Rng, number: u32) -> [u8; opening::LENGTH] {
    let mut bytes = [0; opening::LENGTH];
    put_u32(&mut bytes, frame::LENGTH, opening::LENGTH as u32);
    put_u16(&mut bytes, frame::KIND, OPENING_KIND);
    put_u16(&mut bytes, opening::PORT, port(rng));
    put_u32(&mut bytes, opening::CHANNEL, number);
    put_u16(&mut bytes, opening::COUNTERPARTY_PORT, port(rng));
    put_u32(&mut bytes, opening::COUNTERPARTY_CHANNEL, rng.number() as u32);
    bytes[opening::ORDER] = rng.pick(&ORDERS);
    bytes
}

pub fn port(rng: &mut Rng) -> u16 {
    if rng.one_in(6) {
        rng.draw() as u16
    } else {
        rng.below(8) as u16
    }
}

/// A call of the maker for one answer, often with higher refusals besides.
pub fn making(rng: &mut Rng) -> Making {
    let intended = rng.pick(&[0, STORE_LENGTH_UNFIT, OPENINGS_MALFORMED, TOO_MANY_OPENINGS, CHANNEL_TWICE]);
    // Each fault from the intended one up; the ones above it by chance.
    let mut has = |fault: u8| intended == fault || intended != 0 && intended < fault && rng.one_in(3);
    let (unfit, malformed) = (has(STORE_LENGTH_UNFIT), has(OPENINGS_MALFORMED));
    let (many, twice) = (has(TOO_MANY_OPENINGS), has(CHANNEL_TWICE));
    let count = if many { CHANNELS + 1 + rng.index(5) } else { rng.index(CHANNELS + 1) };
    let mut list = openings(rng, if twice { count.max(2) } else { count });
    if rng.one_in(4) {
        last_or_least(rng, &mut list, count);
    }
    if twice {
        channel_twice(rng, &mut list);
    }
    if malformed {
        malform_list(rng, &mut list);
    }
    let length = if unfit { unfit_length(rng) } else { store_length(records(rng)) };
    Making { store: rng.bytes(length), openings: list, intended }
}

/// One end gets the last number, or the only end gets 0: the next channel number is then at the end of its range too.
fn last_or_least(rng: &mut Rng, list: &mut [u8], count: usize) {
    if count == 0 {
        return;
    }
    let number = if count == 1 && rng.one_in(2) { 0 } else { u32::MAX };
    put_u32(list, rng.index(count) * opening::LENGTH + opening::CHANNEL, number);
}

fn unfit_length(rng: &mut Rng) -> usize {
    let near = store_length(records(rng)) + 1 + rng.index(RECORD - 1);
    let above = PACKET_RECORDS + RECORD * (MAX_RECORDS + 1 + rng.index(3));
    rng.pick(&[0, 1, HEADER, PACKET_RECORDS - 1, PACKET_RECORDS, PACKET_RECORDS + 1, near, near, above])
}

fn channel_twice(rng: &mut Rng, list: &mut [u8]) {
    let count = list.len() / opening::LENGTH;
    let from = rng.index(count);
    let to = (from + 1 + rng.index(count - 1)) % count;
    let number = get_u32(list, from * opening::LENGTH + opening::CHANNEL);
    put_u32(list, to * opening::LENGTH + opening::CHANNEL, number);
}

fn malform_list(rng: &mut Rng, list: &mut Vec<u8>) {
    let count = list.len() / opening::LENGTH;
    if count == 0 || rng.one_in(4) {
        let more = 1 + rng.index(opening::LENGTH - 1);
        let tail = openings(rng, 1);
        list.extend(&tail[..more]);
        return;
    }
    let start = rng.index(count) * opening::LENGTH;
    match rng.below(4) {
        0 => list[start + frame::LENGTH + rng.index(4)] ^= 1 << rng.below(8),
        1 => list[start + frame::KIND + rng.index(2)] ^= 1 << rng.below(8),
        2 => list[start + opening::ORDER] = rng.pick(&[0, 4, 0x11, 0x82, 0xff]),
        _ => list[start + opening::ZERO] = 1 << rng.below(8),
    }
}
