//! Handlers that each break one rule of time-outs where timeouts are allowed.

use std::slice::{from_raw_parts, from_raw_parts_mut};

use super::tools::{allowing, change_where, match_sequence, refuse_where, VERDICT};
use crate::bytes::*;
use crate::datagram::*;
use crate::places::{channel, verdict};
use crate::refusal::*;
use crate::store::*;
use crate::subject::Handle;
use crate::verdict::*;

pub const WRONG: [(&str, Handle); 13] = [
    ("times out by claim 3", BY_CLAIM_3),
    ("times out by claim 4", BY_CLAIM_4),
    ("times out by the timeout receipt of another packet", by_another),
    ("closes the channel by a time-out", closes),
    ("does not count a packet that is timed out", UNCOUNTED),
    ("times out by no counter", APART),
    ("acknowledges by no counter", ACKNOWLEDGES_APART),
    ("times out packets out of order", OUT_OF_TURN),
    ("counts time-outs on an end that is not OPEN", counts_unopened),
    ("times out in order on an end that is not OPEN", in_order_unopened),
    ("takes no claim 4 on close", no_claim_4),
    ("takes no claim 6 on close", no_claim_6),
    ("knows no claim 6", unknown_claim),
];

pub const BY_CLAIM_3: Handle = by_claim_3;
pub const BY_CLAIM_4: Handle = by_claim_4;
pub const UNCOUNTED: Handle = uncounted;
pub const APART: Handle = apart;
pub const ACKNOWLEDGES_APART: Handle = acknowledges_apart;
pub const OUT_OF_TURN: Handle = out_of_turn;

const TIME_OUTS: [u16; 2] = [TIME_OUT, TIME_OUT_ON_CLOSE];

behind_c!(by_claim_3, |store, output, datagram| by_claim(store, output, datagram, RECEIPT_ABSENT));

// Whatever next receive it claims.
behind_c!(by_claim_4, |store, output, datagram| by_claim(store, output, datagram, NEXT_RECV_EQUALS));

/// Takes this claim for that of a timeout receipt.
fn by_claim(store: &mut [u8], output: &mut [u8], datagram: &[u8], claim: u16) -> (u8, u32) {
    change_where(store, output, datagram, (&[TIME_OUT], OTHER_CLAIM), |bytes, end| {
        if end.allows_timeouts() && get_u16(bytes, VERDICT + verdict::CLAIM) == claim {
            put_u16(bytes, VERDICT + verdict::CLAIM, TIMEOUT_RECEIPT_PRESENT);
            match_sequence(bytes);
        }
    })
}

behind_c!(by_another, |store, output, datagram| {
    change_where(store, output, datagram, (&[TIME_OUT], OTHER_SEQUENCE), |bytes, end| {
        if end.allows_timeouts() {
            match_sequence(bytes);
        }
    })
});

behind_c!(closes, |store, output, datagram| {
    let answer = crate::handle(store, output, datagram);
    if let Some((index, ..)) = allowing(store, datagram, &TIME_OUTS, answer, 0) {
        store[channel_place(index) + channel::STATE] = CLOSED;
    }
    answer
});

// No packet behind it can be finished then.
behind_c!(uncounted, |store, output, datagram| {
    let answer = crate::handle(store, output, datagram);
    let end = allowing(store, datagram, &TIME_OUTS, answer, 0).filter(|(_, end, _)| end.is_open());
    if let Some((index, end, _)) = end {
        let next_sequence_ack = end.next_sequence_ack - 1;
        Channel { next_sequence_ack, ..end }.write(&mut store[channel_place(index)..]);
    }
    answer
});

behind_c!(apart, |store, output, datagram| in_any_order(store, output, datagram, &TIME_OUTS, 0));

behind_c!(acknowledges_apart, |store, output, datagram| in_any_order(store, output, datagram, &[ACKNOWLEDGE], 0));

behind_c!(out_of_turn, |store, output, datagram| in_any_order(store, output, datagram, &TIME_OUTS, 1));

/// Takes any packet for the next one in datagrams of these kinds, and raises the counter by so much.
fn in_any_order(store: &mut [u8], output: &mut [u8], datagram: &[u8], kinds: &[u16], rise: u64) -> (u8, u32) {
    let answer = crate::handle(&mut store.to_vec(), &mut output.to_vec(), datagram);
    let end = [0, OUT_OF_ORDER].into_iter().find_map(|number| allowing(store, datagram, kinds, answer, number));
    let Some((index, end, packet)) = end.filter(|(_, end, _)| end.is_open()) else {
        return crate::handle(store, output, datagram);
    };
    Channel { next_sequence_ack: packet.sequence, ..end }.write(&mut store[channel_place(index)..]);
    let answer = crate::handle(store, output, datagram);
    let rise = if answer.0 == 0 { rise } else { 0 };
    let next_sequence_ack = end.next_sequence_ack.saturating_add(rise);
    Channel { next_sequence_ack, ..end }.write(&mut store[channel_place(index)..]);
    answer
}

behind_c!(counts_unopened, |store, output, datagram| {
    let answer = crate::handle(store, output, datagram);
    let end = allowing(store, datagram, &TIME_OUTS, answer, 0).filter(|(_, end, _)| !end.is_open());
    if let Some((index, end, _)) = end {
        let next_sequence_ack = end.next_sequence_ack.saturating_add(1);
        Channel { next_sequence_ack, ..end }.write(&mut store[channel_place(index)..]);
    }
    answer
});

behind_c!(in_order_unopened, |store, output, datagram| {
    refuse_where(store, output, datagram, (TIME_OUT, OUT_OF_ORDER), |body, _, end| match body {
        Body::TimeOut { packet, .. } => end.allows_timeouts() && packet.sequence != end.next_sequence_ack,
        _ => false,
    })
});

behind_c!(no_claim_4, |store, output, datagram| without(store, output, datagram, NEXT_RECV_EQUALS));

behind_c!(no_claim_6, |store, output, datagram| without(store, output, datagram, TIMEOUT_RECEIPT_PRESENT));

/// Does not take this claim on close.
fn without(store: &mut [u8], output: &mut [u8], datagram: &[u8], claim: u16) -> (u8, u32) {
    refuse_where(store, output, datagram, (TIME_OUT_ON_CLOSE, OTHER_CLAIM), |body, _, end| match body {
        Body::TimeOutOnClose { verdict, .. } => end.allows_timeouts() && verdict.claim == claim,
        _ => false,
    })
}

behind_c!(unknown_claim, |store, output, datagram| {
    let answer = crate::handle(&mut store.to_vec(), &mut output.to_vec(), datagram);
    let claim = match read(datagram).map(|it| it.body) {
        Some(Body::TimeOut { verdict, .. } | Body::TimeOutOnClose { verdict, .. }) => verdict.claim,
        _ => 0,
    };
    match answer.0 {
        STORE_NOT_FIT | OUTPUT_SHORT => answer,
        _ if claim == TIMEOUT_RECEIPT_PRESENT => (MALFORMED, 0),
        _ => crate::handle(store, output, datagram),
    }
});
