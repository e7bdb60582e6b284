//! Handlers that each break one rule of closing.

use std::slice::{from_raw_parts, from_raw_parts_mut};

use super::handshake::{compares_nothing, takes_version, verdict_place};
use super::tools::{before_parts, change_where, emits_end, end_of, refuse_where, remove_all, tell};
use crate::bytes::*;
use crate::datagram::*;
use crate::generate::draft::{absence_claims, absence_verdict};
use crate::places::{channel, context, frame, time_out_on_close, verdict};
use crate::refusal::*;
use crate::rules::passed;
use crate::store::*;
use crate::subject::Handle;
use crate::verdict::Verdict;

pub const WRONG: [(&str, Handle); 22] = [
    ("closes for any port", closes_for_any),
    ("closes over a connection that is not open", closes_unconnected),
    ("closes an end that is not OPEN", closes_unopened),
    ("compares nothing at a close confirm", CONFIRMS_ANY_CLOSE),
    ("closes ends with different versions", closes_other_version),
    ("gives 6 for 26 at a close", six_at_close),
    ("gives 26 before 140 and 145 at a close", state_first_at_close),
    ("frees the commitments of an end that closes", FREES_AT_CLOSE),
    ("emits something where an end closes", EMITS_AT_CLOSE),
    ("receives on a CLOSED end", RECEIVES_ON_CLOSED),
    ("compares no other end on close", OTHER_NOT_CLOSED),
    ("compares no packet on close", other_packet),
    ("takes verdicts of two blocks on close", TWO_BLOCKS),
    ("takes verdicts of two heights on close", two_heights),
    ("takes verdicts of two times on close", two_times),
    ("gives back on close what was received", GIVES_BACK_ON_CLOSE),
    ("takes another version on close", other_version_on_close),
    ("leaves an ordered end as it was on close", leaves_state),
    ("asks for the timeout on close", asks_timeout),
    ("asks for the connection on close", asks_connection),
    ("asks for an OPEN end on close", asks_open_on_close),
    ("gives 27 before all parts on close", version_first),
];

pub const CONFIRMS_ANY_CLOSE: Handle = confirms_any_close;
pub const FREES_AT_CLOSE: Handle = frees_at_close;
pub const EMITS_AT_CLOSE: Handle = emits_at_close;
pub const RECEIVES_ON_CLOSED: Handle = receives_on_closed;
pub const OTHER_NOT_CLOSED: Handle = other_not_closed;
pub const TWO_BLOCKS: Handle = two_blocks;
pub const GIVES_BACK_ON_CLOSE: Handle = gives_back_on_close;

/// The steps that close an end.
const CLOSING: [u16; 2] = [CLOSE_INIT, CLOSE_CONFIRM];

/// Where the packet's verdict of a time-out on close begins.
const PACKET_VERDICT: usize = frame::BODY + context::LENGTH + time_out_on_close::VERDICT;

behind_c!(closes_for_any, |store, output, datagram| {
    change_where(store, output, datagram, (&CLOSING, 7), |bytes, end| {
        put_u16(bytes, frame::BODY + context::PORT, end.port);
    })
});

behind_c!(closes_unconnected, |store, output, datagram| {
    change_where(store, output, datagram, (&CLOSING, 8), |bytes, _| {
        bytes[frame::BODY + context::CONNECTION] = 1;
    })
});

behind_c!(closes_unopened, |store, output, datagram| {
    let answer = crate::handle(store, output, datagram);
    let Some((index, end)) = end_of(store, datagram, &[CLOSE_INIT], answer, 26) else {
        return answer;
    };
    Channel { state: OPEN, ..end }.write(&mut store[channel_place(index)..]);
    crate::handle(store, output, datagram)
});

behind_c!(confirms_any_close, |store, output, datagram| compares_nothing(store, output, datagram, CLOSE_CONFIRM));

behind_c!(closes_other_version, |store, output, datagram| takes_version(store, output, datagram, &[CLOSE_CONFIRM]));

behind_c!(six_at_close, |store, output, datagram| {
    let answer = crate::handle(store, output, datagram);
    match end_of(store, datagram, &CLOSING, answer, 26) {
        Some(_) => (6, 0),
        None => answer,
    }
});

behind_c!(state_first_at_close, |store, output, datagram| {
    tell(store, output, datagram, &[CLOSE_CONFIRM], |line| before_parts(line, NOT_PRIOR_STATE))
});

behind_c!(frees_at_close, |store, output, datagram| {
    let answer = crate::handle(store, output, datagram);
    if let Some((_, end)) = end_of(store, datagram, &CLOSING, answer, 0) {
        remove_all(store, |record| (record.kind, record.channel) == (COMMITMENT, end.channel));
    }
    answer
});

behind_c!(emits_at_close, |store, output, datagram| emits_end(store, output, datagram, &CLOSING));

behind_c!(receives_on_closed, |store, output, datagram| {
    let answer = crate::handle(store, output, datagram);
    let end = end_of(store, datagram, &[RECEIVE], answer, 6).filter(|(_, end)| end.state == CLOSED);
    let Some((index, end)) = end else {
        return answer;
    };
    Channel { state: OPEN, ..end }.write(&mut store[channel_place(index)..]);
    let answer = crate::handle(store, output, datagram);
    store[channel_place(index) + channel::STATE] = CLOSED;
    answer
});

behind_c!(other_not_closed, |store, output, datagram| compares_nothing(store, output, datagram, TIME_OUT_ON_CLOSE));

behind_c!(other_packet, |store, output, datagram| {
    change_where(store, output, datagram, (&[TIME_OUT_ON_CLOSE], OTHER_CLAIM), |bytes, end| {
        if let Some(Body::TimeOutOnClose { packet, verdict, .. }) = read(bytes).map(|read| read.body) {
            let Verdict { proof_height, proof_time, sequence, .. } = verdict;
            let needed = absence_verdict(absence_claims(TIME_OUT_ON_CLOSE, end.order)[0], &packet, sequence);
            Verdict { proof_height, proof_time, ..needed }.write(&mut bytes[PACKET_VERDICT..]);
        }
    })
});

behind_c!(two_blocks, |store, output, datagram| same_block(store, output, datagram, true, true));

behind_c!(two_heights, |store, output, datagram| same_block(store, output, datagram, true, false));

behind_c!(two_times, |store, output, datagram| same_block(store, output, datagram, false, true));

/// Takes the height, the time or both of the second block for those of the first.
fn same_block(store: &mut [u8], output: &mut [u8], datagram: &[u8], height: bool, time: bool) -> (u8, u32) {
    change_where(store, output, datagram, (&[TIME_OUT_ON_CLOSE], OTHER_BLOCK), |bytes, _| {
        let parts = [(height, verdict::PROOF_HEIGHT), (time, verdict::PROOF_TIME)];
        for (_, place) in parts.into_iter().filter(|(same, _)| *same) {
            let value = get_u64(bytes, verdict_place(TIME_OUT_ON_CLOSE) + place);
            put_u64(bytes, PACKET_VERDICT + place, value);
        }
    })
}

behind_c!(gives_back_on_close, |store, output, datagram| {
    change_where(store, output, datagram, (&[TIME_OUT_ON_CLOSE], 15), |bytes, _| {
        put_u64(bytes, PACKET_VERDICT + verdict::SEQUENCE, 0);
    })
});

behind_c!(other_version_on_close, |store, output, datagram| {
    takes_version(store, output, datagram, &[TIME_OUT_ON_CLOSE])
});

behind_c!(leaves_state, |store, output, datagram| {
    let before = store.to_vec();
    let answer = crate::handle(store, output, datagram);
    if let Some((index, _)) = end_of(store, datagram, &[TIME_OUT_ON_CLOSE], answer, 0) {
        let place = channel_place(index) + channel::STATE;
        store[place] = before[place];
    }
    answer
});

behind_c!(asks_timeout, |store, output, datagram| {
    refuse_where(store, output, datagram, (TIME_OUT_ON_CLOSE, 12), |body, _, _| match body {
        Body::TimeOutOnClose { packet, verdict, .. } => !passed(packet, verdict.proof_height, verdict.proof_time),
        _ => false,
    })
});

behind_c!(asks_connection, |store, output, datagram| {
    refuse_where(store, output, datagram, (TIME_OUT_ON_CLOSE, 8), |_, context, _| context.connection == 0)
});

behind_c!(asks_open_on_close, |store, output, datagram| {
    refuse_where(store, output, datagram, (TIME_OUT_ON_CLOSE, 6), |_, _, end| !end.is_open())
});

behind_c!(version_first, |store, output, datagram| {
    tell(store, output, datagram, &[TIME_OUT_ON_CLOSE], |line| before_parts(line, WRONG_VERSION))
});
