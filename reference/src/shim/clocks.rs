//! Handlers that ask the wrong clock about a timeout, or the client's time in a wrong way.

use std::slice::{from_raw_parts, from_raw_parts_mut};

use super::tools::{kind_of, receive_untimed, refuse_where};
use crate::bytes::*;
use crate::datagram::*;
use crate::places::{context, frame, header};
use crate::refusal::*;
use crate::rules::{passed, reached};
use crate::subject::Handle;

pub const WRONG: [(&str, Handle); 17] = [
    ("asks no time at a send", NOT_ASKED),
    ("asks the own time at a send", OWN_TIME),
    ("sends at the very timeout time", AT_TIMEOUT),
    ("refuses a send one before its timeout time", one_before),
    ("takes a timeout time of 0 for a time", zero_is_a_time),
    ("reads the client's time where its height stands", height_for_time),
    ("reads the client's time where the zero bytes stand", zeros_for_time),
    ("reads the client's time behind the context", behind_context),
    ("reads four bytes of the client's time", four_bytes),
    ("reads the client's time from its last byte on", last_byte_first),
    ("asks the client's time before all else", asked_first),
    ("asks the client's time behind all else", asked_last),
    ("asks the client's time at a receive too", asked_at_receive),
    ("asks the client's clock at a receive", receives_by_client),
    ("asks the client's clock at a time-out", times_out_by_client),
    ("stores the client's time", stores_client_time),
    ("takes a context without the client's time", without_client_time),
];

pub const NOT_ASKED: Handle = not_asked;
pub const OWN_TIME: Handle = own_time;
pub const AT_TIMEOUT: Handle = at_timeout;

const CONTEXT: usize = frame::BODY;
const CLIENT_TIME: usize = CONTEXT + context::CLIENT_TIME;

/// Handles a send as if the client's time were the one that is made of the datagram's bytes.
fn send_at(store: &mut [u8], output: &mut [u8], datagram: &[u8], client_time: fn(&[u8]) -> u64) -> (u8, u32) {
    let mut changed = datagram.to_vec();
    if read(datagram).is_some() && kind_of(datagram) == SEND {
        put_u64(&mut changed, CLIENT_TIME, client_time(datagram));
    }
    crate::handle(store, output, &changed)
}

behind_c!(not_asked, |store, output, datagram| send_at(store, output, datagram, |_| 0));

behind_c!(own_time, |store, output, datagram| {
    send_at(store, output, datagram, |bytes| get_u64(bytes, CONTEXT + context::TIME))
});

behind_c!(at_timeout, |store, output, datagram| {
    send_at(store, output, datagram, |bytes| get_u64(bytes, CLIENT_TIME).saturating_sub(1))
});

behind_c!(one_before, |store, output, datagram| {
    send_at(store, output, datagram, |bytes| get_u64(bytes, CLIENT_TIME).saturating_add(1))
});

behind_c!(height_for_time, |store, output, datagram| {
    send_at(store, output, datagram, |bytes| get_u64(bytes, CONTEXT + context::CLIENT_HEIGHT))
});

behind_c!(zeros_for_time, |store, output, datagram| {
    send_at(store, output, datagram, |bytes| get_u64(bytes, CONTEXT + context::ZEROS))
});

behind_c!(behind_context, |store, output, datagram| {
    send_at(store, output, datagram, |bytes| get_u64(bytes, CONTEXT + context::LENGTH))
});

behind_c!(four_bytes, |store, output, datagram| {
    send_at(store, output, datagram, |bytes| u64::from(get_u32(bytes, CLIENT_TIME)))
});

behind_c!(last_byte_first, |store, output, datagram| {
    send_at(store, output, datagram, |bytes| get_u64(bytes, CLIENT_TIME).swap_bytes())
});

// Every time has reached it then.
behind_c!(zero_is_a_time, |store, output, datagram| {
    refuse_where(store, output, datagram, (SEND, TIMEOUT_PASSED), |body, _, _| {
        matches!(body, Body::Send { timeout_timestamp: 0, .. })
    })
});

behind_c!(asked_first, |store, output, datagram| {
    let answer = crate::handle(store, output, datagram);
    let late = read(datagram).is_some_and(|it| match it.body {
        Body::Send { timeout_timestamp, .. } => reached(it.context.client_time, timeout_timestamp),
        _ => false,
    });
    if answer.0 > MALFORMED && late {
        return (TIMEOUT_PASSED, 0);
    }
    answer
});

behind_c!(asked_last, |store, output, datagram| {
    match send_at(&mut store.to_vec(), &mut output.to_vec(), datagram, |_| 0) {
        (0, _) => crate::handle(store, output, datagram),
        refusal => refusal,
    }
});

behind_c!(asked_at_receive, |store, output, datagram| {
    refuse_where(store, output, datagram, (RECEIVE, TIMEOUT_PASSED), |body, context, _| match body {
        Body::Receive { packet, .. } => reached(context.client_time, packet.timeout_timestamp),
        _ => false,
    })
});

// In place of the own one.
behind_c!(receives_by_client, |store, output, datagram| {
    let late = |body: &Body, context: &Context| match body {
        Body::Receive { packet, .. } => passed(packet, context.client_height, context.client_time),
        _ => true,
    };
    let answer = crate::handle(&mut store.to_vec(), &mut output.to_vec(), datagram);
    let is_timely = read(datagram).is_some_and(|it| !late(&it.body, &it.context));
    if answer.0 == TIMEOUT_PASSED && is_timely {
        return receive_untimed(store, output, datagram);
    }
    refuse_where(store, output, datagram, (RECEIVE, TIMEOUT_PASSED), |body, context, end| {
        !end.allows_timeouts() && late(body, context)
    })
});

behind_c!(times_out_by_client, |store, output, datagram| {
    refuse_where(store, output, datagram, (TIME_OUT, TIMEOUT_NOT_PASSED), |body, context, _| match body {
        Body::TimeOut { packet, .. } => !passed(packet, context.client_height, context.client_time),
        _ => false,
    })
});

behind_c!(stores_client_time, |store, output, datagram| {
    let answer = crate::handle(store, output, datagram);
    if answer.0 == 0 {
        put_u64(store, header::LAST_TIME, get_u64(datagram, CLIENT_TIME));
    }
    answer
});

behind_c!(without_client_time, |store, output, datagram| {
    let answer = crate::handle(store, output, datagram);
    if answer.0 != MALFORMED || datagram.len() < CLIENT_TIME {
        return answer;
    }
    let mut with = datagram.to_vec();
    with.splice(CLIENT_TIME..CLIENT_TIME, [0; 8]);
    put_u32(&mut with, frame::LENGTH, get_u32(datagram, frame::LENGTH).wrapping_add(8));
    crate::handle(store, output, &with)
});
