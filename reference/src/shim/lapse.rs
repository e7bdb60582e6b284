//! Handlers that each break one rule of packets that lapse, or of their timeout receipts.

use std::slice::{from_raw_parts, from_raw_parts_mut};

use super::tools::{allowing, end_of, receive_untimed, refuse_where, remove_all};
use crate::bytes::*;
use crate::datagram::*;
use crate::fit::fit;
use crate::places::frame;
use crate::refusal::*;
use crate::rules::passed;
use crate::store::*;
use crate::subject::Handle;

pub const WRONG: [(&str, Handle); 13] = [
    ("writes no timeout receipt", NO_TIMEOUT_RECEIPT),
    ("delivers a late packet", delivers_late),
    ("gives 11 for a late packet", refuses_late),
    ("emits a delivery where a packet lapses", EMITS_DELIVERY),
    ("asks for no room where a packet lapses", NO_ROOM),
    ("asks for room where a packet is in time", room_in_time),
    ("lets packets lapse out of order", LAPSES_OUT_OF_ORDER),
    ("does not count a packet that lapses", lapses_uncounted),
    ("writes for a packet that lapsed", WRITES_FOR_LAPSED),
    ("takes timeout receipts on any channel", receipts_anywhere),
    ("takes timeout receipts of packets that were not taken", receipts_not_taken),
    ("takes timeout receipts with a timeout or digest", receipts_with_values),
    ("takes acknowledgements beside timeout receipts", both_records),
];

pub const NO_TIMEOUT_RECEIPT: Handle = no_timeout_receipt;
pub const EMITS_DELIVERY: Handle = emits_delivery;
pub const NO_ROOM: Handle = no_room;
pub const LAPSES_OUT_OF_ORDER: Handle = lapses_out_of_order;
pub const WRITES_FOR_LAPSED: Handle = writes_for_lapsed;

/// The packet that an accepted call let lapse.
fn lapsed(answer: (u8, u32), output: &[u8]) -> Option<Packet> {
    let emitted = answer.0 == 0 && answer.1 > 0 && get_u16(output, frame::KIND) == 0x0106;
    emitted.then(|| Packet::read(&output[frame::BODY..]))
}

behind_c!(no_timeout_receipt, |store, output, datagram| {
    let answer = crate::handle(store, output, datagram);
    if let Some(packet) = lapsed(answer, output) {
        remove_all(store, |record| record.key() == key(TIMEOUT_RECEIPT, packet.dest_channel, packet.sequence));
    }
    answer
});

// As if the packet had no timeouts; so no room is asked for.
behind_c!(delivers_late, |store, output, datagram| {
    let before = store.to_vec();
    let answer = crate::handle(store, output, datagram);
    if lapsed(answer, output).is_none() {
        return answer;
    }
    store.copy_from_slice(&before);
    receive_untimed(store, output, datagram)
});

behind_c!(refuses_late, |store, output, datagram| {
    refuse_where(store, output, datagram, (RECEIVE, TIMEOUT_PASSED), |body, context, end| match body {
        Body::Receive { packet, .. } => end.allows_timeouts() && passed(packet, context.height, context.time),
        _ => false,
    })
});

behind_c!(emits_delivery, |store, output, datagram| {
    let answer = crate::handle(store, output, datagram);
    if lapsed(answer, output).is_some() {
        put_u16(output, frame::KIND, 0x0102);
    }
    answer
});

// The last record is lost.
behind_c!(no_room, |store, output, datagram| {
    let answer = crate::handle(store, output, datagram);
    if allowing(store, datagram, &[RECEIVE], answer, NO_FREE_RECORD).is_none() {
        return answer;
    }
    remove(store, record_count(store) - 1);
    crate::handle(store, output, datagram)
});

behind_c!(room_in_time, |store, output, datagram| {
    let full = records_in(store.len()).is_some() && !has_room(store);
    let answer = crate::handle(&mut store.to_vec(), &mut output.to_vec(), datagram);
    match allowing(store, datagram, &[RECEIVE], answer, 0) {
        Some(_) if full => (NO_FREE_RECORD, 0),
        _ => crate::handle(store, output, datagram),
    }
});

behind_c!(lapses_out_of_order, |store, output, datagram| {
    let answer = crate::handle(store, output, datagram);
    let Some((index, end, packet)) = allowing(store, datagram, &[RECEIVE], answer, OUT_OF_ORDER) else {
        return answer;
    };
    let before = store.to_vec();
    Channel { next_sequence_recv: packet.sequence, ..end }.write(&mut store[channel_place(index)..]);
    let out_of_order = crate::handle(store, output, datagram);
    if lapsed(out_of_order, output).is_some() {
        return out_of_order;
    }
    store.copy_from_slice(&before);
    answer
});

behind_c!(lapses_uncounted, |store, output, datagram| {
    let answer = crate::handle(store, output, datagram);
    if lapsed(answer, output).is_some() {
        let (index, end) = end_of(store, datagram, &[RECEIVE], answer, 0).expect("a packet was received");
        let next_sequence_recv = end.next_sequence_recv - 1;
        Channel { next_sequence_recv, ..end }.write(&mut store[channel_place(index)..]);
    }
    answer
});

behind_c!(writes_for_lapsed, |store, output, datagram| {
    let answer = crate::handle(store, output, datagram);
    let Some(Body::Write { channel, sequence, .. }) =
        read(datagram).filter(|_| answer.0 == NOT_RECEIVED).map(|it| it.body)
    else {
        return answer;
    };
    let receipt = find_record(store, TIMEOUT_RECEIPT, channel, sequence).filter(|_| has_room(store));
    let Some(index) = receipt else {
        return answer;
    };
    let record = record_at(store, index);
    remove(store, index);
    let answer = crate::handle(store, output, datagram);
    insert(store, &record);
    answer
});

behind_c!(receipts_anywhere, |store, output, datagram| {
    takes_unfit(store, output, datagram, |store, record| is_on(store, record, |end| !end.allows_timeouts()))
});

behind_c!(receipts_not_taken, |store, output, datagram| {
    takes_unfit(store, output, datagram, |store, record| {
        is_on(store, record, |end| end.allows_timeouts() && record.sequence >= end.next_sequence_recv)
    })
});

/// Whether it is a timeout receipt on an end that is so.
fn is_on(store: &[u8], record: &Record, wanted: impl Fn(&Channel) -> bool) -> bool {
    let end = find_channel(store, record.channel).map(|(_, end)| end);
    record.kind == TIMEOUT_RECEIPT && end.is_some_and(|end| wanted(&end))
}

behind_c!(receipts_with_values, |store, output, datagram| {
    takes_unfit(store, output, datagram, |_, record| {
        let Record { channel, sequence, .. } = *record;
        record.kind == TIMEOUT_RECEIPT && *record != Record { kind: TIMEOUT_RECEIPT, channel, sequence, ..Record::FREE }
    })
});

behind_c!(both_records, |store, output, datagram| {
    takes_unfit(store, output, datagram, |store, record| {
        let lapsed = find_record(store, TIMEOUT_RECEIPT, record.channel, record.sequence).is_some();
        record.kind == ACKNOWLEDGEMENT && lapsed
    })
});

/// Takes an unfit store that is fit without the records that are so.
fn takes_unfit(store: &mut [u8], output: &mut [u8], datagram: &[u8], gone: fn(&[u8], &Record) -> bool) -> (u8, u32) {
    if records_in(store.len()).is_some() && !fit(store) {
        let mut without = store.to_vec();
        remove_all(&mut without, |record| gone(store, record));
        if fit(&without) {
            store.copy_from_slice(&without);
        }
    }
    crate::handle(store, output, datagram)
}
