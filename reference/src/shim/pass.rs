//! Handlers whose check, in one pass over the packet records and run by run, overlooks one place.

use std::slice::{from_raw_parts, from_raw_parts_mut};

use crate::bytes::*;
use crate::fit::fit;
use crate::places::record;
use crate::store::*;
use crate::subject::Handle;

pub const WRONG: [(&str, Handle); 10] = [
    ("does not look at the first record", first_record),
    ("does not look at the last slot", last_slot),
    ("does not look at the last record in use", last_record),
    ("does not look behind the first free record", behind_free),
    ("looks at the zero bytes of a run's first record alone", zeros_of_first),
    ("asks a bound of a run's first record alone", bound_of_first),
    ("asks a run's first acknowledgement alone for its receipt", receipt_of_first),
    ("takes receipts of other channels", receipts_of_others),
    ("takes acknowledgements right behind commitments", behind_commitments),
    ("holds a run's first timeout receipt alone against acknowledgements", lapsed_of_first),
];

behind_c!(first_record, |store, output, datagram| overlooks(store, output, datagram, |_, index| index == 0));

behind_c!(last_slot, |store, output, datagram| {
    overlooks(store, output, datagram, |store, index| index + 1 == record_count(store))
});

behind_c!(last_record, |store, output, datagram| {
    overlooks(store, output, datagram, |store, index| index + 1 == used_count(store))
});

behind_c!(behind_free, |store, output, datagram| {
    overlooks(store, output, datagram, |store, index| records(store)[..index].iter().any(|bytes| all_zero(bytes)))
});

behind_c!(zeros_of_first, |store, output, datagram| {
    overlooks(store, output, datagram, |store, index| {
        !is_first(store, index) && !all_zero(&records(store)[index][record::ZEROS..record::CHANNEL])
    })
});

behind_c!(bound_of_first, |store, output, datagram| {
    overlooks(store, output, datagram, |store, index| {
        let record = record_at(store, index);
        let end = find_channel(store, record.channel).map(|(_, end)| end);
        let next =
            end.map(|end| if record.kind == COMMITMENT { end.next_sequence_send } else { end.next_sequence_recv });
        !is_first(store, index) && next.is_some_and(|next| record.sequence >= next)
    })
});

behind_c!(receipt_of_first, |store, output, datagram| {
    overlooks(store, output, datagram, |store, index| !is_first(store, index) && has_no_receipt(store, index))
});

behind_c!(receipts_of_others, |store, output, datagram| {
    overlooks(store, output, datagram, |store, index| {
        let sequence = record_at(store, index).sequence;
        let is_receipt = |other: Record| other.kind == RECEIPT && other.sequence == sequence;
        has_no_receipt(store, index) && (0..record_count(store)).any(|other| is_receipt(record_at(store, other)))
    })
});

behind_c!(behind_commitments, |store, output, datagram| {
    overlooks(store, output, datagram, |store, index| {
        let channel = record_at(store, index).channel;
        let is_receipt = |other: Record| other.kind == RECEIPT && other.channel == channel;
        has_no_receipt(store, index) && !(0..record_count(store)).any(|other| is_receipt(record_at(store, other)))
    })
});

behind_c!(lapsed_of_first, |store, output, datagram| {
    overlooks(store, output, datagram, |store, index| {
        let Record { kind, channel, sequence, .. } = record_at(store, index);
        let written = find_record(store, ACKNOWLEDGEMENT, channel, sequence).is_some();
        kind == TIMEOUT_RECEIPT && !is_first(store, index) && written
    })
});

/// Whether the record before is of another kind or channel.
fn is_first(store: &[u8], index: usize) -> bool {
    let run = |index: usize| key_of(&records(store)[index]) >> 64;
    index == 0 || run(index - 1) != run(index)
}

/// Whether it is an acknowledgement on an unordered end, of a packet that has no receipt.
fn has_no_receipt(store: &[u8], index: usize) -> bool {
    let Record { kind, channel, sequence, .. } = record_at(store, index);
    let unordered = find_channel(store, channel).is_some_and(|(_, end)| end.is_unordered());
    kind == ACKNOWLEDGEMENT && unordered && find_record(store, RECEIPT, channel, sequence).is_none()
}

/// Takes an unfit store that is fit without the records that are overlooked.
fn overlooks(store: &mut [u8], output: &mut [u8], datagram: &[u8], is: fn(&[u8], usize) -> bool) -> (u8, u32) {
    if records_in(store.len()).is_some() && !fit(store) {
        let mut without = store.to_vec();
        let overlooked = (0..record_count(store)).rev().filter(|index| is(store, *index));
        overlooked.for_each(|index| remove(&mut without, index));
        if fit(&without) {
            store.copy_from_slice(&without);
        }
    }
    crate::handle(store, output, datagram)
}
