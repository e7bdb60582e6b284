//! Handlers that tell the wrong part of a verdict, or tell it at the wrong place.

use std::slice::{from_raw_parts, from_raw_parts_mut};

use super::tools::tell;
use crate::datagram::*;
use crate::refusal::*;
use crate::subject::Handle;

pub const WRONG: [(&str, Handle); 11] = [
    ("gives 14 for all parts", one_number),
    ("gives the lowest number that applies", lowest_number),
    ("compares the port before the claim", port_first),
    ("compares the digest before the timeouts", digest_first),
    ("gives 141 for the channel and 142 for the port", exchanged_numbers),
    ("compares the packet's verdict before the end's", packet_first),
    ("compares the blocks before the packet's verdict", blocks_first),
    ("compares the blocks behind all else", blocks_last),
    ("gives 145 for the version", version_as_record),
    ("gives 143 for 15 at a time-out", sequence_for_order),
    ("gives 3 for another claim", claim_as_malformed),
];

/// The kinds that compare a verdict.
const KINDS: [u16; 8] =
    [RECEIVE, ACKNOWLEDGE, TIME_OUT, OPEN_TRY, OPEN_ACKNOWLEDGE, OPEN_CONFIRM, CLOSE_CONFIRM, TIME_OUT_ON_CLOSE];
/// Of them, those whose version is in the verdict alone.
const SHOWING_VERSION: [u16; 4] = [OPEN_ACKNOWLEDGE, OPEN_CONFIRM, CLOSE_CONFIRM, TIME_OUT_ON_CLOSE];

behind_c!(one_number, |store, output, datagram| {
    tell(store, output, datagram, &KINDS, |line| (line, place(line.number())))
});

behind_c!(lowest_number, |store, output, datagram| {
    tell(store, output, datagram, &KINDS, |line| (line.number(), line.number()))
});

behind_c!(port_first, |store, output, datagram| {
    tell(store, output, datagram, &KINDS, |line| (exchanged(line, Part::Claim, Part::Port), line.number()))
});

behind_c!(digest_first, |store, output, datagram| {
    tell(store, output, datagram, &KINDS, |line| (exchanged(line, Part::TimeoutHeight, Part::Digest), line.number()))
});

behind_c!(exchanged_numbers, |store, output, datagram| {
    tell(store, output, datagram, &KINDS, |line| (line, exchanged(line, Part::Port, Part::Channel).number()))
});

/// The line of the other of two parts, and any other line as it is.
fn exchanged(line: Line, one: Part, other: Part) -> Line {
    match line.part() {
        Some(part) if part == one => other.into(),
        Some(part) if part == other => one.into(),
        _ => line,
    }
}

behind_c!(packet_first, |store, output, datagram| {
    tell(store, output, datagram, &KINDS, |line| {
        let is_of_end = (Line::from(Part::EndClaim)..Part::Claim.into()).contains(&line);
        let is_behind = is_of_end || line > Part::Digest.into();
        ((is_behind, line), line.number())
    })
});

behind_c!(blocks_first, |store, output, datagram| {
    tell(store, output, datagram, &KINDS, |line| {
        let is_behind = line >= Part::Claim.into();
        ((is_behind, is_behind && line.number() != OTHER_BLOCK, line), line.number())
    })
});

behind_c!(blocks_last, |store, output, datagram| {
    tell(store, output, datagram, &KINDS, |line| ((line.number() == OTHER_BLOCK, line), line.number()))
});

behind_c!(version_as_record, |store, output, datagram| {
    tell(store, output, datagram, &SHOWING_VERSION, |line| given_as(line, WRONG_VERSION, Part::EndRecord))
});

behind_c!(sequence_for_order, |store, output, datagram| {
    tell(store, output, datagram, &[TIME_OUT, TIME_OUT_ON_CLOSE], |line| given_as(line, OUT_OF_ORDER, Part::Sequence))
});

/// Tells a part where this number applies, and at its place.
fn given_as(line: Line, number: u8, part: Part) -> (Line, u8) {
    let line = if line.number() == number { part.into() } else { line };
    (line, line.number())
}

behind_c!(claim_as_malformed, |store, output, datagram| {
    tell(store, output, datagram, &KINDS, |line| {
        let line = if line.number() == OTHER_CLAIM { MALFORMED.into() } else { line };
        (line, line.number())
    })
});
