//! Verdicts with one part that is not as needed.

use crate::bytes::put_u64;
use crate::datagram::*;
use crate::generate::call::Row;
use crate::generate::draft::{absence_claims, Draft};
use crate::generate::rng::Rng;
use crate::generate::step::other_order;
use crate::places::channel;
use crate::refusal::Part;
use crate::store::*;
use crate::verdict::*;

const OF_END: &[Part] = &[Part::EndClaim, Part::EndRecord];
const OF_PACKET: &[Part] = &[
    Part::Claim,
    Part::Port,
    Part::Channel,
    Part::Sequence,
    Part::TimeoutHeight,
    Part::TimeoutTimestamp,
    Part::Digest,
];
const OF_BLOCKS: &[Part] = &[Part::ProofHeight, Part::ProofTime];

/// What is compared of the verdicts in this row. An ordered time-out of either sort takes any sequence; where timeouts
/// are allowed, one on close does by one of its two claims.
pub fn parts(row: Row) -> Vec<Part> {
    let mut parts = match row.kind {
        RECEIVE | ACKNOWLEDGE | TIME_OUT => OF_PACKET.to_vec(),
        OPEN_TRY | OPEN_ACKNOWLEDGE | OPEN_CONFIRM | CLOSE_CONFIRM => OF_END.to_vec(),
        TIME_OUT_ON_CLOSE => [OF_END, OF_PACKET, OF_BLOCKS].concat(),
        _ => Vec::new(),
    };
    let any_sequence = row.order == ORDERED && matches!(row.kind, TIME_OUT | TIME_OUT_ON_CLOSE);
    parts.retain(|part| !(any_sequence && *part == Part::Sequence));
    parts
}

/// Changes this part of a verdict that is the needed one in it. Of the blocks of two either one changes.
pub fn spoil(rng: &mut Rng, draft: &mut Draft, part: Part) {
    let needed = match draft.kind {
        TIME_OUT | TIME_OUT_ON_CLOSE => absence_claims(draft.kind, draft.end().order),
        _ => &[draft.verdict.claim],
    };
    let (shown, verdict) = (&mut draft.step.verdict, &mut draft.verdict);
    let either = rng.one_in(2);
    match part {
        Part::EndClaim => shown.claim = other_claim(rng, &[END_SHOWN]),
        Part::EndRecord => other_end(rng, &mut shown.record),
        Part::Claim => verdict.claim = other_claim(rng, needed),
        Part::Port => verdict.port = rng.other_u16(verdict.port),
        Part::Channel => verdict.channel = rng.other_u32(verdict.channel),
        Part::Sequence => verdict.sequence = rng.other_than(verdict.sequence),
        Part::TimeoutHeight => verdict.timeout_height = rng.other_than(verdict.timeout_height),
        Part::TimeoutTimestamp => verdict.timeout_timestamp = rng.other_than(verdict.timeout_timestamp),
        Part::Digest => verdict.digest = rng.other_digest(verdict.digest),
        Part::ProofHeight => {
            let height = if either { &mut shown.proof_height } else { &mut verdict.proof_height };
            *height = rng.other_than(*height);
        }
        Part::ProofTime => {
            let time = if either { &mut shown.proof_time } else { &mut verdict.proof_time };
            *time = rng.other_than(*time);
        }
    }
}

/// One that is known and not among these.
fn other_claim(rng: &mut Rng, needed: &[u16]) -> u16 {
    let mut others: Vec<u16> = (COMMITMENT_PRESENT..=TIMEOUT_RECEIPT_PRESENT).collect();
    others.retain(|claim| !needed.contains(claim));
    rng.pick(&others)
}

/// Another end: one bit of the record changed anywhere but in the version.
fn other_end(rng: &mut Rng, record: &mut [u8]) {
    match rng.below(5) {
        0 => record[channel::STATE] = other_state(rng, record[channel::STATE]),
        1 => record[channel::ORDER] = other_order(rng, record[channel::ORDER]),
        // The counters of the end as they are.
        2 => put_u64(record, rng.pick(&[channel::NEXT_SEND, channel::NEXT_RECV, channel::NEXT_ACK]), 1),
        _ => record[rng.index(channel::VERSION)] ^= 1 << rng.below(8),
    }
}

pub fn other_state(rng: &mut Rng, state: u8) -> u8 {
    1 + (state + rng.below(3) as u8) % 4
}
