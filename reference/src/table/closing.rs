//! The lines of closing.

use super::{counts_time_outs, is_committed, out_of_order, sent_here};
use crate::datagram::*;
use crate::refusal::*;
use crate::store::*;
use crate::verdict::*;

/// The lines from 8 on of a close, with its verdict if it has one.
pub fn of_close(context: &Context, end: &Channel, verdict: Option<&EndVerdict>) -> Vec<(u8, bool)> {
    vec![
        (CONNECTION_NOT_OPEN, context.connection == 0),
        (NOT_PRIOR_STATE, end.state != OPEN),
        (WRONG_VERSION, verdict.is_some_and(|verdict| other_version(verdict, end))),
    ]
}

pub fn of_time_out_on_close(
    store: &[u8],
    end: &Channel,
    packet: &Packet,
    end_verdict: &EndVerdict,
    verdict: &Verdict,
) -> Vec<(u8, bool)> {
    vec![
        (WRONG_END, !sent_here(end, packet)),
        (NO_COMMITMENT, !is_committed(store, end, packet)),
        (OUT_OF_ORDER, out_of_order(end, packet, verdict)),
        (COUNTER_AT_END, counts_time_outs(end) && end.next_sequence_ack == u64::MAX),
        (WRONG_VERSION, other_version(end_verdict, end)),
    ]
}

fn other_version(verdict: &EndVerdict, end: &Channel) -> bool {
    Channel::read(&verdict.record).version != end.version
}
