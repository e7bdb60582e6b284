//! Steps of the opening handshake and of closing that a given fit store accepts.

use super::blank;
use crate::generate::draft::Draft;
use crate::generate::making::port;
use crate::generate::rng::Rng;
use crate::generate::step::{padded, some_version};
use crate::store::*;

/// An open init or an open try for an end of one of these orders, if the store has a record and a number left.
pub fn making_an_end(rng: &mut Rng, store: &[u8], kind: u16, orders: &[u8]) -> Option<Draft> {
    let index = first_free_channel(store)?;
    u32::try_from(next_channel(store)).ok()?;
    let mut draft = blank(rng, store, index, kind);
    draft.context.port = port(rng);
    draft.step.counterparty_port = port(rng);
    draft.step.counterparty_channel = rng.number() as u32;
    draft.step.order = rng.pick(orders);
    draft.step.version = some_version(rng);
    let version = padded(&draft.step.version);
    show(rng, &mut draft, version);
    draft.match_verdict();
    Some(draft)
}

/// A step of this end. An open acknowledge names any channel, the others have it named already.
pub fn fill_step(rng: &mut Rng, draft: &mut Draft, end: &Channel) {
    draft.step.channel = end.channel;
    draft.step.counterparty_channel = rng.number() as u32;
    show(rng, draft, end.version);
}

pub fn show(rng: &mut Rng, draft: &mut Draft, version: Version) {
    (draft.step.verdict.proof_height, draft.step.verdict.proof_time) = (rng.number(), rng.number());
    draft.step.show_version(version);
}
