//! Time-outs on close that a given fit store accepts.

use super::handshake::show;
use super::{come_short, fill_committed, pass_timeout};
use crate::generate::draft::Draft;
use crate::generate::rng::Rng;
use crate::store::*;

/// Both verdicts are of one block, before every timeout of the packet or not. The connection may be open or not.
pub fn fill_on_close(rng: &mut Rng, draft: &mut Draft, end: &Channel) -> Option<()> {
    fill_committed(rng, draft, end)?;
    draft.context.connection = rng.below(2) as u8;
    show(rng, draft, end.version);
    if rng.one_in(2) || pass_timeout(rng, &draft.packet, &mut draft.verdict).is_none() {
        come_short(rng, &draft.packet, &mut draft.verdict);
    }
    let closed = &mut draft.step.verdict;
    (closed.proof_height, closed.proof_time) = (draft.verdict.proof_height, draft.verdict.proof_time);
    Some(())
}
