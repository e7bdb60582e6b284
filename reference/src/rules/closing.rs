//! The two steps that close an end, and the time-out on close.

use super::handshake::other_end;
use super::{not_received, Call};
use crate::datagram::Packet;
use crate::effect::{Effect, Emitted};
use crate::refusal::*;
use crate::store::*;
use crate::verdict::*;

impl Call<'_> {
    pub fn close_init(&self) -> Result<Effect, u8> {
        refuse_if(self.context.connection != 1, CONNECTION_NOT_OPEN)?;
        refuse_if(!self.end.is_open(), NOT_PRIOR_STATE)?;
        Ok(self.moved(Channel { state: CLOSED, ..self.end }))
    }

    pub fn close_confirm(&self, verdict: &EndVerdict) -> Result<Effect, u8> {
        self.step(OPEN, Channel { state: CLOSED, ..self.end }, self.closed_other(), verdict)
    }

    /// Where the other end is CLOSED it takes no packet any more, whatever the timeouts are: a packet that was not
    /// received in the block that shows it so never will be. Neither state nor connection is asked for.
    pub fn time_out_on_close(&self, packet: &Packet, closed: &EndVerdict, verdict: &Verdict) -> Result<Effect, u8> {
        refuse_if(!self.sent_here(packet), WRONG_END)?;
        let index = self.commitment(packet).ok_or(NO_COMMITMENT)?;
        closed.compare(&self.closed_other())?;
        // Where timeouts are allowed the packet lapsed or was not taken: which of the two, the verdict says itself.
        let claim = self.absence_claim(verdict.claim == TIMEOUT_RECEIPT_PRESENT);
        verdict.compare(&not_received(claim, packet, verdict))?;
        let one_block = closed.proof_height == verdict.proof_height && closed.proof_time == verdict.proof_time;
        refuse_if(!one_block, OTHER_BLOCK)?;
        let end = self.given_back(packet, verdict)?;
        refuse_if(!closed.has_version(&self.end.version), WRONG_VERSION)?;
        Ok(self.effect(end, Some(self.removed(index)), Emitted::TimedOut(*packet)))
    }

    fn closed_other(&self) -> Channel {
        Channel { state: CLOSED, ..other_end(&self.end) }
    }
}
