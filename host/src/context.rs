//! What the host says about the moment of a call.

use crate::bytes::Writer;
use crate::{Block, OwnHeight, OwnTime};

/// The moment of a call, who calls, and what is known of the other ledger.
#[derive(Clone, Copy, Debug, PartialEq, Eq, Hash)]
pub struct Context {
    /// This ledger's height, from 1. It never goes back from one accepted call to the next.
    pub height: OwnHeight,
    /// This ledger's time. It never goes back, and calls of one height have one time.
    pub time: OwnTime,
    /// The latest block of the other ledger that the light client knows. A send asks whether the packet's timeout
    /// [has passed](crate::Timeout::has_passed_at) at it; nothing else asks for it. Where the light client lags behind,
    /// a packet can be sent whose timeout has passed at the other ledger: it is late there, and is timed out.
    pub client: Block,
    /// The port of the caller. Only the port that owns a channel may use it.
    pub port: u16,
    /// Whether the connection is open. A receive, an acknowledge, all steps of opening a channel but the init, and both
    /// steps of closing one ask for it.
    pub connected: bool,
}

impl Context {
    /// The length of a context in a datagram.
    pub(crate) const LENGTH: usize = 40;

    /// The client's time stands at the end, apart from the client's height.
    pub(crate) fn write(&self, to: Writer) -> Writer {
        to.u64(self.height.0)
            .u64(self.time.0)
            .u64(self.client.height.0)
            .u16(self.port)
            .u8(u8::from(self.connected))
            .bytes(&[0; 5])
            .u64(self.client.time.0)
    }
}
