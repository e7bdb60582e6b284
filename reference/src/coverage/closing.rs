//! What time-outs on close have to meet beside their refusals: everything that they do not ask.

use std::fmt;

use super::cell::Cell;
use crate::datagram::*;
use crate::generate::Row;
use crate::rules::passed;
use crate::store::*;

/// What an accepted time-out on close met and did not ask.
#[derive(Clone, Copy, Debug, PartialEq, Eq, PartialOrd, Ord)]
pub struct Circumstance {
    order: u8,
    when: When,
    connected: bool,
    has_version: bool,
}

/// The block of the verdicts, by the packet's timeouts.
#[derive(Clone, Copy, Debug, PartialEq, Eq, PartialOrd, Ord)]
enum When {
    Before,
    After,
    /// The packet has none, which no send leads to.
    NoTimeout,
}

/// The cells that a run can reach here.
pub fn possible() -> Vec<Cell> {
    let mut cells = Vec::new();
    for order in ORDERS {
        for when in [When::Before, When::After, When::NoTimeout] {
            let others = [(true, true), (true, false), (false, true), (false, false)];
            let circumstance = |(connected, has_version)| Circumstance { order, when, connected, has_version };
            cells.extend(others.map(|other| Cell::OnClose(circumstance(other))));
        }
    }
    cells
}

/// The cell that an accepted call on this end reaches.
pub fn reached(end: &Channel, datagram: &Datagram) -> Option<Cell> {
    let Body::TimeOutOnClose { packet, verdict, .. } = &datagram.body else {
        return None;
    };
    let when = when(packet, verdict.proof_height, verdict.proof_time);
    let (connected, has_version) = (datagram.context.connection == 1, end.version != NO_VERSION);
    Some(Cell::OnClose(Circumstance { order: end.order, when, connected, has_version }))
}

fn when(packet: &Packet, proof_height: u64, proof_time: u64) -> When {
    match passed(packet, proof_height, proof_time) {
        _ if packet.timeout_height == 0 && packet.timeout_timestamp == 0 => When::NoTimeout,
        true => When::After,
        false => When::Before,
    }
}

impl fmt::Display for Circumstance {
    fn fmt(&self, out: &mut fmt::Formatter) -> fmt::Result {
        let when = match self.when {
            When::Before => "before the timeouts",
            When::After => "after a timeout",
            When::NoTimeout => "without timeouts",
        };
        let connection = if self.connected { "open" } else { "not open" };
        let version = if self.has_version { "a version" } else { "no version" };
        let row = Row { kind: TIME_OUT_ON_CLOSE, order: self.order };
        write!(out, "{row}: accepted {when}, connection {connection}, with {version}")
    }
}
