//! What calls have to meet of the clocks of two ledgers: a send asks what the client knows of the other ledger, a
//! receive asks the own height and time.

use std::fmt;

use super::cell::Cell;
use crate::datagram::*;
use crate::generate::Row;
use crate::refusal::*;
use crate::rules::reached as is_reached;
use crate::store::Channel;

/// A height and a time: of a clock, or at which a packet times out.
type Moment = (u64, u64);

/// What a call met.
#[derive(Clone, Copy, Debug, PartialEq, Eq, PartialOrd, Ord)]
pub enum Clocks {
    /// 11 applied to a send for these of its timeouts, alone or with this other refusal.
    Late { by: Late, beside: Option<u8> },
    /// A send with both timeouts was accepted.
    InTime,
    /// A send was decided by its timeout time, which was so far ahead of the client's time.
    Near(i8),
    /// A send without a timeout time was accepted; the client's time was the last of all, or another that is not 0.
    NoTimeoutTime { at_top: bool },
    /// A send with a timeout time was accepted; the client's time was 0.
    NoClientTime,
    /// Of the own clock and the client's one alone had reached this timeout, and the call was decided by the clock that
    /// it asks.
    Apart { row: Row, measure: Measure, own_reached: bool },
}

/// Which timeouts of a packet have passed.
#[derive(Clone, Copy, Debug, PartialEq, Eq, PartialOrd, Ord)]
pub enum Late {
    Height,
    Time,
    Both,
}

#[derive(Clone, Copy, Debug, PartialEq, Eq, PartialOrd, Ord)]
pub enum Measure {
    Height,
    Time,
}

impl Late {
    pub const ALL: [Late; 3] = [Late::Height, Late::Time, Late::Both];

    pub fn at(now: Moment, timeouts: Moment) -> Option<Late> {
        match (is_reached(now.0, timeouts.0), is_reached(now.1, timeouts.1)) {
            (true, true) => Some(Late::Both),
            (true, false) => Some(Late::Height),
            (false, true) => Some(Late::Time),
            (false, false) => None,
        }
    }
}

/// The refusals that can be told to apply to a send beside 11: behind 1, 3 and 5 nothing is asked, and 10 is for a send
/// without timeouts.
const BESIDE: [u8; 6] = [OUTPUT_SHORT, BEFORE_LAST, NOT_OPEN, NOT_OWNER, COUNTER_AT_END, NO_FREE_RECORD];

/// The cells that a run can reach here.
pub fn possible() -> Vec<Cell> {
    let mut all = vec![Clocks::InTime, Clocks::NoClientTime];
    for by in Late::ALL {
        all.push(Clocks::Late { by, beside: None });
        all.extend(BESIDE.map(|number| Clocks::Late { by, beside: Some(number) }));
    }
    all.extend([-1, 0, 1].map(Clocks::Near));
    all.extend([true, false].map(|at_top| Clocks::NoTimeoutTime { at_top }));
    for row in Row::all().filter(|row| matches!(row.kind, SEND | RECEIVE)) {
        for measure in [Measure::Height, Measure::Time] {
            all.extend([true, false].map(|own_reached| Clocks::Apart { row, measure, own_reached }));
        }
    }
    all.into_iter().map(Cell::Clocks).collect()
}

/// The cells that a call on this end reaches, with all refusals that applied to it.
pub fn reached(end: &Channel, datagram: &Datagram, applying: &[Line]) -> Vec<Cell> {
    let Context { height, time, client_height, client_time, .. } = datagram.context;
    let (own, client) = ((height, time), (client_height, client_time));
    let (kind, asked, timeouts) = match &datagram.body {
        Body::Send { timeout_height, timeout_timestamp, .. } => (SEND, client, (*timeout_height, *timeout_timestamp)),
        Body::Receive { packet, .. } => (RECEIVE, own, (packet.timeout_height, packet.timeout_timestamp)),
        _ => return Vec::new(),
    };
    let late = Late::at(asked, timeouts);
    let mut all = Vec::new();
    if kind == SEND {
        all.extend(late.and_then(|by| late_send(by, applying)));
    }
    let is_decided = applying.is_empty() || applying == [Line::from(TIMEOUT_PASSED)];
    if is_decided && kind == SEND {
        all.extend(of_send(late, client_time, timeouts));
    }
    if is_decided {
        let row = Row { kind, order: end.order };
        let apart = apart(own, client, timeouts, late).into_iter();
        all.extend(apart.map(|(measure, own_reached)| Clocks::Apart { row, measure, own_reached }));
    }
    all.into_iter().map(Cell::Clocks).collect()
}

/// A send to which 11 applies with at most one other refusal.
fn late_send(by: Late, applying: &[Line]) -> Option<Clocks> {
    let mut others = applying.iter().map(|line| line.number()).filter(|number| *number != TIMEOUT_PASSED);
    let beside = others.next();
    others.next().is_none().then_some(Clocks::Late { by, beside })
}

/// What the timeouts of a send meet that is accepted or late, and nothing else.
fn of_send(late: Option<Late>, client_time: u64, timeouts: Moment) -> Vec<Clocks> {
    let (timeout_height, timeout_time) = timeouts;
    let ahead = i128::from(timeout_time) - i128::from(client_time);
    let by_time = timeout_time != 0 && matches!(late, None | Some(Late::Time));
    let is_in_time = late.is_none();
    let met = [
        (is_in_time && timeout_height != 0 && timeout_time != 0, Clocks::InTime),
        (by_time && (-1..=1).contains(&ahead), Clocks::Near(ahead as i8)),
        (
            is_in_time && timeout_time == 0 && client_time != 0,
            Clocks::NoTimeoutTime { at_top: client_time == u64::MAX },
        ),
        (is_in_time && timeout_time != 0 && client_time == 0, Clocks::NoClientTime),
    ];
    met.into_iter().filter(|(applies, _)| *applies).map(|(_, clocks)| clocks).collect()
}

/// The timeouts that one of the two clocks alone has reached, and whether it is the own one. Where the call is late by
/// the other timeout, this one decides nothing.
fn apart(own: Moment, client: Moment, timeouts: Moment, late: Option<Late>) -> Vec<(Measure, bool)> {
    let measures = [
        (Measure::Height, Late::Height, is_reached(own.0, timeouts.0), is_reached(client.0, timeouts.0)),
        (Measure::Time, Late::Time, is_reached(own.1, timeouts.1), is_reached(client.1, timeouts.1)),
    ];
    let decides = |by: Late| late.is_none_or(|late| late == by);
    let apart = measures.into_iter().filter(|(_, by, own, client)| own != client && decides(*by));
    apart.map(|(measure, _, own, _)| (measure, own)).collect()
}

impl fmt::Display for Late {
    fn fmt(&self, out: &mut fmt::Formatter) -> fmt::Result {
        out.write_str(match self {
            Late::Height => "its height",
            Late::Time => "its time",
            Late::Both => "height and time",
        })
    }
}

impl fmt::Display for Clocks {
    fn fmt(&self, out: &mut fmt::Formatter) -> fmt::Result {
        match self {
            Clocks::Late { by, beside: None } => write!(out, "send: 11 alone by {by}"),
            Clocks::Late { by, beside: Some(number) } => write!(out, "send: 11 by {by} with {number}"),
            Clocks::InTime => write!(out, "send: accepted with both timeouts"),
            Clocks::Near(ahead) => write!(out, "send: timeout time at the client's {ahead:+}"),
            Clocks::NoTimeoutTime { at_top: true } => write!(out, "send: no timeout time, client's time 2^64 - 1"),
            Clocks::NoTimeoutTime { at_top: false } => write!(out, "send: no timeout time, client's time not 0"),
            Clocks::NoClientTime => write!(out, "send: accepted with a timeout time, client's time 0"),
            Clocks::Apart { row, measure, own_reached } => {
                let measure = match measure {
                    Measure::Height => "height",
                    Measure::Time => "time",
                };
                let reached = if *own_reached { "own" } else { "client's" };
                write!(out, "{row}: the {reached} {measure} alone has reached the timeout")
            }
        }
    }
}
