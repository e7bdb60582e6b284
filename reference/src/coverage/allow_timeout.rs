//! What calls have to meet on ends where timeouts are allowed, beside what each row of the table asks.

use std::fmt;

use super::cell::{name, Cell};
use super::clocks::Late;
use crate::datagram::*;
use crate::generate::fault::{aims, never_given};
use crate::generate::Row;
use crate::refusal::*;
use crate::store::*;
use crate::verdict::*;

/// What a call met.
#[derive(Clone, Copy, Debug, PartialEq, Eq, PartialOrd, Ord)]
pub enum Allowed {
    /// A packet lapsed, late by these, and at the very timeout or later.
    Lapsed { by: Late, at_timeout: bool },
    /// A packet came late, and was refused for this line alone.
    Late(Line),
    /// A write was refused for 17 alone, of a packet that lapsed or was not taken.
    NotReceived { lapsed: bool },
    /// A time-out of this kind was accepted on an end that is not OPEN, of a packet whose turn it was not.
    NotItsTurn(u16),
    /// A time-out on close was refused for 15 alone: for the next receive that it claims, the packet's turn, or both.
    OutOfOrder { by_claim: bool, by_turn: bool },
    /// A time-out on close with this claim was refused for this line alone.
    OnClose(u16, Line),
}

/// The two claims that a time-out on close can have.
const CLAIMS: [u16; 2] = [NEXT_RECV_EQUALS, TIMEOUT_RECEIPT_PRESENT];

/// The lines that can apply alone to a call of this kind that has found its end.
fn lines(kind: u16) -> impl Iterator<Item = Line> {
    let row = Row { kind, order: ALLOW_TIMEOUT };
    let found = |line: &Line| !matches!(line.number(), STORE_NOT_FIT | MALFORMED | NO_CHANNEL);
    aims(row).into_iter().filter(found).filter(move |line| never_given(row, *line).is_none())
}

/// The cells that a run can reach here.
pub fn possible() -> Vec<Cell> {
    let mut all = Vec::new();
    for by in Late::ALL {
        all.extend([true, false].map(|at_timeout| Allowed::Lapsed { by, at_timeout }));
    }
    all.extend(lines(RECEIVE).map(Allowed::Late));
    all.extend([true, false].map(|lapsed| Allowed::NotReceived { lapsed }));
    all.extend([TIME_OUT, TIME_OUT_ON_CLOSE].map(Allowed::NotItsTurn));
    let out_of_order = |(by_claim, by_turn)| Allowed::OutOfOrder { by_claim, by_turn };
    all.extend([(true, false), (false, true), (true, true)].map(out_of_order));
    for claim in CLAIMS {
        // Another claim is neither of the two, and a next receive may be any.
        let of_claim = |line: &Line| match line.part() {
            Some(Part::Claim) => false,
            Some(Part::Sequence) => claim == TIMEOUT_RECEIPT_PRESENT,
            _ => true,
        };
        all.extend(lines(TIME_OUT_ON_CLOSE).filter(of_claim).map(|line| Allowed::OnClose(claim, line)));
    }
    all.into_iter().map(Cell::Allowed).collect()
}

/// The cells that a call on this end reaches, with all refusals that applied to it.
pub fn reached(end: &Channel, datagram: &Datagram, applying: &[Line]) -> Vec<Cell> {
    let mut all = Vec::new();
    let alone = match applying {
        [] => None,
        [line] => Some(*line),
        _ => return Vec::new(),
    };
    match &datagram.body {
        _ if !end.allows_timeouts() => {}
        Body::Receive { packet, .. } => {
            let late = late(&datagram.context, packet);
            all.extend(late.map(|(by, at_timeout)| alone.map_or(Allowed::Lapsed { by, at_timeout }, Allowed::Late)));
        }
        Body::Write { sequence, .. } if alone == Some(NOT_RECEIVED.into()) => {
            all.push(Allowed::NotReceived { lapsed: *sequence < end.next_sequence_recv });
        }
        Body::TimeOut { packet, .. } => all.extend(not_its_turn(TIME_OUT, end, packet).filter(|_| alone.is_none())),
        Body::TimeOutOnClose { packet, verdict, .. } => match alone {
            None => all.extend(not_its_turn(TIME_OUT_ON_CLOSE, end, packet)),
            Some(line) => {
                all.push(Allowed::OnClose(verdict.claim, line));
                let by_claim = verdict.claim == NEXT_RECV_EQUALS && verdict.sequence > packet.sequence;
                let by_turn = end.is_open() && packet.sequence != end.next_sequence_ack;
                all.extend((line.number() == OUT_OF_ORDER).then_some(Allowed::OutOfOrder { by_claim, by_turn }));
            }
        },
        _ => {}
    }
    all.into_iter().map(Cell::Allowed).collect()
}

/// Which timeouts have passed, and whether this is the very moment.
fn late(context: &Context, packet: &Packet) -> Option<(Late, bool)> {
    let by = Late::at((context.height, context.time), (packet.timeout_height, packet.timeout_timestamp))?;
    let later_height = by != Late::Time && context.height > packet.timeout_height;
    let later_time = by != Late::Height && context.time > packet.timeout_timestamp;
    Some((by, !later_height && !later_time))
}

fn not_its_turn(kind: u16, end: &Channel, packet: &Packet) -> Option<Allowed> {
    (!end.is_open() && packet.sequence != end.next_sequence_ack).then_some(Allowed::NotItsTurn(kind))
}

impl fmt::Display for Allowed {
    fn fmt(&self, out: &mut fmt::Formatter) -> fmt::Result {
        match self {
            Allowed::Lapsed { by, at_timeout } => {
                write!(out, "a packet lapses by {by}, {}", if *at_timeout { "at the very timeout" } else { "later" })
            }
            Allowed::Late(line) => write!(out, "a packet comes late, {line} alone"),
            Allowed::NotReceived { lapsed: true } => write!(out, "17 alone for a packet that lapsed"),
            Allowed::NotReceived { lapsed: false } => write!(out, "17 alone for a packet that was not taken"),
            Allowed::NotItsTurn(kind) => write!(out, "{}: accepted out of turn, end not OPEN", name(*kind)),
            Allowed::OutOfOrder { by_claim, by_turn } => {
                let why = match (by_claim, by_turn) {
                    (true, true) => "the claim and the turn",
                    (true, false) => "the claim",
                    _ => "the turn",
                };
                write!(out, "on close: 15 alone for {why}")
            }
            Allowed::OnClose(claim, line) => write!(out, "on close with claim {claim}: {line} alone"),
        }
    }
}
