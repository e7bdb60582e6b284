//! Channel ends and packets.

use std::fmt;

use crate::bytes::{Reader, Writer};
use crate::Timeout;

/// The digest of a packet's data or of an acknowledgement. The host computes it; nothing here hashes.
pub type Digest = [u8; 32];

/// A port and a channel of it, on one of the two ledgers.
#[derive(Clone, Copy, Debug, Default, PartialEq, Eq, PartialOrd, Ord, Hash)]
pub struct End {
    /// The port that owns the channel.
    pub port: u16,
    /// The channel's number on its ledger.
    pub channel: u32,
}

impl fmt::Display for End {
    /// Port and channel, as `5/7`.
    fn fmt(&self, out: &mut fmt::Formatter) -> fmt::Result {
        write!(out, "{}/{}", self.port, self.channel)
    }
}

/// Whether the packets of a channel are taken in the order in which they were sent, and what becomes of one that comes
/// late.
#[derive(Clone, Copy, Debug, PartialEq, Eq, Hash)]
#[non_exhaustive]
pub enum Order {
    /// Packets are received and acknowledged one after the other. A time-out closes the channel; after that there
    /// are only time-outs.
    Ordered,
    /// Packets are received in any order; a receipt tells which were.
    Unordered,
    /// Packets are received one after the other, but one that comes late *lapses*: a timeout receipt is written in the
    /// place of its delivery ([`Emitted::Lapsed`](crate::Emitted::Lapsed)), and the next one can come. Its sender times
    /// it out. While an end is open its packets are acknowledged and timed out one after the other; no time-out closes
    /// the channel.
    OrderedAllowTimeout,
}

impl Order {
    pub(crate) fn number(self) -> u8 {
        match self {
            Order::Ordered => 1,
            Order::Unordered => 2,
            Order::OrderedAllowTimeout => 3,
        }
    }

    /// The order of this number, in a fit store.
    pub(crate) fn from_number(number: u8) -> Order {
        match number {
            1 => Order::Ordered,
            2 => Order::Unordered,
            _ => Order::OrderedAllowTimeout,
        }
    }
}

/// What is sent over a channel. Its sender's ledger, source channel and sequence name it.
#[derive(Clone, Copy, Debug, PartialEq, Eq, Hash)]
pub struct Packet {
    /// Its number on the source channel, from 1.
    pub sequence: u64,
    /// When it is late.
    pub timeout: Timeout,
    /// The end that it was sent from.
    pub source: End,
    /// The end that it is for.
    pub destination: End,
    /// The digest of its data.
    pub digest: Digest,
}

impl Packet {
    /// The length of a packet in a datagram or an emitted record.
    pub(crate) const LENGTH: usize = 68;

    pub(crate) fn read(bytes: &mut Reader) -> Packet {
        Packet {
            sequence: bytes.u64(),
            timeout: Timeout::from_numbers(bytes.u64(), bytes.u64()),
            source: End { port: bytes.u16(), channel: bytes.u32() },
            destination: End { port: bytes.u16(), channel: bytes.u32() },
            digest: bytes.take(),
        }
    }

    pub(crate) fn write(&self, to: Writer) -> Writer {
        let (height, time) = self.timeout.numbers();
        to.u64(self.sequence)
            .u64(height)
            .u64(time)
            .u16(self.source.port)
            .u32(self.source.channel)
            .u16(self.destination.port)
            .u32(self.destination.channel)
            .bytes(&self.digest)
    }
}

impl fmt::Display for Packet {
    /// Sequence and ends, as `packet 1 from 5/7 to 6/9`.
    fn fmt(&self, out: &mut fmt::Formatter) -> fmt::Result {
        write!(out, "packet {} from {} to {}", self.sequence, self.source, self.destination)
    }
}
