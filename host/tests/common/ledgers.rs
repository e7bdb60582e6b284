//! Two ledgers with a channel of each order open, and packets between them.

use super::*;

pub const OPENINGS: [Opening; 3] = [ORDERED, UNORDERED, ALLOW_TIMEOUT];

pub type Answer = Result<Option<Emitted>, Refusal>;

/// The end that an opening of the other ledger makes.
pub fn across(opening: Opening) -> Opening {
    Opening { own: opening.counterparty, counterparty: opening.own, order: opening.order }
}

/// The two ledgers, with all channels open and eight packet records each.
pub fn ledgers() -> (Store, Store) {
    let make = |openings: [Opening; 3]| Store::make(8, &openings).expect("a good list");
    (make(OPENINGS), make(OPENINGS.map(across)))
}

pub fn sent_on(store: &mut Store, context: &Context, opening: Opening) -> Packet {
    sent_until(1_000, store, context, opening)
}

pub fn sent_until(height: u64, store: &mut Store, context: &Context, opening: Opening) -> Packet {
    let send = Datagram::send(context, opening.own.channel, at(height), DIGEST);
    let Ok(Some(Emitted::Sent(packet))) = store.handle(send) else { panic!("the end is open") };
    packet
}

pub fn received(at: &mut Store, context: &Context, packet: &Packet) -> Answer {
    at.handle(Datagram::receive(context, packet, &Verdict::commitment_present(packet, block(50))))
}

pub fn written(at: &mut Store, context: &Context, packet: &Packet) -> Answer {
    at.handle(Datagram::write(context, packet.destination.channel, packet.sequence, DIGEST))
}

pub fn acknowledged(at: &mut Store, context: &Context, packet: &Packet) -> Answer {
    let verdict = Verdict::acknowledgement_present(packet, DIGEST, block(50));
    at.handle(Datagram::acknowledge(context, packet, DIGEST, &verdict))
}

/// What a closed end would have to show of a packet that it did not take, with this next receive.
pub fn not_taken(order: Order, packet: &Packet, next: u64) -> Verdict {
    match order {
        Order::Unordered => Verdict::receipt_absent(packet, block(50)),
        _ => Verdict::next_receive(packet, next, block(50)),
    }
}

/// What a time-out needs. Where timeouts are allowed it is that the packet lapsed, and not that it was not taken.
pub fn not_received(order: Order, packet: &Packet, next: u64) -> Verdict {
    match order {
        Order::OrderedAllowTimeout => Verdict::timeout_receipt_present(packet, block(50)),
        _ => not_taken(order, packet, next),
    }
}

/// A time-out on close with what the other store shows now, both in one block.
pub fn on_close(context: &Context, packet: &Packet, other: &Store) -> Datagram {
    let end = other.channel(packet.destination.channel).expect("the end that the packet is for");
    let verdict = not_taken(end.order, packet, end.next_receive);
    Datagram::time_out_on_close(context, packet, &shown(end), &verdict)
}

pub fn state(store: &Store, channel: u32) -> State {
    store.channel(channel).expect("it is there").state
}

/// The end across, as it is once it is closed.
pub fn closed_across(opening: Opening) -> Channel {
    let (_, south) = ledgers();
    Channel { state: State::Closed, ..south.channel(opening.counterparty.channel).expect("it is there") }
}

/// A packet that was sent on the channel, and the verdicts with which a time-out on close gives it back.
pub fn sent_with_verdicts(opening: Opening) -> (Store, Packet, EndVerdict, Verdict) {
    let (mut north, _) = ledgers();
    let packet = sent_on(&mut north, &CONTEXT, opening);
    (north, packet, shown(closed_across(opening)), not_taken(opening.order, &packet, 1))
}
