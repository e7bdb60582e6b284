//! Closing a channel: what each step leaves, and what refuses it.

mod common;

use common::ledgers::*;
use common::*;
use route::*;

#[test]
fn lengths_and_places() {
    let (end, packet) = (shown(closed_across(ORDERED)), sent());
    let verdict = not_taken(Order::Ordered, &packet, 1);
    let init = Datagram::close_init(&CONTEXT, 7);
    let confirm = Datagram::close_confirm(&CONTEXT, 7, &end);
    let time_out = Datagram::time_out_on_close(&CONTEXT, &packet, &end, &verdict);
    for (datagram, kind, length) in [(&init, 10, 50), (&confirm, 11, 132), (&time_out, 12, 276)] {
        let bytes = datagram.as_bytes();
        let frame = [(length as u32).to_le_bytes().as_slice(), &[kind, 0]].concat();
        assert_eq!((bytes.len(), &bytes[..6]), (length, frame.as_slice()));
    }
    assert_eq!(init.as_bytes()[46..], [7, 0, 0, 0]);
    // The packet and its verdict are those of a time-out, with the end verdict of the confirm between them.
    let plain = Datagram::time_out(&CONTEXT, &packet, &verdict);
    let parts = [&plain.as_bytes()[46..114], &confirm.as_bytes()[50..], &plain.as_bytes()[114..]].concat();
    assert_eq!(time_out.as_bytes()[46..], parts);
}

#[test]
fn close_init() {
    let mut store = fresh();
    store.handle(send(60)).unwrap();
    let (before, end) = (store.clone(), store.channel(7).unwrap());
    let mut call = |context: &Context, channel| store.handle(Datagram::close_init(context, channel));
    assert_eq!(call(&CONTEXT, 9), Err(Refusal::NoChannel));
    assert_eq!(call(&Context { port: 6, ..CONTEXT }, 7), Err(Refusal::NotOwner));
    assert_eq!(call(&Context { connected: false, ..CONTEXT }, 7), Err(Refusal::NoConnection));
    assert_eq!(store, before);
    let mut output = [0xaa; 106];
    assert_eq!(store.handle_into(Datagram::close_init(&CONTEXT, 7), &mut output), Ok(0));
    assert_eq!(output, [0xaa; 106]);
    assert_eq!(store.channel(7), Some(Channel { state: State::Closed, ..end }));
    assert_eq!((state(&store, 8), store.records().count()), (State::Open, 1));
    assert_eq!(store.handle(Datagram::close_init(&CONTEXT, 7)), Err(Refusal::WrongState));
    assert_eq!(store.handle(send(60)), Err(Refusal::NotOpen));
    assert_eq!(store.handle(receive(ORDERED, 1, Timeout::NONE)), Err(Refusal::NotOpen));
}

#[test]
fn close_confirm() {
    for opening in OPENINGS {
        let (mut store, _) = ledgers();
        let end = store.channel(opening.own.channel).unwrap();
        step_refused(&mut store, CONTEXT, shown(closed_across(opening)), Datagram::close_confirm);
        assert_eq!(store.channel(opening.own.channel), Some(Channel { state: State::Closed, ..end }));
    }
}

#[test]
fn an_end_that_is_not_open_is_not_closed() {
    let mut store = Store::make(1, &[]).unwrap();
    store.handle(Datagram::open_init(&CONTEXT, 6, Order::Ordered, "")).unwrap();
    assert_eq!(store.handle(Datagram::close_init(&CONTEXT, 1)), Err(Refusal::WrongState));
    // A counterparty that names it can be shown, though with true verdicts there is none.
    let counterparty = Channel { own: End { port: 6, channel: 0 }, ..closed_across(ORDERED) };
    let named = Channel { counterparty: End { port: 5, channel: 1 }, ..counterparty };
    assert_eq!(store.handle(Datagram::close_confirm(&CONTEXT, 1, &shown(named))), Err(Refusal::WrongState));
}

#[test]
fn malformed() {
    let verdict = not_taken(Order::Ordered, &sent(), 1);
    let end = shown(closed_across(ORDERED));
    let good = Datagram::time_out_on_close(&CONTEXT, &sent(), &end, &verdict);
    let confirm = Datagram::close_confirm(&CONTEXT, 7, &end);
    // Sequence 0, an unknown claim in either verdict, a connection that is neither open nor closed.
    let claims = [0, 9].map(|claim| [(&good, 114, claim), (&good, 196, claim), (&confirm, 50, claim)]);
    for (datagram, at, value) in claims.into_iter().flatten().chain([(&good, 46, 0), (&confirm, 32, 2)]) {
        let mut bytes = datagram.as_bytes().to_vec();
        bytes[at] = value;
        assert_eq!(fresh().handle(&bytes), Err(Refusal::Malformed), "{at}");
    }
    for datagram in [good, confirm, Datagram::close_init(&CONTEXT, 7)] {
        let mut long = [datagram.as_bytes(), &[0]].concat();
        let length = long.len() as u32;
        long[..4].copy_from_slice(&length.to_le_bytes());
        assert_eq!(fresh().handle(&long), Err(Refusal::Malformed));
    }
}

#[test]
fn time_out_on_close_of_another_packet() {
    for opening in OPENINGS {
        let (mut north, packet, end, verdict) = sent_with_verdicts(opening);
        let before = north.clone();
        let mut call = |context: &Context, packet: Packet| {
            north.handle(Datagram::time_out_on_close(context, &packet, &end, &verdict))
        };
        let source = |port, channel| Packet { source: End { port, channel }, ..packet };
        assert_eq!(call(&CONTEXT, source(5, 9)), Err(Refusal::NoChannel));
        assert_eq!(call(&SOUTH, packet), Err(Refusal::NotOwner));
        assert_eq!(call(&CONTEXT, source(6, packet.source.channel)), Err(Refusal::WrongEnd));
        for destination in [End { port: 5, ..packet.destination }, End { channel: 8, ..packet.destination }] {
            assert_eq!(call(&CONTEXT, Packet { destination, ..packet }), Err(Refusal::WrongEnd));
        }
        assert_eq!(call(&CONTEXT, Packet { sequence: 2, ..packet }), Err(Refusal::NoCommitment));
        assert_eq!(call(&CONTEXT, Packet { timeout: Timeout::NONE, ..packet }), Err(Refusal::NoCommitment));
        assert_eq!(call(&CONTEXT, Packet { digest: [2; 32], ..packet }), Err(Refusal::NoCommitment));
        assert_eq!(north, before);
    }
}

#[test]
fn time_out_on_close_of_a_received_packet() {
    for opening in [ORDERED, ALLOW_TIMEOUT] {
        let (mut north, packet, end, _) = sent_with_verdicts(opening);
        let received = Verdict::next_receive(&packet, 2, block(50));
        let unlike = EndVerdict { end: Channel { version: Version::new("v2").unwrap(), ..end.end }, ..end };
        for end in [end, unlike] {
            let datagram = Datagram::time_out_on_close(&CONTEXT, &packet, &end, &received);
            assert_eq!(north.handle(datagram), Err(Refusal::OutOfOrder));
        }
    }
}

/// No timeout has passed, and the connection is not asked for.
#[test]
fn time_out_on_close() {
    let unconnected = Context { connected: false, ..CONTEXT };
    for (opening, left) in [(ORDERED, State::Closed), (UNORDERED, State::Open), (ALLOW_TIMEOUT, State::Open)] {
        let (mut north, mut south) = ledgers();
        let packet = sent_on(&mut north, &CONTEXT, opening);
        assert_eq!(north.handle(on_close(&unconnected, &packet, &south)), refused(VerdictPart::Digest));
        south.handle(Datagram::close_init(&SOUTH, opening.counterparty.channel)).unwrap();
        let datagram = on_close(&unconnected, &packet, &south);
        assert_eq!(north.handle(&datagram), emits(Emitted::TimedOut(packet)));
        assert_eq!((state(&north, opening.own.channel), north.records().count()), (left, 0));
        assert_eq!(north.handle(&datagram), Err(Refusal::NoCommitment));
    }
}
