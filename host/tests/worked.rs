//! The worked cases, through the types of the package.

mod common;

use common::*;
use route::*;

#[test]
fn cases_01_to_06_sends() {
    let mut store = fresh();
    assert_eq!(store.handle(send(60)), emits(Emitted::Sent(sent())));
    assert_eq!(store.handle(send(60)), emits(Emitted::Sent(Packet { sequence: 2, ..sent() })));
    assert_eq!(store.handle(send(60)), Err(Refusal::NoFreeRecord));
    assert_eq!(fresh().handle(send(0)), Err(Refusal::NoTimeout));
    assert_eq!(fresh().handle(send(50)), Err(Refusal::TimeoutPassed));
    assert!(fresh().handle(send(51)).is_ok());
    let by_other = Datagram::send(&Context { port: 6, ..CONTEXT }, 7, at(60), DIGEST);
    assert_eq!(fresh().handle(by_other), Err(Refusal::NotOwner));
}

#[test]
fn cases_07_to_12_receives() {
    let packet = incoming(ORDERED, 1, at(101));
    assert_eq!(fresh().handle(receive(ORDERED, 1, at(101))), emits(Emitted::Delivered(packet)));
    assert_eq!(fresh().handle(receive(ORDERED, 1, at(100))), Err(Refusal::TimeoutPassed));
    assert_eq!(fresh().handle(receive(ORDERED, 1, at_time(1000))), Err(Refusal::TimeoutPassed));
    assert_eq!(fresh().handle(receive(ORDERED, 2, at(101))), Err(Refusal::OutOfOrder));
    let mut store = fresh();
    let packet = incoming(UNORDERED, 3, at(101));
    assert_eq!(store.handle(receive(UNORDERED, 3, at(101))), emits(Emitted::Delivered(packet)));
    assert_eq!(store.handle(receive(UNORDERED, 3, at(101))), Err(Refusal::AlreadyThere));
}

#[test]
fn cases_13_to_16_time_outs() {
    let mut store = fresh();
    store.handle(send(60)).unwrap();
    assert_eq!(store.clone().handle(time_out(&sent(), 59, 1)), Err(Refusal::TimeoutNotPassed));
    assert_eq!(store.clone().handle(time_out(&sent(), 60, 2)), Err(Refusal::OutOfOrder));
    assert_eq!(store.handle(time_out(&sent(), 60, 1)), emits(Emitted::TimedOut(sent())));
    assert_eq!(store.channel(7).unwrap().state, State::Closed);
    assert_eq!(store.free_records(), 2);
    assert_eq!(store.handle(send(60)), Err(Refusal::NotOpen));
}

#[test]
fn cases_17_and_18_packets_behind_a_timeout() {
    let mut store = fresh();
    store.handle(send(60)).unwrap();
    store.handle(send(60)).unwrap();
    for packet in [Packet { sequence: 2, ..sent() }, sent()] {
        assert_eq!(store.handle(time_out(&packet, 60, 1)), emits(Emitted::TimedOut(packet)));
        assert_eq!(store.channel(7).unwrap().state, State::Closed);
    }
    assert_eq!(store.free_records(), 2);
}

/// Not among the cases: an acknowledgement, written at one end and taken at the other.
#[test]
fn acknowledgement() {
    let mut store = fresh();
    store.handle(receive(UNORDERED, 3, Timeout::NONE)).unwrap();
    let written = Emitted::Written { end: UNORDERED.own, sequence: 3, acknowledgement: [9; 32] };
    assert_eq!(store.handle(Datagram::write(&CONTEXT, 8, 3, [9; 32])), emits(written));
    assert_eq!(store.handle(Datagram::write(&CONTEXT, 8, 3, [9; 32])), Err(Refusal::AlreadyThere));
    assert_eq!(store.handle(Datagram::write(&CONTEXT, 8, 4, [9; 32])), Err(Refusal::NotReceived));

    let mut store = fresh();
    store.handle(send(60)).unwrap();
    let verdict = Verdict::acknowledgement_present(&sent(), [9; 32], block(55));
    let acknowledge = Datagram::acknowledge(&CONTEXT, &sent(), [9; 32], &verdict);
    let other = Datagram::acknowledge(&CONTEXT, &sent(), [8; 32], &verdict);
    assert_eq!(store.handle(other), refused(VerdictPart::Digest));
    let acknowledged = Emitted::Acknowledged { packet: sent(), acknowledgement: [9; 32] };
    assert_eq!(store.handle(&acknowledge), emits(acknowledged));
    assert_eq!(store.handle(&acknowledge), Err(Refusal::NoCommitment));
    assert_eq!(store.channel(7).unwrap().next_acknowledge, 2);
}
