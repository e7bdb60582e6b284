//! Channels with timeouts allowed: packets that come late and lapse, and how they are finished.

mod common;

use common::ledgers::*;
use common::*;
use route::*;

const CHANNEL: u32 = ALLOW_TIMEOUT.own.channel;

/// Those of the height 100 and the time 1000 of the context.
fn late_timeouts() -> [Timeout; 4] {
    let both = |height, time| Timeout::new(OtherHeight(height), OtherTime(time));
    [at(100), at_time(1000), both(101, 1), both(1, 1001)]
}

fn allowing(records: usize) -> Store {
    Store::make(records, &[ALLOW_TIMEOUT]).expect("a good list")
}

fn end(store: &Store) -> Channel {
    store.channel(CHANNEL).expect("it is there")
}

fn write(sequence: u64) -> Datagram {
    Datagram::write(&CONTEXT, CHANNEL, sequence, DIGEST)
}

#[test]
fn late_packets_lapse() {
    for timeout in late_timeouts() {
        let mut store = allowing(2);
        let before = end(&store);
        let packet = incoming(ALLOW_TIMEOUT, 1, timeout);
        assert_eq!(store.handle(receive(ALLOW_TIMEOUT, 1, timeout)), emits(Emitted::Lapsed(packet)));
        assert_eq!(end(&store), Channel { next_receive: 2, ..before });
        let (kind, digest) = (RecordKind::TimeoutReceipt, [0; 32]);
        let receipt = Record { kind, channel: CHANNEL, sequence: 1, timeout: Timeout::NONE, digest };
        assert_eq!(store.records().collect::<Vec<_>>(), [receipt]);
        // It was taken, and not received.
        assert_eq!(store.handle(receive(ALLOW_TIMEOUT, 1, timeout)), Err(Refusal::OutOfOrder));
        assert_eq!(store.handle(write(1)), Err(Refusal::NotReceived));
        // The one behind it comes in time.
        let packet = incoming(ALLOW_TIMEOUT, 2, at(101));
        assert_eq!(store.handle(receive(ALLOW_TIMEOUT, 2, at(101))), emits(Emitted::Delivered(packet)));
        assert_eq!((end(&store).next_receive, store.free_records()), (3, 1));
        assert!(store.handle(write(2)).is_ok());
        assert_eq!(kinds(&store), [(RecordKind::Acknowledgement, 2), (RecordKind::TimeoutReceipt, 1)]);
    }
}

/// The other orders refuse what is late, and a receive takes the emitted record's kind from the timeout alone.
#[test]
fn emitted_bytes() {
    for timeout in late_timeouts() {
        for opening in [ORDERED, UNORDERED] {
            assert_eq!(fresh().handle(receive(opening, 1, timeout)), Err(Refusal::TimeoutPassed));
        }
    }
    for (timeout, kind) in [(at(100), 6), (at(101), 2)] {
        let datagram = receive(ALLOW_TIMEOUT, 1, timeout);
        let mut output = [0xaa; 106];
        assert_eq!(allowing(1).handle_into(&datagram, &mut output), Ok(74));
        let packet = &datagram.as_bytes()[46..114];
        assert_eq!(output.to_vec(), [&[74, 0, 0, 0, kind, 1], packet, &[0xaa; 32]].concat());
    }
}

/// A timeout receipt needs a record, a delivery none.
#[test]
fn full_table() {
    let mut store = allowing(1);
    let send = Datagram::send(&CONTEXT, CHANNEL, at(60), DIGEST);
    assert!(store.handle(send).is_ok());
    assert_eq!(store.handle(receive(ALLOW_TIMEOUT, 1, at(100))), Err(Refusal::NoFreeRecord));
    assert_eq!(store.handle(receive(ALLOW_TIMEOUT, 2, at(100))), Err(Refusal::OutOfOrder));
    assert!(store.handle(receive(ALLOW_TIMEOUT, 1, at(101))).is_ok());
    assert_eq!(store.handle(write(1)), Err(Refusal::NoFreeRecord));
    assert_eq!(store.handle(write(2)), Err(Refusal::NotReceived));
}

#[test]
fn out_of_order_or_at_the_top() {
    for timeout in [at(100), at(101)] {
        assert_eq!(allowing(1).handle(receive(ALLOW_TIMEOUT, 2, timeout)), Err(Refusal::OutOfOrder));
        // Next receive stands at offset 24 of the channel record, which begins at 64.
        let mut bytes = allowing(1).into_bytes();
        bytes[88..96].fill(0xff);
        let mut store = Store::from_bytes(bytes).unwrap();
        assert_eq!(store.handle(receive(ALLOW_TIMEOUT, u64::MAX, timeout)), Err(Refusal::CounterAtEnd));
        assert_eq!(store.handle(receive(ALLOW_TIMEOUT, 1, timeout)), Err(Refusal::OutOfOrder));
    }
}

fn time_out(packet: &Packet, verdict: &Verdict) -> Datagram {
    Datagram::time_out(&CONTEXT, packet, verdict)
}

fn lapsed(packet: &Packet, height: u64) -> Verdict {
    Verdict::timeout_receipt_present(packet, block(height))
}

/// What is sent with the timeout height 60 lapses at south, which has the height 100.
fn sent_and_lapsed(north: &mut Store, south: &mut Store) -> Packet {
    let packet = sent_until(60, north, &CONTEXT, ALLOW_TIMEOUT);
    assert!(!south.holds(&lapsed(&packet, 100)));
    assert_eq!(received(south, &SOUTH, &packet), emits(Emitted::Lapsed(packet)));
    assert!(south.holds(&lapsed(&packet, 100)));
    packet
}

#[test]
fn time_out_of_a_lapsed_packet() {
    let (mut north, mut south) = ledgers();
    let packet = sent_and_lapsed(&mut north, &mut south);
    let before = end(&north);
    assert_eq!(north.handle(time_out(&packet, &lapsed(&packet, 59))), Err(Refusal::TimeoutNotPassed));
    let other = Packet { digest: [2; 32], ..packet };
    assert_eq!(north.handle(time_out(&other, &lapsed(&packet, 100))), Err(Refusal::NoCommitment));
    // What the other orders need, though next receive may be true.
    for next in [0, 1, 2] {
        let verdict = Verdict::next_receive(&packet, next, block(100));
        assert_eq!(north.handle(time_out(&packet, &verdict)), refused(VerdictPart::Claim));
    }
    assert!(south.holds(&Verdict::receipt_absent(&packet, block(100))));
    let verdict = Verdict::receipt_absent(&packet, block(100));
    assert_eq!(north.handle(time_out(&packet, &verdict)), refused(VerdictPart::Claim));
    // A verdict of another packet that lapsed.
    let verdict = Verdict { sequence: 2, ..lapsed(&packet, 100) };
    assert_eq!(north.handle(time_out(&packet, &verdict)), refused(VerdictPart::Sequence));
    // The connection need not be open, and the channel end stays open.
    let unconnected = Context { connected: false, ..CONTEXT };
    let datagram = Datagram::time_out(&unconnected, &packet, &lapsed(&packet, 100));
    assert_eq!(north.handle(&datagram), emits(Emitted::TimedOut(packet)));
    assert_eq!(end(&north), Channel { next_acknowledge: 2, ..before });
    assert_eq!(north.records().count(), 0);
    assert_eq!(north.handle(&datagram), Err(Refusal::NoCommitment));
}

/// While the end is open each packet is finished in its turn, whichever way: all ways of three.
#[test]
fn acknowledgements_and_time_outs_share_the_counter() {
    for ways in 0..8 {
        let lapses = |sequence: u64| ways >> (sequence - 1) & 1 == 1;
        let (mut north, mut south) = ledgers();
        let height = |sequence| if lapses(sequence) { 60 } else { 1_000 };
        let packets = [1, 2, 3].map(|sequence| sent_until(height(sequence), &mut north, &CONTEXT, ALLOW_TIMEOUT));
        for packet in packets {
            let late = lapses(packet.sequence);
            let emitted = if late { Emitted::Lapsed(packet) } else { Emitted::Delivered(packet) };
            assert_eq!(received(&mut south, &SOUTH, &packet), emits(emitted));
            assert_eq!(written(&mut south, &SOUTH, &packet).err(), late.then_some(Refusal::NotReceived));
        }
        let mut finish = |packet: &Packet| match lapses(packet.sequence) {
            true => north.handle(time_out(packet, &lapsed(packet, 100))),
            false => acknowledged(&mut north, &CONTEXT, packet),
        };
        for (index, packet) in packets.iter().enumerate() {
            for behind in &packets[index + 1..] {
                assert_eq!(finish(behind), Err(Refusal::OutOfOrder), "{ways}");
            }
            assert!(finish(packet).is_ok(), "{ways}");
        }
        assert_eq!((end(&north).state, end(&north).next_acknowledge), (State::Open, 4));
    }
}

/// On an end that is not open no order is asked for, and the counter stays.
#[test]
fn closed_end_in_any_order() {
    let (mut north, mut south) = ledgers();
    let packets = [(); 3].map(|()| sent_and_lapsed(&mut north, &mut south));
    north.handle(Datagram::close_init(&CONTEXT, CHANNEL)).unwrap();
    let before = end(&north);
    for packet in [packets[2], packets[0], packets[1]] {
        let timed_out = north.handle(time_out(&packet, &lapsed(&packet, 100)));
        assert_eq!(timed_out, emits(Emitted::TimedOut(packet)));
    }
    assert_eq!((end(&north), north.records().count()), (before, 0));
}

/// South has closed its end when one of four packets was received, one lapsed, and two did not come: it waits for the
/// third one. North's four packets, and the verdict that shows the closed end.
fn closed_by_south() -> (Store, [Packet; 4], EndVerdict) {
    let (mut north, mut south) = ledgers();
    let first = sent_on(&mut north, &CONTEXT, ALLOW_TIMEOUT);
    received(&mut south, &SOUTH, &first).unwrap();
    written(&mut south, &SOUTH, &first).unwrap();
    let second = sent_and_lapsed(&mut north, &mut south);
    let [third, fourth] = [(); 2].map(|()| sent_on(&mut north, &CONTEXT, ALLOW_TIMEOUT));
    south.handle(Datagram::close_init(&SOUTH, ALLOW_TIMEOUT.counterparty.channel)).unwrap();
    assert!(south.holds(&waits_for_third(&third)) && south.holds(&lapsed(&second, 50)));
    let closed = shown(south.channel(ALLOW_TIMEOUT.counterparty.channel).unwrap());
    (north, [first, second, third, fourth], closed)
}

fn waits_for_third(packet: &Packet) -> Verdict {
    Verdict::next_receive(packet, 3, block(50))
}

#[test]
fn time_outs_on_close() {
    let (mut north, [first, second, third, fourth], closed) = closed_by_south();
    let on_close = |north: &mut Store, packet: &Packet, verdict: Verdict| {
        north.handle(Datagram::time_out_on_close(&CONTEXT, packet, &closed, &verdict))
    };
    // The first one is to be acknowledged, and comes before all others.
    assert_eq!(on_close(&mut north, &first, waits_for_third(&first)), Err(Refusal::OutOfOrder));
    assert_eq!(on_close(&mut north, &second, lapsed(&second, 50)), Err(Refusal::OutOfOrder));
    acknowledged(&mut north, &CONTEXT, &first).unwrap();
    // By next receive the second one was taken; that it lapsed is shown by its timeout receipt.
    assert_eq!(on_close(&mut north, &second, waits_for_third(&second)), Err(Refusal::OutOfOrder));
    let receipt_absent = Verdict::receipt_absent(&second, block(50));
    assert_eq!(on_close(&mut north, &second, receipt_absent), refused(VerdictPart::Claim));
    assert_eq!(on_close(&mut north, &second, lapsed(&second, 50)), emits(Emitted::TimedOut(second)));
    assert_eq!(on_close(&mut north, &fourth, waits_for_third(&fourth)), Err(Refusal::OutOfOrder));
    for packet in [third, fourth] {
        assert_eq!(on_close(&mut north, &packet, waits_for_third(&packet)), emits(Emitted::TimedOut(packet)));
    }
    assert_eq!((end(&north).state, end(&north).next_acknowledge, north.records().count()), (State::Open, 5, 0));
}

#[test]
fn time_outs_on_close_at_a_closed_end() {
    let (mut north, [first, second, third, fourth], closed) = closed_by_south();
    north.handle(Datagram::close_confirm(&CONTEXT, CHANNEL, &closed)).unwrap();
    let before = end(&north);
    let mut on_close = |packet: &Packet, verdict: Verdict| {
        north.handle(Datagram::time_out_on_close(&CONTEXT, packet, &closed, &verdict))
    };
    for packet in [fourth, third] {
        assert_eq!(on_close(&packet, waits_for_third(&packet)), emits(Emitted::TimedOut(packet)));
    }
    assert_eq!(on_close(&second, lapsed(&second, 50)), emits(Emitted::TimedOut(second)));
    // What was received stays committed.
    assert_eq!(on_close(&first, waits_for_third(&first)), Err(Refusal::OutOfOrder));
    assert_eq!(acknowledged(&mut north, &CONTEXT, &first), Err(Refusal::NotOpen));
    assert_eq!((end(&north), kinds(&north)), (before, vec![(RecordKind::Commitment, 1)]));
}

#[test]
fn opened_by_a_handshake() {
    let (mut north, mut south) = (Store::make(1, &[]).unwrap(), Store::make(1, &[]).unwrap());
    let order = Order::OrderedAllowTimeout;
    north.handle(Datagram::open_init(&CONTEXT, 6, order, "v1")).unwrap();
    let init = north.channel(1).unwrap();
    assert_eq!(init.order, order);
    for other in [Order::Ordered, Order::Unordered] {
        let open_try = Datagram::open_try(&SOUTH, init.own, other, &shown(init), "v1");
        assert_eq!(south.handle(open_try), refused(VerdictPart::Digest));
    }
    south.handle(Datagram::open_try(&SOUTH, init.own, order, &shown(init), "v1")).unwrap();
    let tried = south.channel(1).unwrap();
    assert_eq!(north.handle(Datagram::open_acknowledge(&CONTEXT, 1, 1, &shown(tried))), Ok(None));
    assert_eq!(south.handle(Datagram::open_confirm(&SOUTH, 1, &shown(north.channel(1).unwrap()))), Ok(None));
    assert_eq!((south.channel(1).unwrap().order, south.channel(1).unwrap().state), (order, State::Open));
}
