//! Packets on channels that are closed: which are given back, and which stay committed.

mod common;

use common::ledgers::*;
use common::*;
use route::*;

/// In any order, and on an end that is closed already.
#[test]
fn all_packets_come_back() {
    for opening in OPENINGS {
        let (mut north, mut south) = ledgers();
        let packets = [(); 3].map(|()| sent_on(&mut north, &CONTEXT, opening));
        south.handle(Datagram::close_init(&SOUTH, opening.counterparty.channel)).unwrap();
        north.handle(Datagram::close_init(&CONTEXT, opening.own.channel)).unwrap();
        for packet in [packets[2], packets[0], packets[1]] {
            assert_eq!(north.handle(on_close(&CONTEXT, &packet, &south)), emits(Emitted::TimedOut(packet)));
            assert_eq!(state(&north, opening.own.channel), State::Closed);
        }
        assert_eq!(north.records().count(), 0);
    }
}

/// A time-out with what the other store shows now, in the block of this height. Where it can't be shown there is none.
fn timed_out(
    at: &mut Store,
    context: &Context,
    packet: &Packet,
    other: &Store,
    height: u64,
) -> Option<Result<Emitted, Refusal>> {
    let end = other.channel(packet.destination.channel).expect("the end that the packet is for");
    let verdict = Verdict { block: block(height), ..not_received(end.order, packet, end.next_receive) };
    let call = |verdict| at.handle(Datagram::time_out(context, packet, verdict)).map(|emitted| emitted.expect("one"));
    Some(&verdict).filter(|verdict| other.holds(verdict)).map(call)
}

/// What a time-out of a packet that was received gets: 15, or it has no true verdict.
fn not_given_back(order: Order) -> Option<Result<Emitted, Refusal>> {
    (order == Order::Ordered).then_some(Err(Refusal::OutOfOrder))
}

fn given_back(packet: Packet) -> Option<Result<Emitted, Refusal>> {
    Some(Ok(Emitted::TimedOut(packet)))
}

fn commitments(store: &Store) -> usize {
    store.records().filter(|record| record.kind == RecordKind::Commitment).count()
}

#[derive(Clone, Copy, PartialEq)]
enum Step {
    Receive,
    CloseSender,
    CloseReceiver,
}

/// North has sent a packet, and these steps followed.
fn after(opening: Opening, history: &[Step]) -> (Store, Store, Packet) {
    let (mut north, mut south) = ledgers();
    let packet = sent_on(&mut north, &CONTEXT, opening);
    for step in history {
        let answer = match step {
            Step::Receive => received(&mut south, &SOUTH, &packet),
            Step::CloseSender => north.handle(Datagram::close_init(&CONTEXT, opening.own.channel)),
            Step::CloseReceiver => south.handle(Datagram::close_init(&SOUTH, opening.counterparty.channel)),
        };
        assert!(answer.is_ok());
    }
    (north, south, packet)
}

/// The shortest histories with a close after which a packet is neither acknowledged nor given back.
#[test]
fn stranded() {
    use Step::*;
    let histories = [[Receive, CloseSender], [Receive, CloseReceiver], [CloseSender, Receive]];
    for (opening, history) in OPENINGS.iter().flat_map(|opening| histories.map(|history| (*opening, history))) {
        let (mut north, mut south, packet) = after(opening, &history);
        if history.contains(&CloseReceiver) {
            // Nothing is written, so nothing can be shown to the sender.
            assert_eq!(written(&mut south, &SOUTH, &packet), Err(Refusal::NotOpen));
        } else {
            assert!(written(&mut south, &SOUTH, &packet).is_ok());
            assert_eq!(acknowledged(&mut north, &CONTEXT, &packet), Err(Refusal::NotOpen));
            let end = shown(north.channel(opening.own.channel).unwrap());
            let confirm = Datagram::close_confirm(&SOUTH, opening.counterparty.channel, &end);
            assert_eq!(south.handle(confirm), Ok(None));
        }
        // What south can truly show does not give the packet back.
        if opening.order == Order::Unordered {
            assert!(!south.holds(&Verdict::receipt_absent(&packet, block(50))));
        } else {
            assert_eq!(north.handle(on_close(&CONTEXT, &packet, &south)), Err(Refusal::OutOfOrder));
        }
        assert!(!south.holds(&Verdict::timeout_receipt_present(&packet, block(50))));
        assert_eq!(commitments(&north), 1);
    }
}

/// North finds nothing received and goes on to its close, but south, still OPEN, receives the packet meanwhile.
#[test]
fn stranded_by_a_packet_that_arrives_meanwhile() {
    for opening in OPENINGS {
        let (mut north, mut south, packet) = after(opening, &[]);
        assert!(!south.holds(&Verdict::acknowledgement_present(&packet, DIGEST, block(50))));
        received(&mut south, &SOUTH, &packet).unwrap();
        assert_eq!(timed_out(&mut north, &CONTEXT, &packet, &south, 1_000), not_given_back(opening.order));
        north.handle(Datagram::close_init(&CONTEXT, opening.own.channel)).unwrap();
        written(&mut south, &SOUTH, &packet).unwrap();
        assert_eq!(acknowledged(&mut north, &CONTEXT, &packet), Err(Refusal::NotOpen));
        assert_eq!(commitments(&north), 1);
    }
}

/// On an ordered channel a time-out closes its end. North times out its second packet before it acknowledges the first
/// and answers what it received; or even before south receives the first, which has a later timeout.
#[test]
fn stranded_by_a_time_out() {
    for early in [false, true] {
        let (mut north, mut south) = ledgers();
        let first = sent_on(&mut north, &CONTEXT, ORDERED);
        let second = sent_until(60, &mut north, &CONTEXT, ORDERED);
        let back = sent_on(&mut south, &SOUTH, across(ORDERED));
        received(&mut north, &CONTEXT, &back).unwrap();
        if early {
            assert_eq!(timed_out(&mut north, &CONTEXT, &second, &south, 60), given_back(second));
        }
        received(&mut south, &SOUTH, &first).unwrap();
        written(&mut south, &SOUTH, &first).unwrap();
        if !early {
            assert_eq!(timed_out(&mut north, &CONTEXT, &second, &south, 100), given_back(second));
        }
        assert_eq!(acknowledged(&mut north, &CONTEXT, &first), Err(Refusal::NotOpen));
        assert_eq!(written(&mut north, &CONTEXT, &back), Err(Refusal::NotOpen));
        assert_eq!(timed_out(&mut north, &CONTEXT, &first, &south, 1_000), not_given_back(Order::Ordered));
        assert_eq!(timed_out(&mut south, &SOUTH, &back, &north, 1_000), not_given_back(Order::Ordered));
        assert_eq!((commitments(&north), commitments(&south)), (1, 1));
    }
}

/// On an unordered channel the receipt may take the last record, on the others there may be none before.
#[test]
fn stranded_without_a_free_record() {
    for opening in OPENINGS {
        let (mut north, _) = ledgers();
        let mut south = Store::make(1, &[across(opening)]).unwrap();
        let packets = [(); 2].map(|()| sent_on(&mut north, &CONTEXT, opening));
        received(&mut south, &SOUTH, &packets[0]).unwrap();
        let mut packet = packets[0];
        if opening.order != Order::Unordered {
            written(&mut south, &SOUTH, &packets[0]).unwrap();
            received(&mut south, &SOUTH, &packets[1]).unwrap();
            packet = packets[1];
        }
        assert_eq!(written(&mut south, &SOUTH, &packet), Err(Refusal::NoFreeRecord));
        assert_eq!(timed_out(&mut north, &CONTEXT, &packet, &south, 1_000), not_given_back(opening.order));
    }
}

/// South is to close first. Each end has received a packet and written its acknowledgement. South has acknowledged its
/// own; north's is still to be acknowledged.
fn answered(opening: Opening) -> (Store, Store, Packet) {
    let (mut north, mut south) = ledgers();
    let out = sent_on(&mut north, &CONTEXT, opening);
    let back = sent_on(&mut south, &SOUTH, across(opening));
    received(&mut south, &SOUTH, &out).unwrap();
    received(&mut north, &CONTEXT, &back).unwrap();
    written(&mut south, &SOUTH, &out).unwrap();
    written(&mut north, &CONTEXT, &back).unwrap();
    acknowledged(&mut south, &SOUTH, &back).unwrap();
    (north, south, out)
}

/// What north does when south's end is CLOSED: one packet is acknowledged, the others come back, and the end is closed.
fn follows(north: &mut Store, context: &Context, south: &Store, opening: Opening, out: Packet, others: &[Packet]) {
    acknowledged(north, context, &out).unwrap();
    let mut others = others.to_vec();
    if opening.order != Order::OrderedAllowTimeout {
        others.reverse();
    }
    for packet in &others {
        assert_eq!(north.handle(on_close(context, packet, south)), emits(Emitted::TimedOut(*packet)));
    }
    let end = shown(south.channel(opening.counterparty.channel).unwrap());
    let confirm = north.handle(Datagram::close_confirm(context, opening.own.channel, &end));
    // On an ordered channel the time-out on close has closed north's end.
    assert_eq!(confirm, if opening.order == Order::Ordered { Err(Refusal::WrongState) } else { Ok(None) });
    assert_eq!(state(north, opening.own.channel), State::Closed);
    assert_eq!(commitments(north), 0);
}

/// Neither takes packets in any more, and what was taken in is acknowledged. Then no timeout has to be waited for.
#[test]
fn none_stranded_without_waiting() {
    for opening in OPENINGS {
        let (mut north, mut south, out) = answered(opening);
        let others = [(); 2].map(|()| sent_on(&mut north, &CONTEXT, opening));
        let back = [(); 2].map(|()| sent_on(&mut south, &SOUTH, across(opening)));
        south.handle(Datagram::close_init(&SOUTH, opening.counterparty.channel)).unwrap();
        follows(&mut north, &CONTEXT, &south, opening, out, &others);
        for packet in back {
            assert_eq!(south.handle(on_close(&SOUTH, &packet, &north)), emits(Emitted::TimedOut(packet)));
        }
        assert_eq!(commitments(&south), 0);
    }
}

/// South finishes what it sent: one packet arrives meanwhile and is acknowledged, two are timed out. North goes on to
/// send until south has closed; then it acknowledges what south took in, and gets back the rest.
#[test]
fn none_stranded() {
    for opening in OPENINGS {
        let there = opening.counterparty.channel;
        let (mut north, mut south, out) = answered(opening);
        let [arrives, waited_for, behind] = [(); 3].map(|()| sent_on(&mut south, &SOUTH, across(opening)));
        // From here on south sends nothing and takes nothing in.
        received(&mut north, &CONTEXT, &arrives).unwrap();
        assert_eq!(timed_out(&mut south, &SOUTH, &arrives, &north, 1_000), not_given_back(opening.order));
        written(&mut north, &CONTEXT, &arrives).unwrap();
        acknowledged(&mut south, &SOUTH, &arrives).unwrap();
        let others = [(); 2].map(|()| sent_on(&mut north, &CONTEXT, opening));

        let late = Context { height: OwnHeight(1_001), ..CONTEXT };
        for packet in [waited_for, behind] {
            let mut again = Refusal::TimeoutPassed;
            if opening.order == Order::OrderedAllowTimeout {
                // It first has to come late, so that it lapses.
                assert_eq!(timed_out(&mut south, &SOUTH, &packet, &north, 1_000), None);
                assert_eq!(received(&mut north, &late, &packet), emits(Emitted::Lapsed(packet)));
                again = Refusal::OutOfOrder;
            }
            assert_eq!(timed_out(&mut south, &SOUTH, &packet, &north, 1_001), given_back(packet));
            assert_eq!(received(&mut north, &late, &packet), Err(again));
        }
        assert_eq!(commitments(&south), 0);
        // On an ordered channel the time-out has closed south's end.
        let close = south.handle(Datagram::close_init(&SOUTH, there));
        assert_eq!(close, if opening.order == Order::Ordered { Err(Refusal::WrongState) } else { Ok(None) });
        assert_eq!(state(&south, there), State::Closed);
        assert_eq!(received(&mut south, &SOUTH, &others[0]), Err(Refusal::NotOpen));
        follows(&mut north, &late, &south, opening, out, &others);
    }
}
