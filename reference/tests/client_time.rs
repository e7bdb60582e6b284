//! The client's time: a send asks it, and no other datagram about a packet and no closing does. The bytes are written
//! field by field, and not by the code under test.

mod bytes;
mod ends;

use bytes::*;
use ends::*;

const MAX: u64 = u64::MAX;

/// A send with these timeouts, where the client knows height 50 and this time. The own time is 1,000.
fn send(end: End, client_time: u64, timeout_height: u64, timeout_time: u64) -> Vec<u8> {
    start_at(98, 1, 5, client_time).n32(end.own).n64(timeout_height).n64(timeout_time).digest(0xd1).0
}

#[test]
fn sends_whose_time_has_gone() {
    let by_time = [(700, 701, 0), (700, 700, 11), (700, 699, 11), (0, 1, 0), (MAX - 1, MAX, 0), (MAX, MAX, 11)];
    // The own clock has reached the timeout and the client's has not, and the other way round.
    let apart = [(700, 1000, 0), (999, 1000, 0), (1001, 1001, 11), (MAX, 2000, 11)];
    for end in ENDS {
        for (client_time, timeout_time, expected) in by_time.into_iter().chain(apart) {
            let (before, at) = (send(end, client_time, 51, timeout_time), send(end, client_time, 50, timeout_time));
            assert_eq!(number(&mut fresh(), &send(end, client_time, 0, timeout_time)), expected, "{client_time}");
            assert_eq!(number(&mut fresh(), &before), expected, "{client_time}");
            // Here the height has been reached, too.
            assert_eq!(number(&mut fresh(), &at), 11, "{client_time}");
        }
        // A timeout time of 0 is none.
        for client_time in [0, 1, 1000, MAX] {
            let answers = [51, 50, 0].map(|height| number(&mut fresh(), &send(end, client_time, height, 0)));
            assert_eq!(answers, [0, 11, 10], "{client_time}");
        }
    }
}

#[test]
fn every_byte_of_the_time_counts() {
    for byte in 0..8 {
        let time = 1 << (8 * byte);
        let answers = [time - 1, time, time + 1].map(|client| number(&mut fresh(), &send(ORDERED, client, 0, time)));
        assert_eq!(answers, [0, 11, 11], "{byte}");
    }
}

/// Behind 10 and before 19 and 20, as for the height.
#[test]
fn refusals_of_late_sends_come_by_place() {
    let late = send(ORDERED, 700, 51, 700);
    let top = |mut store: Vec<u8>| {
        store[64 + 16..64 + 24].copy_from_slice(&[0xff; 8]);
        store
    };
    let mut full = ORDERED.sent(OPEN);
    assert_eq!(number(&mut full, &ORDERED.send()), 0);
    for (store, timely) in [(fresh(), 0), (full.clone(), 20), (top(fresh()), 19), (top(full), 19)] {
        assert_eq!(number(&mut store.clone(), &late), 11);
        assert_eq!(number(&mut store.clone(), &send(ORDERED, 699, 51, 700)), timely);
        assert_eq!(number(&mut store.clone(), &with(late.clone(), &[(CALLER, 6)])), 7);
        assert_eq!(number(&mut store.clone(), &with(late.clone(), &[(BODY, 11)])), 5);
        let mut closed = store;
        closed[64 + 2] = CLOSED;
        assert_eq!(number(&mut closed, &late), 6);
    }
}

/// The answer and the store are the same at every time that the client may know: it is stored nowhere, and a receive
/// asks the own time, a time-out that of the block.
#[test]
fn no_other_of_a_packet_and_no_closing_asks_it() {
    for end in ENDS {
        let written = start(90, 3, 5).n32(end.own).n64(1).digest(0xac).0;
        let (sent, mut received) = (end.sent(OPEN), fresh());
        assert_eq!(number(&mut received, &end.receive()), 0);
        let calls = [
            (fresh(), end.send(), 0),
            (fresh(), end.receive_with(1, 101, 1001), 0),
            (fresh(), end.receive_with(1, 0, 1000), if end.order == 3 { 0 } else { 11 }),
            (received, written, 0),
            (sent.clone(), end.acknowledge(1), 0),
            (sent.clone(), end.time_out(), 0),
            (sent.clone(), with(end.time_out(), &[(BEHIND_PACKET + 2, 59)]), 12),
            (fresh(), end.close_init(), 0),
            (fresh(), end.close_confirm(), 0),
            (sent, end.on_close(), 0),
        ];
        for (store, datagram, expected) in calls {
            let mut first = store.clone();
            let emitted = answer(&mut first, &datagram);
            assert_eq!(emitted.0, expected);
            for client_time in [1, 999, 1000, 1001, MAX] {
                let mut changed = datagram.clone();
                changed[CLIENT_TIME..BODY].copy_from_slice(&u64::to_le_bytes(client_time));
                let mut other = store.clone();
                assert_eq!((answer(&mut other, &changed), &other), (emitted.clone(), &first));
            }
        }
    }
}

/// A send without the client's time, whichever of the two lengths it says.
#[test]
fn datagrams_without_it_are_malformed() {
    let whole = send(ORDERED, 0, 60, 0);
    let mut without = [&whole[..CLIENT_TIME], &whole[BODY..]].concat();
    assert_eq!((whole.len(), without.len()), (98, 90));
    assert_eq!(number(&mut fresh(), &without), 3);
    without[0] = 90;
    assert_eq!(number(&mut fresh(), &without), 3);
}
