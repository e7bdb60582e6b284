//! Timeout receipts in a store: where one may stand, and what it shows.

mod common;

use common::*;
use route::*;

/// Its records stand behind those of the other channel.
const UNORDERED_BEHIND: Opening = Opening { own: End { port: 5, channel: 12 }, ..UNORDERED };

/// Packet 1 was received and answered, packet 2 lapsed.
fn answered_and_lapsed() -> Store {
    let mut store = Store::make(3, &[ALLOW_TIMEOUT, UNORDERED_BEHIND]).unwrap();
    let write = Datagram::write(&CONTEXT, ALLOW_TIMEOUT.own.channel, 1, DIGEST);
    for datagram in [receive(ALLOW_TIMEOUT, 1, at(101)), write, receive(ALLOW_TIMEOUT, 2, at(100))] {
        assert!(store.handle(datagram).is_ok());
    }
    assert_eq!(kinds(&store), [(RecordKind::Acknowledgement, 1), (RecordKind::TimeoutReceipt, 2)]);
    store
}

/// The acknowledgement stands at 1088, the timeout receipt at 1152: kind at 0, channel at 4, sequence at 8, timeouts at
/// 16 and 24, digest at 32. The channel's order is at 67, its next receive at 88.
#[test]
fn fit_or_not() {
    let store = answered_and_lapsed();
    let with = |changes: &[(usize, u8)]| {
        let mut bytes = store.as_bytes().to_vec();
        changes.iter().for_each(|(at, byte)| bytes[*at] = *byte);
        Store::from_bytes(bytes)
    };
    let next_send = (80, 3); // so that commitments may stand there
    for (what, changes) in [
        ("sequence 0", [(1160, 0)].as_slice()),
        ("not below next receive", &[(1160, 3)]),
        ("next receive not above it", &[(88, 2)]),
        ("beside an acknowledgement of its sequence", &[(1160, 1)]),
        ("with a timeout height", &[(1168, 1)]),
        ("with a timeout time", &[(1176, 1)]),
        ("with a digest", &[(1184, 1)]),
        ("with another digest", &[(1215, 1)]),
        ("on an ordered channel", &[(67, 1)]),
        ("on an unordered channel", &[(1156, 12)]),
        ("on a channel of unknown order", &[(67, 4)]),
        ("of an unknown kind", &[(1152, 5)]),
    ] {
        assert_eq!(with(changes), Err(Refusal::StoreNotFit), "{what}");
    }
    // A sender's record of the same sequence may stand beside it, and the counter may be higher.
    let commitment = with(&[next_send, (1088, 1), (1096, 2)]).expect("a fit store");
    assert_eq!(kinds(&commitment), [(RecordKind::Commitment, 2), (RecordKind::TimeoutReceipt, 2)]);
    assert_eq!(with(&[(88, 9)]).map(|store| store.records().count()), Ok(2));
}

#[test]
fn put_in_order() {
    let store = answered_and_lapsed();
    let mut bytes = store.as_bytes().to_vec();
    bytes[1088..1216].rotate_left(64);
    assert_eq!(Store::from_bytes(bytes.as_slice()), Err(Refusal::StoreNotFit));
    assert_eq!(Store::convert(bytes), Ok(store));
}

#[test]
fn shown_or_not() {
    let store = answered_and_lapsed();
    let about = |sequence| {
        let packet = incoming(ALLOW_TIMEOUT, sequence, at(100));
        Verdict::timeout_receipt_present(&packet, block(50))
    };
    assert_eq!([1, 2, 3].map(|sequence| store.holds(&about(sequence))), [false, true, false]);
    assert!(!store.holds(&Verdict { end: UNORDERED_BEHIND.own, ..about(2) }));
    assert!(!store.holds(&Verdict { end: End { port: 6, ..ALLOW_TIMEOUT.own }, ..about(2) }));
}
