//! The order of packet records, and the converter. The bytes are written field by field, and not by the code under
//! test.

mod bytes;

use bytes::*;

/// Channel 256 stands behind channel 7, though its first byte is lower.
const ORDERED: u32 = 7;
const UNORDERED: u32 = 256;
/// Ordered, with timeouts allowed.
const ALLOWED: u32 = 300;
const FREE: [u8; 64] = [0; 64];
/// Where a sequence or a digest begins in a record.
const SEQUENCE: usize = 8;
const DIGEST: usize = 32;

fn commitment(channel: u32, sequence: u64) -> Vec<u8> {
    Bytes::default().n16(1).n16(0).n32(channel).n64(sequence).n64(60).n64(0).digest(0xd1).0
}

fn receipt(sequence: u64) -> Vec<u8> {
    Bytes::default().n16(2).n16(0).n32(UNORDERED).n64(sequence).zeros(48).0
}

fn acknowledgement(channel: u32, sequence: u64) -> Vec<u8> {
    Bytes::default().n16(3).n16(0).n32(channel).n64(sequence).n64(0).n64(0).digest(0xac).0
}

fn timeout_receipt(sequence: u64) -> Vec<u8> {
    Bytes::default().n16(4).n16(0).n32(ALLOWED).n64(sequence).zeros(48).0
}

/// Three ends of port 5 with next send 600 and next receive 2, of which the last one has 4, and these packet records as
/// they stand.
fn store_of<T: AsRef<[u8]>>(records: &[T]) -> Vec<u8> {
    let mut store = vec![0xee; 1088 + 64 * records.len()];
    let openings = [opening(5, UNORDERED, 6, 10, 2), opening(5, ORDERED, 6, 9, 1), opening(5, ALLOWED, 6, 11, 3)];
    assert_eq!(reference::make_store(&mut store, &openings.concat()), 0);
    for (end, next_receive) in [(64, 2), (128, 2), (192, 4)] {
        store[end + 16..end + 24].copy_from_slice(&600u64.to_le_bytes());
        store[end + 24] = next_receive;
    }
    records
        .iter()
        .enumerate()
        .for_each(|(index, bytes)| store[1088 + 64 * index..][..64].copy_from_slice(bytes.as_ref()));
    store
}

/// What is accepted wherever the store is fit.
fn close() -> Vec<u8> {
    start(50, 10, 5).n32(ORDERED).0
}

fn send(channel: u32) -> Vec<u8> {
    start(98, 1, 5).n32(channel).n64(60).n64(0).digest(0xd1).0
}

fn handled(store: &[u8]) -> u8 {
    number(&mut store.to_vec(), &close())
}

/// The converter's answer, and what it leaves; a refusal changes nothing.
fn converted(store: &[u8]) -> (u8, Vec<u8>) {
    let mut after = store.to_vec();
    let number = reference::convert_store(&mut after);
    assert!(number == 0 || number == 1 && after == store);
    (number, after)
}

/// Strictly rising by channel, then kind, then sequence.
fn rising() -> Vec<Vec<u8>> {
    vec![
        commitment(ORDERED, 1),
        commitment(ORDERED, 256),
        acknowledgement(ORDERED, 1),
        commitment(UNORDERED, 2),
        commitment(UNORDERED, 511),
        receipt(1),
        receipt(256),
        receipt(1 << 56),
        acknowledgement(UNORDERED, 1),
        acknowledgement(UNORDERED, 1 << 56),
        commitment(ALLOWED, 1),
        acknowledgement(ALLOWED, 2),
        timeout_receipt(1),
        timeout_receipt(3),
    ]
}

#[test]
fn two_records_change_places() {
    let fit = store_of(&rising());
    assert_eq!((handled(&fit), converted(&fit)), (0, (0, fit.clone())));
    for one in 0..rising().len() {
        for other in 0..one {
            let mut records = rising();
            records.swap(one, other);
            let store = store_of(&records);
            assert_eq!((handled(&store), converted(&store)), (1, (0, fit.clone())), "{one}, {other}");
        }
    }
}

#[test]
fn a_free_record_in_between() {
    let fit = store_of(&[rising(), vec![FREE.to_vec(); 2]].concat());
    assert_eq!((handled(&fit), converted(&fit)), (0, (0, fit.clone())));
    for one in 0..rising().len() {
        for other in 0..=one {
            let mut records = rising();
            records.insert(one, FREE.to_vec());
            records.insert(other, FREE.to_vec());
            let store = store_of(&records);
            assert_eq!((handled(&store), converted(&store)), (1, (0, fit.clone())), "{one}, {other}");
        }
    }
}

/// Next to each other or apart, alike or not.
#[test]
fn two_of_one_key() {
    for (index, record) in rising().iter().enumerate() {
        for place in 0..=rising().len() {
            let mut records = rising();
            records.insert(place, record.clone());
            let mut store = store_of(&records);
            assert_eq!((handled(&store), converted(&store).0), (1, 1), "{index}, {place}");
            if record[DIGEST] != 0 {
                store[1088 + 64 * place + DIGEST] ^= 1;
                assert_eq!((handled(&store), converted(&store).0), (1, 1), "{index}, {place}");
            }
        }
    }
}

/// Each byte of header, channel records and zeros that is asked of, in a store out of order; and every other length.
#[test]
fn unfit_stores_are_not_converted() {
    let mut records = rising();
    records.reverse();
    let store = store_of(&records);
    let header = (0..8).chain(24..28).chain(36..64);
    let ends = [64, 128, 192].into_iter().flat_map(|end| [end, end + 1, end + 3, end + 4, end + 5, end + 41, end + 56]);
    for place in header.chain(ends).chain(256..1088).chain([1088 + 2, 1088 + 64 + 3]) {
        let mut changed = store.clone();
        changed[place] ^= 0x40;
        assert_eq!(converted(&changed).0, 1, "{place}");
    }
    for length in (0..store.len()).chain([store.len() + 1, store.len() + 64]) {
        let mut resized = store.clone();
        resized.resize(length, 0);
        assert_eq!(converted(&resized).0, 1, "{length}");
    }
    let mut unsent = store.clone();
    unsent[1088 + 64 * (rising().len() - 1) + SEQUENCE..][..8].copy_from_slice(&600u64.to_le_bytes());
    assert_eq!(converted(&unsent).0, 1);
    // The first records are the timeout receipts of 3 and 1 and an acknowledgement of 2: none may be of one packet, and
    // none was taken from 4 on.
    for (place, sequence) in [(0, 2), (64, 2), (128, 1), (128, 3), (0, 4)] {
        let mut changed = store.clone();
        changed[1088 + place + SEQUENCE] = sequence;
        assert_eq!(converted(&changed).0, 1, "{place}, {sequence}");
    }
}

/// Records are put in at their places, and those behind them keep their content.
#[test]
fn later_records_shift_up() {
    let behind = [acknowledgement(ORDERED, 1), commitment(UNORDERED, 2), acknowledgement(UNORDERED, 1)];
    let mut store =
        store_of(&[behind[0].clone(), behind[1].clone(), receipt(1), behind[2].clone(), FREE.into(), FREE.into()]);
    assert_eq!([number(&mut store, &send(ORDERED)), number(&mut store, &send(UNORDERED))], [0, 0]);
    let [one, two, three] = behind;
    let records = [commitment(ORDERED, 600), one, two, commitment(UNORDERED, 600), receipt(1), three].concat();
    assert_eq!(store[1088..], records);
    assert_eq!(number(&mut store, &send(ORDERED)), 20);
}

/// A commitment leaves no gap.
#[test]
fn later_records_shift_down() {
    for (channel, sequence) in [(ORDERED, 1), (ORDERED, 256), (UNORDERED, 2), (UNORDERED, 511)] {
        let (ordered, other) = (channel == ORDERED, if channel == ORDERED { 9 } else { 10 });
        let packet = Bytes::default().n64(sequence).n64(60).n64(0).n16(5).n32(channel).n16(6).n32(other).digest(0xd1).0;
        let absent = Bytes::default().n16(3 + u16::from(ordered)).n64(60).n64(0).n16(6).n32(other).n64(sequence);
        let time_out = start(194, 5, 5).text(&packet).text(&absent.n64(0).n64(0).digest(0).0).0;
        let mut store = store_of(&rising());
        assert_eq!(number(&mut store, &time_out), 0);
        let mut left = rising();
        left.retain(|record| *record != commitment(channel, sequence));
        left.push(FREE.to_vec());
        assert_eq!(store[1088..], left.concat());
    }
}
