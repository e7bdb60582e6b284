//! The replay program's lines, on inputs that are written here byte by byte.

use reference::replay::transcript;

fn first(records: u16, openings: &[u8]) -> Vec<u8> {
    let length = 8 + openings.len() as u32;
    [&length.to_le_bytes()[..], &[0x20, 0], &records.to_le_bytes(), openings].concat()
}

/// Port 5 owns channel 7, ordered, to 6/9.
fn opening() -> Vec<u8> {
    vec![20, 0, 0, 0, 0x10, 0, 5, 0, 7, 0, 0, 0, 6, 0, 9, 0, 0, 0, 1, 0]
}

/// A send on channel 7 with timeout height 60, as the worked cases have it, at this own height.
fn send(height: u64) -> Vec<u8> {
    let mut bytes = vec![98, 0, 0, 0, 1, 0];
    for number in [height, 1000, 50] {
        bytes.extend(number.to_le_bytes());
    }
    bytes.extend([5, 0, 1, 0, 0, 0, 0, 0]);
    bytes.extend([0; 8]);
    bytes.extend([7, 0, 0, 0]);
    bytes.extend(60u64.to_le_bytes());
    bytes.extend([0; 8]);
    bytes.extend([1; 32]);
    bytes
}

#[test]
fn example_of_the_rules() {
    let input = [first(2, &opening()), send(100), send(0)].concat();
    assert_eq!(transcript(&input), "open 0\n1 0\n2 3\nend 2\n");
}

#[test]
fn only_an_opening() {
    assert_eq!(transcript(&first(1, &[])), "open 0\nend 0\n");
    assert_eq!(transcript(&first(512, &opening())), "open 0\nend 0\n");
}

/// Nothing behind a refused opening is read, torn or not.
#[test]
fn opening_refused() {
    let many: Vec<u8> = (0..17).flat_map(|_| opening()).collect();
    let cases = [
        (0, opening(), 21),
        (513, opening(), 21),
        (0, many.clone(), 21),
        (2, vec![1], 22),
        (2, many, 23),
        (2, [opening(), opening()].concat(), 24),
    ];
    for (records, openings, number) in cases {
        let expected = format!("open {number}\nend 0\n");
        assert_eq!(transcript(&first(records, &openings)), expected);
        assert_eq!(transcript(&[first(records, &openings), vec![9]].concat()), expected);
    }
}

/// Absent, cut short, of a length that no record has, of another kind, below 8 bytes.
#[test]
fn first_record_torn() {
    let good = first(2, &opening());
    for cut in 0..good.len() {
        assert_eq!(transcript(&good[..cut]), "torn 0\n", "{cut}");
    }
    for (at, value) in [(0, 5), (1, 5), (3, 1), (4, 0x21), (5, 1), (0, 29)] {
        let mut input = good.clone();
        input[at] = value;
        assert_eq!(transcript(&input), "torn 0\n", "{at}");
    }
    assert_eq!(transcript(&[6, 0, 0, 0, 0x20, 0]), "torn 0\n");
    assert_eq!(transcript(&[7, 0, 0, 0, 0x20, 0, 2]), "torn 0\n");
}

/// 1,024 bytes are the longest record, of openings and of datagrams.
#[test]
fn longest_records() {
    let list = |count: usize| (0..count).flat_map(|_| opening()).collect::<Vec<u8>>();
    assert_eq!(transcript(&first(2, &list(50))), "open 23\nend 0\n");
    assert_eq!(transcript(&first(2, &list(51))), "torn 0\n");
    let long = |length: u32| [&length.to_le_bytes()[..], &vec![0; length as usize - 4]].concat();
    let after = |length: u32| transcript(&[first(2, &opening()), send(100), long(length)].concat());
    assert_eq!(after(1024), "open 0\n1 0\n2 3\nend 2\n");
    assert_eq!(after(1025), "open 0\n1 0\ntorn 1\n");
    assert_eq!(after(6), "open 0\n1 0\n2 3\nend 2\n");
}

/// A datagram cut anywhere is torn and not answered; those before it are.
#[test]
fn datagram_torn() {
    let whole = [first(2, &opening()), send(100), send(100)].concat();
    let start = whole.len() - send(100).len();
    assert_eq!(transcript(&whole[..start]), "open 0\n1 0\nend 1\n");
    for cut in start + 1..whole.len() {
        assert_eq!(transcript(&whole[..cut]), "open 0\n1 0\ntorn 1\n", "{cut}");
    }
    for length in [0, 5] {
        let mut short = whole.clone();
        short[start] = length;
        assert_eq!(transcript(&short), "open 0\n1 0\ntorn 1\n", "{length}");
    }
}
