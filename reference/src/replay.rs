//! What the replay program prints for an input: a first record that opens a store, and then datagrams.

use crate::bytes::*;
use crate::places::{frame, MAX_RECORDS, OUTPUT};
use crate::refusal::STORE_LENGTH_UNFIT;
use crate::store::store_length;

const FIRST_KIND: u16 = 0x0020;
/// Where P and the openings stand in the first record.
const RECORDS: usize = 6;
const OPENINGS: usize = 8;
/// No record of the input is longer.
const LONGEST: usize = 1024;

/// One record cut from the front of the rest, or nothing where the rest is torn there. An empty rest is torn too.
fn next_record<'a>(rest: &mut &'a [u8]) -> Option<&'a [u8]> {
    let length = get_u32(rest.get(..4)?, frame::LENGTH) as usize;
    if !(frame::BODY..=LONGEST).contains(&length) {
        return None;
    }
    let record = rest.get(..length)?;
    *rest = &rest[length..];
    Some(record)
}

/// The store that the first record opens, or the maker's answer. No store is so short that it has no record.
fn open(first: &[u8]) -> Result<Vec<u8>, u8> {
    let records = usize::from(get_u16(first, RECORDS));
    if !(1..=MAX_RECORDS).contains(&records) {
        return Err(STORE_LENGTH_UNFIT);
    }
    let mut store = vec![0; store_length(records)];
    match crate::make_store(&mut store, &first[OPENINGS..]) {
        0 => Ok(store),
        number => Err(number),
    }
}

/// The whole output.
pub fn transcript(input: &[u8]) -> String {
    let mut rest = input;
    let first = next_record(&mut rest).filter(|first| get_u16(first, frame::KIND) == FIRST_KIND);
    let Some(first) = first.filter(|first| first.len() >= OPENINGS) else {
        return "torn 0\n".to_string();
    };
    let mut store = match open(first) {
        Ok(store) => store,
        Err(number) => return format!("open {number}\nend 0\n"),
    };
    let mut text = "open 0\n".to_string();
    let mut count = 0;
    while !rest.is_empty() {
        let Some(datagram) = next_record(&mut rest) else {
            return format!("{text}torn {count}\n");
        };
        count += 1;
        let (number, _) = crate::handle(&mut store, &mut [0; OUTPUT], datagram);
        text += &format!("{count} {number}\n");
    }
    format!("{text}end {count}\n")
}
