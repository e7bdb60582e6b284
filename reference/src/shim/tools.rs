//! What wrong handlers are made of: the right one, called with something changed where it gave a certain answer.

use crate::bytes::*;
use crate::datagram::*;
use crate::places::{context, frame, packet, verdict};
use crate::refusal::*;
use crate::store::*;
use crate::table::{applying, own_channel};

/// Where the packet of a datagram begins, and the verdict of a receive or a time-out.
pub const PACKET: usize = frame::BODY + context::LENGTH;
pub const VERDICT: usize = PACKET + packet::LENGTH;

pub fn kind_of(datagram: &[u8]) -> u16 {
    get_u16(datagram, frame::KIND)
}

/// The end that a datagram of one of these kinds is about, where it got this answer or one at its place, for which the
/// store is fit.
pub fn end_of(store: &[u8], datagram: &[u8], kinds: &[u16], answer: (u8, u32), number: u8) -> Option<(usize, Channel)> {
    let is_so = place(answer.0) == place(number) && kinds.contains(&kind_of(datagram));
    find_channel(store, own_channel(&read(datagram).filter(|_| is_so)?.body)?)
}

/// The end where timeouts are allowed that a datagram of one of these kinds, which begin with a packet, is about, where
/// it got this answer; and the packet.
pub fn allowing(
    store: &[u8],
    datagram: &[u8],
    kinds: &[u16],
    answer: (u8, u32),
    number: u8,
) -> Option<(usize, Channel, Packet)> {
    let (index, end) = end_of(store, datagram, kinds, answer, number).filter(|(_, end)| end.allows_timeouts())?;
    Some((index, end, Packet::read(&datagram[PACKET..])))
}

/// Tells another of the refusals that apply where one of these kinds is refused behind 3: each line has a key and a
/// number, and the number of the least key is given.
pub fn tell<K: Ord>(
    store: &mut [u8],
    output: &mut [u8],
    datagram: &[u8],
    kinds: &[u16],
    of_line: impl Fn(Line) -> (K, u8),
) -> (u8, u32) {
    let answer = crate::handle(store, output, datagram);
    if answer.0 <= MALFORMED || !kinds.contains(&kind_of(datagram)) {
        return answer;
    }
    let lines = applying(store, output.len(), datagram).into_iter().map(of_line);
    lines.min_by(|(one, _), (other, _)| one.cmp(other)).map_or(answer, |(_, number)| (number, 0))
}

/// For `tell`: this number before all parts of verdicts.
pub fn before_parts(line: Line, number: u8) -> ((bool, Line), u8) {
    let is_behind = line.number() != number && line >= Part::EndClaim.into();
    ((is_behind, line), line.number())
}

/// Handles a changed datagram where one of these kinds gets this refusal or one at its place.
pub fn change_where(
    store: &mut [u8],
    output: &mut [u8],
    datagram: &[u8],
    (kinds, refusal): (&[u16], u8),
    change: impl Fn(&mut [u8], &Channel),
) -> (u8, u32) {
    let answer = crate::handle(store, output, datagram);
    let Some((_, end)) = end_of(store, datagram, kinds, answer, refusal) else {
        return answer;
    };
    let mut changed = datagram.to_vec();
    change(&mut changed, &end);
    crate::handle(store, output, &changed)
}

/// Gives the verdict of a time-out the sequence of its packet.
pub fn match_sequence(bytes: &mut [u8]) {
    let sequence = get_u64(bytes, PACKET + packet::SEQUENCE);
    put_u64(bytes, VERDICT + verdict::SEQUENCE, sequence);
}

/// Handles a receive as if its packet had no timeouts, and emits the packet as it came.
pub fn receive_untimed(store: &mut [u8], output: &mut [u8], datagram: &[u8]) -> (u8, u32) {
    let mut untimed = datagram.to_vec();
    let of_packet = [packet::TIMEOUT_HEIGHT, packet::TIMEOUT_TIMESTAMP].map(|at| PACKET + at);
    let of_verdict = [verdict::TIMEOUT_HEIGHT, verdict::TIMEOUT_TIMESTAMP].map(|at| VERDICT + at);
    of_packet.into_iter().chain(of_verdict).for_each(|at| put_u64(&mut untimed, at, 0));
    let answer = crate::handle(store, output, &untimed);
    if answer.0 == 0 {
        output[frame::BODY..answer.1 as usize].copy_from_slice(&datagram[PACKET..VERDICT]);
    }
    answer
}

/// Refuses a datagram of this kind that gets 0 or a refusal at a later place, where the test says so.
pub fn refuse_where(
    store: &mut [u8],
    output: &mut [u8],
    datagram: &[u8],
    (kind, refusal): (u16, u8),
    test: impl Fn(&Body, &Context, &Channel) -> bool,
) -> (u8, u32) {
    let answer = crate::handle(&mut store.to_vec(), &mut output.to_vec(), datagram);
    if answer.0 == 0 || place(answer.0) > place(refusal) {
        let end = end_of(store, datagram, &[kind], answer, answer.0).map(|(_, end)| end);
        let call = read(datagram).zip(end);
        if call.is_some_and(|(Datagram { context, body }, end)| test(&body, &context, &end)) {
            return (refusal, 0);
        }
    }
    crate::handle(store, output, datagram)
}

/// Emits port and channel where a datagram of one of these kinds is accepted, which emits nothing.
pub fn emits_end(store: &mut [u8], output: &mut [u8], datagram: &[u8], kinds: &[u16]) -> (u8, u32) {
    let answer = crate::handle(store, output, datagram);
    let Some((_, end)) = end_of(store, datagram, kinds, answer, 0) else {
        return answer;
    };
    put_u32(output, frame::LENGTH, 12);
    put_u16(output, frame::KIND, 0x0107);
    put_u16(output, frame::BODY, end.port);
    put_u32(output, frame::BODY + 2, end.channel);
    (0, 12)
}

/// Removes the records that are so; from the last one on, so that none is passed over.
pub fn remove_all(store: &mut [u8], gone: impl Fn(&Record) -> bool) {
    for index in (0..record_count(store)).rev() {
        if gone(&record_at(store, index)) {
            remove(store, index);
        }
    }
}
