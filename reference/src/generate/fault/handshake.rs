//! The refusals that the steps of the opening handshake and of closing have for themselves.

use super::verdict::other_state;
use crate::datagram::*;
use crate::generate::draft::Draft;
use crate::generate::rng::Rng;
use crate::generate::shape::{fill_channels, use_up_numbers};
use crate::generate::step::padded;
use crate::places::channel;
use crate::store::*;

/// No record is free, or no number is left, or both.
pub fn no_free_channel(rng: &mut Rng, draft: &mut Draft) {
    let which = rng.below(5);
    if which != 0 {
        fill_channels(rng, &mut draft.store, 0);
    }
    if which <= 1 {
        use_up_numbers(rng, &mut draft.store);
    }
}

pub fn not_prior_state(rng: &mut Rng, draft: &mut Draft) {
    let end = draft.end();
    draft.set_end(Channel { counterparty_channel: rng.number() as u32, ..end });
    draft.set_state(other_state(rng, end.state));
}

/// The verdict shows another version; where the datagram has one, that may also be none.
pub fn wrong_version(rng: &mut Rng, draft: &mut Draft) {
    let step = &mut draft.step;
    if has_version(draft.kind) && (draft.kind == OPEN_INIT || rng.one_in(2)) {
        spoil_version(rng, &mut step.version);
        // Padded, it may be the same.
        step.show_version(padded(&step.version));
        return;
    }
    let place = channel::VERSION + rng.index(NO_VERSION.len());
    step.verdict.record[place] ^= 1 << rng.below(8);
}

fn spoil_version(rng: &mut Rng, version: &mut Vec<u8>) {
    let room = NO_VERSION.len();
    match rng.below(4) {
        0 => version.resize(room + 1, 1 + rng.below(255) as u8),
        1 => version.resize(room + 1 + rng.index(200), b'v'),
        // A zero byte at the end of a short one: padded, it is a version.
        2 => {
            version.truncate(room - 1);
            version.push(0);
        }
        _ => {
            version.resize(version.len().clamp(2, room), b'v');
            let place = rng.index(version.len() - 1);
            version[place] = 0;
        }
    }
}
