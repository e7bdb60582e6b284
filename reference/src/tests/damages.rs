//! Damages are what they are named for, and both checks of fitness find them.

use std::collections::BTreeSet;

use super::SEED;
use crate::bytes::*;
use crate::compare::checks_differ;
use crate::fit::direct::{entries_fit, fit_directly};
use crate::fit::fit;
use crate::generate::damage::{converter_answer, damage, KINDS, TWO_OF_ONE_KEY};
use crate::generate::grow;
use crate::generate::rng::Rng;
use crate::places::{record, PACKET_RECORDS};
use crate::store::*;

/// A store whose order is damaged is fit but for that, and with any other damage its records are still in order, unless
/// two of one key stand apart: so nothing but the damage makes it unfit.
#[test]
fn damages_stand_alone() {
    let mut rng = Rng::new(SEED);
    let mut met = BTreeSet::new();
    for _ in 0..20_000 {
        let mut store = grow::grown(&mut rng);
        let kind = damage(&mut rng, &mut store);
        let (mut sorted, twice) = (store.clone(), kind == TWO_OF_ONE_KEY);
        if records_in(store.len()).is_some() {
            sort_records(&mut sorted);
            let keys = |store: &[u8]| records(store).iter().map(|bytes| key_of(bytes)).collect::<Vec<_>>();
            let in_order = keys(&store) == keys(&sorted);
            assert!(twice || in_order == (converter_answer(kind) != 0), "{}", KINDS[kind].0);
        }
        for check in [fit, fit_directly] {
            assert!(!check(&store) && check(&sorted) == (converter_answer(kind) == 0), "{}", KINDS[kind].0);
        }
        assert!(entries_fit(&store) == (converter_answer(kind) == 0 || twice));
        met.insert(kind);
    }
    assert_eq!(met.len(), KINDS.len());
}

/// The pass by runs and the definition agree on stores that nobody made fit or unfit: records are copied over others,
/// change places, or have a number or a bit changed.
#[test]
fn checks_agree() {
    let mut rng = Rng::new(SEED);
    let mut answers = [0; 2];
    for _ in 0..20_000 {
        let grown = grow::grown(&mut rng);
        assert!(fit(&grown) && fit_directly(&grown));
        for _ in 0..8 {
            let mut store = grown.clone();
            (0..1 + rng.index(3)).for_each(|_| change(&mut rng, &mut store));
            assert_eq!(checks_differ(&store), None);
            answers[usize::from(fit(&store))] += 1;
        }
    }
    println!("{answers:?}");
    assert!(answers.iter().all(|count| *count > 10_000));
}

/// One change to packet records, mostly to those in use.
fn change(rng: &mut Rng, store: &mut [u8]) {
    let most = (used_count(store) + 1).min(record_count(store));
    let [one, other] = [rng.index(most), rng.index(most)];
    let place = record_place(one);
    match rng.below(6) {
        0 => records_mut(store)[other] = records(store)[one],
        1 => records_mut(store).swap(one, other),
        2 => records_mut(store)[one].fill(0),
        3 => put_u16(store, place + record::KIND, rng.below(6) as u16),
        4 => put_u64(store, place + record::SEQUENCE, rng.number()),
        _ => {
            let at = PACKET_RECORDS + rng.index(store.len() - PACKET_RECORDS);
            store[at] ^= 1 << rng.below(8);
        }
    }
}

/// Whether the record of this index is the one that a damage is named for.
type Place = fn(&[u8], usize) -> bool;

const PLACES: [(&str, Place); 18] = [
    ("first record", |_, index| index == 0),
    ("last record of a full table", |store, index| index + 1 == record_count(store)),
    ("record before the first free one", |store, index| records(store)[index + 1..].first() == Some(&[0; 64])),
    ("zeros in the middle of a run", |store, index| neighbours(store, index) == [true, true]),
    ("sequence 0 before others", |store, index| neighbours(store, index) == [false, true]),
    ("at next send behind others", |store, index| neighbours(store, index) == [true, false]),
    ("at next receive behind others, ordered", |store, index| neighbours(store, index) == [true, false]),
    ("at next receive behind others, timeouts allowed", |store, index| neighbours(store, index) == [true, false]),
    ("timeout receipt at next receive behind others", |store, index| neighbours(store, index) == [true, false]),
    ("first of a run not received", |store, index| neighbours(store, index) == [false, true]),
    ("middle of a run not received", |store, index| neighbours(store, index) == [true, true]),
    ("last of a run not received", |store, index| neighbours(store, index) == [true, false]),
    ("first of a run acknowledged and lapsed", |store, index| lapsed(store, index) == Some([false, true])),
    ("middle of a run acknowledged and lapsed", |store, index| lapsed(store, index) == Some([true, true])),
    ("last of a run acknowledged and lapsed", |store, index| lapsed(store, index) == Some([true, false])),
    ("first word behind a free one", |store, index| {
        is_behind_free(store, index) && !all_zero(&records(store)[index][..8])
    }),
    ("rest of a slot behind a free one", |store, index| {
        is_behind_free(store, index) && all_zero(&records(store)[index][..8])
    }),
    ("last byte of the store", |store, _| store[store.len() - 1] != 0),
];

/// Whether the record before this one, and the one behind it, are of its kind and channel.
fn neighbours(store: &[u8], index: usize) -> [bool; 2] {
    let run = |index: usize| records(store).get(index).map(|bytes| key_of(bytes) >> 64);
    [index.wrapping_sub(1), index + 1].map(|other| run(other) == run(index))
}

fn lapsed(store: &[u8], index: usize) -> Option<[bool; 2]> {
    (record_at(store, index).kind == TIMEOUT_RECEIPT).then(|| neighbours(store, index))
}

fn is_behind_free(store: &[u8], index: usize) -> bool {
    index > 0 && all_zero(&records(store)[index - 1])
}

/// Where the store is fit once a single record is taken out, that record stands at the place that the damage is named
/// for. Where others lean on that record, taking it out does not help, and nothing is asked.
#[test]
fn damages_stand_where_named() {
    let mut rng = Rng::new(SEED);
    for (name, is_there) in PLACES {
        let (_, damage) = KINDS.iter().find(|(other, _)| *other == name).expect("a damage has this name");
        let mut seen = 0;
        while seen < 40 {
            let mut store = grow::grown(&mut rng);
            if damage(&mut rng, &mut store).is_none() {
                continue;
            }
            let mut guilty = (0..record_count(&store)).filter(|index| fit_without(&store, *index)).peekable();
            seen += usize::from(guilty.peek().is_some());
            assert!(guilty.peek().is_none() || guilty.any(|index| is_there(&store, index)), "{name}");
        }
    }
}

fn fit_without(store: &[u8], index: usize) -> bool {
    let mut without = store.to_vec();
    remove(&mut without, index);
    fit(&without)
}
