//! The order of steps that strands no packet (docs/CHANNELS.md), by exhaustive search with the handler itself.
//!
//! Two ledgers and one channel, of each order in turn, both ends OPEN and fresh. Each end sends up to two packets; the
//! first end only before step 1, the other one while it is OPEN. A timeout passes when the clock of both ledgers has
//! moved once, or twice, or never; it may move at any moment. All interleavings of calls that the text allows are
//! searched, some 20,000 to 100,000 states in each of the six cases. Every verdict is true, and of the other ledger's
//! latest block.

mod bytes;
mod pair;

use std::collections::HashSet;

use pair::*;
use reference::datagram::*;
use reference::store::*;

const FIRST: usize = 0;
const OTHER: usize = 1;
/// The clock begins at height 1 and stops here.
const HIGHEST: u64 = 3;
const TIMEOUTS: [u64; 3] = [2, HIGHEST, 9];
const KINDS: [u16; 8] = [SEND, RECEIVE, WRITE, ACKNOWLEDGE, TIME_OUT, CLOSE_INIT, CLOSE_CONFIRM, TIME_OUT_ON_CLOSE];

/// How far the order has come. Steps 3 and 5 are a call each: they stand between these.
#[derive(Clone, Copy, Debug, PartialEq, Eq, PartialOrd, Ord, Hash)]
enum Step {
    /// Traffic before step 1.
    Before,
    /// Steps 1 and 2.
    Settle,
    /// Step 4.
    GiveBack,
    /// Behind step 5.
    Behind,
}

/// A rule of the order, to be left out.
#[derive(Clone, Copy, Debug, PartialEq, Eq)]
enum Rule {
    /// The first end closes when its packets are settled.
    CloseWhenSettled,
    /// It has written all acknowledgements when it closes.
    WriteBeforeClose,
    /// And when it times out a packet, which closes an end of an ordered channel.
    WriteBeforeTimeOut,
    /// On an ordered channel it times out first the packet that the other end waits for.
    TimeOutInTurn,
    /// The other end of an ordered channel times out nothing before step 4.
    OtherTimesOutLate,
    /// It acknowledges before it gives back.
    AcknowledgeFirst,
    /// Where no timeout is waited for it takes no packet in.
    OtherTakesNone,
}

#[derive(Clone, Copy)]
struct Order {
    /// Whether timeouts are waited for, else the variant at the order's end.
    waits: bool,
    left_out: Option<Rule>,
}

impl Order {
    fn has(&self, rule: Rule) -> bool {
        self.left_out != Some(rule)
    }

    /// Whether the text allows the call; whether the handler accepts it is not asked here.
    fn allows(&self, step: Step, pair: &Pair, call: &Call) -> bool {
        match (step, call.at) {
            // A time-out would close an end of an ordered channel, and the order begins with two that are OPEN.
            (Step::Before, _) => call.kind < TIME_OUT || call.kind == TIME_OUT && !pair.is_ordered(),
            (Step::Settle, FIRST) => self.allows_first(pair, call),
            (Step::GiveBack, FIRST) => false,
            (Step::Behind, FIRST) => !self.waits && call.kind == TIME_OUT_ON_CLOSE,
            _ => self.allows_other(step, pair, call),
        }
    }

    fn allows_first(&self, pair: &Pair, call: &Call) -> bool {
        match call.kind {
            WRITE | ACKNOWLEDGE => true,
            // Where timeouts are allowed a packet has lapsed by then, and keeps back those behind it.
            TIME_OUT if pair.end(FIRST).allows_timeouts() => true,
            TIME_OUT => {
                let wrote = has_written(pair) || !self.has(Rule::WriteBeforeTimeOut);
                self.waits && wrote && (is_in_turn(pair, call.sequence) || !self.has(Rule::TimeOutInTurn))
            }
            CLOSE_INIT => self.is_settled(pair),
            _ => false,
        }
    }

    /// Whether the first end has done what step 2 asks of it.
    fn is_settled(&self, pair: &Pair) -> bool {
        let wrote = has_written(pair) || !self.has(Rule::WriteBeforeClose);
        let left = committed(pair, FIRST).filter(|sequence| self.waits || pair.received(FIRST, *sequence)).count();
        wrote && left == 0 || !self.has(Rule::CloseWhenSettled)
    }

    /// It may go on sending, and in step 4 a time-out does as well as one on close where the timeout has passed.
    fn allows_other(&self, step: Step, pair: &Pair, call: &Call) -> bool {
        let acknowledged = committed(pair, OTHER).all(|sequence| !pair.written(OTHER, sequence));
        let gives_back = step >= Step::GiveBack && (acknowledged || !self.has(Rule::AcknowledgeFirst));
        let early = step < Step::GiveBack;
        match call.kind {
            SEND | WRITE | ACKNOWLEDGE => true,
            RECEIVE => self.waits || !self.has(Rule::OtherTakesNone),
            TIME_OUT => gives_back || !pair.is_ordered() || early && !self.has(Rule::OtherTimesOutLate),
            TIME_OUT_ON_CLOSE => gives_back,
            CLOSE_CONFIRM => step == Step::GiveBack && committed(pair, OTHER).count() == 0,
            _ => false,
        }
    }

    /// Where no call leads on: step 1 begins, and an end that is CLOSED already needs no close.
    fn goes_on(&self, step: Step, pair: &Pair) -> Option<Step> {
        let (next, may) = match step {
            Step::Before => (Step::Settle, true),
            Step::Settle => (Step::GiveBack, !pair.is_open(FIRST) && self.is_settled(pair)),
            Step::GiveBack => (Step::Behind, !pair.is_open(OTHER) && committed(pair, OTHER).count() == 0),
            Step::Behind => return None,
        };
        may.then_some(next)
    }

    /// Every call that could be made on a ledger. Where timeouts are waited for, the first end sends none that never
    /// passes.
    fn calls(&self, pair: &Pair, at: usize) -> Vec<Call> {
        let mut calls = Vec::new();
        for kind in KINDS {
            let call = |sequence, timeout| Call { at, kind, sequence, timeout };
            match kind {
                SEND if pair.end(at).next_sequence_send > PACKETS => {}
                SEND => calls.extend(TIMEOUTS.map(|timeout| call(0, timeout))),
                CLOSE_INIT | CLOSE_CONFIRM => calls.push(call(0, 0)),
                _ => calls.extend((1..=PACKETS).map(|sequence| call(sequence, 0))),
            }
        }
        calls.retain(|call| !self.waits || at == OTHER || call.timeout <= HIGHEST);
        calls
    }
}

fn committed(pair: &Pair, at: usize) -> impl Iterator<Item = u64> + '_ {
    (1..=PACKETS).filter(move |sequence| pair.committed(at, *sequence))
}

/// Whether the first end has written the acknowledgement of each packet that it received.
fn has_written(pair: &Pair) -> bool {
    (1..=PACKETS).all(|sequence| !pair.received(OTHER, sequence) || pair.written(OTHER, sequence))
}

/// On an ordered channel the first end times out first the packet that the other end waits for, with all before it
/// acknowledged.
fn is_in_turn(pair: &Pair, sequence: u64) -> bool {
    let waited_for = pair.end(OTHER).next_sequence_recv == sequence;
    let turn = waited_for && (1..sequence).all(|before| !pair.committed(FIRST, before));
    turn || !pair.is_ordered() || !pair.is_open(FIRST)
}

/// A packet that was received, is committed, and can't be acknowledged any more: its sender's end is CLOSED, or its
/// receiver's with no acknowledgement written.
fn has_stranded(pair: &Pair) -> bool {
    [FIRST, OTHER].into_iter().any(|at| {
        let too_late = |sequence| !pair.is_open(at) || !pair.is_open(1 - at) && !pair.written(at, sequence);
        committed(pair, at).any(|sequence| pair.received(at, sequence) && too_late(sequence))
    })
}

/// A state of the search: how far the order is, the two ledgers, and the call that led there, if one did.
type State = (Step, Pair, Option<Call>);

struct Search {
    order: Order,
    seen: HashSet<(Step, Vec<u8>)>,
    accepted: HashSet<(usize, u16)>,
    /// The step, the clock and the call of each state on the way to this one.
    history: Vec<(Step, u64, Option<Call>)>,
}

impl Search {
    /// Answers whether a packet can be stranded, on a channel of this order.
    fn run(channel: u8, order: Order) -> (bool, Search) {
        let mut search = Search { order, seen: HashSet::new(), accepted: HashSet::new(), history: Vec::new() };
        (search.strands(&(Step::Before, Pair::new(channel), None)), search)
    }

    fn after(&self, (step, pair, _): &State) -> Vec<State> {
        let calls = [FIRST, OTHER].into_iter().flat_map(|at| self.order.calls(pair, at));
        let accepted = calls.filter(|call| self.order.allows(*step, pair, call)).filter_map(|call| {
            let next = match call.kind {
                CLOSE_INIT => Step::GiveBack,
                CLOSE_CONFIRM => Step::Behind,
                _ => *step,
            };
            Some((next, pair.after(&call)?, Some(call)))
        });
        let goes_on = self.order.goes_on(*step, pair).map(|next| (next, pair.clone(), None));
        let later = (pair.clock < HIGHEST).then(|| (*step, Pair { clock: pair.clock + 1, ..pair.clone() }, None));
        accepted.chain(goes_on).chain(later).collect()
    }

    /// Whether a packet is stranded in this state or can be in a later one: the history leads there then. Where
    /// nothing is left to do, nothing may be committed, and both ends have to be CLOSED.
    fn strands(&mut self, state: &State) -> bool {
        let (step, pair, call) = state;
        if !self.seen.insert((*step, pair.key())) {
            return false;
        }
        self.history.push((*step, pair.clock, *call));
        if has_stranded(pair) {
            return true;
        }
        let after = self.after(state);
        self.accepted.extend(after.iter().filter_map(|(_, _, call)| call.map(|call| (call.at, call.kind))));
        if after.is_empty() && self.order.left_out.is_none() {
            let left = [FIRST, OTHER].map(|at| (pair.is_open(at), committed(pair, at).count()));
            assert_eq!((*step, left), (Step::Behind, [(false, 0); 2]), "{:?}", self.history);
        }
        if after.iter().any(|state| self.strands(state)) {
            return true;
        }
        self.history.pop();
        false
    }
}

/// And that each call of the order is met.
fn assert_strands_none(channel: u8, waits: bool) {
    let (strands, search) = Search::run(channel, Order { waits, left_out: None });
    println!("order {channel}, waits: {waits}: {} states", search.seen.len());
    assert!(!strands, "{:?}", search.history);
    for kind in KINDS {
        let of_first = match kind {
            TIME_OUT => waits || channel != ORDERED,
            TIME_OUT_ON_CLOSE => !waits,
            _ => kind != CLOSE_CONFIRM,
        };
        let met = [FIRST, OTHER].map(|at| search.accepted.contains(&(at, kind)));
        assert_eq!(met, [of_first, kind != CLOSE_INIT], "{kind}");
    }
}

/// Without the rule this call strands a packet.
fn assert_strands(channel: u8, waits: bool, rule: Rule, by: (usize, u16)) {
    let (strands, search) = Search::run(channel, Order { waits, left_out: Some(rule) });
    let last = search.history.last().and_then(|(_, _, call)| call.map(|call| (call.at, call.kind)));
    assert_eq!((strands, last), (true, Some(by)), "{rule:?}, order {channel}, waits: {waits}");
}

#[test]
fn the_order_strands_none() {
    ORDERS.into_iter().for_each(|channel| assert_strands_none(channel, true));
}

#[test]
fn the_order_without_waiting_strands_none() {
    ORDERS.into_iter().for_each(|channel| assert_strands_none(channel, false));
}

#[test]
fn closing_too_early_strands() {
    for (channel, waits) in ORDERS.into_iter().flat_map(|channel| [(channel, true), (channel, false)]) {
        assert_strands(channel, waits, Rule::CloseWhenSettled, (FIRST, CLOSE_INIT));
        assert_strands(channel, waits, Rule::WriteBeforeClose, (FIRST, CLOSE_INIT));
    }
}

#[test]
fn a_time_out_of_an_ordered_end_strands() {
    assert_strands(ORDERED, true, Rule::WriteBeforeTimeOut, (FIRST, TIME_OUT));
    assert_strands(ORDERED, true, Rule::TimeOutInTurn, (FIRST, TIME_OUT));
    for waits in [true, false] {
        assert_strands(ORDERED, waits, Rule::OtherTimesOutLate, (OTHER, TIME_OUT));
        assert_strands(ORDERED, waits, Rule::AcknowledgeFirst, (OTHER, TIME_OUT_ON_CLOSE));
    }
}

#[test]
fn receiving_behind_a_close_strands() {
    ORDERS.into_iter().for_each(|channel| assert_strands(channel, false, Rule::OtherTakesNone, (OTHER, RECEIVE)));
}
