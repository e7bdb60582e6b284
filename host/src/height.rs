//! Heights and times of this ledger and of the other one, and timeouts.

use std::fmt;

/// A number that only compares with its like. So a height is never taken for a time, nor one ledger's for the other's.
macro_rules! number {
    ($(#[$about:meta])* $name:ident) => {
        $(#[$about])*
        #[derive(Clone, Copy, Debug, Default, PartialEq, Eq, PartialOrd, Ord, Hash)]
        pub struct $name(pub u64);

        impl fmt::Display for $name {
            fn fmt(&self, out: &mut fmt::Formatter) -> fmt::Result {
                self.0.fmt(out)
            }
        }
    };
}

number! {
    /// A height of this ledger: the one whose store is called.
    ///
    /// It cannot stand where a height of the other ledger is meant:
    ///
    /// ```compile_fail
    /// use route::{OwnHeight, Timeout};
    /// // A sender's timeout height is the other ledger's.
    /// let timeout = Timeout::at_height(OwnHeight(60));
    /// ```
    ///
    /// ```compile_fail
    /// use route::{OtherHeight, OwnHeight};
    /// assert!(OwnHeight(60) < OtherHeight(61));
    /// ```
    OwnHeight
}

number! {
    /// A height of the other ledger, across the connection. It cannot stand where an [`OwnHeight`] is meant.
    OtherHeight
}

number! {
    /// A time of this ledger: the one whose store is called.
    ///
    /// The two ledgers have two clocks. It cannot stand where a time of the other ledger is meant:
    ///
    /// ```compile_fail
    /// use route::{OwnTime, Timeout};
    /// // A sender's timeout time is the other ledger's.
    /// let timeout = Timeout::at_time(OwnTime(1_000));
    /// ```
    ///
    /// ```compile_fail
    /// use route::{Block, OtherHeight, OwnTime};
    /// let latest = Block { height: OtherHeight(50), time: OwnTime(1_000) };
    /// ```
    ///
    /// ```compile_fail
    /// use route::{OtherTime, OwnTime};
    /// assert!(OwnTime(1_000) < OtherTime(1_001));
    /// ```
    OwnTime
}

number! {
    /// A time of the other ledger, across the connection. It cannot stand where an [`OwnTime`] is meant.
    OtherTime
}

impl OwnHeight {
    /// This height as the ledger across sees it.
    ///
    /// ```
    /// use route::{OtherHeight, OwnHeight};
    /// assert_eq!(OwnHeight(60).seen_across(), OtherHeight(60));
    /// ```
    pub fn seen_across(self) -> OtherHeight {
        OtherHeight(self.0)
    }
}

impl OwnTime {
    /// This time as the ledger across sees it.
    ///
    /// ```
    /// use route::{OtherTime, OwnTime};
    /// assert_eq!(OwnTime(1_000).seen_across(), OtherTime(1_000));
    /// ```
    pub fn seen_across(self) -> OtherTime {
        OtherTime(self.0)
    }
}

/// A block of the other ledger: one that a verdict is about, or the latest that the light client knows.
#[derive(Clone, Copy, Debug, Default, PartialEq, Eq, Hash)]
pub struct Block {
    /// Its height.
    pub height: OtherHeight,
    /// Its time.
    pub time: OtherTime,
}

/// When a packet is late: from a height of the receiving ledger on, from a time of it on, or from either.
///
/// Whose height and time these are depends on who asks: at the packet's sender they are the other ledger's, at its
/// receiver the own ones.
///
/// ```
/// use route::{OtherHeight, OtherTime, OwnHeight, OwnTime, Timeout};
/// let timeout = Timeout::new(OtherHeight(60), OtherTime(1_000));
/// assert_eq!(timeout.height_at_sender(), Some(OtherHeight(60)));
/// assert_eq!(timeout.height_at_receiver(), Some(OwnHeight(60)));
/// assert_eq!(timeout.time_at_sender(), Some(OtherTime(1_000)));
/// assert_eq!(timeout.time_at_receiver(), Some(OwnTime(1_000)));
/// assert_eq!(Timeout::at_time(OtherTime(1_000)).height_at_sender(), None);
/// ```
#[derive(Clone, Copy, Debug, Default, PartialEq, Eq, Hash)]
pub struct Timeout {
    height: u64,
    time: u64,
}

impl Timeout {
    /// Neither height nor time. No packet can be sent so.
    pub const NONE: Timeout = Timeout { height: 0, time: 0 };

    /// From the height or the time of the other ledger on, whichever is first reached; the sender sets it. 0 stands for
    /// none.
    pub fn new(height: OtherHeight, time: OtherTime) -> Timeout {
        Timeout { height: height.0, time: time.0 }
    }

    /// From this height of the other ledger on; the sender sets it.
    pub fn at_height(height: OtherHeight) -> Timeout {
        Timeout::new(height, OtherTime(0))
    }

    /// From this time of the other ledger on; the sender sets it.
    pub fn at_time(time: OtherTime) -> Timeout {
        Timeout::new(OtherHeight(0), time)
    }

    pub(crate) fn from_numbers(height: u64, time: u64) -> Timeout {
        Timeout { height, time }
    }

    pub(crate) fn numbers(self) -> (u64, u64) {
        (self.height, self.time)
    }

    /// The timeout height as the packet's sender sees it, if there is one.
    pub fn height_at_sender(self) -> Option<OtherHeight> {
        (self.height != 0).then_some(OtherHeight(self.height))
    }

    /// The timeout height as the packet's receiver sees it, if there is one.
    pub fn height_at_receiver(self) -> Option<OwnHeight> {
        (self.height != 0).then_some(OwnHeight(self.height))
    }

    /// The timeout time as the packet's sender sees it, if there is one.
    pub fn time_at_sender(self) -> Option<OtherTime> {
        (self.time != 0).then_some(OtherTime(self.time))
    }

    /// The timeout time as the packet's receiver sees it, if there is one.
    pub fn time_at_receiver(self) -> Option<OwnTime> {
        (self.time != 0).then_some(OwnTime(self.time))
    }

    /// Whether a block of the receiving ledger, as the sender sees it, has reached the height or the time.
    ///
    /// By the block of a verdict it tells whether the packet can be timed out; if not,
    /// [`Refusal::TimeoutNotPassed`](crate::Refusal::TimeoutNotPassed) is given. By the latest block that the light
    /// client knows, [`Context::client`](crate::Context::client), it tells whether a send would be refused with
    /// [`Refusal::TimeoutPassed`](crate::Refusal::TimeoutPassed).
    ///
    /// ```
    /// use route::{Block, OtherHeight, OtherTime, Timeout};
    /// let at = |height, time| Block { height: OtherHeight(height), time: OtherTime(time) };
    /// let timeout = Timeout::new(OtherHeight(60), OtherTime(1_000));
    /// assert!(!timeout.has_passed_at(at(59, 999)));
    /// assert!(timeout.has_passed_at(at(60, 999)));
    /// assert!(timeout.has_passed_at(at(59, 1_000)));
    /// // Where there is no timeout time, the time is not asked for.
    /// assert!(!Timeout::at_height(OtherHeight(60)).has_passed_at(at(59, 9_000)));
    /// ```
    pub fn has_passed_at(self, block: Block) -> bool {
        self.height_at_sender().is_some_and(|height| block.height >= height)
            || self.time_at_sender().is_some_and(|time| block.time >= time)
    }
}
