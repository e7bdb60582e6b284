//! Bytes written field by field, and calls with checks that hold of every call.

// Each test program uses its share.
#![allow(dead_code)]

/// Bytes in the order in which the rules name them.
#[derive(Default, Clone)]
pub struct Bytes(pub Vec<u8>);

impl Bytes {
    pub fn n8(mut self, value: u8) -> Self {
        self.0.push(value);
        self
    }
    pub fn n16(mut self, value: u16) -> Self {
        self.0.extend(value.to_le_bytes());
        self
    }
    pub fn n32(mut self, value: u32) -> Self {
        self.0.extend(value.to_le_bytes());
        self
    }
    pub fn n64(mut self, value: u64) -> Self {
        self.0.extend(value.to_le_bytes());
        self
    }
    pub fn digest(mut self, value: u8) -> Self {
        self.0.extend([value; 32]);
        self
    }
    pub fn text(mut self, value: &[u8]) -> Self {
        self.0.extend(value);
        self
    }
    pub fn zeros(mut self, count: usize) -> Self {
        self.0.extend(vec![0; count]);
        self
    }
}

pub fn opening(port: u16, channel: u32, other_port: u16, other_channel: u32, order: u8) -> Vec<u8> {
    Bytes::default().n32(20).n16(0x10).n16(port).n32(channel).n16(other_port).n32(other_channel).n8(order).n8(0).0
}

/// Places of a datagram: the caller's port, the connection and the client's time, and where the context ends.
pub const CALLER: usize = 30;
pub const CONNECTION: usize = 32;
pub const CLIENT_TIME: usize = 38;
pub const BODY: usize = CLIENT_TIME + 8;

/// Frame and context of a datagram at height 100 and time 1,000; the client knows height 50 and time 0.
pub fn start(length: u32, kind: u16, caller: u16) -> Bytes {
    start_at(length, kind, caller, 0)
}

/// The same where the client knows this time.
pub fn start_at(length: u32, kind: u16, caller: u16, client_time: u64) -> Bytes {
    let frame = Bytes::default().n32(length).n16(kind);
    frame.n64(100).n64(1000).n64(50).n16(caller).n8(1).zeros(5).n64(client_time)
}

/// Handles it and checks that a refusal changes nothing and an acceptance nothing behind what it emits.
pub fn answer(store: &mut [u8], datagram: &[u8]) -> (u8, Vec<u8>) {
    let before = store.to_vec();
    let mut output = vec![0xaa; 120];
    let (number, length) = reference::handle(store, &mut output, datagram);
    if number != 0 {
        assert_eq!((store.to_vec(), length), (before, 0));
    }
    assert!(output[length as usize..].iter().all(|byte| *byte == 0xaa));
    output.truncate(length as usize);
    (number, output)
}

pub fn number(store: &mut [u8], datagram: &[u8]) -> u8 {
    answer(store, datagram).0
}

pub fn record(store: &[u8], index: usize) -> &[u8] {
    &store[1088 + 64 * index..][..64]
}

pub fn channel(store: &[u8], index: usize) -> &[u8] {
    &store[64 + 64 * index..][..64]
}
