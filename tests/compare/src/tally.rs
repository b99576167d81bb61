//! How often each thing was met: calls, refusals, statuses, ends.

use std::collections::HashMap;

use crate::layout::*;

#[derive(Clone, Debug, Default)]
pub struct Tally {
    counts: HashMap<&'static str, u64>,
}

impl Tally {
    pub fn add(&mut self, name: &'static str, times: u64) {
        *self.counts.entry(name).or_insert(0) += times;
    }

    pub fn one(&mut self, name: &'static str) {
        self.add(name, 1);
    }

    pub fn of(&self, name: &str) -> u64 {
        self.counts.get(name).copied().unwrap_or(0)
    }

    pub fn join(&mut self, other: &Tally) {
        for (name, times) in &other.counts {
            self.add(name, *times);
        }
    }

    /// The names in order, each with its count.
    pub fn lines(&self) -> Vec<(&'static str, u64)> {
        let mut lines: Vec<_> = self.counts.iter().map(|(name, times)| (*name, *times)).collect();
        lines.sort();
        lines
    }
}

/// The row or end that a number is.
pub fn row(number: u32) -> &'static str {
    match number {
        SERVED => "row: served",
        C1 => "row: C1",
        C2 => "row: C2",
        C3 => "row: C3",
        C4 => "row: C4",
        S1 => "row: S1",
        S2 => "row: S2",
        S3 => "row: S3",
        S4 => "row: S4",
        S5 => "row: S5",
        D1 => "row: D1",
        D2 => "row: D2",
        D3 => "row: D3",
        P1 => "row: P1",
        P2 => "row: P2",
        N1 => "row: N1",
        B1 => "row: B1",
        B2 => "row: B2",
        B3 => "row: B3",
        B4 => "row: B4",
        B5 => "row: B5",
        B6 => "row: B6",
        B7 => "row: B7",
        B8 => "row: B8",
        W1 => "row: W1",
        W2 => "row: W2",
        W3 => "row: W3",
        W4 => "row: W4",
        W5 => "row: W5",
        W6 => "row: W6",
        W7 => "row: W7",
        W8 => "row: W8",
        _ => "row: unknown",
    }
}

pub fn ending(number: u32) -> &'static str {
    match number {
        RUNNING => "end: running",
        DONE => "end: done",
        H1 => "end: H1",
        H2 => "end: H2",
        H3 => "end: H3",
        H4 => "end: H4",
        _ => "end: unknown",
    }
}

/// The status of a reply of the offer channel, with a REJECT's reason.
pub fn offer_status(reply: &[u8]) -> &'static str {
    match (reply[offer_reply_at::STATUS], reply[offer_reply_at::REASON]) {
        (OFFER_SKIP, 0) => "offer reply: SKIP",
        (OFFER_ACCEPT, 0) => "offer reply: ACCEPT",
        (OFFER_REJECT, REJECT_OLD_FW) => "offer reply: REJECT 0",
        (OFFER_REJECT, REJECT_INV_COMPONENT) => "offer reply: REJECT 1",
        (OFFER_REJECT, REJECT_SWAP_PENDING) => "offer reply: REJECT 2",
        (OFFER_REJECT, REJECT_WRONG_PROTOCOL) => "offer reply: REJECT 0xE0",
        (OFFER_REJECT, REJECT_WRONG_SEGMENT) => "offer reply: REJECT 0xE1",
        (OFFER_REJECT, REJECT_WRONG_VARIANT) => "offer reply: REJECT 0xE2",
        (OFFER_BUSY, 0) => "offer reply: BUSY",
        (OFFER_READY, 0) => "offer reply: READY",
        (OFFER_UNSUPPORTED, 0) => "offer reply: unsupported",
        _ => "offer reply: unknown",
    }
}

pub fn content_status(reply: &[u8]) -> &'static str {
    match reply[content_reply_at::STATUS] {
        SUCCESS => "content reply: 0x00",
        ERROR_VERIFY => "content reply: 0x04",
        ERROR_CRC => "content reply: 0x05",
        ERROR_VERSION => "content reply: 0x07",
        ERROR_INVALID_ADDR => "content reply: 0x09",
        ERROR_NO_OFFER => "content reply: 0x0A",
        ERROR_INVALID => "content reply: 0x0B",
        _ => "content reply: unknown",
    }
}

/// What the gate's run has to have met at least once.
pub const REQUIRED: [&str; 61] = [
    "row: served",
    "row: C1",
    "row: C2",
    "row: C3",
    "row: C4",
    "row: S1",
    "row: S2",
    "row: S3",
    "row: S4",
    "row: S5",
    "row: D1",
    "row: D2",
    "row: D3",
    "row: P1",
    "row: P2",
    "row: N1",
    "row: B1",
    "row: B2",
    "row: B3",
    "row: B4",
    "row: B5",
    "row: B6",
    "row: B7",
    "row: B8",
    "row: W1",
    "row: W2",
    "row: W3",
    "row: W4",
    "row: W5",
    "row: W6",
    "row: W7",
    "row: W8",
    "end: done",
    "end: H1",
    "end: H2",
    "end: H3",
    "end: H4",
    "offer reply: SKIP",
    "offer reply: ACCEPT",
    "offer reply: REJECT 0",
    "offer reply: REJECT 1",
    "offer reply: REJECT 2",
    "offer reply: REJECT 0xE0",
    "offer reply: REJECT 0xE1",
    "offer reply: REJECT 0xE2",
    "offer reply: BUSY",
    "offer reply: READY",
    "offer reply: unsupported",
    "replies: none due",
    "replies: READY follows",
    "content reply: 0x00",
    "content reply: 0x04",
    "content reply: 0x05",
    "content reply: 0x07",
    "content reply: 0x09",
    "content reply: 0x0A",
    "content reply: 0x0B",
    "list_put: served",
    "device_component: served",
    "device_component: pending told",
    "contents_entry: served",
];
