//! A whole run: "a fresh host with any token, any device state and staging
//! memory that pass D1 and D2, then in turn the host's step and the device's
//! offer or content entry, whichever the packet is for". A4 adds hubs that
//! bring a packet twice.

use std::collections::VecDeque;

use crate::bundle::Fault;
use crate::device::{Answer, Device};
use crate::host::{Host, Packet, Report, Stage};

/// One packet sent and what the device answered.
#[derive(Clone, Copy, Debug, PartialEq, Eq)]
pub struct Exchange {
    pub packet: Packet,
    pub answer: Answer,
    /// What it answered to the copy, where the packet came twice.
    pub again: Option<Answer>,
}

/// What a run leaves; the staging bytes are left in the lent buffer.
#[derive(Clone, Debug, PartialEq, Eq)]
pub struct Run {
    pub host: Host,
    pub device: Device,
    pub refused: Option<Fault>,
    pub trace: Vec<Exchange>,
}

impl Run {
    pub fn report(&self) -> Report {
        self.host.report()
    }
}

/// A run of a fresh host until it ends or is refused: each packet comes once.
pub fn run(token: u8, bundle: &[u8], device: Device, staging: &mut [u8]) -> Run {
    run_doubled(token, bundle, device, staging, 0)
}

/// The run in which the packet sent as number j, from 0, comes twice in a row
/// where bit j of the pattern is set; from the 64th on each comes once.
pub fn run_doubled(
    token: u8,
    bundle: &[u8],
    device: Device,
    staging: &mut [u8],
    pattern: u64,
) -> Run {
    run_where(token, bundle, device, staging, |number, _| number < 64 && pattern >> number & 1 == 1)
}

/// The run in which the packets that `twice` names, by number and packet,
/// come twice in a row. Every arrival is answered at once. The answers reach
/// the host in the order they were given, one a step; what it then sends is
/// answered behind those still on their way.
pub fn run_where(
    token: u8,
    bundle: &[u8],
    device: Device,
    staging: &mut [u8],
    twice: impl Fn(usize, &Packet) -> bool,
) -> Run {
    let mut left = Run { host: Host::fresh(token), device, refused: None, trace: Vec::new() };
    let mut on_the_way: VecDeque<Vec<u8>> = VecDeque::new();
    while left.refused.is_none() && !matches!(left.host.stage, Stage::Ended(_)) {
        // Where none is on its way, the host is handed no bytes.
        let reply = on_the_way.pop_front().unwrap_or_default();
        let stepped = left.host.step(bundle, &reply);
        left.host = stepped.host;
        left.refused = stepped.refused;
        let packet = match stepped.packet {
            None => continue, // an end, a refusal, or a reply passed over
            Some(packet) => packet,
        };
        let mut arrive = || {
            let (next, answer) = hand_over(left.device, staging, packet);
            left.device = next;
            on_the_way.extend(reply_bytes(answer));
            answer
        };
        let answer = arrive();
        let again = match twice(left.trace.len(), &packet) {
            true => Some(arrive()),
            false => None,
        };
        left.trace.push(Exchange { packet, answer, again });
    }
    left
}

/// The device's entry that the packet is for.
fn hand_over(device: Device, staging: &mut [u8], packet: Packet) -> (Device, Answer) {
    match packet {
        Packet::ForOffer(report) => device.offer(staging, &report),
        Packet::ForContent(report) => device.content(staging, &report),
    }
}

/// What reaches the host: a refusal sends nothing, and of an answer with the
/// owed READY behind it only the first reply is handed on. (Where each packet
/// comes once, none is owed: code 0 drops it, and this host asks for none.)
fn reply_bytes(answer: Answer) -> Option<Vec<u8>> {
    match answer {
        Answer::Refused(..) | Answer::NoReply => None,
        Answer::Reply(bytes) | Answer::ReplyThenReady(bytes, _) => Some(bytes.to_vec()),
    }
}
