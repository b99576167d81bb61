//! Runs a script of the host (tests/host/README.md) from standard input and
//! prints a line for each record that is set and for each step.
#![forbid(unsafe_code)]

use std::io::{Read, Write};

use second::host::{End, Host, Packet, Stage, Stepped};
use second::refusal::Refusal;
use second::script::{hex, next_frame, Numbers};

fn main() -> std::io::Result<()> {
    let mut script = Vec::new();
    std::io::stdin().read_to_end(&mut script)?;
    let mut out = Vec::new();
    let mut rest = &script[..];
    let mut bundle: &[u8] = &[];
    let mut host = Host::fresh(0);
    while let Some((kind, payload, after)) = next_frame(rest) {
        rest = after;
        match kind {
            b'#' => {
                out.extend(payload);
                continue;
            }
            b'B' => {
                bundle = payload;
                continue;
            }
            b'F' => host = Host::fresh(payload[0]),
            b'K' => host = read_host(payload),
            _ => {
                let stepped = host.step(bundle, payload);
                out.extend(format!("{}; ", step_text(&stepped)).as_bytes());
                host = stepped.host;
            }
        }
        out.extend(format!("{}\n", record_text(&host)).as_bytes());
    }
    std::io::stdout().write_all(&out)
}

/// The payload of K, as it stands.
fn read_host(payload: &[u8]) -> Host {
    let mut numbers = Numbers { rest: payload };
    let token = numbers.one();
    let kind = numbers.one();
    let (a, b) = (numbers.four(), numbers.four());
    let (mask, packets, passes) = (numbers.four(), numbers.four(), numbers.four());
    let (skipped, landed) = (numbers.one() == 1, numbers.one() == 1);
    let passed = numbers.one() == 1;
    Host { token, stage: read_stage(kind, a, b, passed), mask, packets, passes, skipped, landed }
}

/// `passed` belongs to the sending stage alone.
fn read_stage(kind: u8, a: u32, b: u32, passed: bool) -> Stage {
    match kind {
        0 => Stage::Fresh,
        1 => Stage::Opening,
        2 => Stage::Listing,
        3 => Stage::Offering { entry: byte(a), busy: byte(b) },
        4 => Stage::Waiting { entry: byte(a), busy: byte(b) },
        5 => Stage::Sending { entry: byte(a), record: b, passed },
        6 => Stage::Closing,
        _ => Stage::Ended(read_end(a, b)),
    }
}

fn read_end(code: u32, status: u32) -> End {
    match code {
        0 => End::Done,
        1 => End::H1(byte(status)),
        2 => End::H2,
        3 => End::H3,
        _ => End::H4,
    }
}

/// This record keeps entries and BUSY in a byte; a script has no more.
fn byte(number: u32) -> u8 {
    u8::try_from(number).expect("a number below 256")
}

fn step_text(stepped: &Stepped) -> String {
    let refused = match stepped.refused {
        None => String::new(),
        Some(fault) if fault.row == Refusal::N1 => "refused N1, ".to_string(),
        Some(fault) => format!("refused {} {}, ", fault.row, fault.entry),
    };
    let sent = match stepped.packet {
        None => "nothing".to_string(),
        Some(Packet::ForOffer(bytes)) => format!("sent {}", hex(&bytes)),
        Some(Packet::ForContent(bytes)) => format!("sent {}", hex(&bytes)),
    };
    refused + &sent
}

fn record_text(host: &Host) -> String {
    let stage = match host.stage {
        Stage::Fresh => "fresh".to_string(),
        Stage::Opening => "opening".to_string(),
        Stage::Listing => "listing".to_string(),
        Stage::Offering { entry, busy } => format!("offering {entry} busy {busy}"),
        Stage::Waiting { entry, busy } => format!("waiting {entry} busy {busy}"),
        Stage::Sending { entry, record, .. } => format!("sending {entry} block {record}"),
        Stage::Closing => "closing".to_string(),
        Stage::Ended(End::Done) => "done".to_string(),
        Stage::Ended(End::H1(status)) => format!("H1 status {status}"),
        Stage::Ended(End::H2) => "H2".to_string(),
        Stage::Ended(End::H3) => "H3".to_string(),
        Stage::Ended(End::H4) => "H4".to_string(),
    };
    let passed = matches!(host.stage, Stage::Sending { passed: true, .. });
    format!(
        "{stage}, token {:02x}, mask {:08x}, packets {}, passes {}{}{}{}",
        host.token,
        host.mask,
        host.packets,
        host.passes,
        if host.skipped { ", skipped" } else { "" },
        if host.landed { ", landed" } else { "" },
        if passed { ", passed" } else { "" }
    )
}
