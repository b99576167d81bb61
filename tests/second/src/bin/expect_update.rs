//! Runs a script of whole runs (tests/update/README.md) from standard input
//! and prints, with the word `turns`, what passes between both ends, and
//! otherwise what each run answers.
#![forbid(unsafe_code)]

use std::fmt::Write as _;
use std::io::{Read, Write as _};

use second::bundle::{check, Fault};
use second::device::{Answer, Device};
use second::host::{End, Host, Packet};
use second::refusal::Refusal;
use second::run::{run, run_doubled, Run};
use second::script::{hex, next_frame, read_record, record_line, Numbers};

fn main() -> std::io::Result<()> {
    let turns = std::env::args().nth(1).as_deref() == Some("turns");
    let mut script = Vec::new();
    std::io::stdin().read_to_end(&mut script)?;
    let mut out = Vec::new();
    let mut rest = &script[..];
    while let Some((kind, payload, after)) = next_frame(rest) {
        match kind {
            b'#' => out.extend(payload),
            // Only the turns have a run in which packets come twice.
            b'T' if !turns => {}
            b'T' => out.extend(doubled(payload).as_bytes()),
            _ => out.extend(case(payload, turns).as_bytes()),
        }
        rest = after;
    }
    std::io::stdout().write_all(&out)
}

/// A run: token, fill byte, the record, the bundle.
fn case(payload: &[u8], turns: bool) -> String {
    let mut numbers = Numbers { rest: payload };
    let (token, fill) = (numbers.one(), numbers.one());
    let device = read_record(&mut numbers);
    let bundle = numbers.rest;
    let mut staging = vec![fill; device.staging as usize];
    let mut text = String::new();
    let mut last = device;
    if turns {
        let left = run(token, bundle, device, &mut staging);
        last = left.device;
        text += &turns_text(&device, &left);
    } else if let Some(row) = refused(&device, bundle) {
        let _ = writeln!(text, "{row}; {}", report(&Host::fresh(token)));
    } else {
        let left = run(token, bundle, device, &mut staging);
        last = left.device;
        let _ = writeln!(text, "{}", report(&left.host));
    }
    let _ = writeln!(text, "{}\nstaging {}", record_line(&last), hex(&staging));
    text
}

/// A run in which packets come twice: token, fill byte, pattern, the record,
/// the bundle. The turns, the report, and what they leave.
fn doubled(payload: &[u8]) -> String {
    let mut numbers = Numbers { rest: payload };
    let (token, fill, pattern) = (numbers.one(), numbers.one(), numbers.eight());
    let device = read_record(&mut numbers);
    let mut staging = vec![fill; device.staging as usize];
    let left = run_doubled(token, numbers.rest, device, &mut staging, pattern);
    let mut text = turns_text(&device, &left);
    let _ = writeln!(text, "{}", report(&left.host));
    let _ = writeln!(text, "{}\nstaging {}", record_line(&left.device), hex(&staging));
    text
}

/// The record at the start, and each packet with its reply or its two.
fn turns_text(device: &Device, left: &Run) -> String {
    let mut text = record_line(device) + "\n";
    for exchange in &left.trace {
        let packet = packet_text(&exchange.packet);
        let _ = writeln!(text, "{packet}: {}", answer_text(&exchange.packet, &exchange.answer));
        if let Some(again) = &exchange.again {
            let _ = writeln!(text, "{packet}, again: {}", answer_text(&exchange.packet, again));
        }
    }
    text
}

/// The row that refuses a run before anything is sent: the bundle's, or D1.
fn refused(device: &Device, bundle: &[u8]) -> Option<String> {
    if let Err(Fault { row, entry }) = check(bundle) {
        return Some(format!("refused {row} {entry}"));
    }
    match device.version_reply().refused {
        Some(Refusal::D1) => Some("refused D1".to_string()),
        _ => None,
    }
}

fn packet_text(packet: &Packet) -> String {
    match packet {
        Packet::ForOffer(p) => match p[2] {
            0xFF => format!("information {}", p[0]),
            0xFE => format!("extended {}", p[0]),
            id => format!("offer {id}"),
        },
        Packet::ForContent(p) => format!("content flags {:02x} sequence {}", p[0], p[2] as u16 + 256 * p[3] as u16),
    }
}

fn answer_text(packet: &Packet, answer: &Answer) -> String {
    let bytes = match answer {
        Answer::Refused(row, ..) => return format!("refused {row}"),
        Answer::NoReply => return "no reply".to_string(),
        Answer::Reply(bytes) | Answer::ReplyThenReady(bytes, _) => bytes,
    };
    match packet {
        Packet::ForContent(_) => format!("status {}", bytes[4]),
        Packet::ForOffer(_) => match bytes[12] {
            0 => "SKIP".to_string(),
            1 => "ACCEPT".to_string(),
            2 => format!("REJECT {}", bytes[8]),
            3 => "BUSY".to_string(),
            4 => "READY".to_string(),
            _ => "unsupported".to_string(),
        },
    }
}

fn report(host: &Host) -> String {
    let told = host.report();
    let end = match told.end {
        None => "running".to_string(),
        Some(End::Done) => "done".to_string(),
        Some(End::H1(status)) => format!("H1 status {status}"),
        Some(End::H2) => "H2".to_string(),
        Some(End::H3) => "H3".to_string(),
        Some(End::H4) => "H4".to_string(),
    };
    format!("{end}, packets {}, passes {}, completed {}, mask {:02x}", told.packets, told.passes, told.completed, host.mask)
}
