//! Runs a script of frames (tests/device/README.md) from standard input against the
//! device and prints what each frame gives.
#![forbid(unsafe_code)]

use std::io::{Read, Write};

use second::device::{set_up, Answer, Device, Listed};
use second::packets::MOST;
use second::script::{hex, next_frame, read_listed, read_record, record_line, Numbers};

const BUFFER: usize = 65_600;

/// What the runner keeps.
struct Bench {
    device: Device,
    buffer: Vec<u8>,
}

fn main() -> std::io::Result<()> {
    let mut script = Vec::new();
    std::io::stdin().read_to_end(&mut script)?;
    let mut bench = Bench { device: Device::default(), buffer: vec![0; BUFFER] };
    let mut out = Vec::new();
    let mut rest = &script[..];
    while let Some((kind, payload, after)) = next_frame(rest) {
        out.extend(bench.frame(kind, payload));
        rest = after;
    }
    std::io::stdout().write_all(&out)
}

/// How many bytes are lent, and what is asked.
fn lent(payload: &[u8]) -> (usize, Numbers<'_>) {
    let mut numbers = Numbers { rest: payload };
    (numbers.four() as usize, numbers)
}

impl Bench {
    /// One frame: what is done, and what is printed.
    fn frame(&mut self, kind: u8, payload: &[u8]) -> Vec<u8> {
        let line = match kind {
            b'#' => return payload.to_vec(),
            b'S' => self.set_up(payload),
            b'V' => self.version_reply(),
            b'O' => self.offer(payload),
            b'C' => self.content(payload),
            b'R' => self.reset(),
            b'D' => record_line(&self.device),
            b'B' => self.staging_line(payload),
            b'K' => {
                self.device = read_record(&mut Numbers { rest: payload });
                return Vec::new();
            }
            b'F' => {
                self.buffer.fill(payload[0]);
                return Vec::new();
            }
            _ => panic!("a frame of no kind"),
        };
        (line + "\n").into_bytes()
    }

    fn set_up(&mut self, payload: &[u8]) -> String {
        let (lent, mut numbers) = lent(payload);
        let platform = numbers.two();
        let count = numbers.one();
        let mut list = [Listed::default(); MOST];
        for listed in list.iter_mut() {
            *listed = read_listed(&mut numbers);
        }
        let made = set_up(platform, &list, count, &self.buffer[..lent]);
        self.device = made.value;
        match made.refused {
            None => "set-up: served".to_string(),
            Some(row) => format!("set-up: refused {row}"),
        }
    }

    fn version_reply(&mut self) -> String {
        let reply = self.device.version_reply();
        match reply.refused {
            None => format!("version reply: {}", hex(&reply.value)),
            Some(row) => format!("version reply: refused {row}, {}", hex(&reply.value)),
        }
    }

    fn offer(&mut self, payload: &[u8]) -> String {
        let (lent, Numbers { rest: report }) = lent(payload);
        let (next, answer) = self.device.offer(&self.buffer[..lent], report);
        self.device = next;
        format!("offer {}: {}", hex(report), answer_text(&answer))
    }

    fn content(&mut self, payload: &[u8]) -> String {
        let (lent, Numbers { rest: report }) = lent(payload);
        let (next, answer) = self.device.content(&mut self.buffer[..lent], report);
        self.device = next;
        format!("content {}: {}", hex(report), answer_text(&answer))
    }

    fn reset(&mut self) -> String {
        let done = self.device.reset();
        self.device = done.value;
        match done.refused {
            None => "reset: served".to_string(),
            Some(row) => format!("reset: refused {row}"),
        }
    }

    fn staging_line(&self, payload: &[u8]) -> String {
        let mut numbers = Numbers { rest: payload };
        let start = numbers.four() as usize;
        let count = numbers.one() as usize;
        hex(&self.buffer[start..start + count])
    }
}

fn answer_text(answer: &Answer) -> String {
    match answer {
        Answer::Refused(row, bytes) => format!("refused {row}, {}", hex(bytes)),
        Answer::NoReply => "no reply".to_string(),
        Answer::Reply(bytes) => format!("reply {}", hex(bytes)),
        Answer::ReplyThenReady(bytes, ready) => {
            format!("reply {}, then {}", hex(bytes), hex(ready))
        }
    }
}
