//! What `cfu inspect --json` prints: one object.
use std::ffi::OsStr;

use cfu_updater::bundle_layout::Entry;
use cfu_updater::words::{name, sentence, Kind};

use crate::bundle::Bundle;
use crate::judge::{Borne, Judged};
use crate::shown;

/// Nothing, where a value may be missing.
const NULL: &str = "null";

/// A text in its quotes.
fn quoted(text: &str) -> String {
    let mut out = String::from('"');
    for letter in text.chars() {
        match letter {
            '"' | '\\' => out.extend(['\\', letter]),
            letter if letter.is_control() => out.push_str(&format!("\\u{:04X}", u32::from(letter))),
            letter => out.push(letter),
        }
    }
    out.push('"');
    out
}

/// The object of a bundle that was read, with its images judged.
pub fn object(file: &OsStr, bundle: &Bundle, judged: &[Judged]) -> String {
    let verdict = match bundle.refusal() {
        None => r#""accepted":true"#.to_string(),
        Some(row) => format!(
            r#""accepted":false,"row":{},"entry":{},"words":{}"#,
            quoted(name(Kind::Call, row.number)),
            row.entry,
            quoted(sentence(Kind::Call, row.number))
        ),
    };
    let offers: Vec<String> = (1..).zip(bundle.entries().iter().zip(judged)).map(|(number, (entry, image))| offer(number, entry, image)).collect();
    format!(r#"{{"file":{},"bytes":{},{verdict},"offers":[{}]}}"#, quoted(&file.to_string_lossy()), bundle.bytes.len(), offers.join(","))
}

/// An offer with its number in the bundle, its body and its image.
fn offer(number: usize, entry: &Entry, judged: &Judged) -> String {
    let o = &entry.offer;
    let need = match o.need {
        0 => NULL.to_string(),
        need => format!(r#"{{"component":{need},"least":{}}}"#, quoted(&shown::least(o.least))),
    };
    format!(
        r#"{{"entry":{number},"component":{},"version":{},"need":{need},"platform":{},"offset":{},"length":{},"records":{},"image":{}}}"#,
        o.id,
        quoted(&shown::version(o.version)),
        o.platform,
        entry.offset,
        entry.length,
        entry.records,
        image(judged)
    )
}

/// A judged image.
fn image(judged: &Judged) -> String {
    let value = |of: fn(&Borne) -> String| judged.borne.as_ref().map_or(NULL.to_string(), of);
    format!(
        r#"{{"verdict":{},"bytes":{},"crc":{},"right":{},"component":{},"version":{}}}"#,
        quoted(judged.verdict.word()),
        judged.end,
        value(|borne| borne.crc.to_string()),
        value(|borne| borne.right.to_string()),
        value(|borne| borne.component.to_string()),
        value(|borne| quoted(&shown::version(borne.version)))
    )
}
