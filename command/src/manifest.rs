//! A manifest of `cfu make`: a text file that names the offers of a bundle and their images.
use std::ffi::OsStr;
use std::path::Path;

use cfu_updater::wire::version::Version;

use crate::failure::{text, Failure};
use crate::files;
use crate::prepare::{offer_fields, Planned};
use crate::values::{self, Need};

/// The most bytes of a manifest.
const LIMIT: usize = 65_536;

/// The line that starts an offer.
const OFFER: &str = "[offer]";

/// What is wrong with a manifest: the line, from 1, and words.
struct Wrong {
    line: usize,
    words: String,
}

/// What may stand in an offer and, where it has none of its own, before the first one.
#[derive(Default)]
struct Shared {
    platform: Option<u16>,
    size: Option<u32>,
    stamp: Option<bool>,
}

/// What stands in an offer, and the line where it starts.
#[derive(Default)]
struct Section {
    line: usize,
    component: Option<u8>,
    version: Option<Version>,
    need: Option<Need>,
    image: Option<String>,
    shared: Shared,
}

/// Reads a manifest.
pub fn read(name: &OsStr) -> Result<Vec<Planned>, Failure> {
    let bytes = files::read(name, LIMIT)?;
    let folder = Path::new(name).parent().unwrap_or(Path::new(""));
    parse(&bytes, folder).map_err(|wrong| Failure::refused(text(&[&name, &format!(":{}: {}", wrong.line, wrong.words)])))
}

/// The offers of a manifest, with images in its folder.
fn parse(bytes: &[u8], folder: &Path) -> Result<Vec<Planned>, Wrong> {
    let (mut before, mut sections) = (Shared::default(), Vec::<Section>::new());
    for (number, line) in (1..).zip(text_of(bytes)?.lines()) {
        let line = line.trim();
        if line.is_empty() || line.starts_with('#') {
            continue;
        }
        if line == OFFER {
            sections.push(Section { line: number, ..Section::default() });
            continue;
        }
        let pair = line.split_once('=').map(|(key, value)| (key.trim(), value.trim())).filter(|(key, _)| !key.is_empty());
        let taken = match (pair, sections.last_mut()) {
            (None, _) => Err(format!("neither a comment nor {OFFER} nor key = value")),
            (Some((key, value)), Some(section)) => section.take(key, value),
            (Some((key, value)), None) => before.take(key, value),
        };
        taken.map_err(|words| Wrong { line: number, words })?;
    }
    sections.into_iter().map(|section| section.planned(&before, folder)).collect()
}

/// What a manifest may begin with: the byte order mark.
const BYTE_ORDER_MARK: char = '\u{FEFF}';

/// The text of a manifest.
fn text_of(bytes: &[u8]) -> Result<&str, Wrong> {
    let line_at = |place: usize| 1 + bytes[..place].iter().filter(|byte| **byte == b'\n').count();
    if bytes.len() > LIMIT {
        return Err(Wrong { line: line_at(LIMIT), words: format!("a manifest has at most {LIMIT} bytes") });
    }
    let text = std::str::from_utf8(bytes).map_err(|error| Wrong { line: line_at(error.valid_up_to()), words: "a manifest is UTF-8".into() })?;
    Ok(text.strip_prefix(BYTE_ORDER_MARK).unwrap_or(text))
}

/// Puts a value where none stands yet.
fn put<T>(place: &mut Option<T>, key: &str, value: Option<T>, must: &str) -> Result<(), String> {
    if place.is_some() {
        return Err(format!("{key} stands twice"));
    }
    *place = Some(value.ok_or_else(|| format!("{key} is not {must}"))?);
    Ok(())
}

/// `yes` or `no`.
fn answer(value: &str) -> Option<bool> {
    match value {
        "yes" => Some(true),
        "no" => Some(false),
        _ => None,
    }
}

impl Shared {
    /// Takes a line before the first offer, or one of an offer that may stand there too.
    fn take(&mut self, key: &str, value: &str) -> Result<(), String> {
        match key {
            "platform" => put(&mut self.platform, key, values::word(value), "a number up to 0xFFFF"),
            "size" => put(&mut self.size, key, values::number(value, u32::MAX), "a number up to 0xFFFFFFFF"),
            "stamp" => put(&mut self.stamp, key, answer(value), "yes or no"),
            "component" | "version" | "need" | "image" => Err(format!("{key} stands before the first {OFFER}")),
            _ => Err(format!("{key}: no such key")),
        }
    }
}

impl Section {
    /// Takes a line of an offer.
    fn take(&mut self, key: &str, value: &str) -> Result<(), String> {
        match key {
            "component" => put(&mut self.component, key, values::byte(value), "a number up to 255"),
            "version" => put(&mut self.version, key, values::version(value), "major.minor.variant, up to 255.65535.255"),
            "need" => put(&mut self.need, key, values::need(value), "component@major.minor"),
            "image" => put(&mut self.image, key, (!value.is_empty()).then(|| value.to_string()), "a file"),
            _ => self.shared.take(key, value),
        }
    }

    /// The offer to be made, where nothing is lacking.
    fn planned(self, before: &Shared, folder: &Path) -> Result<Planned, Wrong> {
        let lacking = |key: &str| Wrong { line: self.line, words: format!("the offer lacks {key}") };
        let component = self.component.ok_or_else(|| lacking("component"))?;
        let version = self.version.ok_or_else(|| lacking("version"))?;
        let image = self.image.as_ref().ok_or_else(|| lacking("image"))?;
        let platform = self.shared.platform.or(before.platform).unwrap_or(0);
        Ok(Planned {
            offer: offer_fields(component, version, self.need, platform),
            image: image.into(),
            path: folder.join(image),
            size: self.shared.size.or(before.size),
            stamp: self.shared.stamp.or(before.stamp).unwrap_or(false),
        })
    }
}
