//! `cfu make`: makes a bundle of offers and images.
use std::ffi::{OsStr, OsString};

use cfu_updater::bundle_layout::limits::{BUNDLE_LIMIT, OFFER_LIMIT};
use cfu_updater::c_types::numbers::{lettered, ROW_W, SERVED};
use cfu_updater::c_writer::cfu_bundle_write;
use cfu_updater::wire::codes::SHORT_SIZE;
use cfu_updater::wire::version::Version;
use cfu_updater::wire_offer::offer::build_offer;
use cfu_updater::words::{advice, Kind};

use crate::args::{cut_at, missing, Known, Line};
use crate::failure::{text, Failure, Status};
use crate::files;
use crate::judge::borne_by;
use crate::manifest;
use crate::output::Output;
use crate::prepare::{offer_fields, prepare, Planned, Prepared};
use crate::shown;
use crate::values::{self, Need};

/// The options of the verb.
const MANIFEST: &str = "--manifest";
const OFFER: &str = "--offer";
const PLATFORM: &str = "--platform";
const STAMP: &str = "--stamp";
const SIZE: &str = "--size";
const DRY_RUN: &str = "--dry-run";

/// Carries out the words behind the verb.
pub fn run(words: &[OsString], out: &mut Output) -> Result<Status, Failure> {
    let known =
        [Known::Valued(MANIFEST), Known::Valued(OFFER), Known::Valued(PLATFORM), Known::Valued(SIZE), Known::Flag(STAMP), Known::Flag(DRY_RUN)];
    let line = Line::read(words, &known)?;
    let [name] = line.exactly(["OUT"])?;
    files::may_be_written(name)?;
    files::is_not_read(name, line.last(MANIFEST))?;
    let mut plan = plan(&line)?;
    plan.truncate(OFFER_LIMIT + 1); // one more shows that there are too many
    files::is_not_read(name, plan.iter().map(|planned| &planned.path))?;
    let images = prepare(&plan)?;
    let bundle = written(&plan, &images)?;
    let dry = line.has(DRY_RUN);
    if !dry {
        files::write(name, &bundle)?;
    }
    for (entry, (planned, image)) in (1..).zip(plan.iter().zip(&images)) {
        out.line(shown::offer(entry, &planned.offer));
        out.line(image_line(planned, image));
    }
    let kept = if dry { ", not written" } else { "" };
    out.line(text(&[name, &": ", &shown::count(bundle.len(), "byte"), &kept]));
    Ok(Status::Fine)
}

/// The offers to be made, by a manifest or by the command line.
fn plan(line: &Line) -> Result<Vec<Planned>, Failure> {
    let Some(manifest) = line.last(MANIFEST) else {
        return offers(line);
    };
    match [OFFER, PLATFORM, STAMP, SIZE].iter().find(|name| line.has(name)) {
        Some(name) => Err(Failure::Wrong(format!("{name} does not go with {MANIFEST}").into())),
        None => manifest::read(manifest),
    }
}

/// The offers of the command line.
fn offers(line: &Line) -> Result<Vec<Planned>, Failure> {
    let platform = line.value(PLATFORM, "a number up to 0xFFFF", values::word)?.unwrap_or(0);
    let size = line.value(SIZE, "a number up to 0xFFFFFFFF", |value| values::number(value, u32::MAX))?;
    if !line.has(OFFER) {
        return Err(missing(&format!("{OFFER} or {MANIFEST}")));
    }
    let planned = |value| -> Result<Planned, Failure> {
        let wrong = || Failure::Wrong(text(&[&OFFER, &" ", &value, &": not ID:VERSION[:NEED@LEAST]=IMAGE"]));
        let (given, image) = offer(value).ok_or_else(wrong)?;
        Ok(Planned {
            offer: offer_fields(given.id, given.version, given.need, platform),
            image: image.into(),
            path: image.into(),
            size,
            stamp: line.has(STAMP),
        })
    };
    line.all(OFFER).map(planned).collect()
}

/// What the value of `--offer` says of an offer.
struct Given {
    id: u8,
    version: Version,
    need: Option<Need>,
}

/// Reads `ID:VERSION[:NEED@LEAST]=IMAGE`.
fn offer(value: &OsStr) -> Option<(Given, &OsStr)> {
    let (given, image) = cut_at(value, b'=')?;
    let (id, rest) = given.to_str()?.split_once(':')?;
    let (version, need) = match rest.split_once(':') {
        Some((version, need)) => (version, Some(values::need(need)?)),
        None => (rest, None),
    };
    let given = Given { id: values::byte(id)?, version: values::version(version)?, need };
    (!image.is_empty()).then_some((given, image))
}

/// The bundle as the writer writes it, or what it refuses.
fn written(plan: &[Planned], prepared: &[Prepared]) -> Result<Vec<u8>, Failure> {
    let (mut list, mut images) = (Vec::new(), Vec::new());
    for (planned, image) in plan.iter().zip(prepared) {
        // An id that no offer packet can have leaves zeros, which the writer refuses by the same row as any other id that no component has.
        list.extend_from_slice(&build_offer(planned.offer).unwrap_or([0; SHORT_SIZE]));
        list.extend_from_slice(&(images.len() as u32).to_le_bytes());
        list.extend_from_slice(&(image.bytes.len() as u32).to_le_bytes());
        images.extend_from_slice(&image.bytes);
    }
    let mut bundle = vec![0; BUNDLE_LIMIT];
    let answer = cfu_bundle_write(&list, &images, &mut bundle);
    if answer.number != SERVED {
        return Err(refusal(plan, prepared, answer.number, answer.entry));
    }
    bundle.truncate(answer.length as usize);
    Ok(bundle)
}

/// What is said where the writer refuses: the row, what the image bears where the row judges that, and what to do.
fn refusal(plan: &[Planned], prepared: &[Prepared], number: u32, entry: u32) -> Failure {
    let mut lines = vec![format!("refused {}", shown::row(number, entry)).into()];
    if [5, 6].map(|row| lettered(ROW_W, row)).contains(&number) {
        let its = plan.iter().zip(prepared).nth((entry as usize).saturating_sub(1));
        lines.extend(its.and_then(|(planned, image)| bears_line(planned, image)));
    }
    lines.push(format!("what to do: {}", advice(Kind::Call, number)).into());
    Failure::Refused(lines)
}

/// What an image bears.
fn bears_line(planned: &Planned, image: &Prepared) -> Option<OsString> {
    let borne = borne_by(&image.bytes)?;
    let (component, version) = (borne.component, shown::version(borne.version));
    let words = format!(" bears component {component}, version {version}, CRC 0x{:04X} where its bytes give 0x{:04X}", borne.crc, borne.right);
    Some(text(&[&planned.path, &words]))
}

/// The line of an image that the writer took.
fn image_line(planned: &Planned, image: &Prepared) -> OsString {
    let stamped = if image.stamped { ", stamped" } else { "" };
    let crc = borne_by(&image.bytes).map_or(0, |borne| borne.crc);
    text(&[&"  image: ", &planned.image, &", ", &shown::count(image.bytes.len(), "byte"), &stamped, &format!(", CRC 0x{crc:04X}")])
}
