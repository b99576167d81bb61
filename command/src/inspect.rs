//! `cfu inspect`: says what a bundle contains, and judges each image against its offer.
use std::ffi::{OsStr, OsString};

use cfu_updater::bundle_layout::Entry;
use cfu_updater::device_component::setup::{REGION_LEAST, STAGING_LIMIT};

use crate::args::{Known, Line};
use crate::bundle::Bundle;
use crate::failure::{text, Failure, Status};
use crate::files::called;
use crate::json;
use crate::judge::{judge, Borne, Judged, Verdict};
use crate::output::Output;
use crate::shown;

/// The option of the verb.
const JSON: &str = "--json";

/// Carries out the words behind the verb.
pub fn run(words: &[OsString], out: &mut Output) -> Result<Status, Failure> {
    let line = Line::read(words, &[Known::Flag(JSON)])?;
    let [name] = line.exactly(["FILE"])?;
    let bundle = Bundle::read(name)?;
    let judged: Vec<Judged> = bundle.entries().iter().map(|entry| judge(entry, bundle.body(entry))).collect();
    if line.has(JSON) {
        out.line(json::object(name, &bundle, &judged));
    } else {
        show(out, called(name), &bundle, &judged);
    }
    let fine = bundle.refusal().is_none() && bad_in(&judged) == 0;
    Ok(if fine { Status::Fine } else { Status::No })
}

/// How many images are bad.
fn bad_in(judged: &[Judged]) -> usize {
    judged.iter().filter(|image| image.verdict != Verdict::Good).count()
}

/// The lines for people.
fn show(out: &mut Output, name: &OsStr, bundle: &Bundle, judged: &[Judged]) {
    if let Some(row) = bundle.refusal() {
        out.line(text(&[&name, &": ", &out.red("refused"), &" ", &shown::row(row.number, row.entry)]));
        return;
    }
    let entries = bundle.entries();
    out.line(text(&[&name, &": ", &shown::count(bundle.bytes.len(), "byte"), &", ", &shown::count(entries.len(), "offer")]));
    for (number, (entry, image)) in (1..).zip(entries.iter().zip(judged)) {
        out.line(shown::offer(number, &entry.offer));
        out.line(image_line(out, entry, image));
    }
    let bad = bad_in(judged);
    if bad > 0 {
        out.line(format!("{bad} of {} images {} {}", judged.len(), if bad == 1 { "is" } else { "are" }, out.red("bad")));
    }
}

/// What is wrong with an image, in the words of its line.
fn fault(verdict: Verdict, end: u64, borne: Option<&Borne>) -> String {
    match (verdict, borne) {
        (Verdict::Long, _) => format!("its records end at {end}, past the largest region of {STAGING_LIMIT} bytes"),
        (Verdict::Short, _) => format!("under {REGION_LEAST} bytes"),
        (Verdict::Crc, Some(borne)) => format!("its CRC is 0x{:04X} where its bytes give 0x{:04X}", borne.crc, borne.right),
        (Verdict::Component, Some(borne)) => format!("it is component {}'s", borne.component),
        (Verdict::Version, Some(borne)) => format!("it bears version {}", shown::version(borne.version)),
        (Verdict::Good, _) | (_, None) => String::new(), // nothing is wrong, or there is no region, which is told above
    }
}

/// The line of an image.
fn image_line(out: &Output, entry: &Entry, image: &Judged) -> String {
    let said = match image.verdict {
        Verdict::Good => out.green("good"),
        verdict => format!("{}, {}", out.red("bad"), fault(verdict, image.end, image.borne.as_ref())),
    };
    let size = match image.verdict {
        Verdict::Long => String::new(),
        _ => format!(", {}", shown::count(image.end as usize, "byte")),
    };
    format!("  image: {said}{size}, {}", shown::count(entry.records as usize, "record"))
}
