//! `cfu update`: updates a simulated device from a bundle, and shows how.
use std::ffi::{OsStr, OsString};

use cfu_updater::c_types::numbers::{lettered, DONE, ROW_H};
use cfu_updater::c_types::types::CReport;
use cfu_updater::device_component::setup::STAGING_LIMIT;
use cfu_updater::wire::codes::COMPONENT_LIMIT;
use cfu_updater::wire::version::Version;
use cfu_updater::words::{name, sentence, Kind};

use crate::args::{read_value, Known, Line};
use crate::bundle::Bundle;
use crate::bus::Bus;
use crate::device::{Device, Listed, Refused};
use crate::failure::{text, Failure, Status};
use crate::files::called;
use crate::output::Output;
use crate::session;
use crate::shown;
use crate::values;

/// The options of the verb.
const PLATFORM: &str = "--platform";
const COMPONENT: &str = "--component";
const STAGING: &str = "--staging";
const TOKEN: &str = "--token";
const PACKETS: &str = "--packets";
const TWICE: &str = "--twice";

/// The platform and the token where none is given.
pub const BENCH_PLATFORM: u16 = 0x0042;
pub const BENCH_TOKEN: u8 = 0xA5;

/// The most that `--staging` takes, which is over what a device can have.
const STAGING_MOST: u32 = 0xFF_FFFF;

/// What the command line says of the device, of the host and of the bus between them.
struct Options {
    platform: u16,
    components: Vec<Listed>,
    staging: usize,
    token: u8,
    packets: bool,
    twice: bool,
}

/// Carries out the words behind the verb.
pub fn run(words: &[OsString], out: &mut Output) -> Result<Status, Failure> {
    let known =
        [Known::Valued(PLATFORM), Known::Valued(COMPONENT), Known::Valued(STAGING), Known::Valued(TOKEN), Known::Flag(PACKETS), Known::Flag(TWICE)];
    let line = Line::read(words, &known)?;
    let options = options(&line)?;
    let [name] = line.exactly(["BUNDLE"])?;
    let bundle = Bundle::read(name)?;
    if let Some(row) = bundle.refusal() {
        return Ok(refused(out, row.number, row.entry));
    }
    show_bundle(out, called(name), &bundle);
    Ok(simulate(out, &bundle, &options).unwrap_or_else(|number| refused(out, number, 0)))
}

/// Prints the row that refuses the bundle, the device or a call.
fn refused(out: &mut Output, number: u32, entry: u32) -> Status {
    out.line(format!("{} {}", out.red("refused"), shown::row(number, entry)));
    Status::No
}

/// Reads the options.
fn options(line: &Line) -> Result<Options, Failure> {
    let mut components = Vec::new();
    for value in line.all(COMPONENT) {
        if components.len() == COMPONENT_LIMIT {
            return Err(Failure::Wrong(format!("more than {COMPONENT_LIMIT} components").into()));
        }
        components.push(read_value(COMPONENT, value, "ID:VERSION:BASE:LENGTH[:FLOOR]", component)?);
    }
    if components.is_empty() {
        components = bench();
    }
    let staging = line.value(STAGING, &format!("a number up to 0x{STAGING_MOST:X}"), |value| values::number(value, STAGING_MOST))?;
    Ok(Options {
        platform: line.value(PLATFORM, "a number up to 0xFFFF", values::word)?.unwrap_or(BENCH_PLATFORM),
        staging: staging.unwrap_or_else(|| needed_staging(&components)) as usize,
        components,
        token: line.value(TOKEN, "a number up to 0xFF", values::byte)?.unwrap_or(BENCH_TOKEN),
        packets: line.has(PACKETS),
        twice: line.has(TWICE),
    })
}

/// Reads `ID:VERSION:BASE:LENGTH[:FLOOR]`.
fn component(text: &str) -> Option<Listed> {
    let parts: Vec<&str> = text.split(':').collect();
    let (&[id, version, base, length], rest) = parts.split_first_chunk()?;
    let floor = match rest {
        [] => Version::new(0, 0, 0),
        [floor] => values::version(floor)?,
        _ => return None,
    };
    let number = |text| values::number(text, u32::MAX);
    Some(Listed { id: values::byte(id)?, running: values::version(version)?, base: number(base)?, length: number(length)?, floor })
}

/// The components of the bench device, which have no floors.
pub fn bench() -> Vec<Listed> {
    let floor = Version::new(0, 0, 0);
    vec![
        Listed { id: 1, running: Version::new(1, 2, 0), base: 0, length: 64, floor },
        Listed { id: 2, running: Version::new(1, 1, 0), base: 64, length: 64, floor },
    ]
}

/// Staging memory up to the end of the last region, as far as a device can have it.
fn needed_staging(components: &[Listed]) -> u32 {
    let end = components.iter().map(|component| component.base.saturating_add(component.length)).max().unwrap_or(0);
    end.min(STAGING_LIMIT)
}

/// What the bundle contains.
fn show_bundle(out: &mut Output, name: &OsStr, bundle: &Bundle) {
    let entries = bundle.entries();
    out.line(text(&[&"bundle ", &name, &format!(": bytes {}, offers {}", bundle.bytes.len(), entries.len())]));
    for (number, entry) in (1..).zip(entries) {
        let o = &entry.offer;
        let need = if o.need == 0 { String::new() } else { format!(", needs component {} at {}", o.need, shown::least(o.least)) };
        let version = shown::version(o.version);
        out.line(format!("  offer {number}: component {} to {version}{need}, platform 0x{:04X}, records {}", o.id, o.platform, entry.records));
    }
}

/// Sets the device up, updates it and resets it, or gives the row that refuses a call.
fn simulate(out: &mut Output, bundle: &Bundle, options: &Options) -> Result<Status, Refused> {
    let mut device = Device::set_up(options.platform, &options.components, options.staging)?;
    out.line(format!("device: platform 0x{:04X}, staging {}", options.platform, options.staging));
    device.show(out)?;
    let report = session::update(&mut Bus::new(&mut device, options.twice), bundle, options.token, options.packets, out)?;
    show_report(out, bundle, &report);
    out.line("device:");
    device.show(out)?;
    device.reset()?;
    out.line("device after the reset:");
    device.show(out)?;
    let fine = report.ending == DONE && is_complete(bundle, &report);
    Ok(if fine { Status::Fine } else { Status::No })
}

/// Every offer of the bundle was completed.
fn is_complete(bundle: &Bundle, report: &CReport) -> bool {
    report.completed as usize == bundle.entries().len()
}

/// How the host ended.
fn show_report(out: &mut Output, bundle: &Bundle, report: &CReport) {
    let painted = |out: &Output, word| if is_complete(bundle, report) { out.green(word) } else { out.red(word) };
    if report.ending == DONE {
        out.line(painted(out, "done"));
    } else {
        // Of the rows that end a host only H1 has the status of a block.
        let status = if report.ending == lettered(ROW_H, 1) {
            format!(" with status 0x{:02X}: {}", report.status, sentence(Kind::ContentStatus, report.status))
        } else {
            String::new()
        };
        out.line(format!("{} {}: {}{status}", out.red("ended"), name(Kind::Ending, report.ending), sentence(Kind::Ending, report.ending)));
    }
    let completed = format!("{} {} of {}", painted(out, "completed"), report.completed, bundle.entries().len());
    out.line(format!("report: {completed}, packets {}, passes {}", report.packets, report.passes));
}
