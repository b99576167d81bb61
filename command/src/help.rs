//! What `--help` prints.
use cfu_updater::bundle_layout::limits::OFFER_LIMIT;
use cfu_updater::device_component::setup::{REGION_LEAST, STAGING_LIMIT};
use cfu_updater::wire::codes::{COMPONENT_LIMIT, ID_LIMIT, PROTOCOL, SHORT_SIZE};

use crate::judge::ID_AT;
use crate::shown;
use crate::update::{bench, BENCH_PLATFORM, BENCH_TOKEN};

/// The four statuses, as the end of each help. `no` says what 1 means for a verb.
fn statuses(fine: &str, no: &str) -> String {
    format!(
        "\
Ends with status
  0  {fine}
  1  {no}
  2  the command line is wrong
  3  a file cannot be read or written, or the output was lost
"
    )
}

/// What byte 12 of an offer is.
fn byte_12() -> String {
    format!(
        "\
Byte 12 of an offer. CFU's text has the protocol, {PROTOCOL}, in the low four bits, and so have bundles
and these files: 0x{PROTOCOL:02X}. fwupd (2.0.20) keeps it in the high four bits: its parser shows protocol 0
for 0x{PROTOCOL:02X}, and its builder writes 0x{:02X}. It sends an offer's bytes as the file has them, so that
files for a device keep 0x{PROTOCOL:02X}.
",
        PROTOCOL.rotate_left(4)
    )
}

/// `cfu --help`.
pub fn all() -> String {
    format!(
        "\
usage: cfu VERB ..
Makes, shows, cuts and tries bundles of CFU firmware at the desk.

  cfu inspect FILE                says what a bundle contains, and judges each image by its offer
  cfu make OUT ..                 makes a bundle of offers and images
  cfu split BUNDLE DIR            cuts a bundle into the files of CFU that fwupd has too
  cfu join OUT OFFER PAYLOAD ..   makes a bundle of such files
  cfu update BUNDLE               updates a simulated device, and shows how

  cfu VERB --help                 tells more of a verb, as -h does
  cfu --version                   prints the version

Options may stand anywhere behind the verb, as --name VALUE or --name=VALUE; behind -- everything
is an argument. The file - of inspect, split and update is standard input; no file that is written
may be -. Numbers are decimal, or hexadecimal behind 0x. A version is major.minor.variant.

{}",
        statuses("what was asked is so, or is done", "no: a bundle, an image, a manifest or an offer file is refused, or an offer was not completed")
    )
}

/// `cfu inspect --help`.
pub fn inspect() -> String {
    format!(
        "\
usage: cfu inspect [--json] FILE
Says what a bundle contains, and judges each image as far as that can be done without the device:
its records are laid over bytes 0xFF, then its CRC, its component's id and its version are looked
at. FILE may be -, standard input.

  --json        print one line, a JSON object
  --help, -h    print this

A bad image has one of these faults, by their words in JSON:
  long       its records end past the largest region of {STAGING_LIMIT} bytes
  short      it has under {REGION_LEAST} bytes
  crc        its CRC is wrong
  component  it is another component's
  version    it bears another version than its offer

{}",
        statuses("the bundle is accepted, and every image is good", "the bundle is refused, or an image is bad")
    )
}

/// `cfu make --help`.
pub fn make() -> String {
    format!(
        "\
usage: cfu make [--dry-run] OUT --manifest FILE
       cfu make [--dry-run] [--platform N] [--stamp] [--size BYTES] OUT
                --offer ID:VERSION[:NEED@LEAST]=IMAGE ..
Makes a bundle of up to {OFFER_LIMIT} offers, in the order given, each with the image of its whole region.

  --offer ..         an offer: the component's id (1 to {ID_LIMIT}) and version, the component that it
                     needs with its least version as major.minor, and the file of its image
  --platform N       the platform of each --offer (0)
  --size BYTES       fill a shorter image with 0xFF up to so many bytes, the region's
  --stamp            put version and id into bytes 0 to {ID_AT} of the image, and the CRC of all before
                     them into its last two; these bytes must be free, all 0x00 or all 0xFF,
                     or have what is put there already
  --manifest FILE    take the offers from a file
  --dry-run          do everything but write the file
  --help, -h         print this

The stamp trusts what it is told: it labels a raw image of another component too.

A manifest has lines `key = value`, comments (#), and a line [offer] before each offer. An offer
has component, version and image, and may have need (2@1.2), platform, size and stamp (yes or no);
the last three may stand before the first [offer] too, for every offer. An image is looked for in
the manifest's folder.

{}",
        statuses("the bundle is written, or could be where --dry-run is said", "the manifest, an image or the bundle is refused; nothing is written")
    )
}

/// `cfu split --help`.
pub fn split() -> String {
    format!(
        "\
usage: cfu split [--swap-protocol] BUNDLE DIR
Writes for each offer of a bundle DIR/ID.offer.bin, CFU's {SHORT_SIZE} bytes, and DIR/ID.payload.bin,
records of an address (4 bytes, little-endian), a length (1) and data, as fwupd's cfu-offer and
cfu-payload. DIR is made where it is missing. BUNDLE may be -, standard input.

  --swap-protocol    exchange the two halves of byte 12 of each offer in what is written, for a
                     reader that has fwupd's order
  --help, -h         print this

{}
{}",
        byte_12(),
        statuses("the files are written", "the bundle is refused; nothing is written")
    )
}

/// `cfu join --help`.
pub fn join() -> String {
    format!(
        "\
usage: cfu join [--swap-protocol] OUT OFFER PAYLOAD [OFFER PAYLOAD ..]
Makes a bundle of CFU's own files, in this order, as cfu split writes them: an offer of {SHORT_SIZE} bytes,
and a payload of records of an address (4 bytes, little-endian), a length (1) and data. Images are
not judged: cfu inspect does that.

  --swap-protocol    exchange the two halves of byte 12 of each offer first, for offers that
                     fwupd built
  --help, -h         print this

{}
{}",
        byte_12(),
        statuses("the bundle is written", "an offer file or the bundle is refused; nothing is written")
    )
}

/// `cfu update --help`.
pub fn update() -> String {
    let bench: Vec<String> = bench().iter().map(|c| format!("{}:{}:{}:{}", c.id, shown::version(c.running), c.base, c.length)).collect();
    format!(
        "\
usage: cfu update [options] BUNDLE
Updates a simulated device from a bundle, prints what happened, and resets the device. BUNDLE may
be -, standard input.

  --platform N       the device's platform (0x{BENCH_PLATFORM:04X})
  --component ID:VERSION:BASE:LENGTH[:FLOOR]
                     a component, its running version as major.minor.variant, its region of the
                     staging memory, and its floor, the lowest version that it takes, with
                     variant 0; up to {COMPONENT_LIMIT} times
                     ({})
  --staging BYTES    the device's staging memory (up to the end of the last region)
  --token N          the host's token (0x{BENCH_TOKEN:02X})
  --packets          print each packet and each reply
  --twice            deliver every block that is neither first nor last twice, as some hubs do;
                     the host passes over the second reply to it
  --help, -h         print this

{}",
        bench.join(" and "),
        statuses("every offer of the bundle was completed", "the bundle or the device is refused, or the update did not complete every offer")
    )
}
