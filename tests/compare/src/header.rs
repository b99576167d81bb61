//! include/cfu.h in Rust: the structs that cross by value, and the functions of the library. Its numbers stand in layout.rs.

#[repr(C)]
#[derive(Clone, Copy, Debug, Default, PartialEq, Eq)]
pub struct Version {
    pub major: u8,
    pub minor: u16,
    pub variant: u8,
}

impl Version {
    /// The three parts of a version's number.
    pub fn of(number: u32) -> Version {
        let [variant, low, high, major] = number.to_le_bytes();
        Version { major, minor: u16::from_le_bytes([low, high]), variant }
    }
}

#[repr(C)]
#[derive(Clone, Copy, Debug, Default, PartialEq, Eq)]
pub struct Offer {
    pub segment: u8,
    pub force_immediate_reset: u8,
    pub force_ignore_version: u8,
    pub id: u8,
    pub token: u8,
    pub version: Version,
    pub need: u8,
    pub least: u32,
    pub protocol: u8,
    pub platform: u16,
}

#[repr(C)]
#[derive(Clone, Copy, Debug, Default, PartialEq, Eq)]
pub struct Signal {
    pub code: u8,
    pub token: u8,
}

#[repr(C)]
#[derive(Clone, Copy, Debug, Default, PartialEq, Eq)]
pub struct OfferPacket {
    pub number: u32,
    pub kind: u32,
    pub offer: Offer,
    pub signal: Signal,
}

#[repr(C)]
#[derive(Clone, Copy, Debug, Default, PartialEq, Eq)]
pub struct OfferReply {
    pub number: u32,
    pub token: u8,
    pub reason: u8,
    pub status: u8,
}

#[repr(C)]
#[derive(Clone, Copy, Debug, Default, PartialEq, Eq)]
pub struct Content {
    pub number: u32,
    pub flags: u8,
    pub length: u8,
    pub sequence: u16,
    pub address: u32,
}

#[repr(C)]
#[derive(Clone, Copy, Debug, Default, PartialEq, Eq)]
pub struct ContentReply {
    pub number: u32,
    pub sequence: u16,
    pub status: u8,
}

#[repr(C)]
#[derive(Clone, Copy, Debug, Default, PartialEq, Eq)]
pub struct VersionReply {
    pub number: u32,
    pub count: u8,
    pub protocol: u8,
}

#[repr(C)]
#[derive(Clone, Copy, Debug, Default, PartialEq, Eq)]
pub struct Replies {
    pub number: u32,
    pub count: u32,
}

#[repr(C)]
#[derive(Clone, Copy, Debug, Default, PartialEq, Eq)]
pub struct Check {
    pub number: u32,
    pub entry: u32,
    pub count: u32,
}

#[repr(C)]
#[derive(Clone, Copy, Debug, Default, PartialEq, Eq)]
pub struct Written {
    pub number: u32,
    pub entry: u32,
    pub length: u32,
}

#[repr(C)]
#[derive(Clone, Copy, Debug, Default, PartialEq, Eq)]
pub struct Step {
    pub number: u32,
    pub entry: u32,
    pub length: u32,
}

#[repr(C)]
#[derive(Clone, Copy, Debug, Default, PartialEq, Eq)]
pub struct Report {
    pub number: u32,
    pub completed: u32,
    pub mask: u32,
    pub packets: u32,
    pub passes: u32,
    pub ending: u32,
    pub status: u32,
}

#[repr(C)]
#[derive(Clone, Copy, Debug, Default, PartialEq, Eq)]
pub struct Listed {
    pub id: u8,
    pub running: Version,
    pub base: u32,
    pub length: u32,
    pub floor: Version,
}

/// A component of a device, as a call tells it.
#[repr(C)]
#[derive(Clone, Copy, Debug, Default, PartialEq, Eq)]
pub struct ToldComponent {
    pub number: u32,
    pub id: u8,
    pub running: Version,
    pub base: u32,
    pub length: u32,
    pub floor: Version,
    pub pending: u8,
    pub staged: Version,
}

/// An entry of a checked bundle, as a call tells it.
#[repr(C)]
#[derive(Clone, Copy, Debug, Default, PartialEq, Eq)]
pub struct ToldEntry {
    pub number: u32,
    pub entry: u32,
    pub offset: u32,
    pub length: u32,
    pub records: u32,
}

extern "C" {
    pub fn cfu_list_put(list: *mut u8, list_len: usize, place: u32, component: Listed) -> u32;
    pub fn cfu_device_set_up(
        device: *mut u8,
        device_len: usize,
        platform: u16,
        list: *const u8,
        list_len: usize,
        count: u8,
        staging: *const u8,
        staging_len: usize,
    ) -> u32;
    pub fn cfu_device_component(device: *const u8, device_len: usize, place: u32) -> ToldComponent;
    pub fn cfu_device_version_reply(device: *const u8, device_len: usize, packet: *mut u8, packet_len: usize) -> u32;
    pub fn cfu_device_offer(
        device: *mut u8,
        device_len: usize,
        staging: *const u8,
        staging_len: usize,
        report: *const u8,
        report_len: usize,
        replies: *mut u8,
        replies_len: usize,
    ) -> Replies;
    pub fn cfu_device_content(
        device: *mut u8,
        device_len: usize,
        staging: *mut u8,
        staging_len: usize,
        report: *const u8,
        report_len: usize,
        replies: *mut u8,
        replies_len: usize,
    ) -> Replies;
    pub fn cfu_device_reset(device: *mut u8, device_len: usize) -> u32;
    pub fn cfu_bundle_check(bundle: *const u8, bundle_len: usize, contents: *mut u8, contents_len: usize) -> Check;
    pub fn cfu_contents_entry(contents: *const u8, contents_len: usize, place: u32) -> ToldEntry;
    pub fn cfu_bundle_write(list: *const u8, list_len: usize, images: *const u8, images_len: usize, out: *mut u8, out_len: usize) -> Written;
    pub fn cfu_host_fresh(host: *mut u8, host_len: usize, token: u8) -> u32;
    pub fn cfu_host_step(
        host: *mut u8,
        host_len: usize,
        bundle: *const u8,
        bundle_len: usize,
        reply: *const u8,
        reply_len: usize,
        packet: *mut u8,
        packet_len: usize,
    ) -> Step;
    pub fn cfu_host_step_checked(
        host: *mut u8,
        host_len: usize,
        contents: *mut u8,
        contents_len: usize,
        bundle: *const u8,
        bundle_len: usize,
        reply: *const u8,
        reply_len: usize,
        packet: *mut u8,
        packet_len: usize,
    ) -> Step;
    pub fn cfu_host_report(host: *const u8, host_len: usize) -> Report;
    pub fn cfu_build_version_reply(count: u8, protocol: u8, components: *const u8, components_len: usize, packet: *mut u8, packet_len: usize) -> u32;
    pub fn cfu_build_offer(offer: Offer, packet: *mut u8, packet_len: usize) -> u32;
    pub fn cfu_build_information(code: u8, token: u8, packet: *mut u8, packet_len: usize) -> u32;
    pub fn cfu_build_extended(code: u8, token: u8, packet: *mut u8, packet_len: usize) -> u32;
    pub fn cfu_build_offer_reply(token: u8, reason: u8, status: u8, packet: *mut u8, packet_len: usize) -> u32;
    pub fn cfu_build_content(
        flags: u8,
        length: u8,
        sequence: u16,
        address: u32,
        bytes: *const u8,
        bytes_len: usize,
        packet: *mut u8,
        packet_len: usize,
    ) -> u32;
    pub fn cfu_build_content_reply(sequence: u16, status: u8, packet: *mut u8, packet_len: usize) -> u32;
    pub fn cfu_read_version_reply(packet: *const u8, packet_len: usize, components: *mut u8, components_len: usize) -> VersionReply;
    pub fn cfu_read_offer(packet: *const u8, packet_len: usize) -> OfferPacket;
    pub fn cfu_read_offer_reply(packet: *const u8, packet_len: usize) -> OfferReply;
    pub fn cfu_read_content(packet: *const u8, packet_len: usize, bytes: *mut u8, bytes_len: usize) -> Content;
    pub fn cfu_read_content_reply(packet: *const u8, packet_len: usize) -> ContentReply;
}
