//! Demand 3 (document 00, question 3; document 01, "The host") by brute force: the sets of offers are all tried, and nothing here is taken from an
//! implementation.

use crate::bundles::Entry;
use crate::layout::*;
use crate::random::Random;

/// An image with a right CRC; its free bytes are random, some runs of them 0xFF.
pub fn image(r: &mut Random, length: usize, version: u32, id: u8) -> Vec<u8> {
    let mut out = r.bytes(length);
    if r.percent(40) {
        let start = r.below(length);
        let end = (start + r.below(length)).min(length);
        out[start..end].fill(0xFF);
    }
    make_image(&mut out, version, id);
    out
}

/// The records in order over 0xFF, where all lie inside the region.
pub fn written(length: usize, records: &[(u32, Vec<u8>)]) -> Option<Vec<u8>> {
    let mut out = vec![0xFF; length];
    for (address, data) in records {
        let start = *address as usize;
        out.get_mut(start..start + data.len())?.copy_from_slice(data);
    }
    Some(out)
}

pub fn component_of(device: &DeviceRecord, id: u8) -> Option<&Component> {
    device.listed().iter().find(|component| component.id == id)
}

fn version_of(entry: &Entry) -> u32 {
    four(&entry.offer[offer_at::VERSION..])
}

/// The body is good for the component: inside its region, and an image with a right CRC, that id and the offered version.
pub fn is_good(component: &Component, entry: &Entry) -> bool {
    let Some(image) = written(component.length as usize, &entry.records) else { return false };
    let (body, held) = image.split_at(image.len() - CRC_SIZE);
    crc(body).to_be_bytes() == held && image[image_at::ID] == component.id && four(&image[image_at::VERSION..]) == version_of(entry)
}

/// Offer checks 2 to 7, that of the variant and that of the floor among them, pass against the device after code 0.
pub fn is_eligible(device: &DeviceRecord, entry: &Entry) -> bool {
    let offer = &entry.offer;
    match component_of(device, offer[offer_at::ID]) {
        None => false,
        Some(component) => {
            offer[offer_at::PROTOCOL] & 0x0F == PROTOCOL
                && two(&offer[offer_at::PLATFORM..]) == device.platform
                && offer[offer_at::SEGMENT] == 0
                && component.staged.is_none()
                && version_of(entry) % 256 == component.running % 256
                && version_of(entry) / 256 > component.running / 256
                && version_of(entry) / 256 >= component.floor / 256
        }
    }
}

/// The need is none, or met by an effective version.
fn is_met(device: &DeviceRecord, entry: &Entry) -> bool {
    let (need, least) = need_of(entry);
    need == 0 || component_of(device, need).is_some_and(|component| component.staged.unwrap_or(component.running) / 256 >= least)
}

fn need_of(entry: &Entry) -> (u8, u32) {
    (entry.offer[offer_at::NEED], number(&entry.offer[offer_at::LEAST..][..3]) as u32)
}

/// The set (bit i for entry i) holds every offer that passes checks 2 to 7 and whose need is none, met, or met by another member's offered version.
pub fn is_closed(device: &DeviceRecord, entries: &[Entry], set: usize) -> bool {
    let holds = |place: usize| set >> place & 1 == 1;
    (0..entries.len()).filter(|place| !holds(*place)).all(|place| {
        let entry = &entries[place];
        let (need, least) = need_of(entry);
        let fed = (0..entries.len())
            .any(|other| other != place && holds(other) && entries[other].offer[offer_at::ID] == need && version_of(&entries[other]) / 256 >= least);
        !(is_eligible(device, entry) && (is_met(device, entry) || fed))
    })
}

/// The closed set that every closed set contains.
pub fn smallest(device: &DeviceRecord, entries: &[Entry]) -> Option<usize> {
    let closed: Vec<usize> = (0..1 << entries.len()).filter(|set| is_closed(device, entries, *set)).collect();
    closed.iter().copied().find(|set| closed.iter().all(|other| other & set == *set))
}

/// What a whole run showed.
pub struct Shown<'a> {
    pub before: &'a DeviceRecord,
    pub staging_before: &'a [u8],
    pub entries: &'a [Entry],
    pub packets: &'a [Vec<u8>],
    pub replies: &'a [Vec<u8>],
    pub host: HostRecord,
    pub after: DeviceRecord,
    pub staging_after: &'a [u8],
}

/// The premise: the body of every offer that passes checks 2 to 7 is good.
pub fn premise(device: &DeviceRecord, entries: &[Entry]) -> bool {
    entries.iter().all(|entry| match component_of(device, entry.offer[offer_at::ID]) {
        Some(component) if is_eligible(device, entry) => is_good(component, entry),
        _ => true,
    })
}

/// Demand 3 of one run; the set that was staged, or what is wrong.
pub fn check(shown: &Shown) -> Result<usize, String> {
    let Shown { before, entries, packets, replies, host, .. } = shown;
    let n = entries.len();
    let records: usize = entries.iter().map(|entry| entry.records.len()).sum();
    let wrong = |what: &str| Err(format!("demand 3: {what}"));
    // Done, by the packets and by the report.
    if host.stage != (Stage::Ended { end: 0, status: 0 }) {
        return wrong("the host is not done");
    }
    let opens =
        |packet: &&Vec<u8>| packet.len() == SHORT_SIZE && packet[signal_at::KIND] == INFORMATION && packet[signal_at::CODE] == INFO_START_OFFER_LIST;
    let passes = packets.iter().filter(opens).count();
    if passes > n || packets.len() > 1 + n * (n + 2) + records {
        return wrong("more passes or packets than allowed");
    }
    if host.passes as usize != passes || host.packets as usize != packets.len() {
        return wrong("the report counts otherwise than the packets");
    }
    // Staged in this run: a last block with status 0; its entry is that of the offer before it.
    let mut staged = 0;
    let mut offered = 0;
    for (packet, reply) in packets.iter().zip(*replies) {
        if packet.len() == SHORT_SIZE && packet[offer_at::ID] < EXTENDED {
            offered = entries.iter().position(|entry| entry.offer[offer_at::ID] == packet[offer_at::ID]).unwrap_or(0);
        }
        let last = packet.len() == LONG_SIZE && packet[content_at::FLAGS] & FLAG_LAST_BLOCK != 0;
        if last && reply.get(content_reply_at::STATUS) == Some(&SUCCESS) {
            staged |= 1 << offered;
        }
    }
    if host.mask as usize != staged {
        return wrong("the mask is not what the packets staged");
    }
    match smallest(before, entries) {
        Some(set) if set == staged => {}
        Some(set) => return wrong(&format!("staged {staged:b}, the smallest closed set is {set:b}")),
        None => return wrong("there is no smallest closed set"),
    }
    // Each staged body was sent once, and nothing else.
    let sent: usize = (0..n).filter(|place| staged >> place & 1 == 1).map(|place| entries[place].records.len()).sum();
    if packets.len() != 1 + passes * (n + 2) + sent {
        return wrong("a staged body was not sent exactly once");
    }
    // The device: idle, owing nothing, holding no packet, the set staged under the offered versions, all else as it was.
    let mut device = DeviceRecord { session: Session::Idle, owed: None, previous: BLANK, ..**before };
    let mut staging = shown.staging_before.to_vec();
    for (place, entry) in entries.iter().enumerate().filter(|(place, _)| staged >> place & 1 == 1) {
        let slot = before.listed().iter().position(|component| component.id == entry.offer[offer_at::ID]);
        let (Some(slot), true) = (slot, place < n) else { return wrong("an absent component was staged") };
        let component = &mut device.components[slot];
        component.staged = Some(version_of(entry));
        let Some(image) = written(component.length as usize, &entry.records) else { return wrong("a bad body was staged") };
        staging[component.base as usize..][..image.len()].copy_from_slice(&image);
    }
    if device != shown.after {
        return wrong("the device's record is another");
    }
    if staging != shown.staging_after {
        return wrong("the staging bytes are others");
    }
    Ok(staged)
}
