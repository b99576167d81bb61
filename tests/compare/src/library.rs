//! The static library through include/cfu.h.

use crate::calls::Calls;
use crate::header::*;

pub struct Library;

// Each call lends slices that are valid for their lengths and do not overlap, which is all that the header requires of its caller. What is timed is inlined, so
// that the time is the library's.
impl Calls for Library {
    fn name(&self) -> &'static str {
        "library"
    }

    fn list_put(&self, list: &mut [u8], place: u32, component: Listed) -> u32 {
        unsafe { cfu_list_put(list.as_mut_ptr(), list.len(), place, component) }
    }

    fn set_up(&self, device: &mut [u8], platform: u16, list: &[u8], count: u8, staging: &[u8]) -> u32 {
        unsafe { cfu_device_set_up(device.as_mut_ptr(), device.len(), platform, list.as_ptr(), list.len(), count, staging.as_ptr(), staging.len()) }
    }

    fn device_component(&self, device: &[u8], place: u32) -> ToldComponent {
        unsafe { cfu_device_component(device.as_ptr(), device.len(), place) }
    }

    fn version_reply(&self, device: &[u8], packet: &mut [u8]) -> u32 {
        unsafe { cfu_device_version_reply(device.as_ptr(), device.len(), packet.as_mut_ptr(), packet.len()) }
    }

    #[inline]
    fn offer(&self, device: &mut [u8], staging: &[u8], report: &[u8], replies: &mut [u8]) -> Replies {
        unsafe {
            cfu_device_offer(
                device.as_mut_ptr(),
                device.len(),
                staging.as_ptr(),
                staging.len(),
                report.as_ptr(),
                report.len(),
                replies.as_mut_ptr(),
                replies.len(),
            )
        }
    }

    #[inline]
    fn content(&self, device: &mut [u8], staging: &mut [u8], report: &[u8], replies: &mut [u8]) -> Replies {
        unsafe {
            cfu_device_content(
                device.as_mut_ptr(),
                device.len(),
                staging.as_mut_ptr(),
                staging.len(),
                report.as_ptr(),
                report.len(),
                replies.as_mut_ptr(),
                replies.len(),
            )
        }
    }

    fn reset(&self, device: &mut [u8]) -> u32 {
        unsafe { cfu_device_reset(device.as_mut_ptr(), device.len()) }
    }

    #[inline]
    fn check(&self, bundle: &[u8], contents: &mut [u8]) -> Check {
        unsafe { cfu_bundle_check(bundle.as_ptr(), bundle.len(), contents.as_mut_ptr(), contents.len()) }
    }

    fn contents_entry(&self, contents: &[u8], place: u32) -> ToldEntry {
        unsafe { cfu_contents_entry(contents.as_ptr(), contents.len(), place) }
    }

    fn write(&self, list: &[u8], images: &[u8], out: &mut [u8]) -> Written {
        unsafe { cfu_bundle_write(list.as_ptr(), list.len(), images.as_ptr(), images.len(), out.as_mut_ptr(), out.len()) }
    }

    #[inline]
    fn fresh(&self, host: &mut [u8], token: u8) -> u32 {
        unsafe { cfu_host_fresh(host.as_mut_ptr(), host.len(), token) }
    }

    fn step(&self, host: &mut [u8], bundle: &[u8], reply: &[u8], packet: &mut [u8]) -> Step {
        unsafe {
            cfu_host_step(
                host.as_mut_ptr(),
                host.len(),
                bundle.as_ptr(),
                bundle.len(),
                reply.as_ptr(),
                reply.len(),
                packet.as_mut_ptr(),
                packet.len(),
            )
        }
    }

    #[inline]
    fn step_checked(&self, host: &mut [u8], contents: &mut [u8], bundle: &[u8], reply: &[u8], packet: &mut [u8]) -> Step {
        unsafe {
            cfu_host_step_checked(
                host.as_mut_ptr(),
                host.len(),
                contents.as_mut_ptr(),
                contents.len(),
                bundle.as_ptr(),
                bundle.len(),
                reply.as_ptr(),
                reply.len(),
                packet.as_mut_ptr(),
                packet.len(),
            )
        }
    }

    #[inline]
    fn report(&self, host: &[u8]) -> Report {
        unsafe { cfu_host_report(host.as_ptr(), host.len()) }
    }

    fn build_version_reply(&self, count: u8, protocol: u8, components: &[u8], packet: &mut [u8]) -> u32 {
        unsafe { cfu_build_version_reply(count, protocol, components.as_ptr(), components.len(), packet.as_mut_ptr(), packet.len()) }
    }

    fn build_offer(&self, offer: Offer, packet: &mut [u8]) -> u32 {
        unsafe { cfu_build_offer(offer, packet.as_mut_ptr(), packet.len()) }
    }

    fn build_information(&self, code: u8, token: u8, packet: &mut [u8]) -> u32 {
        unsafe { cfu_build_information(code, token, packet.as_mut_ptr(), packet.len()) }
    }

    fn build_extended(&self, code: u8, token: u8, packet: &mut [u8]) -> u32 {
        unsafe { cfu_build_extended(code, token, packet.as_mut_ptr(), packet.len()) }
    }

    fn build_offer_reply(&self, token: u8, reason: u8, status: u8, packet: &mut [u8]) -> u32 {
        unsafe { cfu_build_offer_reply(token, reason, status, packet.as_mut_ptr(), packet.len()) }
    }

    fn build_content(&self, flags: u8, length: u8, sequence: u16, address: u32, bytes: &[u8], packet: &mut [u8]) -> u32 {
        unsafe { cfu_build_content(flags, length, sequence, address, bytes.as_ptr(), bytes.len(), packet.as_mut_ptr(), packet.len()) }
    }

    fn build_content_reply(&self, sequence: u16, status: u8, packet: &mut [u8]) -> u32 {
        unsafe { cfu_build_content_reply(sequence, status, packet.as_mut_ptr(), packet.len()) }
    }

    fn read_version_reply(&self, packet: &[u8], components: &mut [u8]) -> VersionReply {
        unsafe { cfu_read_version_reply(packet.as_ptr(), packet.len(), components.as_mut_ptr(), components.len()) }
    }

    fn read_offer(&self, packet: &[u8]) -> OfferPacket {
        unsafe { cfu_read_offer(packet.as_ptr(), packet.len()) }
    }

    fn read_offer_reply(&self, packet: &[u8]) -> OfferReply {
        unsafe { cfu_read_offer_reply(packet.as_ptr(), packet.len()) }
    }

    fn read_content(&self, packet: &[u8], bytes: &mut [u8]) -> Content {
        unsafe { cfu_read_content(packet.as_ptr(), packet.len(), bytes.as_mut_ptr(), bytes.len()) }
    }

    fn read_content_reply(&self, packet: &[u8]) -> ContentReply {
        unsafe { cfu_read_content_reply(packet.as_ptr(), packet.len()) }
    }
}
