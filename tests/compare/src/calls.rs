//! The calls of include/cfu.h over lent slices, for each implementation to answer.

use crate::header::*;

pub trait Calls: Sync {
    /// What a difference calls it.
    fn name(&self) -> &'static str;

    fn list_put(&self, list: &mut [u8], place: u32, component: Listed) -> u32;
    fn set_up(&self, device: &mut [u8], platform: u16, list: &[u8], count: u8, staging: &[u8]) -> u32;
    fn device_component(&self, device: &[u8], place: u32) -> ToldComponent;
    fn version_reply(&self, device: &[u8], packet: &mut [u8]) -> u32;
    fn offer(&self, device: &mut [u8], staging: &[u8], report: &[u8], replies: &mut [u8]) -> Replies;
    fn content(&self, device: &mut [u8], staging: &mut [u8], report: &[u8], replies: &mut [u8]) -> Replies;
    fn reset(&self, device: &mut [u8]) -> u32;

    fn check(&self, bundle: &[u8], contents: &mut [u8]) -> Check;
    fn contents_entry(&self, contents: &[u8], place: u32) -> ToldEntry;
    fn write(&self, list: &[u8], images: &[u8], out: &mut [u8]) -> Written;

    fn fresh(&self, host: &mut [u8], token: u8) -> u32;
    fn step(&self, host: &mut [u8], bundle: &[u8], reply: &[u8], packet: &mut [u8]) -> Step;
    fn step_checked(&self, host: &mut [u8], contents: &mut [u8], bundle: &[u8], reply: &[u8], packet: &mut [u8]) -> Step;
    fn report(&self, host: &[u8]) -> Report;

    fn build_version_reply(&self, count: u8, protocol: u8, components: &[u8], packet: &mut [u8]) -> u32;
    fn build_offer(&self, offer: Offer, packet: &mut [u8]) -> u32;
    fn build_information(&self, code: u8, token: u8, packet: &mut [u8]) -> u32;
    fn build_extended(&self, code: u8, token: u8, packet: &mut [u8]) -> u32;
    fn build_offer_reply(&self, token: u8, reason: u8, status: u8, packet: &mut [u8]) -> u32;
    fn build_content(&self, flags: u8, length: u8, sequence: u16, address: u32, bytes: &[u8], packet: &mut [u8]) -> u32;
    fn build_content_reply(&self, sequence: u16, status: u8, packet: &mut [u8]) -> u32;

    fn read_version_reply(&self, packet: &[u8], components: &mut [u8]) -> VersionReply;
    fn read_offer(&self, packet: &[u8]) -> OfferPacket;
    fn read_offer_reply(&self, packet: &[u8]) -> OfferReply;
    fn read_content(&self, packet: &[u8], bytes: &mut [u8]) -> Content;
    fn read_content_reply(&self, packet: &[u8]) -> ContentReply;
}
