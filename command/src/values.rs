//! Numbers, versions and needs as a person writes them.
use cfu_updater::wire::version::Version;

/// A number up to a limit: decimal, or hexadecimal behind 0x.
pub fn number(text: &str, limit: u32) -> Option<u32> {
    let (digits, base) = match text.strip_prefix("0x").or_else(|| text.strip_prefix("0X")) {
        Some(digits) => (digits, 16),
        None => (text, 10),
    };
    if digits.is_empty() {
        return None;
    }
    let mut value: u64 = 0;
    for digit in digits.chars() {
        value = value * u64::from(base) + u64::from(digit.to_digit(base)?);
        if value > u64::from(limit) {
            return None;
        }
    }
    u32::try_from(value).ok()
}

/// A number of one byte.
pub fn byte(text: &str) -> Option<u8> {
    number(text, u8::MAX.into()).and_then(|value| value.try_into().ok())
}

/// A number of two bytes.
pub fn word(text: &str) -> Option<u16> {
    number(text, u16::MAX.into()).and_then(|value| value.try_into().ok())
}

/// A version, `major.minor.variant`.
pub fn version(text: &str) -> Option<Version> {
    let (major, rest) = text.split_once('.')?;
    let (minor, variant) = rest.split_once('.')?;
    Some(Version::new(byte(major)?, word(minor)?, byte(variant)?))
}

/// A component that an offer needs, and its least version without the variant.
#[derive(Clone, Copy)]
pub struct Need {
    pub component: u8,
    pub least: u32,
}

/// A need, `component@major.minor`. Component 0 would be none.
pub fn need(text: &str) -> Option<Need> {
    let (component, least) = text.split_once('@')?;
    let (major, minor) = least.split_once('.')?;
    let component = byte(component).filter(|component| *component != 0)?;
    Some(Need { component, least: Version::new(byte(major)?, word(minor)?, 0).release() })
}
