//! "A version is variant in bits 0-7, minor in 8-23, major in 24-31, and is
//! put together from its three parts in one place only."

/// A version as one 32-bit number. By A1 variant is not age: versions have
/// no order as they stand, and the rules compare major-minor and variant.
#[derive(Clone, Copy, Debug, Default, PartialEq, Eq)]
pub struct Version(pub u32);

impl Version {
    pub const VARIANT_BITS: u32 = 8;
    pub const MINOR_BITS: u32 = 16;

    /// The one place where the three parts are put together.
    pub fn from_parts(major: u8, minor: u16, variant: u8) -> Version {
        Version(
            ((major as u32) << (Version::VARIANT_BITS + Version::MINOR_BITS))
                | ((minor as u32) << Version::VARIANT_BITS)
                | variant as u32,
        )
    }

    /// Bits 24-31.
    pub fn major(self) -> u8 {
        self.0.to_le_bytes()[3]
    }

    /// Bits 8-23.
    pub fn minor(self) -> u16 {
        let bytes = self.0.to_le_bytes();
        u16::from_le_bytes([bytes[1], bytes[2]])
    }

    /// Bits 0-7.
    pub fn variant(self) -> u8 {
        self.0.to_le_bytes()[0]
    }

    /// "divided by 256 (rounded down)": major-minor as a 24-bit number.
    pub fn major_minor(self) -> u32 {
        self.0 / 256
    }

    /// Four bytes, little-endian.
    pub fn from_bytes(bytes: &[u8]) -> Version {
        Version::from_parts(
            bytes[3],
            u16::from_le_bytes([bytes[1], bytes[2]]),
            bytes[0],
        )
    }

    /// Four bytes, little-endian.
    pub fn to_bytes(self) -> [u8; 4] {
        self.0.to_le_bytes()
    }
}

/// E14: major.minor.variant, decimal.
impl std::fmt::Display for Version {
    fn fmt(&self, out: &mut std::fmt::Formatter<'_>) -> std::fmt::Result {
        write!(out, "{}.{}.{}", self.major(), self.minor(), self.variant())
    }
}
