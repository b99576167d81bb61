//! CRC-16/XMODEM: polynomial 0x1021, start 0, no reflection, no final change.
//! By A2 four bits go at a step.

/// Entry n is what four single bits make of the register whose top four bits
/// are n and whose others are zero: n times the polynomial, without carries.
const TABLE: [u16; 16] = [
    0x0000, 0x1021, 0x2042, 0x3063, 0x4084, 0x50A5, 0x60C6, 0x70E7,
    0x8108, 0x9129, 0xA14A, 0xB16B, 0xC18C, 0xD1AD, 0xE1CE, 0xF1EF,
];

/// The CRC of all the bytes.
pub fn crc(bytes: &[u8]) -> u16 {
    let mut value = 0u16;
    for byte in bytes {
        value = with_byte(value, *byte);
    }
    value
}

/// One byte more, high half first.
fn with_byte(before: u16, byte: u8) -> u16 {
    with_half(with_half(before, byte >> 4), byte)
}

/// Four bits more: the low half of the byte.
fn with_half(before: u16, byte: u8) -> u16 {
    let out = (before >> 12) ^ byte as u16;
    (before << 4) ^ TABLE[(out & 0x000F) as usize]
}

#[cfg(test)]
mod tests {
    use super::{crc, with_byte, TABLE};

    /// The register after single bits, all zero: document 01's rule.
    fn after_bits(before: u16, count: u32) -> u16 {
        let mut value = before;
        for _ in 0..count {
            let carry = value & 0x8000 != 0;
            value <<= 1;
            if carry {
                value ^= 0x1021;
            }
        }
        value
    }

    /// One byte more, high bit first, bit by bit.
    fn with_byte_by_bits(before: u16, byte: u8) -> u16 {
        after_bits(before ^ ((byte as u16) << 8), 8)
    }

    #[test]
    fn every_entry_of_the_table() {
        for (n, entry) in TABLE.iter().enumerate() {
            assert_eq!(*entry, after_bits((n as u16) << 12, 4), "entry {n}");
        }
    }

    #[test]
    fn every_register_with_every_byte() {
        for before in 0..=u16::MAX {
            for byte in 0..=u8::MAX {
                assert_eq!(with_byte(before, byte), with_byte_by_bits(before, byte), "{before:04x} {byte:02x}");
            }
        }
    }

    #[test]
    fn check_value() {
        assert_eq!(crc(b"123456789"), 0x31C3);
    }

    #[test]
    fn nothing_gives_the_start() {
        assert_eq!(crc(b""), 0);
    }
}
