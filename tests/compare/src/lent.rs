//! A lent buffer with guard bytes on both sides.

/// Guard bytes on each side.
const GUARD: usize = 32;

pub struct Lent {
    memory: Vec<u8>,
    length: usize,
}

/// A guard byte, by its place.
fn guard(place: usize) -> u8 {
    0xA5 ^ (place as u8).wrapping_mul(29)
}

impl Lent {
    pub fn new(bytes: &[u8]) -> Lent {
        let mut memory: Vec<u8> = (0..GUARD).map(guard).collect();
        memory.extend_from_slice(bytes);
        memory.extend((0..GUARD).map(guard));
        Lent { memory, length: bytes.len() }
    }

    pub fn bytes(&self) -> &[u8] {
        &self.memory[GUARD..GUARD + self.length]
    }

    pub fn lend(&mut self) -> &mut [u8] {
        &mut self.memory[GUARD..GUARD + self.length]
    }

    /// No byte outside was written.
    pub fn is_whole(&self) -> bool {
        let after = &self.memory[GUARD + self.length..];
        self.memory[..GUARD].iter().enumerate().all(|(place, byte)| *byte == guard(place))
            && after.iter().enumerate().all(|(place, byte)| *byte == guard(place))
    }
}
