//! A generator of numbers with a fixed seed, so that every run is the same, and the fields of an image.
#![allow(dead_code)]

pub mod images;
pub mod pages;

/// The generator SplitMix64: small, good enough for tests, and no dependency.
pub struct Random(pub u64);

impl Random {
    pub fn next(&mut self) -> u64 {
        self.0 = self.0.wrapping_add(0x9E37_79B9_7F4A_7C15);
        let mut z = self.0;
        z = (z ^ (z >> 30)).wrapping_mul(0xBF58_476D_1CE4_E5B9);
        z = (z ^ (z >> 27)).wrapping_mul(0x94D0_49BB_1331_11EB);
        z ^ (z >> 31)
    }

    /// A number below `n`, which must not be 0.
    pub fn below(&mut self, n: usize) -> usize {
        (self.next() % n as u64) as usize
    }

    /// A number from `low` to `high`, both included.
    pub fn range(&mut self, low: usize, high: usize) -> usize {
        low + self.below(high - low + 1)
    }

    /// Yes in `parts` cases of `of`.
    pub fn chance(&mut self, parts: usize, of: usize) -> bool {
        self.below(of) < parts
    }

    pub fn byte(&mut self) -> u8 {
        self.next() as u8
    }

    pub fn fill(&mut self, bytes: &mut [u8]) {
        for part in bytes.chunks_mut(8) {
            let word = self.next().to_le_bytes();
            part.copy_from_slice(&word[..part.len()]);
        }
    }

    pub fn pick<T: Copy>(&mut self, from: &[T]) -> T {
        from[self.below(from.len())]
    }
}

/// The bytes of an image by name, as the table of the image's layout has them.
pub mod at {
    pub const FORMAT: usize = 0;
    pub const ROLE: usize = 1;
    pub const STATE: usize = 2;
    pub const FOLLOW: usize = 3;
    pub const MARK: usize = 4;
    pub const DUE: usize = 5;
    pub const BID: usize = 6;
    pub const OUT_CHAIN: usize = 7;
    pub const IN_CHAIN: usize = 8;
    pub const OUT_WINDOW: usize = 9;
    pub const OUT_MAX: usize = 12;
    pub const OUT_HELD: usize = 14;
    pub const OUT_NUMBER: usize = 16;
    pub const GIVEN: usize = 18;
    pub const IN_WINDOW: usize = 21;
    pub const IN_MAX: usize = 24;
    pub const INBOX: usize = 26;
    pub const IN_HELD: usize = 28;
    pub const IN_NUMBER: usize = 30;
    pub const TAKEN: usize = 32;
    pub const READ: usize = 35;
    pub const BID_NUMBER: usize = 38;
    pub const OWED_NUMBER: usize = 40;
    pub const ERROR: usize = 42;
    pub const UNANSWERED: usize = 43;
    pub const EXPEDITED_SENT: usize = 44;
    pub const EXPEDITED_TAKEN: usize = 46;
}

pub fn word(image: &[u8], at: usize) -> usize {
    usize::from(u16::from_le_bytes([image[at], image[at + 1]]))
}

pub fn put_word(image: &mut [u8], at: usize, n: usize) {
    image[at..at + 2].copy_from_slice(&(n as u16).to_le_bytes());
}

/// Credit or open of the window whose three bytes stand at `at`.
pub fn credit(image: &[u8], at: usize) -> usize {
    let (size, place) = (usize::from(image[at]), usize::from(image[at + 1]));
    let fresh = if image[at + 2] == 1 { 0 } else { size };
    let rest = if place == 0 { 0 } else { size.saturating_sub(place) };
    fresh + rest
}
