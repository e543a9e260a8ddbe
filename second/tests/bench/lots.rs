//! Settings drawn by lot, the same ones at every run.

/// A row of numbers that looks like chance (xorshift).
pub struct Lots(u64);

impl Lots {
    pub fn new(number: u64) -> Self {
        Lots(0x9E37_79B9_7F4A_7C15 ^ number)
    }

    pub fn next(&mut self) -> u64 {
        self.0 ^= self.0 << 13;
        self.0 ^= self.0 >> 7;
        self.0 ^= self.0 << 17;
        self.0
    }

    pub fn byte(&mut self) -> u8 {
        let [high, ..] = self.next().to_be_bytes();
        high
    }

    /// A number from 0 up to this one.
    pub fn up_to(&mut self, most: u8) -> u8 {
        let count = u64::from(most) + 1;
        (self.next() / 256 % count) as u8
    }
}

/// Any sixteen bytes.
pub fn random_setting(lots: &mut Lots) -> [u8; 16] {
    [(); 16].map(|()| lots.byte())
}

/// A screen of at most 8 columns, 5 rows of 4 lines and 3 adjust lines, with
/// picture, syncs and cursor in it or a little past it, and any bits of R8. The
/// start is near 0 or near the last address, the cursor near the start.
pub fn small_setting(lots: &mut Lots) -> [u8; 16] {
    let mut bytes = [0; 16];
    let most = [7, 9, 8, 255, 4, 3, 6, 5, 255, 3, 2, 3, 0, 0, 0, 0];
    for (byte, most) in bytes.iter_mut().zip(most) {
        *byte = lots.up_to(most);
    }
    bytes[10] |= lots.up_to(3) << 5;
    let start = lots.next() % 16;
    let start = (16_376 + start) % 16_384;
    let cursor = (start + lots.next() % 12) % 16_384;
    [bytes[12], bytes[13]] = (start as u16).to_be_bytes();
    [bytes[14], bytes[15]] = (cursor as u16).to_be_bytes();
    bytes
}
