//! The multiplexer's sixteen control bits.

/// The control bits in the order of their address pairs ("The multiplexer",
/// control bits).
const V0: usize = 0;
const V1: usize = 1;
const V2: usize = 2;
const F0: usize = 3;
const P: usize = 10;
const R0: usize = 11;
const R1: usize = 12;
const M0: usize = 13;
const M1: usize = 14;
const TY: usize = 15;

const FIRST_ADDRESS: u16 = 0xFFC0;
const LAST_ADDRESS: u16 = 0xFFDF;

#[derive(Clone, Copy, PartialEq, Eq, Debug)]
pub struct ControlBits {
    bits: [bool; 16],
}

/// How much memory the M bits say there is.
#[derive(Clone, Copy, PartialEq, Eq, Debug)]
pub enum MemorySize {
    FourK,
    SixteenK,
    SixtyFourK,
}

impl ControlBits {
    pub const CLEAR: Self = ControlBits { bits: [false; 16] };

    /// Whether an address belongs to a control bit.
    pub fn has_address(address: u16) -> bool {
        (FIRST_ADDRESS..=LAST_ADDRESS).contains(&address)
    }

    /// A write to an even address clears that pair's bit, to an odd one sets
    /// it ("The multiplexer", control bits). Other addresses do nothing.
    pub fn write(&mut self, address: u16) {
        if !Self::has_address(address) {
            return;
        }
        let pair = usize::from(address - FIRST_ADDRESS) / 2;
        self.bits[pair] = address % 2 == 1;
    }

    /// V2 V1 V0 as a number from 0 to 7.
    pub fn display_mode(&self) -> usize {
        4 * usize::from(self.bits[V2]) + 2 * usize::from(self.bits[V1]) + usize::from(self.bits[V0])
    }

    /// F0 to F6, F0 first.
    pub fn display_offset(&self) -> &[bool] {
        &self.bits[F0..P]
    }

    /// P, which stands for the processor's A15 in map type 0.
    pub fn page(&self) -> bool {
        self.bits[P]
    }

    pub fn rate_0(&self) -> bool {
        self.bits[R0]
    }

    pub fn rate_1(&self) -> bool {
        self.bits[R1]
    }

    pub fn memory_size(&self) -> MemorySize {
        match (self.bits[M1], self.bits[M0]) {
            (false, false) => MemorySize::FourK,
            (false, true) => MemorySize::SixteenK,
            (true, _) => MemorySize::SixtyFourK,
        }
    }

    /// TY: map type 1, RAM up to $FEFF.
    pub fn map_type_1(&self) -> bool {
        self.bits[TY]
    }
}
