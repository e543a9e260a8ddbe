//! A counter of a fixed number of bits.

/// Holds `BITS` bits (at most 15) and wraps to zero past its largest value, as
/// every counter of the scan does ("One character time").
#[derive(Clone, Copy, PartialEq, Eq, Debug)]
pub struct Counter<const BITS: u32>(u16);

impl<const BITS: u32> Counter<BITS> {
    pub const ZERO: Self = Counter(0);

    pub fn holding(value: u16) -> Self {
        Counter(value % (1 << BITS))
    }

    pub fn value(self) -> u16 {
        self.0
    }

    pub fn plus(self, amount: u8) -> Self {
        Self::holding(self.0.wrapping_add(u16::from(amount)))
    }

    pub fn next(self) -> Self {
        self.plus(1)
    }

    /// Whether the counter stands at exactly this register's value.
    pub fn is(self, register: u8) -> bool {
        self.0 == u16::from(register)
    }

    pub fn is_below(self, register: u8) -> bool {
        self.0 < u16::from(register)
    }

    pub fn bit(self, number: u32) -> bool {
        (self.0 >> number) & 1 == 1
    }
}

#[cfg(test)]
mod tests {
    use super::Counter;

    #[test]
    fn each_width_wraps_to_zero_past_its_largest_value() {
        assert_eq!(Counter::<8>::holding(254).next().value(), 255);
        assert_eq!(Counter::<8>::holding(255).next().value(), 0);
        assert_eq!(Counter::<7>::holding(127).next().value(), 0);
        assert_eq!(Counter::<5>::holding(31).next().value(), 0);
        assert_eq!(Counter::<14>::holding(16383).plus(3).value(), 2);
    }

    #[test]
    fn equality_order_and_bits_are_those_of_the_value() {
        let counter = Counter::<5>::holding(0b01000);
        assert!(counter.is(8) && !counter.is(9));
        assert!(counter.is_below(9) && !counter.is_below(8));
        assert!(counter.bit(3) && !counter.bit(4));
    }
}
