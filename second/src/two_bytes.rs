//! Numbers in two bytes.

/// The low two bytes, high one first. No caller has a number too great for them:
/// batches, cuts and setup files all stay far below 65,536 bytes.
pub(crate) fn two_bytes(number: usize) -> [u8; 2] {
    let [.., high, low] = number.to_be_bytes();
    [high, low]
}
