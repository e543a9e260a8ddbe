//! Bytes as text.

use std::fmt::Write;

/// Two lowercase hex digits for each byte, with nothing between them.
pub fn hex(bytes: &[u8]) -> String {
    let mut digits = String::new();
    for byte in bytes {
        // Writing to a string does not fail.
        let _ = write!(digits, "{byte:02x}");
    }
    digits
}
