//! Bytes in capital hexadecimal.

const DIGITS: &[u8; 16] = b"0123456789ABCDEF";

pub fn push_hex(bytes: &[u8], line: &mut Vec<u8>) {
    for byte in bytes {
        line.push(DIGITS[usize::from(byte >> 4)]);
        line.push(DIGITS[usize::from(byte & 15)]);
    }
}
