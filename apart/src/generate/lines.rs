//! Lines of the form, as text.

/// S and a block.
pub fn submit(block: &[u8]) -> Vec<u8> {
    const DIGITS: &[u8; 16] = b"0123456789ABCDEF";
    let mut line = Vec::with_capacity(2 + 2 * block.len());
    line.extend_from_slice(b"S\t");
    for byte in block {
        line.push(DIGITS[usize::from(byte >> 4)]);
        line.push(DIGITS[usize::from(byte & 0x0F)]);
    }
    line
}

/// A, F or R and its one number.
pub fn one_field(letter: char, number: u32) -> Vec<u8> {
    format!("{letter}\t{number}").into_bytes()
}

/// E with any kind but C.
pub fn event(ticket: u32, kind: &str, bytes_moved: u32) -> Vec<u8> {
    format!("E\t{ticket}\t{kind}\t{bytes_moved}").into_bytes()
}

/// E with kind C.
pub fn complete(ticket: u32, bytes_moved: u32, scsi_status: u8, sense: &str) -> Vec<u8> {
    format!("E\t{ticket}\tC\t{bytes_moved}\t{scsi_status:02X}\t{sense}").into_bytes()
}
