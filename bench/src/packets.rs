//! The packets that are timed (docs/PROTOCOL.md).

/// The address of the bank's first byte, which is that of its first page.
const BASE: u32 = 0xA000_0000;

/// The middle of that page: the longest data from there end in the middle of the next.
const MIDDLE: u32 = BASE + 2048;

const READ: u8 = 0x4C;
const WRITE: u8 = 0x6C;
const MODIFY: u8 = 0x5C;

/// The CRC of bytes, bit by bit.
fn crc(bytes: &[u8]) -> u8 {
    let step = |crc: u8, _| crc >> 1 ^ if crc & 1 == 1 { 0xE0 } else { 0 };
    bytes.iter().fold(0, |crc, byte| (0..8).fold(crc ^ byte, step))
}

/// The header of a command with this instruction, address and data length.
fn header(instruction: u8, address: u32, length: usize) -> Vec<u8> {
    let mut bytes = vec![0xFE, 0x01, instruction, 0x00, 0x67, 0x00, 0x01, 0x00];
    bytes.extend(address.to_be_bytes());
    bytes.extend(&(length as u32).to_be_bytes()[1..]);
    bytes.push(crc(&bytes));
    bytes
}

/// A command at that address with data, and their CRC.
fn with_data(instruction: u8, address: u32, data: &[u8]) -> Vec<u8> {
    let mut bytes = header(instruction, address, data.len());
    bytes.extend(data);
    bytes.push(crc(data));
    bytes
}

/// So many bytes to write.
fn data(length: usize) -> Vec<u8> {
    (0..length).map(|k| (k * 31 % 251) as u8).collect()
}

/// The plain read of 16 bytes.
pub fn read() -> Vec<u8> {
    header(READ, BASE, 16)
}

/// A write of so many bytes.
pub fn write(length: usize) -> Vec<u8> {
    with_data(WRITE, BASE, &data(length))
}

/// A read of 4,096 bytes over the end of a page.
pub fn read_over_page_end() -> Vec<u8> {
    header(READ, MIDDLE, 4096)
}

/// A write of 4,096 bytes over the end of a page.
pub fn write_over_page_end() -> Vec<u8> {
    with_data(WRITE, MIDDLE, &data(4096))
}

/// A read-modify-write of four bytes.
pub fn modify() -> Vec<u8> {
    with_data(MODIFY, BASE, &[0x11, 0x22, 0x33, 0x44, 0xFF, 0x0F, 0xF0, 0x00])
}
