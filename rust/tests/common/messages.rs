//! What stands in messages and receipts, as far as a link has to know it.

fn word(bytes: &[u8], place: usize) -> usize {
    let start = 4 * place;
    u32::from_le_bytes([bytes[start], bytes[start + 1], bytes[start + 2], bytes[start + 3]]) as usize
}

/// The stripe that a message or receipt is of.
pub fn stripe(bytes: &[u8]) -> usize {
    word(bytes, 0) & 0x0FFF_FFFF
}

/// The node that a message or receipt names as the message's sender.
pub fn sender(bytes: &[u8]) -> usize {
    word(bytes, 1) >> 20 & 0xFF
}

/// The node that a message or receipt names as the message's receiver.
pub fn receiver(bytes: &[u8]) -> usize {
    word(bytes, 1) >> 12 & 0xFF
}

/// The transfer of the stripe that a message or receipt is of.
pub fn transfer(bytes: &[u8]) -> usize {
    word(bytes, 1) >> 4 & 0xFF
}
