//! The worked list: sixteen events on a fresh store, with the answers due.

/// Each event word with its answer, most significant byte first.
pub const WORKED: [(u32, u16); 16] = [
    (0x8000_3F00, 0x0000),
    (0x1F80_0000, 0x0000),
    (0x1000_0000, 0x0001),
    (0x2098_0000, 0x0000),
    (0x3098_80A5, 0x0000),
    (0x5080_3F00, 0x0000),
    (0x1000_0000, 0x0001),
    (0x2098_0000, 0x0000),
    (0x3098_8011, 0x0000),
    (0x6080_0000, 0x0000),
    (0x5000_0200, 0x0B02),
    (0x4018_8000, 0x0200),
    (0x8000_3F00, 0x0002),
    (0x1F80_0000, 0x0000),
    (0x2018_0000, 0x0000),
    (0x4018_8000, 0x00A5),
];

/// The event words.
pub fn events() -> Vec<u8> {
    WORKED.iter().flat_map(|(word, _)| word.to_be_bytes()).collect()
}

/// The answers due.
pub fn answers() -> Vec<u8> {
    WORKED.iter().flat_map(|(_, answer)| answer.to_be_bytes()).collect()
}
