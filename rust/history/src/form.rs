//! What the forms of the store differ in, as far as a history needs it.

/// A form of the store.
#[derive(Clone, Copy, Debug, PartialEq, Eq)]
pub struct Form {
    /// The edition in page 0.
    pub(crate) edition: u8,
    /// Records, 16 or 64.
    pub(crate) records: usize,
    /// Bits of the count in page 0.
    pub(crate) page_count_bits: u32,
    /// Bytes of an event word.
    pub(crate) word_bytes: usize,
    /// Bits of a word's record field.
    pub(crate) record_bits: u32,
    /// Bits of a word's count field.
    pub(crate) count_bits: u32,
    /// Whether a page is a pair of copies.
    pub(crate) paired: bool,
    /// Whether transactions can be prepared.
    pub(crate) two_phases: bool,
}

impl Form {
    /// Edition 1 on atomic pages.
    pub const PLAIN: Form = Form {
        edition: 1,
        records: 16,
        page_count_bits: 5,
        word_bytes: 4,
        record_bits: 4,
        count_bits: 6,
        paired: false,
        two_phases: true,
    };

    /// Edition 2: sixty-four records and words of eight bytes.
    pub const EDITION_2: Form = Form {
        edition: 2,
        records: 64,
        page_count_bits: 7,
        word_bytes: 8,
        record_bits: 6,
        count_bits: 8,
        paired: false,
        two_phases: false,
    };

    /// Edition 1 where each page is a pair of copies.
    pub const PAIRS: Form = Form { paired: true, two_phases: false, ..Form::PLAIN };
}

impl Default for Form {
    fn default() -> Form {
        Form::PLAIN
    }
}
