//! The event word.

#[derive(Clone, Copy)]
pub enum Kind {
    Begin,
    Lock,
    Write,
    Read,
    Commit,
    Abort,
    Crash,
    Recover,
    Prepare,
    Decide,
    Query,
}

#[derive(Clone, Copy)]
pub struct Fields {
    pub kind: Kind,
    pub transaction: u8,
    pub record: usize,
    pub offset: usize,
    pub count: u8,
    pub value: u8,
}

/// How the words of an edition with so many records are laid out, and whether its pages tear.
pub struct Layout<const RECORDS: usize, const TEARS: bool>;

impl<const RECORDS: usize, const TEARS: bool> Layout<RECORDS, TEARS> {
    /// Bytes of a word.
    pub const WORD_BYTES: usize = if RECORDS == 16 { 4 } else { 8 };
    const RECORD_BITS: u32 = RECORDS.trailing_zeros();
    const COUNT_BITS: u32 = Self::RECORD_BITS + 2;
    /// Bits behind the last field, which are 0.
    const BEHIND: u32 = 8 * Self::WORD_BYTES as u32 - Self::KIND_AT - 4;
    /// Where each field begins, from the end of the last, which is the value.
    const COUNT_AT: u32 = 8;
    const OFFSET_AT: u32 = Self::COUNT_AT + Self::COUNT_BITS;
    const RECORD_AT: u32 = Self::OFFSET_AT + 5;
    const TRANSACTION_AT: u32 = Self::RECORD_AT + Self::RECORD_BITS;
    const KIND_AT: u32 = Self::TRANSACTION_AT + 5;

    /// By kind: the bits that may be set, but for those of the kind.
    const KINDS: [Option<(Kind, u64)>; 16] = {
        let transaction = 31 << Self::TRANSACTION_AT;
        let record = (RECORDS as u64 - 1) << Self::RECORD_AT;
        let offset = 31 << Self::OFFSET_AT;
        let count = ((1 << Self::COUNT_BITS) - 1) << Self::COUNT_AT;
        // A value or an offset of 0 or 1.
        let (value, one, choice) = (255, 1, 1 << Self::OFFSET_AT);
        // How the next page write is torn, 0 to 3.
        let tear = if TEARS { 3 } else { 0 };
        let mut kinds = [None; 16];
        kinds[1] = Some((Kind::Begin, transaction));
        kinds[2] = Some((Kind::Lock, transaction | record | one));
        kinds[3] = Some((Kind::Write, transaction | record | offset | value));
        kinds[4] = Some((Kind::Read, transaction | record | offset));
        kinds[5] = Some((Kind::Commit, transaction | count | tear));
        kinds[6] = Some((Kind::Abort, transaction | one));
        kinds[7] = Some((Kind::Crash, 0));
        kinds[8] = Some((Kind::Recover, count | tear));
        // Edition 1 alone has these, where pages don't tear.
        if RECORDS == 16 && !TEARS {
            kinds[9] = Some((Kind::Prepare, transaction | count | value));
            kinds[10] = Some((Kind::Decide, choice | count | value));
            kinds[11] = Some((Kind::Query, value));
        }
        kinds
    };

    /// The fields of a word of so many bytes; none where the event is bad.
    pub fn fields(word: &[u8]) -> Option<Fields> {
        let mut bytes = [0; 8];
        bytes[8 - Self::WORD_BYTES..].copy_from_slice(word);
        let bits = u64::from_be_bytes(bytes);
        let word = bits >> Self::BEHIND;
        let (kind, used) = Self::KINDS[(word >> Self::KIND_AT & 15) as usize]?;
        if bits & !((used | 15 << Self::KIND_AT) << Self::BEHIND) != 0 {
            return None;
        }
        Some(Fields {
            kind,
            transaction: (word >> Self::TRANSACTION_AT & 31) as u8,
            record: (word >> Self::RECORD_AT) as usize % RECORDS,
            offset: (word >> Self::OFFSET_AT & 31) as usize,
            count: (word >> Self::COUNT_AT & ((1 << Self::COUNT_BITS) - 1)) as u8,
            value: word as u8,
        })
    }
}
