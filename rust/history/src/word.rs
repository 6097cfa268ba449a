//! An event word's fields, as far as the history needs them.

use crate::Form;

/// The kinds that matter for the history.
#[derive(Clone, Copy, Debug, PartialEq, Eq)]
pub enum Kind {
    /// 1.
    Begin,
    /// 3.
    Write,
    /// 4.
    Read,
    /// 5.
    Commit,
    /// 6.
    Abort,
    /// 7.
    Crash,
    /// 2: names a transaction, and nothing more is told of it.
    Lock,
    /// 9.
    Prepare,
    /// 10.
    Decide,
    /// 11.
    Query,
    /// All else names no transaction.
    Other,
}

/// The fields of a word.
#[derive(Clone, Copy, Debug)]
pub struct Word {
    /// Its kind.
    pub kind: Kind,
    /// The transaction field.
    pub transaction: u8,
    /// The record field.
    pub record: u8,
    /// The offset field.
    pub offset: u8,
    /// The value field.
    pub value: u8,
}

/// Where a field of a word begins, counted in bits from the left, and how many it has.
struct Field(u32, u32);

const KIND: Field = Field(0, 4);
const TRANSACTION: Field = Field(4, 5);

impl Field {
    fn of(&self, bits: u64) -> u8 {
        (bits << self.0 >> (64 - self.1)) as u8
    }

    fn put(&self, bits: u64, number: u8) -> u64 {
        let behind = 64 - self.0 - self.1;
        let mask = ((1 << self.1) - 1) << behind;
        bits & !mask | u64::from(number) << behind & mask
    }
}

impl Form {
    fn record_field(&self) -> Field {
        Field(9, self.record_bits)
    }

    fn offset_field(&self) -> Field {
        Field(9 + self.record_bits, 5)
    }

    fn count_field(&self) -> Field {
        Field(14 + self.record_bits, self.count_bits)
    }

    fn value_field(&self) -> Field {
        Field(14 + self.record_bits + self.count_bits, 8)
    }

    /// A count that cuts nothing: no event makes as many page writes.
    fn whole(&self) -> u8 {
        (1u16 << self.count_bits).wrapping_sub(1) as u8
    }

    /// Takes a word apart.
    pub(crate) fn word(&self, bytes: &[u8]) -> Word {
        let bits = bits(bytes);
        let kind = match KIND.of(bits) {
            1 => Kind::Begin,
            2 => Kind::Lock,
            3 => Kind::Write,
            4 => Kind::Read,
            5 => Kind::Commit,
            6 => Kind::Abort,
            7 => Kind::Crash,
            9 if self.two_phases => Kind::Prepare,
            10 if self.two_phases => Kind::Decide,
            11 if self.two_phases => Kind::Query,
            _ => Kind::Other,
        };
        Word {
            kind,
            transaction: TRANSACTION.of(bits),
            record: self.record_field().of(bits),
            offset: self.offset_field().of(bits),
            value: self.value_field().of(bits),
        }
    }

    /// Puts a value into a word.
    pub(crate) fn put_value(&self, word: &mut [u8], value: u8) {
        let bits = self.value_field().put(bits(word), value);
        word.copy_from_slice(&bits.to_be_bytes()[..word.len()]);
    }

    /// The same event with this transaction number, or its own, and with nothing cut.
    pub(crate) fn again<const WORD: usize>(&self, bytes: &[u8], number: Option<u8>) -> [u8; WORD] {
        let old = bits(bytes);
        let named = number.map_or(old, |number| TRANSACTION.put(old, number));
        let whole = |bits| word_of(self.count_field().put(bits, self.whole()));
        match self.word(bytes).kind {
            // Its value says how it is torn, if it says anything.
            Kind::Commit => whole(self.value_field().put(named, 0)),
            Kind::Prepare | Kind::Decide => whole(named),
            _ => word_of(named),
        }
    }

    /// A recover that nothing cuts.
    pub(crate) fn recover<const WORD: usize>(&self) -> [u8; WORD] {
        word_of(self.count_field().put(KIND.put(0, 8), self.whole()))
    }
}

/// The bits of a word, the first on top.
fn bits(bytes: &[u8]) -> u64 {
    let mut word = [0; 8];
    word[..bytes.len()].copy_from_slice(bytes);
    u64::from_be_bytes(word)
}

fn word_of<const WORD: usize>(bits: u64) -> [u8; WORD] {
    let mut word = [0; WORD];
    word.copy_from_slice(&bits.to_be_bytes()[..WORD]);
    word
}

impl Word {
    /// A crash, a recover, a decide and a query name no transaction, though they have the field.
    pub fn names_transaction(&self) -> bool {
        !matches!(self.kind, Kind::Crash | Kind::Decide | Kind::Query | Kind::Other)
    }
}
