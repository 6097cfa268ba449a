//! Job sheets: a fitter's text that becomes a list of events.

use crate::limits::LIST_BYTES;
use crate::{raw, Refusal};
use std::fmt;

/// Why a text is no sheet that can be taken.
#[derive(Clone, Debug, PartialEq, Eq)]
pub struct BadSheet {
    /// The place, from 0, of the first byte after which no sheet could follow; the text's length, if it only
    /// ends too soon.
    pub place: usize,
    /// The byte that stands there, if any.
    pub found: Option<u8>,
    /// What could stand there; nothing, where the sheet is over.
    pub could: Vec<u8>,
}

/// The event words of a sheet, to be played as a portion while the store is up with no live transaction.
///
/// `{` begins a transaction, `}` commits it and `!` aborts it; within it stand locks, `L` with a record,
/// writes, `W` with record, offset and value, reads, `R` with record and offset, and whole transactions.
/// Digits are 0 to 9 and A to F, one for a record and two for an offset, at most 1F, or a value.
///
/// ```
/// use nekahuiro::sheet_words;
///
/// let words = sheet_words(b"{L3W302A5R302}")?;
/// assert_eq!(words[..8], [0x1F, 0x80, 0, 0, 0x20, 0x18, 0, 0]);
/// assert_eq!(words.len(), 20);
///
/// let bad = sheet_words(b"{L3W32").unwrap_err();
/// assert_eq!(bad.place, 5);
/// assert_eq!(bad.to_string(), "refused 29: byte 5 of the sheet is `2`; `0` or `1` could stand there");
/// # Ok::<(), nekahuiro::BadSheet>(())
/// ```
pub fn sheet_words(sheet: &[u8]) -> Result<Vec<u8>, BadSheet> {
    let (mut list, mut told) = (vec![0; LIST_BYTES], 0);
    match raw::sheet(sheet, &mut list, &mut told) {
        0 => {
            list.truncate(told);
            Ok(list)
        }
        _ => Err(BadSheet::at(sheet, told)),
    }
}

impl BadSheet {
    /// Each byte is tried: with one that could stand there the text is bad later, or not at all.
    fn at(sheet: &[u8], place: usize) -> BadSheet {
        let mut text = sheet[..place.min(sheet.len())].to_vec();
        let (mut list, length) = (vec![0; LIST_BYTES], text.len());
        let mut fits = |byte: u8| {
            text.truncate(length);
            text.push(byte);
            let mut told = 0;
            raw::sheet(&text, &mut list, &mut told) == 0 || told > length
        };
        BadSheet { place, found: sheet.get(place).copied(), could: (0..=255).filter(|byte| fits(*byte)).collect() }
    }

    /// What could stand there, in words.
    pub fn could_stand(&self) -> String {
        let is_digit = |byte: &u8| byte.is_ascii_hexdigit();
        match self.could[..] {
            [] => "nothing could follow: the sheet is over".to_string(),
            [.., b'F'] if self.could.iter().all(is_digit) => "a digit, 0 to 9 or A to F, could stand there".to_string(),
            _ => {
                let quoted: Vec<String> = self.could.iter().map(|byte| quoted(*byte)).collect();
                let (last, others) = quoted.split_last().map_or(("", &[][..]), |(last, others)| (last, others));
                match others {
                    [] => format!("{last} could stand there"),
                    others => format!("{} or {last} could stand there", others.join(", ")),
                }
            }
        }
    }

    /// What is wrong, in words.
    pub fn what(&self) -> String {
        match self.found {
            Some(byte) => format!("byte {} of the sheet is {}", self.place, quoted(byte)),
            None if self.place == 0 => "the sheet is empty".to_string(),
            None => format!("the sheet ends too soon, after {} bytes", self.place),
        }
    }
}

/// A byte as a reader knows it.
fn quoted(byte: u8) -> String {
    match byte {
        b'!'..=b'~' => format!("`{}`", char::from(byte)),
        b' ' => "a blank".to_string(),
        b'\n' => "a line end".to_string(),
        other => format!("{other:02X} in hex"),
    }
}

impl fmt::Display for BadSheet {
    fn fmt(&self, f: &mut fmt::Formatter) -> fmt::Result {
        write!(f, "refused {}: {}; {}", Refusal::Sheet.number(), self.what(), self.could_stand())
    }
}

impl std::error::Error for BadSheet {}
