//! The settled records of a store.

use crate::Form;

const PAGE: usize = 32;
/// A copy of a page, where pages are pairs: a status and the bytes.
const COPY: usize = 1 + PAGE;

/// The bytes of a page.
pub type Page = [u8; PAGE];

/// The settled value of each record of a plain store.
pub type Records = [Page; Form::PLAIN.records];

/// Each record's intention page where a committed map names it, else its home page. The store has
/// 33 pages.
pub fn settled(store: &[u8]) -> Records {
    let mut records = [[0; PAGE]; Form::PLAIN.records];
    Form::PLAIN.settle(store, &mut records);
    records
}

/// What is prepared in a store.
#[derive(Clone, Debug, PartialEq, Eq)]
pub struct Prepared {
    /// Its identity.
    pub identity: u8,
    /// The records that it changed, each with its page.
    pub pages: Vec<(usize, Page)>,
}

/// The transaction that is prepared in a plain store, if one is.
pub fn prepared(store: &[u8]) -> Option<Prepared> {
    let page = &store[..PAGE];
    let map = Form::PLAIN.named(page, 3).filter(|map| *map != 0)?;
    let pages = (0..Form::PLAIN.records).filter(|record| names(map, *record)).map(|record| {
        let mut page = [0; PAGE];
        page.copy_from_slice(&store[(1 + record) * PAGE..][..PAGE]);
        (record, page)
    });
    Some(Prepared { identity: page[4], pages: pages.collect() })
}

/// Whether a map names a record: the first record's bit is on top.
fn names(map: u64, record: usize) -> bool {
    map << record >> 63 == 1
}

impl Form {
    /// The settled value of each record of a store of this form. Of a pair the first good copy counts; a pair without
    /// one has no value, and is zeros here.
    pub fn settled(&self, store: &[u8]) -> Vec<Page> {
        let mut records = vec![[0; PAGE]; self.records];
        self.settle(store, &mut records);
        records
    }

    /// Whether each page has at most one bad copy: the premise of demand 3 where pages are pairs.
    pub fn premise(&self, store: &[u8]) -> bool {
        !self.paired || store.chunks_exact(2 * COPY).all(|pair| first_good(pair).is_some())
    }

    fn settle(&self, store: &[u8], records: &mut [Page]) {
        let map = self.page(store, 0).map_or(0, |page| self.committed_map(page));
        for (record, value) in records.iter_mut().enumerate() {
            let home = 1 + self.records + record;
            let number = if names(map, record) { 1 + record } else { home };
            if let Some(page) = self.page(store, number) {
                value.copy_from_slice(page);
            }
        }
    }

    /// The bytes of a page, if any are good.
    fn page<'s>(&self, store: &'s [u8], number: usize) -> Option<&'s [u8]> {
        match self.paired {
            false => Some(&store[number * PAGE..][..PAGE]),
            true => first_good(&store[number * 2 * COPY..][..2 * COPY]),
        }
    }

    /// The map of a committed page; any other page names no record as settled elsewhere.
    fn committed_map(&self, page: &[u8]) -> u64 {
        match self.named(page, 5) {
            Some(map) if page[2 + self.records / 8] == 0 => map,
            _ => 0,
        }
    }

    /// The map of a page 0 with this edition and this state, a right count and zeros after the byte behind the count.
    fn named(&self, page: &[u8], state: u8) -> Option<u64> {
        let behind = 1 + self.records / 8;
        let mut map = [0; 8];
        map[..self.records / 8].copy_from_slice(&page[1..behind]);
        let map = u64::from_be_bytes(map);
        let counted = page[behind] == (map.count_ones() as u8) << (8 - self.page_count_bits);
        let zeros = page[behind + 2..].iter().all(|byte| *byte == 0);
        (page[0] == self.edition << 4 | state && counted && zeros).then_some(map)
    }
}

/// The bytes of a pair's first good copy: only a status of 1 is good.
fn first_good(pair: &[u8]) -> Option<&[u8]> {
    pair.chunks_exact(COPY).find(|copy| copy[0] == 1).map(|copy| &copy[1..])
}
