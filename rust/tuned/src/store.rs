//! The store's pages, and the page writes of commits, recoveries, prepares and decisions.

use crate::stack::Versions;
use crate::word::Fields;
use crate::{records, Map, PAGE_BYTES};

/// The place of record 0 in a map.
pub const MAP_TOP: Map = 1 << 63;

type Page = [u8; PAGE_BYTES];

/// Where pages tear: bytes of a copy, which begins with its status, and the status of a good one.
const COPY_BYTES: usize = 1 + PAGE_BYTES;
const GOOD: u8 = 1;

/// What page 0 says.
#[derive(Clone, Copy, PartialEq, Eq)]
pub enum First {
    Empty,
    Committed(Map),
    Prepared(Map, u8),
    Damaged,
}

impl First {
    fn of<const RECORDS: usize>(page: &[u8], joint: bool) -> First {
        let mut map = [0; 8];
        map[..RECORDS / 8].copy_from_slice(&page[1..][..RECORDS / 8]);
        let map = Map::from_be_bytes(map);
        let found = match page[0] & 15 {
            0 => First::Empty,
            3 if map != 0 && joint => First::Prepared(map, page[4]),
            5 if map != 0 => First::Committed(map),
            _ => return First::Damaged,
        };
        if page == found.page::<RECORDS>() {
            found
        } else {
            First::Damaged
        }
    }

    fn page<const RECORDS: usize>(self) -> Page {
        let (state, map, identity) = match self {
            First::Empty | First::Damaged => (0, 0, 0),
            First::Committed(map) => (5, map, 0),
            First::Prepared(map, identity) => (3, map, identity),
        };
        let edition: u8 = if RECORDS == 16 { 1 } else { 2 };
        let mut page = [0; PAGE_BYTES];
        page[0] = edition << 4 | state;
        page[1..][..RECORDS / 8].copy_from_slice(&map.to_be_bytes()[..RECORDS / 8]);
        // The number of records has a bit more than a record.
        page[1 + RECORDS / 8] = (map.count_ones() as u8) << (7 - RECORDS.trailing_zeros());
        page[2 + RECORDS / 8] = identity;
        page
    }

    /// The records of what is prepared.
    pub fn reserved(self) -> Map {
        if let First::Prepared(map, _) = self {
            map
        } else {
            0
        }
    }

    pub fn is_for(self, identity: u8) -> bool {
        matches!(self, First::Prepared(_, prepared) if prepared == identity)
    }
}

pub struct Store<'s, const RECORDS: usize, const STORE: usize, const TEARS: bool> {
    bytes: &'s mut [u8; STORE],
    pub first: First,
}

/// Page writes until a cut: how many may still be made, and how many were; and how the next is torn.
struct Budget {
    left: u8,
    made: u8,
    cut: bool,
    tear: u8,
}

impl Budget {
    fn of(count: u8, tear: u8) -> Budget {
        Budget { left: count, made: 0, cut: false, tear }
    }

    /// Whether one more may be made.
    fn spend(&mut self) -> bool {
        if self.left == 0 {
            self.cut = true;
            return false;
        }
        self.left -= 1;
        self.made += 1;
        true
    }

    fn told(self) -> (u8, bool) {
        (self.made, self.cut)
    }
}

impl<'s, const RECORDS: usize, const STORE: usize, const TEARS: bool> Store<'s, RECORDS, STORE, TEARS> {
    /// Bytes of a page's space, and where a page begins in it while every copy is good.
    const SPACE: usize = if TEARS { 2 * COPY_BYTES } else { PAGE_BYTES };
    const SHOWN: usize = if TEARS { 1 } else { 0 };

    pub fn over(bytes: &'s mut [u8; STORE]) -> Self {
        // Edition 1 alone has what is prepared, where pages don't tear.
        let of = |page: &[u8]| First::of::<RECORDS>(page, RECORDS == 16 && !TEARS);
        let first = match bytes[0] {
            _ if !TEARS => of(&bytes[..PAGE_BYTES]),
            GOOD => of(&bytes[1..COPY_BYTES]),
            _ if bytes[COPY_BYTES] == GOOD => of(&bytes[COPY_BYTES + 1..Self::SPACE]),
            _ => First::Damaged,
        };
        Store { first, bytes }
    }

    /// A page while every copy is good.
    fn page(&self, number: usize) -> &Page {
        let at = number * Self::SPACE + Self::SHOWN;
        self.bytes[at..at + PAGE_BYTES].try_into().expect("a page")
    }

    pub fn home(&self, record: usize) -> &Page {
        self.page(1 + RECORDS + record)
    }

    /// Writes a page if one more may be made; if not, the power goes, and it may be torn. Whether the run goes on.
    fn put(&mut self, number: usize, page: &Page, budget: &mut Budget) -> bool {
        let done = budget.spend();
        let space = &mut self.bytes[number * Self::SPACE..][..Self::SPACE];
        if !TEARS {
            if done {
                space.copy_from_slice(page);
            }
            return done;
        }
        let (first, second) = space.split_at_mut(COPY_BYTES);
        if done || budget.tear >= 2 {
            make(first, page);
        }
        match budget.tear {
            _ if done => make(second, page),
            1 => first[0] = 0,
            2 => second[0] = 0,
            _ => {}
        }
        budget.made += u8::from(!done && budget.tear >= 2);
        done
    }

    fn intentions(&mut self, map: Map, versions: &Versions<RECORDS>, budget: &mut Budget) -> bool {
        records(map).all(|r| versions.seen(r).is_some_and(|version| self.put(1 + r, version, budget)))
    }

    fn set_first(&mut self, first: First, budget: &mut Budget) -> bool {
        let done = self.put(0, &first.page::<RECORDS>(), budget);
        if done || (TEARS && budget.tear >= 2) {
            self.first = first;
        }
        done
    }

    /// The intention pages of these records go home, then page 0 is emptied.
    fn go_home(&mut self, map: Map, budget: &mut Budget) -> bool {
        let all = records(map).all(|r| {
            let page = *self.page(1 + r);
            self.put(1 + RECORDS + r, &page, budget)
        });
        all && self.set_first(First::Empty, budget)
    }

    /// Mends every page from its first good copy; not one where some page has none.
    pub fn mend(&mut self) -> bool {
        let mut pairs = self.bytes.chunks_exact_mut(Self::SPACE);
        if !TEARS {
            return true;
        }
        if !pairs.all(|pair| pair[0] == GOOD || pair[COPY_BYTES] == GOOD) {
            return false;
        }
        for pair in self.bytes.chunks_exact_mut(Self::SPACE) {
            match pair[0] {
                GOOD => pair.copy_within(..COPY_BYTES, COPY_BYTES),
                _ => pair.copy_within(COPY_BYTES.., 0),
            }
        }
        true
    }

    /// A top transaction's commit; its versions are the top ones. The writes made, and whether a crash came.
    pub fn commit(&mut self, map: Map, versions: &Versions<RECORDS>, f: Fields) -> (u8, bool) {
        if map == 0 {
            return (0, false);
        }
        let mut budget = Budget::of(f.count, f.value);
        let _ = self.intentions(map, versions, &mut budget)
            && self.set_first(First::Committed(map), &mut budget)
            && self.go_home(map, &mut budget);
        budget.told()
    }

    pub fn prepare(&mut self, map: Map, versions: &Versions<RECORDS>, identity: u8, count: u8) -> (u8, bool) {
        if map == 0 {
            return (0, false);
        }
        let mut budget = Budget::of(count, 0);
        let _ =
            self.intentions(map, versions, &mut budget) && self.set_first(First::Prepared(map, identity), &mut budget);
        budget.told()
    }

    pub fn decide(&mut self, commits: bool, count: u8) -> (u8, bool) {
        let (map, mut budget) = (self.first.reserved(), Budget::of(count, 0));
        let _ = if commits {
            self.set_first(First::Committed(map), &mut budget) && self.go_home(map, &mut budget)
        } else {
            self.set_first(First::Empty, &mut budget)
        };
        budget.told()
    }

    pub fn recover(&mut self, f: Fields) -> (u8, bool) {
        let mut budget = Budget::of(f.count, f.value);
        if let First::Committed(map) = self.first {
            self.go_home(map, &mut budget);
        }
        budget.told()
    }
}

/// A good copy of a page.
fn make(copy: &mut [u8], page: &Page) {
    copy[0] = GOOD;
    copy[1..].copy_from_slice(page);
}
