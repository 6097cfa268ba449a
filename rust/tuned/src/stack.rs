//! The versions of each record, as a stack: all who have one are on one line, and the deepest is on top.

use crate::{DEPTH_LIMIT, PAGE_BYTES};

type Page = [u8; PAGE_BYTES];

#[derive(Clone)]
struct Stack {
    height: u8,
    owners: [u8; DEPTH_LIMIT as usize],
    pages: [Page; DEPTH_LIMIT as usize],
}

#[derive(Clone)]
pub struct Versions<const RECORDS: usize>([Stack; RECORDS]);

impl Stack {
    fn top(&self) -> Option<usize> {
        (self.height as usize).checked_sub(1)
    }
}

impl<const RECORDS: usize> Versions<RECORDS> {
    pub fn new() -> Self {
        let empty =
            Stack { height: 0, owners: [0; DEPTH_LIMIT as usize], pages: [[0; PAGE_BYTES]; DEPTH_LIMIT as usize] };
        Versions(std::array::from_fn(|_| empty.clone()))
    }

    /// What a holder of the record's lock sees, where there is a version.
    pub fn seen(&self, record: usize) -> Option<&Page> {
        let stack = &self.0[record];
        stack.top().map(|top| &stack.pages[top])
    }

    /// The writer's own version, made of what it sees if it has none.
    pub fn own(&mut self, record: usize, owner: u8, home: impl Fn() -> Page) -> &mut Page {
        let stack = &mut self.0[record];
        let top = stack.top();
        let own = top.filter(|top| stack.owners[*top] == owner);
        let at = own.unwrap_or_else(|| {
            let at = stack.height as usize;
            stack.pages[at] = top.map_or_else(home, |top| stack.pages[top]);
            stack.owners[at] = owner;
            stack.height += 1;
            at
        });
        &mut stack.pages[at]
    }

    /// The top one becomes the parent's, in place of its own.
    pub fn rename(&mut self, record: usize, parent: u8) {
        let stack = &mut self.0[record];
        let Some(top) = stack.top() else { return };
        match top.checked_sub(1).filter(|below| stack.owners[*below] == parent) {
            Some(below) => {
                stack.pages[below] = stack.pages[top];
                stack.height -= 1;
            }
            None => stack.owners[top] = parent,
        }
    }

    pub fn drop_top(&mut self, record: usize) {
        self.0[record].height = self.0[record].height.saturating_sub(1);
    }

    /// Those of these owners go; they are on top.
    pub fn drop_all(&mut self, record: usize, owners: u32) {
        let stack = &mut self.0[record];
        while stack.top().is_some_and(|top| owners >> stack.owners[top] & 1 == 1) {
            stack.height -= 1;
        }
    }

    pub fn clear(&mut self) {
        self.0.iter_mut().for_each(|stack| stack.height = 0);
    }
}
