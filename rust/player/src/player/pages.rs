//! The page writes of an event, and the crash that cuts them.

use super::{Answer, Player, Script, CUT, DONE};
use crate::event::{CutOf, Record};
use crate::form::Form;
use crate::medium::Medium;
use crate::planted::Bug;
use crate::store::{committed_page, empty_page, Page, Place};

impl<F: Form> Player<'_, F> {
    /// Plays an event word; the page writes that it made, in their order.
    pub fn page_writes(mut self, word: F::Word) -> Script {
        self.log = Some(Vec::new());
        self.step(word);
        self.log.unwrap_or_default()
    }

    /// The intention pages of these records, to be written home.
    pub(super) fn copies_home(&self, named: &[Record]) -> Script {
        named.iter().map(|record| (Place::Home(*record), self.store.page(Place::Intention(*record)))).collect()
    }

    /// The page writes of a top commit: intentions, commit page, home pages, empty page.
    pub(super) fn commit_script(&self, versions: impl IntoIterator<Item = (Record, Page)>) -> Script {
        let versions: Vec<(Record, Page)> = versions.into_iter().collect();
        if versions.is_empty() {
            return Vec::new();
        }
        let named: Vec<Record> = versions.iter().map(|(record, _)| *record).collect();
        let mut script = Vec::with_capacity(2 * versions.len() + 2);
        script.extend(versions.iter().map(|(record, page)| (Place::Intention(*record), *page)));
        script.push((Place::Commit, committed_page::<F>(&named, self.store.planted)));
        script.extend(versions.iter().map(|(record, page)| (Place::Home(*record), *page)));
        script.push((Place::Commit, empty_page::<F>()));
        if self.planted(Bug::HomeBeforeCommitPage) {
            script.swap(named.len(), named.len() + 1);
        }
        if self.planted(Bug::EmptiedTooEarly) {
            script.swap(2 * named.len(), 2 * named.len() + 1);
        }
        script
    }

    /// Makes the writes, or only as many as the cut says, leaves the next one torn if it says so, and then the crash.
    pub(super) fn write_pages(&mut self, script: &[(Place, Page)], cut: CutOf<F>) -> Answer {
        let (due, count) = (script.len(), usize::from(F::Medium::count(cut)));
        let is_cut = count < due;
        let slip = usize::from(is_cut && self.planted(Bug::CutOffByOne));
        let made = due.min(count + slip);
        for (place, page) in &script[..made] {
            self.store.write(*place, page);
        }
        if let Some(log) = &mut self.log {
            log.extend(&script[..made]);
        }
        let next = script.get(made).filter(|_| F::Medium::TEARS);
        let counts = next.is_some_and(|(place, page)| self.store.tear(*place, page, cut));
        if F::Medium::TEARS || script[..made].iter().any(|(place, _)| *place == Place::Commit) {
            self.page = self.store.commit_page();
        }
        let counted = due.min(count) + usize::from(counts);
        let is_cut = is_cut && !(counted == due && self.planted(Bug::LastTornIsWhole));
        if is_cut {
            self.crash();
        }
        Answer(if is_cut { CUT } else { DONE }, counted as u8)
    }
}
