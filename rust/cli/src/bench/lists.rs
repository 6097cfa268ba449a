//! The lists as files, for programs that are measured elsewhere: each with the store that it is played on.

use crate::failure::{Failure, Outcome};
use nekahuiro::limits::PAGE_BYTES;
use nekahuiro::{CommitPage, Page};
use nekahuiro_lists::random::{list, Taste};
use nekahuiro_lists::{stores, timing, Rng};
use std::path::Path;

/// Writes a list of each kind that is timed and some random ones to a folder, as NAME.store and NAME.list.
pub fn write(folder: &str, random: u64) -> Outcome {
    for (name, make) in timing::KINDS {
        put(folder, name, &stores::fresh(), &make(1))?;
    }
    for seed in 0..random {
        let mut rng = Rng::new(seed);
        let store = stores::any(&mut rng);
        let mut page: Page = [0; PAGE_BYTES];
        page.copy_from_slice(&store[..PAGE_BYTES]);
        let taste = Taste::any(&mut rng);
        put(folder, &format!("random-{seed}"), &store, &list(&mut rng, &taste, CommitPage::of(&page)))?;
    }
    Ok(())
}

fn put(folder: &str, name: &str, store: &[u8], events: &[u8]) -> Outcome {
    for (kind, bytes) in [("store", store), ("list", events)] {
        let path = Path::new(folder).join(format!("{name}.{kind}"));
        std::fs::write(&path, bytes).map_err(|error| {
            Failure::new(&format!("{}: {error}", path.display()), "name a folder that can be written to")
        })?;
    }
    Ok(())
}
