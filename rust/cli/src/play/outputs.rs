//! What `play` hands out beside its report: answers, picture and page.

use super::{Options, Played};
use crate::failure::Outcome;
use crate::files::name_of;
use crate::live::Live;
use crate::output::Output;
use crate::store::Store;
use crate::{page, picture};

/// The outputs that were asked for.
pub struct Outputs<'n> {
    answers: Option<Output<'n>>,
    picture: Option<Output<'n>>,
    page: Option<Output<'n>>,
}

impl<'n> Outputs<'n> {
    /// Opens what is a device or a pipe. No plain file is touched yet.
    pub fn open(options: &Options<'n>) -> Outcome<Outputs<'n>> {
        let open = |name: Option<&'n str>| name.map(Output::open).transpose();
        Ok(Outputs { answers: open(options.answers)?, picture: open(options.picture)?, page: open(options.page)? })
    }

    /// The plain files that are replaced.
    pub fn files(&self) -> impl Iterator<Item = &'n str> + '_ {
        [&self.answers, &self.picture, &self.page].into_iter().flatten().filter_map(Output::file)
    }

    /// Takes what is to be written: of plain files all of it is on the disk then.
    pub fn stage(&mut self, options: &Options, played: &Played, before: (&Store, &Live)) -> Outcome {
        let Played { store, start, words, names, answers, history, .. } = played;
        if let Some(output) = &mut self.answers {
            output.stage(answers.iter().flat_map(|answer| answer.bytes()).collect())?;
        }
        if let Some(output) = &mut self.picture {
            output.stage(picture::draw(store.edition, start, words, answers, history).into_bytes())?;
        }
        if let Some(output) = &mut self.page {
            let file = |path: &str| path.rsplit('/').next().unwrap_or(path).to_string();
            let title = format!("{} on {}", file(name_of(options.events)), file(options.store));
            let run = page::Run { title, before, start, words, names, answers, history, after: store };
            output.stage(page::draw(&run)?.into_bytes())?;
        }
        Ok(())
    }

    /// Replaces the plain files.
    pub fn put(&mut self) -> Outcome {
        self.all().try_for_each(Output::put)
    }

    /// Writes to devices and pipes.
    pub fn send(&mut self) -> Outcome {
        self.all().try_for_each(Output::send)
    }

    fn all(&mut self) -> impl Iterator<Item = &mut Output<'n>> {
        [&mut self.answers, &mut self.picture, &mut self.page].into_iter().flatten()
    }
}
