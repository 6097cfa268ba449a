//! Where answers and pictures go: a file that is replaced, or a device or a pipe that is written.

use crate::failure::Outcome;
use crate::staged::{cant_write, Staged};
use std::fs::{self, File, OpenOptions};
use std::io::Write;

/// An output that was asked for.
pub struct Output<'n> {
    name: &'n str,
    device: Option<File>,
    content: Vec<u8>,
    staged: Option<Staged>,
}

impl<'n> Output<'n> {
    /// Opens a device or a pipe, which may wait for its reader. A plain file isn't touched yet.
    pub fn open(name: &'n str) -> Outcome<Output<'n>> {
        let is_device = fs::metadata(name).is_ok_and(|found| !found.is_file() && !found.is_dir());
        let open = || OpenOptions::new().write(true).open(name);
        let device = is_device.then(open).transpose().map_err(|error| cant_write("write", name, &error))?;
        Ok(Output { name, device, content: Vec::new(), staged: None })
    }

    /// The plain file that it replaces, if it does.
    pub fn file(&self) -> Option<&'n str> {
        self.device.is_none().then_some(self.name)
    }

    /// Takes the content; for a plain file it is on the disk then.
    pub fn stage(&mut self, content: Vec<u8>) -> Outcome {
        if self.device.is_none() {
            self.staged = Some(Staged::new(self.name, &content)?);
        }
        self.content = content;
        Ok(())
    }

    /// Replaces the plain file.
    pub fn put(&mut self) -> Outcome {
        self.staged.as_mut().map_or(Ok(()), |staged| staged.put().and_then(|()| staged.sync()))
    }

    /// Writes to the device or the pipe.
    pub fn send(&mut self) -> Outcome {
        let Some(device) = &mut self.device else { return Ok(()) };
        device.write_all(&self.content).map_err(|error| cant_write("write", self.name, &error))
    }
}
