//! A device whose medium tears: a session whose copy writes reach it, one by one and in their order.

use super::{CopyWrite, Half, Pairs};
use crate::{Page, Programs};

/// Where a device keeps its store, on a medium whose writes tear: flash, EEPROM, a file.
///
/// It tells a good copy from a bad one: a copy that a power cut left half-written is bad, and reads with status 0. Where
/// the hardware doesn't tell, a checksum beside each copy does.
pub trait Medium {
    /// Why a copy can't be programmed.
    type Error;

    /// Programs one copy of a page, 0 to 32: done once these bytes are there to stay, and good. Cut by the power the copy
    /// is bad, and no other copy has changed. If a failure can pass, try again in here: the same copy with the same
    /// bytes does no harm.
    fn program(&mut self, page: u8, half: Half, bytes: &Page) -> Result<(), Self::Error>;
}

impl<M: Medium> Programs<CopyWrite> for M {
    type Error = M::Error;

    fn program_one(&mut self, write: &CopyWrite) -> Result<(), M::Error> {
        self.program(write.page, write.half, &write.bytes)
    }
}

/// A store on a medium that tears, with what is live in memory. An event's copy writes are asked of the library before
/// it is played, and handed to the medium one by one: of each page the first copy, then the second. Before a recovery
/// each page is mended from its first good copy. The power may go at any moment.
///
/// ```
/// use nekahuiro::pairs::{Device, Half, Medium, Store};
/// use nekahuiro::{Page, Record, Transact};
///
/// /// Each copy, or none where it is bad.
/// struct Flash([[Option<Page>; 2]; 33]);
///
/// impl Medium for Flash {
///     type Error = std::convert::Infallible;
///
///     fn program(&mut self, page: u8, half: Half, bytes: &Page) -> Result<(), Self::Error> {
///         self.0[usize::from(page)][half as usize] = Some(*bytes);
///         Ok(())
///     }
/// }
///
/// impl Flash {
///     fn read(&self) -> Vec<u8> {
///         let copy = |copy: &Option<Page>| [&[u8::from(copy.is_some())][..], &copy.unwrap_or([0; 32])].concat();
///         self.0.iter().flatten().flat_map(copy).collect()
///     }
/// }
///
/// let virgin = Flash([[None; 2]; 33]);
/// let read = Store::of(&virgin.read())?;
/// let mut device = Device::new(virgin, read);
/// assert!(device.recover().is_err()); // there is no store yet
/// device.lay_down()?;
/// device.recover()?;
///
/// let top = device.begin(None)?;
/// device.put(top, Record::new(3).unwrap(), &[7; 32])?;
/// assert_eq!(device.commit(top)?, 4); // page writes
/// assert_eq!(device.medium().0[20], [Some([7; 32]); 2]);
/// # Ok::<(), Box<dyn std::error::Error>>(())
/// ```
pub type Device<M> = crate::Device<M, Pairs>;
