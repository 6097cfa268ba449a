//! A device: a session whose page writes reach a medium, one by one and in their order.

use crate::answer::Answer;
use crate::form::{First, Form};
use crate::limits::{PAGES, PAGE_BYTES};
use crate::{Event, Page, PageWrite, Reason, Session, StoreOf, Transact};
use std::fmt;

/// Where a device keeps its store: flash, EEPROM, FRAM, a file.
pub trait Medium {
    /// Why a page can't be programmed.
    type Error;

    /// Programs one page, 0 to 32: done once these bytes are there to stay, whatever happens to the power. It
    /// is all or nothing. If a failure can pass, try again in here: the same page with the same bytes does no
    /// harm.
    fn program(&mut self, page: u8, bytes: &Page) -> Result<(), Self::Error>;
}

/// What programs the writes of a form: every [`Medium`] does pages, and every `pairs::Medium`
/// copies of pages. Implement one of these two.
pub trait Programs<W> {
    /// Why one can't be programmed.
    type Error;

    /// Programs one.
    fn program_one(&mut self, write: &W) -> Result<(), Self::Error>;
}

impl<M: Medium> Programs<PageWrite> for M {
    type Error = M::Error;

    fn program_one(&mut self, write: &PageWrite) -> Result<(), M::Error> {
        self.program(write.page, &write.bytes)
    }
}

/// Why something isn't done on a device.
#[derive(Clone, Copy, Debug, PartialEq, Eq)]
pub enum Fault<E> {
    /// The event was refused; it changed nothing, and no page was written.
    Refused(Reason),
    /// A page write failed. That counts as a power cut: all that is live is lost, and whether the page that
    /// failed is on the medium isn't known. A commit that fails so survives as a whole or not at all; what the
    /// medium holds says which.
    Medium {
        /// How many writes were made before, of pages or of copies of pages.
        made: u8,
        /// What the medium says.
        error: E,
    },
    /// A page write failed before: read the medium and [`Device::restart`], or [`Device::lay_down`] anew.
    Failed,
}

impl<E> From<Reason> for Fault<E> {
    fn from(reason: Reason) -> Fault<E> {
        Fault::Refused(reason)
    }
}

impl<E: fmt::Display> fmt::Display for Fault<E> {
    fn fmt(&self, f: &mut fmt::Formatter) -> fmt::Result {
        match self {
            Fault::Refused(reason) => reason.fmt(f),
            Fault::Medium { made, error } => {
                write!(f, "the medium failed after {made} write{}: {error}", if *made == 1 { "" } else { "s" })
            }
            Fault::Failed => write!(f, "the medium failed before: read it and restart the device"),
        }
    }
}

impl<E: fmt::Debug + fmt::Display> std::error::Error for Fault<E> {}

/// A store on a medium, with what is live in memory. An event's page writes are asked of the library before it
/// is played, and handed to the medium one by one; only then is it played on the copy in memory. The power may
/// go at any moment.
///
/// ```
/// use nekahuiro::{Device, Medium, Page, Record, Store, Transact};
///
/// struct Flash([Page; 33]);
///
/// impl Medium for Flash {
///     type Error = std::convert::Infallible;
///
///     fn program(&mut self, page: u8, bytes: &Page) -> Result<(), Self::Error> {
///         self.0[usize::from(page)] = *bytes;
///         Ok(())
///     }
/// }
///
/// let virgin = Flash([[0xFF; 32]; 33]);
/// let read = Store::of(&virgin.0.concat())?;
/// let mut device = Device::new(virgin, read);
/// assert!(device.recover().is_err()); // there is no store yet
/// device.lay_down()?;
/// device.recover()?;
///
/// let record = Record::new(3).unwrap();
/// let top = device.begin(None)?;
/// device.put(top, record, &[7; 32])?;
/// assert_eq!(device.commit(top)?, 4);
/// assert_eq!(device.medium().0[20], [7; 32]);
/// # Ok::<(), Box<dyn std::error::Error>>(())
/// ```
#[derive(Clone, Debug)]
pub struct Device<M, F: Form = First> {
    medium: M,
    /// None once a page write has failed.
    session: Option<Session<F>>,
}

impl<F: Form, M: Programs<F::Write>> Device<M, F> {
    /// The power has come on: the medium, and the store that was read from it. It is down; recover comes next.
    pub fn new(medium: M, store: StoreOf<F>) -> Device<M, F> {
        Device { medium, session: Some(Session::new(store)) }
    }

    /// As after a power cut, with what was read from the medium. Whatever the device was has no effect.
    pub fn restart(&mut self, store: StoreOf<F>) {
        self.session = Some(Session::new(store));
    }

    /// Lays down a fresh store on a medium that may hold anything; recover comes next. All that was there is
    /// lost. Page 0 comes first, as zeros, so that it can't be read until all others are blank; then pages 1 to
    /// 32; then page 0 as the empty commit page: 34 page writes, or both copies of each. Cut by the power, the medium is as it was, or
    /// its recover is refused as damaged with a page 0 of zeros, or it is fresh; laying down again mends it.
    pub fn lay_down(&mut self) -> Result<(), Fault<M::Error>> {
        let fresh = StoreOf::fresh();
        let page = |page: u8| PageWrite { page, bytes: fresh.page(page.into()) };
        let unreadable = PageWrite { page: 0, bytes: [0; PAGE_BYTES] };
        let writes = std::iter::once(unreadable).chain((1..PAGES as u8).map(page)).chain([page(0)]);
        self.session = None;
        self.program(writes.flat_map(F::writes))?;
        self.restart(fresh);
        Ok(())
    }

    /// Hands writes to the medium, one by one.
    fn program(&mut self, writes: impl Iterator<Item = F::Write>) -> Result<(), Fault<M::Error>> {
        for (made, write) in (0..).zip(writes) {
            self.medium.program_one(&write).map_err(|error| Fault::Medium { made, error })?;
        }
        Ok(())
    }

    /// The copy of the medium in memory with what is live on it; none once a page write has failed.
    pub fn session(&self) -> Option<&Session<F>> {
        self.session.as_ref()
    }

    /// The medium.
    pub fn medium(&self) -> &M {
        &self.medium
    }

    /// The medium, to read it; who writes to it spoils the device.
    pub fn medium_mut(&mut self) -> &mut M {
        &mut self.medium
    }

    /// The medium, and what is live is lost.
    pub fn into_medium(self) -> M {
        self.medium
    }
}

impl<F: Form, M: Programs<F::Write>> Transact for Device<M, F> {
    type Error = Fault<M::Error>;

    /// Through to the medium, whatever the event: its page writes first, then the event on the copy. The count
    /// of the event is set to 63. Where pages can tear, a recovery mends the medium before its page writes.
    fn play(&mut self, event: Event) -> Result<Answer, Fault<M::Error>> {
        let event = event.uncut();
        // Where a page write fails the session is gone.
        let mut session = self.session.take().ok_or(Fault::Failed)?;
        let mends = session.mends(event).into_iter();
        self.program(mends.chain((0..).map_while(|index| session.write(event, index))))?;
        let answer = session.play(event);
        self.session = Some(session);
        Ok(answer?)
    }
}
