//! The state between two portions of events, laid out as `include/nekahuiro.h` says.

use crate::answer::Refusal;
use crate::limits::{RECORDS, STATE_BYTES, TRANSACTIONS};
use crate::{Record, Transaction};

/// Declares the state's fields in their order: the struct, its bytes and the struct of bytes.
macro_rules! layout {
    ($(#[$about:meta])* pub struct State { $($(#[$doc:meta])* $field:ident: $kind:ty,)* }) => {
        $(#[$about])*
        #[repr(C)]
        #[derive(Clone, Debug, Default, PartialEq, Eq)]
        pub struct State {
            $($(#[$doc])* pub $field: $kind,)*
        }

        const _: () = assert!(size_of::<State>() == STATE_BYTES);
        const _: () = assert!(0 $(+ size_of::<$kind>())* == STATE_BYTES);

        impl State {
            /// Name, place and number of bytes of each field.
            pub const FIELDS: &'static [(&'static str, usize, usize)] =
                &[$((stringify!($field), std::mem::offset_of!(State, $field), size_of::<$kind>()),)*];

            /// Its bytes, as the library sees them.
            pub fn bytes(&self) -> [u8; STATE_BYTES] {
                let mut bytes = [0; STATE_BYTES];
                let mut rest = bytes.iter_mut();
                $(self.$field.put(&mut |byte| rest.next().into_iter().for_each(|place| *place = byte));)*
                bytes
            }

            /// The state in these bytes, which may be anything as long as their number is right;
            /// whether it is sound is told when it is lent.
            pub fn of(bytes: &[u8]) -> Result<State, Refusal> {
                if bytes.len() != STATE_BYTES {
                    return Err(Refusal::State);
                }
                let mut rest = bytes.iter().copied();
                Ok(State { $($field: Plain::take(&mut rest),)* })
            }
        }
    };
}

layout! {
    /// The state between two portions: all zeros at the start, when all is down and nothing is live.
    ///
    /// [`Store::portion`](crate::Store::portion) keeps it; a caller only stores it, together with the
    /// store and the working buffer that were left with it. Any content may be lent: one that isn't
    /// sound is refused with [`Refusal::State`]. A set of transactions has bit `1 << t` for t, and a set
    /// in write mode is within the one in any mode.
    ///
    /// ```
    /// use nekahuiro::{limits::STATE_BYTES, State};
    /// let state = State::new();
    /// assert_eq!(state.bytes(), [0; STATE_BYTES]);
    /// assert_eq!(State::of(&state.bytes()), Ok(state));
    /// ```
    pub struct State {
        /// Of each transaction the set of itself and its ancestors; 0 for a free number.
        line: [u32; TRANSACTIONS],
        /// Of record r those who hold its lock: place 2r in any mode, place 2r + 1 in write mode.
        held: [u32; 2 * RECORDS],
        /// Of record r those who retain its lock: place 2r in any mode, place 2r + 1 in write mode.
        retained: [u32; 2 * RECORDS],
        /// Of each record the set of those who have a version of it.
        writers: [u32; RECORDS],
        /// Of each transaction its parent, 31 for a top transaction, 0 for a free number.
        parent: [u8; TRANSACTIONS],
        /// Of each transaction its depth, 1 for a top transaction, 0 for a free number.
        depth: [u8; TRANSACTIONS],
        /// 1 while up, 0 while down.
        up: u8,
        /// Zeros.
        spare: [u8; 3],
    }
}

impl State {
    /// The start: down, and nothing live.
    pub fn new() -> State {
        State::default()
    }

    /// Whether the store is up.
    pub fn is_up(&self) -> bool {
        self.up == 1
    }

    /// The live transactions, rising.
    pub fn live(&self) -> impl Iterator<Item = Transaction> + '_ {
        transactions(|t| self.depth[t] != 0)
    }

    /// The parent of a live transaction, if it has one.
    pub fn parent(&self, transaction: Transaction) -> Option<Transaction> {
        let live = |t: Transaction| self.depth.get(usize::from(t.number())).is_some_and(|depth| *depth != 0);
        let parent = Transaction::new(*self.parent.get(usize::from(transaction.number()))?)?;
        Some(parent).filter(|parent| live(transaction) && live(*parent))
    }

    /// Who holds a record's lock, in any mode.
    pub fn holders(&self, record: Record) -> impl Iterator<Item = Transaction> {
        members(self.held[any_mode(record)])
    }

    /// Who holds a record's lock in write mode; at most one does in a sound state.
    pub fn write_holders(&self, record: Record) -> impl Iterator<Item = Transaction> {
        members(self.held[write_mode(record)])
    }

    /// Who retains a record's lock, in any mode.
    pub fn retainers(&self, record: Record) -> impl Iterator<Item = Transaction> {
        members(self.retained[any_mode(record)])
    }

    /// Who retains a record's lock in write mode.
    pub fn write_retainers(&self, record: Record) -> impl Iterator<Item = Transaction> {
        members(self.retained[write_mode(record)])
    }

    /// Who has a version of a record.
    pub fn writers(&self, record: Record) -> impl Iterator<Item = Transaction> {
        members(self.writers[usize::from(record.number())])
    }
}

/// The place of a record's set in any mode.
fn any_mode(record: Record) -> usize {
    2 * usize::from(record.number())
}

/// The place of a record's set in write mode, which is within the set in any mode.
fn write_mode(record: Record) -> usize {
    any_mode(record) + 1
}

fn transactions(wanted: impl Fn(usize) -> bool) -> impl Iterator<Item = Transaction> {
    (0..TRANSACTIONS).filter(move |t| wanted(*t)).filter_map(|t| Transaction::new(t as u8))
}

fn members(set: u32) -> impl Iterator<Item = Transaction> {
    transactions(move |t| set >> t & 1 == 1)
}

/// Integers and arrays of them, as bytes. The library is for x86-64: the least byte comes first.
trait Plain: Sized {
    fn put(&self, out: &mut impl FnMut(u8));
    /// From the next bytes, zeros where there are none.
    fn take(bytes: &mut impl Iterator<Item = u8>) -> Self;
}

impl Plain for u8 {
    fn put(&self, out: &mut impl FnMut(u8)) {
        out(*self);
    }

    fn take(bytes: &mut impl Iterator<Item = u8>) -> u8 {
        bytes.next().unwrap_or(0)
    }
}

impl Plain for u32 {
    fn put(&self, out: &mut impl FnMut(u8)) {
        self.to_le_bytes().put(out);
    }

    fn take(bytes: &mut impl Iterator<Item = u8>) -> u32 {
        u32::from_le_bytes(Plain::take(bytes))
    }
}

impl<T: Plain, const N: usize> Plain for [T; N] {
    fn put(&self, out: &mut impl FnMut(u8)) {
        self.iter().for_each(|part| part.put(out));
    }

    fn take(bytes: &mut impl Iterator<Item = u8>) -> [T; N] {
        std::array::from_fn(|_| T::take(bytes))
    }
}
