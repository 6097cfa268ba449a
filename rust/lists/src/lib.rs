//! Event lists and start stores: fixed lists for timing, random lists and stores for tests.

mod form;
pub mod random;
mod rng;
pub mod sheets;
mod sketch;
pub mod stores;
pub mod timing;
pub mod worked;

pub use form::{Form, Word};
pub use rng::Rng;
