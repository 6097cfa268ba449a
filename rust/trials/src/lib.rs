//! What the tests share: playing a case on two programs and comparing all that can be seen of it.

pub mod case;
pub mod check;
pub mod ends;
pub mod every_order;
pub mod exhaustive;
pub mod forms;
pub mod lent;
pub mod listed;
pub mod lives;
pub mod minimise;
pub mod planned;
pub mod portions;
pub mod random;
pub mod report;
pub mod serial;
pub mod settings;
pub mod sheets;
pub mod states;
pub mod waiting;

pub use case::{Case, Played, Program};
pub use check::{check, Fault};
