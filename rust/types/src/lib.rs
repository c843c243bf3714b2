//! What every implementation of the trace library shares: the answers it
//! gives, the limits it keeps, the layout of a trace file, and the one trait
//! behind which implementations can be exchanged.

mod answers;
pub mod event;
mod frame;
mod item;
pub mod layout;
mod library;
pub mod limits;

pub use answers::{Header, Refusal, Summary};
pub use event::NUMBERS_PER_EVENT;
pub use frame::Frame;
pub use item::Item;
pub use library::Library;
