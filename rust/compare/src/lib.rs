//! What the differential tests are made of: random traces and files, damage
//! done to them, calls as data, and the comparison of two implementations.

pub mod buckets;
pub mod calls;
pub mod case;
mod chains;
pub mod damage;
pub mod faithful;
pub mod faulty;
pub mod faulty_filter;
pub mod faulty_pages;
pub mod faulty_replay;
pub mod faulty_writes;
pub mod files;
pub mod hostile;
pub mod hostile_calls;
pub mod judge;
mod margins;
pub mod marks;
mod page_faults;
pub mod random;
pub mod recency;
mod recency_faults;
pub mod recordings;
pub mod replay_calls;
pub mod report;
pub mod starts;
pub mod traces;
pub mod trees;
mod written_faults;
mod written_lru;
mod written_slim;

pub use case::Case;
pub use judge::Judge;
pub use random::Random;
