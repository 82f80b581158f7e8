//! The second program by the letter: the rules of documents 01 and 02, one after
//! the other, with no regard for time.
//!
//! The engines beside this module are made to be fast, and so their records
//! cannot hold everything: an instruction has no next address of its own, and
//! its status is one where W has two. Here every field of a record may hold
//! any value, so that hand-made records can be run. Of the other engines it
//! takes only what a record is made of and the numbers of refusals and limits:
//! what an instruction looks like and does is written out again, so that each
//! is a check on the other.

mod clock;
mod fetch;
mod instruction;
mod memory;
mod pipeline;
mod plain;
mod refusals;
mod work;

use fetch::{fault_of, fetch};
pub use fetch::{fetch_open, Fetched};
pub use instruction::Instruction;
pub use pipeline::{Accessed, Decoded, Executed, Pipeline, Retired};
pub use plain::Machine;
