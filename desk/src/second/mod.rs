//! The independent second program: the rules of documents 01 and 02 in plain
//! Rust.
//!
//! The two engines share what an instruction looks like (table, fetch, words,
//! arithmetic, conditions) and nothing of how it is carried out, so that each
//! is a check on the other. `account` derives from a plain history alone what
//! the pipeline has to show. `letter` has both engines once more, slow and with
//! records that can hold anything.

pub mod account;
pub mod arithmetic;
pub mod encoding;
pub mod fault;
pub mod fetch;
mod flow;
pub mod letter;
pub mod listing;
pub mod machine;
pub mod memory;
pub mod part;
pub mod peaks;
pub mod pipeline;
pub mod plain;
pub mod replay;
pub mod report;
pub mod stages;
pub mod table;
pub mod window;
pub mod word;
pub mod writing;

pub use fault::Reason;
pub use machine::{Refusal, Registers, Status, REGISTER_COUNT, RSP};
pub use replay::{replay, replay_set, replay_split};
pub use report::y86run;
