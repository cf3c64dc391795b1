//! The model of a four-core block's caches, for benches in Rust: the proved library behind enums. A bench holds a [`System`] and names each
//! [`Step`]; the system takes it, or refuses it and stays as it was.
//!
//! [`raw`] has the structs and calls as C sees them, and [`call`] the calls made safe, for whoever looks into a state.

#![deny(unsafe_code)]

#[allow(unsafe_code)]
pub mod call;
mod given;
pub mod raw;
mod record;
mod step;
mod system;

pub use given::{Answer, Refusal};
pub use record::{read_sizes, read_step, write_record, write_sizes, write_step, MOST_BYTES};
pub use step::{Instruction, Step};
pub use system::{Drained, Sizes, System, MOST_DRAIN};
