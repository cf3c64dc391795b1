//! The proved library beside the independent model: one state in both forms, what a call has to give, and document 01's "sound" decided
//! independently.

pub mod clauses;
pub mod expected;
pub mod fields;
pub mod kinds;
pub mod layout;
pub mod sound;
mod unused;
