//! An independent model, written from document 01 alone: what the Rattle code is compared with.

pub mod chooser;
pub mod drain;
pub mod draws;
pub mod given;
mod handling;
mod issue;
pub mod list;
pub mod listing;
pub mod longest;
pub mod model;
pub mod record;
pub mod rows;
pub mod site;
mod take;
