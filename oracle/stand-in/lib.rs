//! The crate root that the given texts need: their modules, the stand-in `metadata` and the rows.
#![allow(dead_code, unused_imports)]

mod cip;
mod config;
mod identity;
pub mod logix;
mod metadata;
mod model;
mod path;
pub mod rows;
