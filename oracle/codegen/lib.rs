//! The original files of logos-codegen 0.16.1 as one crate. `graph`, `pattern`, `leaf` and `generator` are the original's own files, by
//! links; `parser`, `util`, `graph/export.rs` and `generator/leaf.rs` are stand-ins; `views` is what the
//! last two hand out.
#![allow(dead_code, unexpected_cfgs)]

pub mod generator;
pub mod graph;
pub mod leaf;
pub mod parser;
pub mod pattern;
pub mod util;
pub mod views;
