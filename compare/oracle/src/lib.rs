//! The Rust source that is ported, built as it was published.

#![allow(dead_code)]

include!(concat!(env!("OUT_DIR"), "/root.rs"));
