//! The Rust source once more, with its scanners heard: `standins/scanner.rs` stands before them.

#![allow(dead_code)]

include!(concat!(env!("OUT_DIR"), "/root.rs"));
