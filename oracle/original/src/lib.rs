//! The original crate under a root of its own: its lib.rs names files that are not at hand.
#![no_std]
#![allow(dead_code)]

extern crate alloc;

include!(concat!(env!("OUT_DIR"), "/root.rs"));
