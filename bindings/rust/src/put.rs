//! What is handed to the library to be written.

use crate::sys::Made;
use std::mem::MaybeUninit;

/// Where a frame goes: its channel, and the longest payload that the other end takes.
#[derive(Clone, Copy, Debug)]
pub struct To {
    pub channel: u16,
    pub max_payload: u32,
}

/// What can be put. Nothing outside of the crate has it.
pub trait Put {
    /// Writes the canonical frames at the front of some memory, or leaves that as it is.
    fn put(&self, to: To, out: &mut [MaybeUninit<u8>]) -> Made;

    /// The name of the first short string that is too long, where one is.
    fn too_long(&self) -> Option<&'static str>;
}
