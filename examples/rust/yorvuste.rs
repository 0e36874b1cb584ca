//! Yorvuste from Rust: safe functions over the calls that include/yorvuste.h declares.
//!
//! A call wants up to 1 MB of stack (docs/calls.md).
use std::fmt;

mod calls {
    // No answer of `yorvuste_check` is longer, in bytes.
    pub const YORVUSTE_ROOM: usize = 256;

    #[repr(C)]
    pub struct Reading {
        pub refusal: u8,
        pub places: u8,
        pub place: usize,
    }

    #[repr(C)]
    pub struct Judgement {
        pub refusal: u8,
        pub verdict: bool,
        pub bytes: u32,
        pub lines: u32,
        pub place: usize,
    }

    unsafe extern "C" {
        pub fn yorvuste_check(input: *const u8, input_size: usize, into: *mut u8, into_size: usize) -> usize;
        pub fn yorvuste_read(pattern: *const u8, pattern_size: usize) -> Reading;
        pub fn yorvuste_judge(pattern: *const u8, pattern_size: usize, text: *const u8, text_size: usize) -> Judgement;
    }
}

/// Why a call is refused: the refusal's number and its place (docs/refusals.md).
#[derive(Clone, Copy, PartialEq, Eq, Debug)]
pub struct Fault {
    pub number: u8,
    pub place: usize,
}

impl fmt::Display for Fault {
    fn fmt(&self, f: &mut fmt::Formatter) -> fmt::Result {
        let layer = match self.number {
            1..=3 => "pattern",
            4..=6 => "build",
            _ => "roll",
        };
        write!(f, "refused {} layer {layer} place {}", self.number, self.place)
    }
}

impl std::error::Error for Fault {}

/// Whether a text follows a pattern, its bytes and its line ends.
#[derive(Clone, Copy, PartialEq, Eq, Debug)]
pub struct Judgement {
    pub verdict: bool,
    pub bytes: u32,
    pub lines: u32,
}

/// The text that `rollcheck` prints of a bundle.
pub fn check(input: &[u8]) -> String {
    let mut text = vec![0; calls::YORVUSTE_ROOM];
    // SAFETY: two slices, which are never null, and do not overlap.
    let size = unsafe { calls::yorvuste_check(input.as_ptr(), input.len(), text.as_mut_ptr(), text.len()) };
    text.truncate(size);
    String::from_utf8(text).expect("letters, digits and line ends")
}

/// How many places a pattern has.
pub fn read(pattern: &[u8]) -> Result<u8, Fault> {
    // SAFETY: a slice, which is never null.
    let reading = unsafe { calls::yorvuste_read(pattern.as_ptr(), pattern.len()) };
    match reading.refusal {
        0 => Ok(reading.places),
        number => Err(Fault { number, place: reading.place }),
    }
}

/// What a text comes to under a pattern.
pub fn judge(pattern: &[u8], text: &[u8]) -> Result<Judgement, Fault> {
    // SAFETY: two slices, which are never null.
    let judged = unsafe { calls::yorvuste_judge(pattern.as_ptr(), pattern.len(), text.as_ptr(), text.len()) };
    match judged.refusal {
        0 => Ok(Judgement { verdict: judged.verdict, bytes: judged.bytes, lines: judged.lines }),
        number => Err(Fault { number, place: judged.place }),
    }
}
