// The operations of plain Rust on a record's bytes, each with all the tests that its inputs have. The answer is 0, or the
// refusal's number * 65536 + its place; at a refusal nothing is written.
use crate::plain::{read, write, Refusal};
use crate::plain_analysis::{analyse, windows};
use crate::plain_choice::{play, play_length};
use crate::plain_play;

fn coded(done: Result<(), Refusal>) -> u32 {
    match done {
        Ok(()) => 0,
        Err((number, place)) => number as u32 * 65536 + place as u32,
    }
}

// Tests 1 to 5.
#[inline(never)]
pub fn rust_check(s: &[u8]) -> u32 {
    coded(read(s).map(|_| ()))
}

// Tests 1 to 6, then the record again.
#[inline(never)]
pub fn rust_recode(s: &[u8], out: &mut [u8]) -> u32 {
    coded(read(s).and_then(|b| write(&b, out)))
}

// Tests 1 to 6, then the result record.
#[inline(never)]
pub fn rust_analyse(s: &[u8], out: &mut [u8]) -> u32 {
    coded(read(s).and_then(|b| analyse(&b, out)))
}

// Tests 1 to 6, then the window table.
#[inline(never)]
pub fn rust_windows(s: &[u8], out: &mut [u16]) -> u32 {
    coded(read(s).and_then(|b| windows(&b, out)))
}

// Tests 1 to 8, then the play table.
#[inline(never)]
pub fn rust_play(s: &[u8], lat: &[u8], out: &mut [u16]) -> u32 {
    coded(read(s).and_then(|b| play(&b, lat, out)))
}

// Tests 1 to 5, 7 and 8, then the length of the play.
#[inline(never)]
pub fn rust_play_length(s: &[u8], lat: &[u8], out: &mut u16) -> u32 {
    coded(read(s).and_then(|b| play_length(&b, lat)).map(|cycles| *out = cycles))
}

// The two again, cycle by cycle.
#[inline(never)]
pub fn rust_play_by_cycle(s: &[u8], lat: &[u8], out: &mut [u16]) -> u32 {
    coded(read(s).and_then(|b| plain_play::play(&b, lat, out)))
}

#[inline(never)]
pub fn rust_play_length_by_cycle(s: &[u8], lat: &[u8], out: &mut u16) -> u32 {
    coded(read(s).and_then(|b| plain_play::play_length(&b, lat)).map(|cycles| *out = cycles))
}
