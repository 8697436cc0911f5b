// Each operation as proved and in plain Rust, the play in plain Rust both by choice and by cycle, all in one shape so that
// they can be compared and timed alike.
use crate::doors::{rust_analyse, rust_check, rust_play, rust_play_length, rust_recode, rust_windows};
use crate::doors::{rust_play_by_cycle, rust_play_length_by_cycle};
use crate::records::Trial;

extern "C" {
    fn bench_check(s: *const u8, n: usize) -> u32;
    fn bench_recode(s: *const u8, n: usize, out: *mut u8, m: usize) -> u32;
    fn bench_analyse(s: *const u8, n: usize, out: *mut u8, m: usize) -> u32;
    fn bench_windows(s: *const u8, n: usize, out: *mut u16, m: usize) -> u32;
    fn bench_play(s: *const u8, n: usize, lat: *const u8, k: usize, out: *mut u16, m: usize) -> u32;
    fn bench_play_length(s: *const u8, n: usize, lat: *const u8, k: usize, out: *mut u16) -> u32;
}

pub type Side<T> = fn(&Trial, &mut [T]) -> u32;

// What an operation writes to. A table has so many numbers for each instruction.
pub enum Output {
    Nothing,
    Number,
    Record,
    Table(usize),
}

impl Output {
    // How much is written for n instructions.
    pub fn length(&self, n: usize) -> usize {
        match self {
            Output::Nothing => 0,
            Output::Number => 1,
            Output::Record => 512,
            Output::Table(k) => k * n,
        }
    }
}

// An operation, and the numbers that it can answer. The play has a second opponent, by cycle.
pub struct Operation<T> {
    pub name: &'static str,
    pub numbers: &'static [u32],
    pub output: Output,
    pub ours: Side<T>,
    pub rust: Side<T>,
    pub by_cycle: Option<Side<T>>,
}

pub const CHECK: Operation<u8> = Operation {
    name: "check",
    numbers: &[0, 1, 2, 3, 4, 5],
    output: Output::Nothing,
    ours: |Trial { record: s, .. }, _| unsafe { bench_check(s.as_ptr(), s.len()) },
    rust: |Trial { record: s, .. }, _| rust_check(s),
    by_cycle: None,
};

pub const RECODE: Operation<u8> = Operation {
    name: "recode",
    numbers: &[0, 1, 2, 3, 4, 5, 6],
    output: Output::Record,
    ours: |Trial { record: s, .. }, out| unsafe { bench_recode(s.as_ptr(), s.len(), out.as_mut_ptr(), out.len()) },
    rust: |Trial { record: s, .. }, out| rust_recode(s, out),
    by_cycle: None,
};

pub const ANALYSE: Operation<u8> = Operation {
    name: "analyse",
    numbers: &[0, 1, 2, 3, 4, 5, 6],
    output: Output::Record,
    ours: |Trial { record: s, .. }, out| unsafe { bench_analyse(s.as_ptr(), s.len(), out.as_mut_ptr(), out.len()) },
    rust: |Trial { record: s, .. }, out| rust_analyse(s, out),
    by_cycle: None,
};

pub const WINDOWS: Operation<u16> = Operation {
    name: "windows",
    numbers: &[0, 1, 2, 3, 4, 5, 6],
    output: Output::Table(30),
    ours: |Trial { record: s, .. }, out| unsafe { bench_windows(s.as_ptr(), s.len(), out.as_mut_ptr(), out.len()) },
    rust: |Trial { record: s, .. }, out| rust_windows(s, out),
    by_cycle: None,
};

pub const PLAY: Operation<u16> = Operation {
    name: "play",
    numbers: &[0, 1, 2, 3, 4, 5, 6, 7, 8],
    output: Output::Table(15),
    ours: |Trial { record: s, list: l }, out| unsafe {
        bench_play(s.as_ptr(), s.len(), l.as_ptr(), l.len(), out.as_mut_ptr(), out.len())
    },
    rust: |Trial { record: s, list: l }, out| rust_play(s, l, out),
    by_cycle: Some(|Trial { record: s, list: l }, out| rust_play_by_cycle(s, l, out)),
};

pub const PLAY_LENGTH: Operation<u16> = Operation {
    name: "play_length",
    numbers: &[0, 1, 2, 3, 4, 5, 7, 8],
    output: Output::Number,
    ours: |Trial { record: s, list: l }, out| unsafe {
        bench_play_length(s.as_ptr(), s.len(), l.as_ptr(), l.len(), &mut out[0])
    },
    rust: |Trial { record: s, list: l }, out| rust_play_length(s, l, &mut out[0]),
    by_cycle: Some(|Trial { record: s, list: l }, out| rust_play_length_by_cycle(s, l, &mut out[0])),
};
