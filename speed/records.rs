// Made records and latency lists for them, all right; damage.rs makes wrong ones. All come from one seed, in the order
// asked for.
use crate::plain::{read, write, Entry, NO_BLOCK};

// What an operation is given beside its output.
pub struct Trial {
    pub record: Vec<u8>,
    pub list: Vec<u8>,
}

pub struct Seed(pub u64);

impl Seed {
    pub fn below(&mut self, m: u64) -> u64 {
        self.0 ^= self.0 << 13;
        self.0 ^= self.0 >> 7;
        self.0 ^= self.0 << 17;
        (self.0 >> 11) % m
    }

    pub fn among<T: Copy>(&mut self, x: &[T]) -> T {
        x[self.below(x.len() as u64) as usize]
    }

    fn register(&mut self) -> u8 {
        let r = self.below(66) as u8;
        if r < 64 { r } else { 255 }
    }

    pub fn record(&mut self) -> [u8; 512] {
        let mut b = NO_BLOCK;
        b.n = 1 + self.below(60) as u8;
        b.q = 1 + self.below(16) as u8;
        b.w = 1 + self.below(32) as u8;
        b.f = 1 + self.below(4) as u8;
        b.d = 1 + self.below(4) as u8;
        b.c = 1 + self.below(4) as u8;
        b.origin = 1 + self.below(2) as u8;
        b.number = self.below(1 << 32) as u32;
        for i in 0..b.n as usize {
            let lo = 1 + self.below(200) as u8;
            b.entries[i] = Entry {
                kind: self.below(4) as u8,
                lo,
                hi: lo + self.below(50) as u8,
                writes: self.register(),
                reads1: self.register(),
                reads2: self.register(),
            };
        }
        let mut out = [0u8; 512];
        write(&b, &mut out).unwrap();
        out
    }

    // Of n instructions with latencies to `top`: few kinds and few registers, so that many contend and many wait.
    pub fn contended(&mut self, n: usize, top: u64) -> [u8; 512] {
        let (kinds, registers) = (1 + self.below(4), 1 + self.below(8));
        let (q, w) = (self.among(&[4, 16]), self.among(&[8, 32]));
        let mut b = NO_BLOCK;
        b.n = n as u8;
        b.q = 1 + self.below(q) as u8;
        b.w = 1 + self.below(w) as u8;
        b.f = 1 + self.below(4) as u8;
        b.d = 1 + self.below(4) as u8;
        b.c = 1 + self.below(4) as u8;
        b.origin = 1 + self.below(2) as u8;
        b.number = self.below(1 << 32) as u32;
        for e in &mut b.entries[..n] {
            let lo = 1 + self.below(top);
            let hi = if self.below(3) == 0 { lo } else { lo + self.below(top + 1 - lo) };
            let mut register = || if self.below(3) == 0 { 255 } else { self.below(registers) as u8 };
            let (writes, reads1, reads2) = (register(), register(), register());
            *e = Entry { kind: self.below(kinds) as u8, lo: lo as u8, hi: hi as u8, writes, reads1, reads2 };
        }
        let mut out = [0u8; 512];
        write(&b, &mut out).unwrap();
        out
    }

    // A latency for each instruction of a record.
    pub fn latencies(&mut self, r: &[u8; 512]) -> Vec<u8> {
        let b = read(r).unwrap();
        let used = &b.entries[..b.n as usize];
        used.iter().map(|e| e.lo + self.below((e.hi - e.lo) as u64 + 1) as u8).collect()
    }

    // A record as it is, and a right list for it.
    pub fn right(&mut self, r: &[u8; 512]) -> Trial {
        Trial { record: r.to_vec(), list: self.latencies(r) }
    }
}

// Bad for the play by choice: twice one instruction waits long for the one before it, and all others overtake it, so that
// each start looks at every instruction that is decoded.
pub fn overtaken() -> [u8; 512] {
    let mut b = NO_BLOCK;
    (b.n, b.q, b.w, b.f, b.d, b.c, b.origin) = (60, 16, 32, 4, 4, 4, 1);
    for (i, e) in b.entries.iter_mut().enumerate() {
        let l = if i % 32 == 0 { 255 } else { 1 };
        let (writes, reads1) = (if i % 32 == 0 { 1 } else { 255 }, if i % 32 == 1 { 1 } else { 255 });
        *e = Entry { kind: (i % 4) as u8, lo: l, hi: l, writes, reads1, reads2: 255 };
    }
    let mut out = [0u8; 512];
    write(&b, &mut out).unwrap();
    out
}
