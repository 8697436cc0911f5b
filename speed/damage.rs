// Damaged records, spoiled latency lists and wrong output lengths, so that every refusal occurs, alone and before others,
// at many places.
use crate::plain::{check, read};
use crate::records::{Seed, Trial};
use crate::sides::Output;

// How much memory an output is lent from: more than the longest table has.
pub const MEMORY: usize = 1900;

// Values at the ends of the ranges and just beyond.
const EDGES: [u8; 16] = [0, 1, 2, 3, 4, 5, 16, 17, 32, 33, 60, 61, 63, 64, 254, 255];

fn mend_check(s: &mut [u8; 512]) {
    let k = check(s);
    s[508..].copy_from_slice(&k.to_le_bytes());
}

// Gives the record the block number with which both sums of the check come to 0. The words of the block number go 248 and
// 247 times into the second sum.
fn zero_sums(s: &mut [u8; 512]) {
    s[12..16].fill(0);
    let (a, b) = (check(s) % 65536, check(s) / 65536);
    let x = (247 * a + 65535 - b) % 65535;
    let y = (2 * 65535 - a - x) % 65535;
    s[12..16].copy_from_slice(&(65536 * y + x).to_le_bytes());
    mend_check(s);
}

impl Seed {
    // Changes one of the bytes from `from` to before `to`.
    fn change(&mut self, s: &mut [u8; 512], from: usize, to: usize) {
        let k = from + self.below((to - from) as u64) as usize;
        s[k] = match self.below(4) {
            0 => s[k].wrapping_add(1),
            1 => s[k].wrapping_sub(1),
            2 => self.among(&EDGES),
            _ => self.below(256) as u8,
        };
    }

    // Changes some bytes as far as the record stays right.
    fn varied(&mut self, r: &[u8; 512]) -> [u8; 512] {
        let mut s = *r;
        for _ in 0..4 {
            let mut x = s;
            self.change(&mut x, 4, 508);
            mend_check(&mut x);
            if read(&x).is_ok() {
                s = x;
            }
        }
        if self.below(16) == 0 {
            zero_sums(&mut s);
        }
        s
    }

    // Changes a byte of the check, or makes 65535 of a sum that is 0.
    fn spoil_check(&mut self, s: &mut [u8; 512]) {
        let k = self.among(&[508, 510]);
        if s[k..k + 2] == [0, 0] {
            s[k..k + 2].fill(255);
        } else {
            self.change(s, 508, 512);
        }
    }

    // Changes a byte of the letters, the header or the entries, and up to three from there on: the first fault counts. The
    // check is made right again three times in four.
    fn spoil_bytes(&mut self, s: &mut [u8; 512]) {
        let (from, to) = self.among(&[(0, 4), (4, 28), (28, 508)]);
        self.change(s, from, to);
        for _ in 0..self.below(4) {
            self.change(s, from, 508);
        }
        if self.below(4) > 0 {
            mend_check(s);
        }
    }

    // A record with a wrong check, with another n, with wrong bytes, or of another length.
    fn damaged(&mut self, r: &[u8; 512]) -> Vec<u8> {
        let mut s = *r;
        match self.below(8) {
            0 => self.spoil_check(&mut s),
            1 => {
                s[4] = 1 + self.below(60) as u8;
                mend_check(&mut s);
            }
            _ => self.spoil_bytes(&mut s),
        }
        let mut s = s.to_vec();
        if self.below(8) == 0 {
            let length = self.below(1024) as usize;
            s.resize(self.among(&[0, 1, 28, 508, 511, 513, 1024, length]), self.among(&EDGES));
        }
        s
    }

    // Puts wrong latencies at up to three places, makes the list longer or shorter, or both.
    fn spoil_list(&mut self, r: &[u8; 512], l: &mut Vec<u8>) {
        let (n, how) = (l.len(), self.below(3));
        if how > 0 {
            for _ in 0..1 + self.below(3) {
                let i = self.below(n as u64) as usize;
                let (lo, hi, any) = (r[28 + 8 * i + 1], r[28 + 8 * i + 2], self.below(256) as u8);
                l[i] = self.among(&[lo - 1, hi.wrapping_add(1), any]);
            }
        }
        if how < 2 {
            let length = self.below(62) as usize;
            l.resize(self.among(&[n - 1, n + 1, 0, 60, 61, 512, length]), self.among(&EDGES));
        }
    }

    // A record near another, right or damaged, and a list for it, right or spoiled.
    pub fn trial(&mut self, r: &[u8; 512]) -> Trial {
        let s = self.varied(r);
        let mut list = self.latencies(&s);
        if self.below(2) == 0 {
            self.spoil_list(&s, &mut list);
        }
        let record = if self.below(2) == 0 { s.to_vec() } else { self.damaged(&s) };
        Trial { record, list }
    }

    // A length for the output of n instructions. A table may be longer than its numbers, a record may not.
    pub fn output_length(&mut self, output: &Output, n: usize) -> usize {
        let right = output.length(n);
        match output {
            Output::Nothing | Output::Number => right,
            Output::Record | Output::Table(_) => {
                let (less, more) = (self.below(right as u64) as usize, self.below(MEMORY as u64) as usize);
                self.among(&[right, right, right, right, right, right - 1, right + 1, 0, less, more])
            }
        }
    }
}
