// The rules in plain Rust: the windows of a block, its result record and its window table.
use crate::plain::{sealed, shape, tested, Block, Refusal, Shape};

// The stage that is held and waited for.
const EX: usize = 2;

// Zeros before a stage's finishes: no test asks whether there is an instruction so far back.
const PAD: usize = 32;

// The finishes of IF, ID, EX, WB and CM, and the starts of EX. Slot 0 of wbf is for no writer.
struct Times {
    iff: [u32; PAD + 60],
    idf: [u32; PAD + 60],
    exs: [u32; 60],
    exf: [u32; 60],
    wbf: [u32; 61],
    cmf: [u32; PAD + 60],
}

const NO_TIMES: Times =
    Times { iff: [0; PAD + 60], idf: [0; PAD + 60], exs: [0; 60], exf: [0; 60], wbf: [0; 61], cmf: [0; PAD + 60] };

impl Times {
    #[inline(always)]
    fn ready_ex(&self, p: &Shape, i: usize) -> u32 {
        self.idf[PAD + i].max(self.wbf[p.s1[i] as usize]).max(self.wbf[p.s2[i] as usize])
    }

    // The starts of the nodes of instruction i, and their finishes. Off EX a node takes one cycle.
    #[inline(always)]
    fn nodes(&self, i: usize) -> ([u32; 5], [u32; 5]) {
        let finishes = [self.iff[PAD + i], self.idf[PAD + i], self.exf[i], self.wbf[i + 1], self.cmf[PAD + i]];
        let mut starts = finishes.map(|x| x - 1);
        starts[EX] = self.exs[i];
        (starts, finishes)
    }
}

// ex gives the start of EX(i) from its ready time and the finishes of the EX before it.
#[inline(always)]
fn fill(p: &Shape, latency: &[u32; 60], t: &mut Times, ex: impl Fn(usize, u32, &[u32; 60]) -> u32) {
    let (mut fetch, mut decode, mut commit) = (0, 0, 0);
    for i in 0..p.n {
        let k = PAD + i;
        fetch = t.idf[k - p.q].max(t.iff[k - p.f]).max(fetch);
        t.iff[k] = fetch + 1;
        decode = t.iff[k].max(t.cmf[k - p.w]).max(t.idf[k - p.d]).max(decode);
        t.idf[k] = decode + 1;
        let s = ex(i, t.ready_ex(p, i), &t.exf);
        t.exs[i] = s;
        t.exf[i] = s + latency[i];
        t.wbf[i + 1] = t.exf[i] + 1;
        commit = t.wbf[i + 1].max(t.cmf[k - p.c]).max(commit);
        t.cmf[k] = commit + 1;
    }
}

// The instructions of a set, lowest first.
fn each(mut m: u64, mut f: impl FnMut(usize)) {
    while m != 0 {
        f(m.trailing_zeros() as usize);
        m &= m - 1;
    }
}

// For each instruction the set of its earlier contenders, and that of its later ones.
fn contenders(b: &Block, p: &Shape) -> ([u64; 60], [u64; 60]) {
    let (mut chains, mut kinds) = ([0u64; 61], [0u64; 4]);
    let (mut before, mut after) = ([0u64; 60], [0u64; 60]);
    for j in 0..p.n {
        let (x, y) = (p.s1[j] as usize, p.s2[j] as usize);
        chains[j + 1] = chains[x] | chains[y] | ((1 << x) >> 1) | ((1 << y) >> 1);
        let k = (b.entries[j].kind & 3) as usize;
        let near = if j < p.w { !0 } else { !0 << (j + 1 - p.w) };
        before[j] = kinds[k] & near & !chains[j + 1];
        kinds[k] |= 1 << j;
        each(before[j], |i| after[i] |= 1 << j);
    }
    (before, after)
}

// Rounds until one finds no new pair apart: how many, and how many pairs are apart. The last one's times are in late.
fn refine(p: &Shape, hi: &[u32; 60], early: &Times, sets: ([u64; 60], [u64; 60]), late: &mut Times) -> (u16, u16) {
    let (mut before, mut after) = sets;
    let (mut rounds, mut apart) = (0, 0);
    loop {
        rounds += 1;
        fill(p, hi, late, |i, ready, exf| {
            let mut most = 1;
            each(after[i], |j| most = most.max(hi[j]));
            let b = ready + most - 1;
            let (mut sum, mut last) = (0, 0);
            each(before[i], |j| {
                sum += hi[j];
                last = last.max(exf[j]);
            });
            (b + sum).min(b.max(last))
        });
        let mut found = 0;
        for i in 0..p.n {
            let mut gone = 0u64;
            each(before[i], |j| {
                if late.exf[i] <= early.exs[j] || late.exf[j] <= early.exs[i] {
                    gone |= 1 << j;
                    after[j] &= !(1 << i);
                }
            });
            before[i] &= !gone;
            found += gone.count_ones() as u16;
        }
        if found == 0 {
            return (rounds, apart);
        }
        apart += found;
    }
}

// The earliest and the latest times of a block; rounds, contending pairs and pairs apart.
#[inline(always)]
fn times(b: &Block, p: &Shape, early: &mut Times, late: &mut Times) -> [u16; 3] {
    let lo: [u32; 60] = std::array::from_fn(|i| b.entries[i].lo as u32);
    let hi: [u32; 60] = std::array::from_fn(|i| b.entries[i].hi as u32);
    fill(p, &lo, early, |_, ready, _| ready);
    let sets = contenders(b, p);
    let pairs: u32 = sets.0.iter().map(|m| m.count_ones()).sum();
    let (rounds, apart) = refine(p, &hi, early, sets, late);
    [rounds, pairs as u16, apart]
}

// The result record.
fn result(b: &Block, out: &mut [u8]) {
    let p = shape(b);
    let (mut early, mut late) = (NO_TIMES, NO_TIMES);
    let counts = times(b, &p, &mut early, &mut late);
    let mut s = [0u8; 512];
    s[..4].copy_from_slice(b"RES1");
    s[4..6].copy_from_slice(&[b.n, b.origin]);
    s[6..8].copy_from_slice(&(late.cmf[PAD + p.n - 1] as u16).to_le_bytes());
    s[8..12].copy_from_slice(&b.number.to_le_bytes());
    for (k, x) in counts.into_iter().enumerate() {
        s[12 + 2 * k..14 + 2 * k].copy_from_slice(&x.to_le_bytes());
    }
    for (i, c) in s[28..28 + 8 * p.n].chunks_exact_mut(8).enumerate() {
        c[..2].copy_from_slice(&(early.exs[i] as u16).to_le_bytes());
        c[2..4].copy_from_slice(&(late.exs[i] as u16).to_le_bytes());
        c[4..6].copy_from_slice(&(late.exf[i] as u16).to_le_bytes());
        c[6..].copy_from_slice(&(late.cmf[PAD + i] as u16).to_le_bytes());
    }
    sealed(s, out);
}

// Earliest ready, start and finish of each node, then latest. Only at EX is the latest start not the ready time.
fn table(b: &Block, out: &mut [u16]) {
    let p = shape(b);
    let (mut early, mut late) = (NO_TIMES, NO_TIMES);
    times(b, &p, &mut early, &mut late);
    for (i, o) in out.chunks_exact_mut(30).take(p.n).enumerate() {
        let (a, b) = early.nodes(i);
        let (x, y) = late.nodes(i);
        let mut ready = x;
        ready[EX] = late.ready_ex(&p, i);
        for (g, o) in o.chunks_exact_mut(6).enumerate() {
            o.copy_from_slice(&[a[g], a[g], b[g], ready[g], x[g], y[g]].map(|t| t as u16));
        }
    }
}

// Tests 4 to 6, then the result record.
pub fn analyse(b: &Block, out: &mut [u8]) -> Result<(), Refusal> {
    tested(b)?;
    if out.len() != 512 {
        return Err((6, 0));
    }
    result(b, out);
    Ok(())
}

// Tests 4 to 6, then the window table.
pub fn windows(b: &Block, out: &mut [u16]) -> Result<(), Refusal> {
    tested(b)?;
    if out.len() < 30 * b.n as usize {
        return Err((6, 0));
    }
    table(b, out);
    Ok(())
}
