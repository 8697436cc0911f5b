// The rules in plain Rust: a record read, tested and written, a latency list tested, and the last writers of a block. The
// analysis is in plain_analysis.rs, the play by choice in plain_choice.rs, the play by cycle in plain_play.rs.

// A refusal's number and place.
pub type Refusal = (u8, usize);

#[derive(Clone, Copy, PartialEq)]
pub struct Entry {
    pub kind: u8,
    pub lo: u8,
    pub hi: u8,
    pub writes: u8,
    pub reads1: u8,
    pub reads2: u8,
}

#[derive(Clone, Copy)]
pub struct Block {
    pub n: u8,
    pub q: u8,
    pub w: u8,
    pub f: u8,
    pub d: u8,
    pub c: u8,
    pub origin: u8,
    pub number: u32,
    pub entries: [Entry; 60],
}

const NO_ENTRY: Entry = Entry { kind: 0, lo: 0, hi: 0, writes: 0, reads1: 0, reads2: 0 };
pub const NO_BLOCK: Block =
    Block { n: 0, q: 0, w: 0, f: 0, d: 0, c: 0, origin: 0, number: 0, entries: [NO_ENTRY; 60] };

const RANGES: [(u8, u8); 28] = [
    (b'B', b'B'), (b'L', b'L'), (b'K', b'K'), (b'1', b'1'), (1, 60), (1, 16), (1, 32), (1, 4), (1, 4), (1, 4), (1, 2), (0, 0),
    (0, 255), (0, 255), (0, 255), (0, 255), (0, 0), (0, 0), (0, 0), (0, 0), (0, 0), (0, 0), (0, 0), (0, 0),
    (0, 0), (0, 0), (0, 0), (0, 0),
];

// Two remainders a word, as the rule has it.
pub fn check(s: &[u8; 512]) -> u32 {
    let (mut a, mut b) = (0u32, 0u32);
    for w in s[..508].chunks_exact(2) {
        a = (a + u16::from_le_bytes([w[0], w[1]]) as u32) % 65535;
        b = (b + a) % 65535;
    }
    b * 65536 + a
}

fn register(r: u8) -> bool {
    r < 64 || r == 255
}

fn used(e: &Entry) -> bool {
    (e.kind <= 3)
        & (1 <= e.lo)
        & (e.lo <= e.hi)
        & register(e.writes)
        & register(e.reads1)
        & register(e.reads2)
}

fn header_fault(s: &[u8; 512]) -> Option<usize> {
    (4..28).find(|&k| s[k] < RANGES[k].0 || RANGES[k].1 < s[k])
}

// Tests 1 to 5.
pub fn read(x: &[u8]) -> Result<Block, Refusal> {
    let s: &[u8; 512] = x.try_into().map_err(|_| (1, 0))?;
    if check(s) != u32::from_le_bytes([s[508], s[509], s[510], s[511]]) {
        return Err((2, 0));
    }
    if &s[..4] != b"BLK1" {
        return Err((3, 0));
    }
    if let Some(k) = header_fault(s) {
        return Err((4, k));
    }
    let n = s[4] as usize;
    let mut entries = [NO_ENTRY; 60];
    for (i, c) in s[28..508].chunks_exact(8).enumerate() {
        let c: &[u8; 8] = c.try_into().unwrap();
        if i < n {
            let [kind, lo, hi, writes, reads1, reads2, zero1, zero2] = *c;
            let e = Entry { kind, lo, hi, writes, reads1, reads2 };
            if !used(&e) | (zero1 != 0) | (zero2 != 0) {
                return Err((5, i));
            }
            entries[i] = e;
        } else if u64::from_le_bytes(*c) != 0 {
            return Err((5, i));
        }
    }
    Ok(Block {
        n: s[4],
        q: s[5],
        w: s[6],
        f: s[7],
        d: s[8],
        c: s[9],
        origin: s[10],
        number: u32::from_le_bytes([s[12], s[13], s[14], s[15]]),
        entries,
    })
}

// The header of a block, in a record that is all zero but for it.
fn headed(b: &Block) -> [u8; 512] {
    let mut s = [0u8; 512];
    s[..4].copy_from_slice(b"BLK1");
    s[4..11].copy_from_slice(&[b.n, b.q, b.w, b.f, b.d, b.c, b.origin]);
    s[12..16].copy_from_slice(&b.number.to_le_bytes());
    s
}

// Puts the check of a record behind it and the whole in the output.
pub fn sealed(mut s: [u8; 512], out: &mut [u8]) {
    let k = check(&s);
    s[508..].copy_from_slice(&k.to_le_bytes());
    out.copy_from_slice(&s);
}

// Tests 4 and 5 of a block value.
pub fn tested(b: &Block) -> Result<(), Refusal> {
    if let Some(k) = header_fault(&headed(b)) {
        return Err((4, k));
    }
    let n = b.n as usize;
    for (i, e) in b.entries.iter().enumerate() {
        if !(if i < n { used(e) } else { *e == NO_ENTRY }) {
            return Err((5, i));
        }
    }
    Ok(())
}

// Tests 4 to 6, then the record.
pub fn write(b: &Block, out: &mut [u8]) -> Result<(), Refusal> {
    let mut s = headed(b);
    if let Some(k) = header_fault(&s) {
        return Err((4, k));
    }
    let n = b.n as usize;
    for (i, (c, e)) in s[28..508].chunks_exact_mut(8).zip(&b.entries).enumerate() {
        if !(if i < n { used(e) } else { *e == NO_ENTRY }) {
            return Err((5, i));
        }
        c[..6].copy_from_slice(&[e.kind, e.lo, e.hi, e.writes, e.reads1, e.reads2]);
    }
    if out.len() != 512 {
        return Err((6, 0));
    }
    sealed(s, out);
    Ok(())
}

// Tests 7 and 8 of a latency list.
#[inline(always)]
pub fn fits(b: &Block, lat: &[u8]) -> Result<(), Refusal> {
    if lat.len() != b.n as usize {
        return Err((7, 0));
    }
    for (i, (l, e)) in lat.iter().zip(&b.entries).enumerate() {
        if !(e.lo..=e.hi).contains(l) {
            return Err((8, i));
        }
    }
    Ok(())
}

// A block unpacked: s1 and s2 hold one more than the last writer of each register read, 0 where there is none.
pub struct Shape {
    pub n: usize,
    pub q: usize,
    pub w: usize,
    pub f: usize,
    pub d: usize,
    pub c: usize,
    pub s1: [u8; 60],
    pub s2: [u8; 60],
}

#[inline]
pub fn shape(b: &Block) -> Shape {
    let mut last = [0u8; 256];
    let (mut s1, mut s2) = ([0u8; 60], [0u8; 60]);
    for (j, e) in b.entries[..b.n as usize].iter().enumerate() {
        s1[j] = last[e.reads1 as usize];
        s2[j] = last[e.reads2 as usize];
        last[e.writes as usize] = j as u8 + 1;
        last[255] = 0;
    }
    let [n, q, w, f, d, c] = [b.n, b.q, b.w, b.f, b.d, b.c].map(usize::from);
    Shape { n, q, w, f, d, c, s1, s2 }
}
