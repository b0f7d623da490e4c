// The tree of `benchmarks` in plain Rust, with std alone and the MD5 by hand: 20,000 inserts, 20,000
// gets, 20 scans and 20 builds over nodes in memory, on one thread. As in `benchmarks`, a key is a
// string of bytes, and an entry has a key, a version and a digest. The words `two` and `many` mean what
// they mean there: version two of the tree, and 200,000 entries, which are scanned and built twice.
//
//     rustc --edition 2021 -O -o /tmp/trees bench/plain/trees.rs && /tmp/trees && /tmp/trees two many
use std::collections::BTreeMap;
use std::time::Instant;
pub type Name = [u8; 16];
#[derive(Clone, Copy, PartialEq, Eq)]
pub struct Version {
    pub count: u64,
    pub proposer: u32,
    pub seq: u64,
}
#[derive(Clone)]
pub struct Entry {
    pub key: Vec<u8>,
    pub version: Version,
    pub digest: Name,
}
pub type Nodes = BTreeMap<Name, Vec<u8>>;
// A version of the tree: the first byte of an inner node and of a segment, and the level of segments.
#[derive(Clone, Copy)]
pub struct Shape {
    inner: u8,
    segment: u8,
    pub levels: u8,
}
pub const ONE: Shape = Shape {
    inner: 1,
    segment: 2,
    levels: 3,
};
pub const TWO: Shape = Shape {
    inner: 3,
    segment: 4,
    levels: 5,
};

pub fn table() -> [u32; 64] {
    let mut k = [0u32; 64];
    for i in 0..64 {
        k[i] = ((i as f64 + 1.0).sin().abs() * 4294967296.0) as u32;
    }
    k
}
const S: [u32; 64] = [
    7, 12, 17, 22, 7, 12, 17, 22, 7, 12, 17, 22, 7, 12, 17, 22, 5, 9, 14, 20, 5, 9, 14, 20, 5, 9,
    14, 20, 5, 9, 14, 20, 4, 11, 16, 23, 4, 11, 16, 23, 4, 11, 16, 23, 4, 11, 16, 23, 6, 10, 15,
    21, 6, 10, 15, 21, 6, 10, 15, 21, 6, 10, 15, 21,
];
pub struct Md5 {
    pub k: [u32; 64],
}
impl Md5 {
    fn block(&self, st: &mut [u32; 4], b: &[u8]) {
        let mut m = [0u32; 16];
        for i in 0..16 {
            m[i] = u32::from_le_bytes([b[4 * i], b[4 * i + 1], b[4 * i + 2], b[4 * i + 3]]);
        }
        let (mut a, mut bb, mut c, mut d) = (st[0], st[1], st[2], st[3]);
        for i in 0..64 {
            let (f, g) = match i / 16 {
                0 => ((bb & c) | (!bb & d), i),
                1 => ((d & bb) | (!d & c), (5 * i + 1) % 16),
                2 => (bb ^ c ^ d, (3 * i + 5) % 16),
                _ => (c ^ (bb | !d), (7 * i) % 16),
            };
            let t = a.wrapping_add(f).wrapping_add(self.k[i]).wrapping_add(m[g]);
            a = d;
            d = c;
            c = bb;
            bb = bb.wrapping_add(t.rotate_left(S[i]));
        }
        st[0] = st[0].wrapping_add(a);
        st[1] = st[1].wrapping_add(bb);
        st[2] = st[2].wrapping_add(c);
        st[3] = st[3].wrapping_add(d);
    }
    pub fn digest(&self, bytes: &[u8]) -> Name {
        let mut st = [0x67452301u32, 0xefcdab89, 0x98badcfe, 0x10325476];
        let mut it = bytes.chunks_exact(64);
        for b in &mut it {
            self.block(&mut st, b);
        }
        let rest = it.remainder();
        let mut tail = [0u8; 128];
        tail[..rest.len()].copy_from_slice(rest);
        tail[rest.len()] = 0x80;
        let n = if rest.len() < 56 { 64 } else { 128 };
        tail[n - 8..n].copy_from_slice(&(bytes.len() as u64 * 8).to_le_bytes());
        for b in tail[..n].chunks_exact(64) {
            self.block(&mut st, b);
        }
        let mut out = [0u8; 16];
        for i in 0..4 {
            out[4 * i..4 * i + 4].copy_from_slice(&st[i].to_le_bytes());
        }
        out
    }
}
pub fn digit(h: &Name, level: u32) -> u8 {
    let b = h[(level / 2) as usize];
    if level % 2 == 0 {
        b >> 4
    } else {
        b & 15
    }
}
fn header(tag: u8, level: u8, index: u32, room: usize) -> Vec<u8> {
    let mut o = Vec::with_capacity(room);
    o.push(tag);
    o.push(level);
    o.extend_from_slice(&index.to_be_bytes());
    o
}
pub fn encode_inner(shape: Shape, level: u8, index: u32, cs: &[Option<Name>]) -> Vec<u8> {
    let mut o = header(shape.inner, level, index, 264);
    let mut mask = 0u16;
    let mut bit = 1u16;
    for c in cs {
        if c.is_some() {
            mask |= bit;
        }
        bit = bit.wrapping_mul(2);
    }
    o.extend_from_slice(&mask.to_be_bytes());
    for c in cs {
        if let Some(n) = c {
            o.extend_from_slice(n);
        }
    }
    o
}
fn encode_segment(shape: Shape, index: u32, es: &[Entry]) -> Vec<u8> {
    let mut o = header(shape.segment, shape.levels, index, 256);
    o.extend_from_slice(&(es.len() as u32).to_be_bytes());
    for e in es {
        o.push(e.key.len() as u8);
        o.extend_from_slice(&e.key);
        o.extend_from_slice(&e.version.count.to_be_bytes());
        o.extend_from_slice(&e.version.proposer.to_be_bytes());
        o.extend_from_slice(&e.version.seq.to_be_bytes());
        o.extend_from_slice(&e.digest);
    }
    o
}
pub fn decode_inner(shape: Shape, b: &[u8], level: u8, index: u32) -> Option<Vec<Option<Name>>> {
    if b.len() < 8 || b[0] != shape.inner || b[1] != level || b[2..6] != index.to_be_bytes() {
        return None;
    }
    let mut mask = u16::from_be_bytes([b[6], b[7]]);
    let mut rest = 8;
    let mut cs = Vec::with_capacity(16);
    for _ in 0..16 {
        if mask % 2 == 1 {
            let n = b.get(rest..rest + 16)?;
            cs.push(Some(n.try_into().ok()?));
            rest += 16;
        } else {
            cs.push(None);
        }
        mask /= 2;
    }
    if rest != b.len() {
        return None;
    }
    Some(cs)
}
fn decode_segment(shape: Shape, b: &[u8], index: u32) -> Option<Vec<Entry>> {
    if b.len() < 10 || b[0] != shape.segment || b[1] != shape.levels || b[2..6] != index.to_be_bytes() {
        return None;
    }
    let count = u32::from_be_bytes([b[6], b[7], b[8], b[9]]);
    let mut at = 10;
    let mut es: Vec<Entry> = Vec::new();
    for _ in 0..count {
        let len = *b.get(at)? as usize;
        let key = b.get(at + 1..at + 1 + len)?;
        if len == 0 || len > 64 || es.last().is_some_and(|e| e.key.as_slice() >= key) {
            return None;
        }
        let rest = b.get(at + 1 + len..at + 37 + len)?;
        es.push(Entry {
            key: key.to_vec(),
            version: Version {
                count: u64::from_be_bytes(rest[..8].try_into().ok()?),
                proposer: u32::from_be_bytes(rest[8..12].try_into().ok()?),
                seq: u64::from_be_bytes(rest[12..20].try_into().ok()?),
            },
            digest: rest[20..].try_into().ok()?,
        });
        at += 37 + len;
    }
    if at != b.len() {
        return None;
    }
    Some(es)
}
fn fetch(m: &Md5, nodes: &Nodes, n: &Name) -> Option<Vec<u8>> {
    let b = nodes.get(n)?.clone();
    if m.digest(&b) == *n {
        Some(b)
    } else {
        None
    }
}
pub fn store(m: &Md5, nodes: &mut Nodes, b: Vec<u8>) -> Name {
    let n = m.digest(&b);
    nodes.insert(n, b);
    n
}
pub fn put_under(
    m: &Md5,
    nodes: &mut Nodes,
    shape: Shape,
    level: u8,
    index: u32,
    named: Option<Name>,
    h: &Name,
    e: Entry,
) -> Option<Name> {
    let bytes = match &named {
        Some(n) => Some(fetch(m, nodes, n)?),
        None => None,
    };
    if level == shape.levels {
        let mut es = match bytes {
            Some(b) => decode_segment(shape, &b, index)?,
            None => Vec::new(),
        };
        match es.iter().position(|x| x.key >= e.key) {
            Some(i) if es[i].key == e.key => es[i] = e,
            Some(i) => es.insert(i, e),
            None => es.push(e),
        }
        return Some(store(m, nodes, encode_segment(shape, index, &es)));
    }
    let mut cs = match bytes {
        Some(b) => decode_inner(shape, &b, level, index)?,
        None => vec![None; 16],
    };
    let d = digit(h, level as u32);
    let child = cs[d as usize];
    let n = put_under(
        m,
        nodes,
        shape,
        level + 1,
        index * 16 + d as u32,
        child,
        h,
        e,
    )?;
    cs[d as usize] = Some(n);
    Some(store(m, nodes, encode_inner(shape, level, index, &cs)))
}
fn find(
    m: &Md5,
    nodes: &Nodes,
    shape: Shape,
    level: u8,
    index: u32,
    n: &Name,
    h: &Name,
    key: &[u8],
) -> Option<Entry> {
    let b = fetch(m, nodes, n)?;
    if level == shape.levels {
        return decode_segment(shape, &b, index)?
            .into_iter()
            .find(|e| e.key == key);
    }
    let cs = decode_inner(shape, &b, level, index)?;
    let d = digit(h, level as u32);
    find(
        m,
        nodes,
        shape,
        level + 1,
        index * 16 + d as u32,
        cs[d as usize].as_ref()?,
        h,
        key,
    )
}
fn scan(m: &Md5, nodes: &Nodes, shape: Shape, top: &Name) -> Vec<Entry> {
    let mut level = vec![(0u32, *top)];
    for depth in 0..shape.levels {
        let mut next = Vec::new();
        for (i, n) in &level {
            if let Some(b) = fetch(m, nodes, n) {
                if let Some(cs) = decode_inner(shape, &b, depth, *i) {
                    for (c, o) in cs.iter().enumerate() {
                        if let Some(n) = o {
                            next.push((i * 16 + c as u32, *n));
                        }
                    }
                }
            }
        }
        level = next;
    }
    let mut all = Vec::new();
    for (i, n) in &level {
        if let Some(b) = fetch(m, nodes, n) {
            if let Some(es) = decode_segment(shape, &b, *i) {
                all.extend(es);
            }
        }
    }
    all.sort_by(|a, b| a.key.cmp(&b.key));
    all
}
// The index of a key's segment: its first digits, four bits each.
fn segment_of(shape: Shape, h: &Name) -> u32 {
    (0..shape.levels as u32).fold(0, |index, level| index * 16 + digit(h, level) as u32)
}
fn build(m: &Md5, shape: Shape, es: &[Entry]) -> (Name, Vec<(Name, Vec<u8>)>) {
    let mut order: Vec<(u32, usize)> = (0..es.len())
        .map(|i| (segment_of(shape, &m.digest(&es[i].key)), i))
        .collect();
    order.sort();
    let mut nodes = Vec::new();
    let mut names: Vec<(u32, Name)> = Vec::new();
    for run in order.chunk_by(|a, b| a.0 == b.0) {
        let held: Vec<Entry> = run.iter().map(|&(_, i)| es[i].clone()).collect();
        let t = encode_segment(shape, run[0].0, &held);
        let n = m.digest(&t);
        names.push((run[0].0, n));
        nodes.push((n, t));
    }
    let mut top = [0; 16];
    for level in (0..shape.levels).rev() {
        if level == 0 && names.is_empty() {
            let t = encode_inner(shape, 0, 0, &[]);
            top = m.digest(&t);
            nodes.push((top, t));
        }
        let mut above = Vec::new();
        for run in names.chunk_by(|a, b| a.0 / 16 == b.0 / 16) {
            let mut cs = [None; 16];
            for &(i, n) in run {
                cs[(i % 16) as usize] = Some(n);
            }
            let t = encode_inner(shape, level, run[0].0 / 16, &cs);
            top = m.digest(&t);
            above.push((run[0].0 / 16, top));
            nodes.push((top, t));
        }
        names = above;
    }
    (top, nodes)
}

fn main() {
    let words: Vec<String> = std::env::args().skip(1).collect();
    let has = |name: &str| words.iter().any(|word| word == name);
    let shape = if has("two") { TWO } else { ONE };
    let (count, rounds) = if has("many") { (200_000, 2) } else { (20_000, 20) };
    let m = Md5 { k: table() };
    let entry = |number: u64| Entry {
        key: number.to_be_bytes().to_vec(),
        version: Version {
            count: 1,
            proposer: 1,
            seq: number,
        },
        digest: [7; 16],
    };
    let mut nodes = Nodes::new();
    let mut top = store(&m, &mut nodes, encode_inner(shape, 0, 0, &[]));
    let start = Instant::now();
    for i in 0..count {
        let entry = entry(i);
        let hash = m.digest(&entry.key);
        top = put_under(&m, &mut nodes, shape, 0, 0, Some(top), &hash, entry).unwrap_or(top);
    }
    println!("inserts {count}: {} ms", start.elapsed().as_millis());
    let start = Instant::now();
    let found = (0..count)
        .filter(|&i| {
            let key = i.to_be_bytes();
            find(&m, &nodes, shape, 0, 0, &top, &m.digest(&key), &key)
                .is_some_and(|e| e.version.seq == i)
        })
        .count();
    println!("gets {found}: {} ms", start.elapsed().as_millis());
    let start = Instant::now();
    let mut entries = Vec::new();
    for _ in 0..rounds {
        entries = scan(&m, &nodes, shape, &top);
    }
    println!(
        "scans {}: {} ms",
        entries.len(),
        start.elapsed().as_millis()
    );
    let start = Instant::now();
    let mut built = (top, Vec::new());
    for _ in 0..rounds {
        built = build(&m, shape, &entries);
    }
    println!(
        "builds {} {}: {} ms",
        built.1.len(),
        built.0 == top,
        start.elapsed().as_millis()
    );
}
