//! Inputs from a seed: strings that close, meshes of several kinds, and damage to both.
use crate::plain;

/// A small generator of numbers (splitmix64): the same seed, the same inputs.
pub struct Rng(pub u64);

impl Rng {
    pub fn next(&mut self) -> u64 {
        self.0 = self.0.wrapping_add(0x9e37_79b9_7f4a_7c15);
        let mut z = self.0;
        z = (z ^ (z >> 30)).wrapping_mul(0xbf58_476d_1ce4_e5b9);
        z = (z ^ (z >> 27)).wrapping_mul(0x94d0_49bb_1331_11eb);
        z ^ (z >> 31)
    }

    /// A number below n.
    pub fn below(&mut self, n: usize) -> usize {
        ((self.next() >> 32) * n as u64 >> 32) as usize
    }

    pub fn one_in(&mut self, n: usize) -> bool {
        self.below(n) == 0
    }

    pub fn pick<T: Copy>(&mut self, from: &[T]) -> T {
        from[self.below(from.len())]
    }

    /// Numbers 0 to n - 1 in any order.
    fn order(&mut self, n: usize) -> Vec<u32> {
        let mut p: Vec<u32> = (0..n as u32).collect();
        for i in (1..n).rev() {
            p.swap(i, self.below(i + 1));
        }
        p
    }
}

/// How often each letter is tried in a string: C, L, E, R, S.
pub type Weights = [usize; 5];

pub const COMMON: Weights = [50, 8, 6, 30, 6];

/// A string of t letters that closes. It grows from its end: with words of widths that sum up to w waiting, w - 2 more
/// letters are enough, so a letter is taken when as many are left after it.
pub fn string(rng: &mut Rng, t: usize, weights: Weights) -> Vec<u8> {
    let mut out = Vec::with_capacity(t);
    let mut widths: Vec<usize> = Vec::new();
    let mut sum = 0;
    while out.len() < t {
        let left = t - out.len() - 1;
        let mut at = rng.below(weights.iter().sum());
        let mut kind = 0;
        while at >= weights[kind] {
            at -= weights[kind];
            kind += 1;
        }
        let top = widths.last().copied().unwrap_or(0);
        // a step that must narrow: all that is left is needed
        let tight = !widths.is_empty() && left < sum - 1;
        let kind = match kind {
            _ if widths.is_empty() => 2,
            k if tight && (k != 4 || widths.len() < 2) => {
                if top > 2 { 0 } else { 4 }
            }
            k => k,
        };
        match kind {
            0 if top > 2 => {
                *widths.last_mut().unwrap() -= 1;
                sum -= 1;
                out.push(b'C');
            }
            1 | 3 if left >= sum - 1 => {
                *widths.last_mut().unwrap() += 1;
                sum += 1;
                out.push(if kind == 1 { b'L' } else { b'R' });
            }
            2 if left + 2 >= sum + 3 => {
                widths.push(3);
                sum += 3;
                out.push(b'E');
            }
            4 if widths.len() > 1 => {
                let right = widths.pop().unwrap();
                *widths.last_mut().unwrap() += right - 1;
                sum -= 1;
                out.push(b'S');
            }
            _ => {}
        }
    }
    out.reverse();
    out
}

/// The tables of a mesh, as given to a call.
#[derive(Clone, Debug)]
pub struct Mesh {
    pub vs: Vec<u32>,
    pub os: Vec<u32>,
    pub v: u32,
    pub gate: u32,
}

/// The mesh of a string that closes.
pub fn mesh_of(s: &[u8]) -> Mesh {
    let t = s.len();
    let (mut vs, mut os, mut work) = (vec![0; 3 * t], vec![0; 3 * t], vec![0; 12 * t]);
    let a = plain::read_string(s, &mut vs, &mut os, &mut work);
    assert_eq!(a.number, 0, "{}", String::from_utf8_lossy(s));
    Mesh { vs, os, v: a.v, gate: 0 }
}

/// The mesh of triangles in which no directed edge occurs twice.
pub fn mesh_from(triangles: &[[u32; 3]], v: u32) -> Mesh {
    let n = 3 * triangles.len();
    let vs: Vec<u32> = triangles.concat();
    let facing = |c: usize| (vs[c / 3 * 3 + (c + 1) % 3], vs[c / 3 * 3 + (c + 2) % 3]);
    let mut edges: Vec<((u32, u32), u32)> = (0..n).map(|c| (facing(c), c as u32)).collect();
    edges.sort();
    let os = (0..n)
        .map(|c| {
            let (a, b) = facing(c);
            edges[edges.binary_search_by_key(&(b, a), |e| e.0).expect("closed")].1
        })
        .collect();
    Mesh { vs, os, v, gate: 0 }
}

/// A sphere of two poles and `rows` rings of n vertices between them: 2n rows triangles.
pub fn globe(n: usize, rows: usize) -> Mesh {
    let at = |r: usize, i: usize| (2 + r * n + i % n) as u32;
    let mut triangles = Vec::new();
    for i in 0..n {
        triangles.push([0, at(0, i), at(0, i + 1)]);
    }
    for r in 0..rows - 1 {
        for i in 0..n {
            triangles.push([at(r, i), at(r + 1, i), at(r + 1, i + 1)]);
            triangles.push([at(r, i), at(r + 1, i + 1), at(r, i + 1)]);
        }
    }
    for i in 0..n {
        triangles.push([1, at(rows - 1, i + 1), at(rows - 1, i)]);
    }
    mesh_from(&triangles, (2 + n * rows) as u32)
}

/// A torus of m rings of n vertices: 2mn triangles.
pub fn torus(n: usize, m: usize) -> Mesh {
    let at = |r: usize, i: usize| (r % m * n + i % n) as u32;
    let mut triangles = Vec::new();
    for r in 0..m {
        for i in 0..n {
            triangles.push([at(r, i), at(r + 1, i), at(r + 1, i + 1)]);
            triangles.push([at(r, i), at(r + 1, i + 1), at(r, i + 1)]);
        }
    }
    mesh_from(&triangles, (n * m) as u32)
}

/// The torus of seven vertices.
pub fn torus7() -> Mesh {
    let triangles: Vec<[u32; 3]> =
        (0..7).flat_map(|i| [[i, (i + 1) % 7, (i + 3) % 7], [i, (i + 3) % 7, (i + 2) % 7]]).collect();
    mesh_from(&triangles, 7)
}

/// Two meshes side by side.
pub fn beside(a: &Mesh, b: &Mesh) -> Mesh {
    let n = a.vs.len() as u32;
    let mut both = a.clone();
    both.vs.extend(b.vs.iter().map(|u| u + a.v));
    both.os.extend(b.os.iter().map(|c| c + n));
    both.v += b.v;
    both
}

/// The same mesh with triangles, corners and vertices numbered at random.
pub fn shuffled(rng: &mut Rng, m: &Mesh) -> Mesh {
    let n = m.vs.len();
    let triangle = rng.order(n / 3);
    let vertex = rng.order(m.v as usize);
    let turn: Vec<usize> = (0..n / 3).map(|_| rng.below(3)).collect();
    let corner = |c: usize| 3 * triangle[c / 3] + ((c + turn[c / 3]) % 3) as u32;
    let mut new = m.clone();
    for c in 0..n {
        new.vs[corner(c) as usize] = vertex[m.vs[c] as usize];
        new.os[corner(c) as usize] = corner(m.os[c] as usize);
    }
    new.gate = corner(m.gate as usize);
    new
}

/// One change of a mesh, of some kind.
pub fn damage_mesh(rng: &mut Rng, m: &mut Mesh) {
    let n = m.vs.len().min(m.os.len());
    if n == 0 {
        return;
    }
    let c = rng.below(n);
    let d = rng.below(n);
    match rng.below(16) {
        0 => m.vs[c] = rng.below(m.v as usize + 2) as u32,
        1 => m.os[c] = rng.below(n + 2) as u32,
        2 => m.os[c] = rng.pick(&[c as u32, n as u32, u32::MAX, 0, m.os[d]]),
        3 if c != d && m.os.iter().all(|&x| (x as usize) < n) => {
            // both pairs joined the other way round
            let (x, y) = (m.os[c] as usize, m.os[d] as usize);
            m.os[c] = d as u32;
            m.os[d] = c as u32;
            m.os[x] = y as u32;
            m.os[y] = x as u32;
        }
        4..=6 => {
            // one vertex less: two become one, the last takes the free number or none does
            let (a, b) = (m.vs[c], m.vs[d]);
            m.vs.iter_mut().filter(|u| **u == b).for_each(|u| *u = a);
            if a != b && m.v > 0 && rng.one_in(2) {
                let z = m.v - 1;
                m.vs.iter_mut().filter(|u| **u == z).for_each(|u| *u = b);
                m.v = z;
            }
        }
        7 => m.v = rng.pick(&[m.v.wrapping_add(1), m.v.wrapping_add(1), m.v.saturating_sub(1), 0, 1, 2, 1 << 31, (1 << 31) + 2, u32::MAX]),
        8 => m.gate = rng.pick(&[n as u32, n as u32 + 1, u32::MAX]),
        9 => {
            m.vs.fill(0);
            m.v = 1;
        }
        10 => {
            // a vertex far away
            let (a, far) = (m.vs[c], rng.pick(&[n as u32, n as u32 + 1, 1 << 31, u32::MAX - 1]));
            m.vs.iter_mut().filter(|u| **u == a).for_each(|u| *u = far);
            m.v = m.v.max(far.saturating_add(1));
        }
        11 => m.vs.truncate((n - 1).saturating_sub(rng.below(3))),
        12 => m.os.truncate((n - 1).saturating_sub(rng.below(3))),
        13 => {
            let less = 3 * (1 + rng.below(2));
            m.vs.truncate(n.saturating_sub(less));
            m.os.truncate(n.saturating_sub(less));
        }
        14 => m.vs.swap(c, d),
        _ => m.os.swap(c, d),
    }
    if m.vs.len() > m.os.len() && rng.one_in(3) {
        m.vs.truncate(m.os.len());
    }
}

/// Tables of random numbers.
pub fn random_mesh(rng: &mut Rng, t: usize) -> Mesh {
    let n = 3 * t;
    let v = 1 + rng.below(t / 2 + 4);
    let vs = (0..n).map(|_| rng.below(v) as u32).collect();
    let os = if rng.one_in(4) {
        (0..n).map(|_| rng.below(n) as u32).collect()
    } else {
        let p = rng.order(n);
        let mut os = vec![0; n];
        for pair in p.chunks(2) {
            os[pair[0] as usize] = pair[pair.len() - 1];
            os[pair[pair.len() - 1] as usize] = pair[0];
        }
        os
    };
    let mut m = Mesh { vs, os, v: v as u32, gate: rng.below(n) as u32 };
    match rng.below(4) {
        // vertices that agree with the opposites: each corner's own swing ring a vertex
        0 | 1 => rings(&mut m),
        2 => {
            m.vs.fill(0);
            m.v = 1;
        }
        _ => {}
    }
    m
}

/// Numbers the swing rings of a mesh whose opposites are paired.
fn rings(m: &mut Mesh) {
    let n = m.vs.len();
    let next = |c: usize| c / 3 * 3 + (c + 1) % 3;
    m.vs.fill(u32::MAX);
    m.v = 0;
    for start in 0..n {
        let mut c = start;
        let mut left = n;
        if m.vs[c] != u32::MAX {
            continue;
        }
        while left > 0 && m.vs[c] == u32::MAX {
            m.vs[c] = m.v;
            c = next(m.os[next(c)] as usize);
            left -= 1;
        }
        m.v += 1;
    }
}

/// One change of a string, of some kind.
pub fn damage_string(rng: &mut Rng, s: &mut Vec<u8>) {
    let k = rng.below(s.len() + 1);
    let letter = rng.pick(b"CLERS");
    match rng.below(9) {
        0..=2 if k < s.len() => s[k] = letter,
        3 if k < s.len() => s[k] = rng.pick(&[b'c', b'x', 0, 10, 255, b'B', b'D', b'T', rng_byte(k)]),
        4 => s.insert(k, letter),
        5 if k < s.len() => {
            s.remove(k);
        }
        6 => {
            s.insert(k, letter);
            let j = rng.below(s.len() + 1);
            s.insert(j, rng.pick(b"CLERS"));
        }
        7 => {
            let j = rng.below(s.len() + 1);
            s.truncate(j / 2 * 2);
        }
        _ => {
            let j = rng.below(s.len() + 1);
            if k < s.len() && j < s.len() {
                s.swap(k, j);
            }
        }
    }
}

fn rng_byte(k: usize) -> u8 {
    (k * 37 % 256) as u8
}

/// A record's text, its values as given.
pub fn record(form: &str, tri: &str, gate: &str, s: &[u8]) -> Vec<u8> {
    let mut text = format!("form={form}\ntri={tri}\ngate={gate}\nsym=").into_bytes();
    text.extend_from_slice(s);
    text.push(10);
    text
}

/// One change of a record's text, of some kind.
pub fn damage_record(rng: &mut Rng, text: &mut Vec<u8>) {
    let n = text.len();
    if n == 0 {
        return;
    }
    // the lines before the letters are short: most changes fall there
    let k = if rng.one_in(2) { rng.below(n.min(24)) } else { rng.below(n) };
    let byte = rng.pick(b"0123456789CLERS=\n\n\r -+formtrigatesym\0\xff");
    match rng.below(7) {
        0 | 1 => text[k] = byte,
        2 => text.insert(k, byte),
        3 => {
            text.remove(k);
        }
        4 => text.push(byte),
        5 => text.truncate(k),
        _ => {
            // a line left out, doubled, or two exchanged
            let mut lines: Vec<Vec<u8>> = text.split_inclusive(|b| *b == 10).map(<[u8]>::to_vec).collect();
            let (i, j) = (rng.below(lines.len()), rng.below(lines.len()));
            match rng.below(3) {
                0 => {
                    lines.remove(i);
                }
                1 => lines.insert(j, lines[i].clone()),
                _ => lines.swap(i, j),
            }
            *text = lines.concat();
        }
    }
}
