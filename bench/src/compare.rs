//! Every call of the library against the plain one, input by input.
use crate::inputs::{self, Mesh, Rng};
use crate::plain;
use last::raw;
use std::fmt::Debug;

pub const CALLS: [&str; 5] = ["check_mesh", "write_string", "read_string", "read_record", "write_record"];

/// The numbers that each call can answer.
const NUMBERS: [&[u32]; 5] = [
    &[0, 1, 2, 8, 9, 10, 11, 12, 13, 14, 15],
    &[0, 1, 2, 8, 9, 10, 11, 12, 13, 14, 15],
    &[0, 1, 2, 3, 4, 5, 6, 7],
    &[0, 1, 2, 3, 4, 5, 6, 7, 8, 16, 17, 18],
    &[0, 1, 2, 3, 4, 5, 6, 7, 8],
];

/// What has been seen: how often each number was answered by each call, and how many inputs differed.
#[derive(Default)]
pub struct Tally {
    pub answers: [[u64; 19]; 5],
    pub differences: u64,
}

fn same(a: raw::Answer, b: plain::Answer) -> bool {
    (a.number, a.place, a.t, a.v, a.gate, a.length) == (b.number, b.place, b.t, b.v, b.gate, b.length)
}

/// A lent buffer in three copies: as it came, for the library, for the plain call.
struct Lent<T> {
    came: Vec<T>,
    ours: Vec<T>,
    theirs: Vec<T>,
}

impl<T: Copy + PartialEq> Lent<T> {
    fn new(n: usize, mut fill: impl FnMut() -> T) -> Lent<T> {
        let came: Vec<T> = (0..n).map(|_| fill()).collect();
        Lent { ours: came.clone(), theirs: came.clone(), came }
    }

    /// An output: equal on both sides, and as it came after a refusal.
    fn output(&self, a: raw::Answer) -> bool {
        self.ours == self.theirs && (a.number == 0 || self.ours == self.came)
    }
}

impl Lent<u32> {
    /// The work space: zero over its whole length, as it came after the refusals that leave it alone.
    fn space(&self, a: raw::Answer, record: bool) -> bool {
        let alone = matches!(a.number, 1 | 2 | 16..=18) || (record && a.number == 8);
        self.ours == self.theirs && if alone { self.ours == self.came } else { self.ours.iter().all(|x| *x == 0) }
    }
}

/// Buffer lengths: what is needed, often more, seldom less.
fn room(rng: &mut Rng, needed: usize) -> usize {
    match rng.below(40) {
        0 => needed.saturating_sub(1),
        1 => rng.below(needed + 1),
        2..=9 => needed + 1 + rng.below(9),
        _ => needed,
    }
}

fn words(rng: &mut Rng, n: usize) -> Lent<u32> {
    let zero = rng.one_in(8);
    Lent::new(n, || if zero { 0 } else { rng.next() as u32 })
}

fn bytes(rng: &mut Rng, n: usize) -> Lent<u8> {
    Lent::new(n, || rng.next() as u8)
}

impl Tally {
    fn note(&mut self, call: usize, a: raw::Answer, b: plain::Answer, buffers: &[bool], input: &dyn Debug) {
        if let Some(count) = self.answers[call].get_mut(b.number as usize) {
            *count += 1;
        }
        if same(a, b) && buffers.iter().all(|fine| *fine) {
            return;
        }
        self.differences += 1;
        if self.differences <= 20 {
            println!("DIFFERENCE in {}", CALLS[call]);
            println!("  input   {input:?}");
            println!("  library {a:?}");
            println!("  plain   {b:?}");
            println!("  buffers as they should be, in the order of the call: {buffers:?}");
        }
    }

    pub fn check_mesh(&mut self, rng: &mut Rng, m: &Mesh) {
        let n = room(rng, 12 * (m.vs.len() / 3));
        let mut work = words(rng, n);
        let a = raw::check_mesh(&m.vs, &m.os, m.v, m.gate, &mut work.ours);
        let b = plain::check_mesh(&m.vs, &m.os, m.v, m.gate, &mut work.theirs);
        self.note(0, a, b, &[work.space(a, false)], &(m, n));
    }

    pub fn write_string(&mut self, rng: &mut Rng, m: &Mesh) {
        let t = m.vs.len() / 3;
        let sizes = (room(rng, t), room(rng, t), room(rng, 12 * t));
        let (mut letters, mut walk, mut work) = (bytes(rng, sizes.0), words(rng, sizes.1), words(rng, sizes.2));
        let a =
            raw::write_string(&m.vs, &m.os, m.v, m.gate, &mut letters.ours, &mut walk.ours, &mut work.ours);
        let b =
            plain::write_string(&m.vs, &m.os, m.v, m.gate, &mut letters.theirs, &mut walk.theirs, &mut work.theirs);
        let buffers = [letters.output(a), walk.output(a), work.space(a, false)];
        self.note(1, a, b, &buffers, &(m, sizes));
    }

    pub fn read_string(&mut self, rng: &mut Rng, s: &[u8]) {
        let t = s.len();
        let sizes = (room(rng, 3 * t), room(rng, 3 * t), room(rng, 12 * t));
        let (mut vs, mut os, mut work) = (words(rng, sizes.0), words(rng, sizes.1), words(rng, sizes.2));
        let a = raw::read_string(s, &mut vs.ours, &mut os.ours, &mut work.ours);
        let b = plain::read_string(s, &mut vs.theirs, &mut os.theirs, &mut work.theirs);
        let buffers = [vs.output(a), os.output(a), work.space(a, false)];
        self.note(2, a, b, &buffers, &(String::from_utf8_lossy(s), s, sizes));
    }

    pub fn read_record(&mut self, rng: &mut Rng, text: &[u8], t: usize) {
        let sizes = (room(rng, 3 * t), room(rng, 3 * t), room(rng, 12 * t));
        let (mut vs, mut os, mut work) = (words(rng, sizes.0), words(rng, sizes.1), words(rng, sizes.2));
        let a = raw::read_record(text, &mut vs.ours, &mut os.ours, &mut work.ours);
        let b = plain::read_record(text, &mut vs.theirs, &mut os.theirs, &mut work.theirs);
        let buffers = [vs.output(a), os.output(a), work.space(a, true)];
        self.note(3, a, b, &buffers, &(String::from_utf8_lossy(text), text, sizes));
    }

    pub fn write_record(&mut self, rng: &mut Rng, s: &[u8], gate: u32) {
        let t = s.len();
        let needed = inputs::record("1", &t.to_string(), &gate.to_string(), s).len();
        let sizes = (room(rng, needed), room(rng, 12 * t));
        let (mut text, mut work) = (bytes(rng, sizes.0), words(rng, sizes.1));
        let a = raw::write_record(s, gate, &mut text.ours, &mut work.ours);
        let b = plain::write_record(s, gate, &mut text.theirs, &mut work.theirs);
        let buffers = [text.output(a), work.space(a, true)];
        self.note(4, a, b, &buffers, &(String::from_utf8_lossy(s), gate, s, sizes));
    }

    pub fn inputs(&self) -> u64 {
        self.answers.iter().flatten().sum()
    }

    /// Prints how often each number was answered; whether every one that a call has was reached.
    pub fn print(&self) -> bool {
        let mut all = true;
        print!("{:>14}", "answer");
        CALLS.iter().for_each(|call| print!("{call:>14}"));
        println!();
        for number in 0..19 {
            print!("{number:>14}");
            for call in 0..5 {
                let seen = self.answers[call][number];
                let has = NUMBERS[call].contains(&(number as u32));
                if has && seen == 0 {
                    all = false;
                    print!("{:>14}", "NOT REACHED");
                } else if seen == 0 {
                    print!("{:>14}", "");
                } else {
                    print!("{seen:>14}");
                }
            }
            println!();
        }
        all
    }
}

/// A triangle count: mostly small, now and then some hundreds.
fn size(rng: &mut Rng) -> usize {
    match rng.below(20) {
        0 => 2 * (1 + rng.below(300)),
        1..=4 => 2 * (1 + rng.below(60)),
        _ => 2 * (1 + rng.below(14)),
    }
}

/// Letters of any kind: those that close, damaged ones, and random ones.
fn any_string(rng: &mut Rng) -> Vec<u8> {
    let t = size(rng);
    let weights = rng.pick(&[inputs::COMMON, [1, 1, 1, 1, 1], [4, 1, 3, 1, 4], [8, 1, 4, 1, 4], [5, 5, 1, 5, 1]]);
    let mut s = match rng.below(12) {
        0 => (0..rng.below(24)).map(|_| rng.pick(b"CLERS")).collect(),
        1 => (0..rng.below(24)).map(|_| rng.next() as u8).collect(),
        _ => inputs::string(rng, t, weights),
    };
    if rng.one_in(2) {
        inputs::damage_string(rng, &mut s);
        if rng.one_in(3) {
            inputs::damage_string(rng, &mut s);
        }
    }
    s
}

/// Tables of any kind: spheres, handles, pairs of meshes, random ones; in walk order or shuffled; damaged or not.
fn any_mesh(rng: &mut Rng) -> Mesh {
    let t = size(rng);
    let ball = |rng: &mut Rng, t: usize| {
        let weights = rng.pick(&[inputs::COMMON, [1, 1, 1, 1, 1], [4, 1, 3, 1, 4]]);
        inputs::mesh_of(&inputs::string(rng, t, weights))
    };
    let mut m = match rng.below(16) {
        0 => inputs::globe(3 + rng.below(6), 1 + rng.below(4)),
        1 => inputs::torus(3 + rng.below(4), 3 + rng.below(4)),
        2 => inputs::torus7(),
        3 => {
            let small = 2 * (1 + rng.below(6));
            let (a, b) = (ball(rng, t), ball(rng, small));
            inputs::beside(&a, &b)
        }
        4 => {
            let a = ball(rng, t);
            let torus = inputs::torus(3 + rng.below(3), 3);
            if rng.one_in(2) { inputs::beside(&a, &torus) } else { inputs::beside(&torus, &a) }
        }
        5 | 6 => {
            let t = 2 * (1 + rng.below(10));
            inputs::random_mesh(rng, t)
        }
        _ => ball(rng, t),
    };
    if rng.one_in(2) && m.vs.iter().all(|u| *u < m.v) {
        m = inputs::shuffled(rng, &m);
    }
    m.gate = rng.below(m.vs.len()) as u32;
    if rng.one_in(2) {
        inputs::damage_mesh(rng, &mut m);
        if rng.one_in(4) {
            inputs::damage_mesh(rng, &mut m);
        }
    }
    m
}

/// A record of any kind: its letters, its numbers and its text changed or not.
fn any_record(rng: &mut Rng) -> (Vec<u8>, usize) {
    let s = any_string(rng);
    let t = s.len();
    let mut numbers = [1, t, rng.below(3 * t + 1)];
    match rng.below(12) {
        0 => numbers[0] = rng.pick(&[0, 2, 3, 10, 9_999_999]),
        1 => numbers[1] = rng.pick(&[0, 1, t + 1, t + 2, t.saturating_sub(2), 65_536, 65_538, 9_999_999]),
        2 => numbers[2] = rng.pick(&[0, 3 * t, 3 * t + 1, 9_999_999, (3 * t).saturating_sub(1)]),
        _ => {}
    }
    let mut texts = numbers.map(|n| n.to_string());
    if rng.one_in(16) {
        let i = rng.below(3);
        texts[i] = rng.pick(&["", "00", "01", "+1", "-1", "12345678", "1 ", " 1", "0", "1\r", "x"]).to_string();
    }
    let mut text = inputs::record(&texts[0], &texts[1], &texts[2], &s);
    if rng.one_in(4) {
        inputs::damage_record(rng, &mut text);
    }
    (text, numbers[1].min(66_000))
}

/// The comparison: `each` random inputs for each call, all strings of up to eight letters, and the largest ones.
pub fn run(seed: u64, each: usize) -> Tally {
    let mut tally = Tally::default();
    for i in 0..each {
        // each input from its own seed, so that one can be made again alone
        let rng = &mut Rng(seed ^ (i as u64) << 20);
        let m = any_mesh(rng);
        tally.check_mesh(rng, &m);
        let m = any_mesh(rng);
        tally.write_string(rng, &m);
        let s = any_string(rng);
        tally.read_string(rng, &s);
        let (text, t) = any_record(rng);
        tally.read_record(rng, &text, t);
        let s = any_string(rng);
        let n = 3 * s.len() as u32;
        let gate = if rng.one_in(12) { rng.pick(&[n, n + 1, u32::MAX]) } else { rng.below(n as usize + 1) as u32 };
        tally.write_record(rng, &s, gate);
    }
    let rng = &mut Rng(seed);
    for t in [2, 4, 6, 8] {
        every_string(&mut tally, rng, t);
    }
    largest(&mut tally, rng);
    tally
}

fn every_string(tally: &mut Tally, rng: &mut Rng, t: usize) {
    for mut code in 0..5usize.pow(t as u32) {
        let s: Vec<u8> = (0..t)
            .map(|_| {
                let b = b"CLERS"[code % 5];
                code /= 5;
                b
            })
            .collect();
        tally.read_string(rng, &s);
    }
}

/// Lengths at and beyond the limit.
fn largest(tally: &mut Tally, rng: &mut Rng) {
    for weights in [inputs::COMMON, [1, 1, 1, 1, 1], [4, 1, 3, 1, 4], [9, 1, 9, 1, 9]] {
        let s = inputs::string(rng, 65_536, weights);
        let mut m = inputs::mesh_of(&s);
        for _ in 0..4 {
            m.gate = rng.below(m.vs.len()) as u32;
            tally.check_mesh(rng, &m);
            tally.write_string(rng, &m);
            let mut broken = m.clone();
            inputs::damage_mesh(rng, &mut broken);
            tally.check_mesh(rng, &broken);
            tally.write_string(rng, &broken);
            m = inputs::shuffled(rng, &m);
        }
        for k in 0..6 {
            let mut other = s.clone();
            if k > 1 {
                inputs::damage_string(rng, &mut other);
            }
            if k == 5 {
                other.extend_from_slice(b"CE");
            }
            let t = other.len();
            tally.read_string(rng, &other);
            tally.write_record(rng, &other, 196_607);
            tally.read_record(rng, &inputs::record("1", &t.to_string(), "196607", &other), t);
        }
        let mut wide = inputs::mesh_of(&inputs::string(rng, 65_536, weights));
        wide.vs.extend([0; 6]);
        wide.os.extend([0; 6]);
        tally.check_mesh(rng, &wide);
        tally.write_string(rng, &wide);
    }
}
