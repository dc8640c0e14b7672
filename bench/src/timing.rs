//! Times of both, in nanoseconds for each triangle.
use crate::inputs::{self, Mesh, Rng};
use crate::plain;
use last::raw;
use std::hint::black_box;
use std::time::Instant;

const SIZES: [usize; 3] = [2_000, 20_000, 65_536];

/// C^(2m+1) S^m E^(m+1) and a pair C, R before it: m right branches one inside the other, t = 4m + 4.
fn nest(t: usize) -> Vec<u8> {
    let m = (t - 4) / 4;
    [b"CR".repeat(1), vec![b'C'; 2 * m + 1], vec![b'S'; m], vec![b'E'; m + 1]].concat()
}

/// The same with each right branch a single E: m left branches one inside the other.
fn comb(t: usize) -> Vec<u8> {
    let m = (t - 4) / 4;
    [b"CR".repeat(1), vec![b'C'; 2 * m + 1], b"SE".repeat(m), vec![b'E']].concat()
}

fn mesh(kind: &str, t: usize) -> Mesh {
    let rng = &mut Rng(t as u64);
    let grid = |t: usize| match t {
        2_000 => inputs::globe(20, 50),
        20_000 => inputs::globe(100, 100),
        _ => inputs::globe(256, 128),
    };
    match kind {
        "regular" => inputs::mesh_of(&string_of(&grid(t))),
        "regular, shuffled" => inputs::shuffled(rng, &grid(t)),
        "irregular" => inputs::mesh_of(&inputs::string(rng, t, inputs::COMMON)),
        "irregular, shuffled" => {
            let m = inputs::mesh_of(&inputs::string(rng, t, inputs::COMMON));
            inputs::shuffled(rng, &m)
        }
        "S nest" => inputs::mesh_of(&nest(t)),
        "comb" => inputs::mesh_of(&comb(t)),
        "fan" => inputs::globe(t / 2, 1),
        "fan, shuffled" => inputs::shuffled(rng, &inputs::globe(t / 2, 1)),
        _ => unreachable!(),
    }
}

const KINDS: [&str; 8] =
    ["regular", "regular, shuffled", "irregular", "irregular, shuffled", "S nest", "comb", "fan", "fan, shuffled"];

fn string_of(m: &Mesh) -> Vec<u8> {
    let t = m.vs.len() / 3;
    let (mut letters, mut walk, mut work) = (vec![0; t], vec![0; t], vec![0; 12 * t]);
    let a = plain::write_string(&m.vs, &m.os, m.v, m.gate, &mut letters, &mut walk, &mut work);
    assert_eq!(a.number, 0);
    letters
}

/// The least time of a call in turns with another, in nanoseconds for each of t triangles.
fn race(t: usize, mut ours: impl FnMut() -> u32, mut theirs: impl FnMut() -> u32) -> (f64, f64) {
    let rounds = (4_000_000 / t).clamp(60, 1_000);
    let mut least = (f64::MAX, f64::MAX);
    for _ in 0..rounds {
        let start = Instant::now();
        assert_eq!(black_box(ours()), 0);
        least.0 = least.0.min(start.elapsed().as_nanos() as f64);
        let start = Instant::now();
        assert_eq!(black_box(theirs()), 0);
        least.1 = least.1.min(start.elapsed().as_nanos() as f64);
    }
    (least.0 / t as f64, least.1 / t as f64)
}

/// Times of the five calls on one mesh.
fn times(m: &Mesh) -> [(f64, f64); 5] {
    let t = m.vs.len() / 3;
    let s = string_of(m);
    let text = inputs::record("1", &t.to_string(), &m.gate.to_string(), &s);
    let (mut vs, mut os, mut work) = (vec![0; 3 * t], vec![0; 3 * t], vec![0; 12 * t]);
    let (mut vs2, mut os2, mut work2) = (vec![0; 3 * t], vec![0; 3 * t], vec![0; 12 * t]);
    let (mut letters, mut walk, mut out) = (vec![0; t], vec![0; t], vec![0; text.len()]);
    let (mut letters2, mut walk2, mut out2) = (vec![0; t], vec![0; t], vec![0; text.len()]);
    [
        race(
            t,
            || raw::check_mesh(&m.vs, &m.os, m.v, m.gate, &mut work).number,
            || plain::check_mesh(&m.vs, &m.os, m.v, m.gate, &mut work2).number,
        ),
        race(
            t,
            || raw::write_string(&m.vs, &m.os, m.v, m.gate, &mut letters, &mut walk, &mut work).number,
            || plain::write_string(&m.vs, &m.os, m.v, m.gate, &mut letters2, &mut walk2, &mut work2).number,
        ),
        race(
            t,
            || raw::read_string(&s, &mut vs, &mut os, &mut work).number,
            || plain::read_string(&s, &mut vs2, &mut os2, &mut work2).number,
        ),
        race(
            t,
            || raw::read_record(&text, &mut vs, &mut os, &mut work).number,
            || plain::read_record(&text, &mut vs2, &mut os2, &mut work2).number,
        ),
        race(
            t,
            || raw::write_record(&s, m.gate, &mut out, &mut work).number,
            || plain::write_record(&s, m.gate, &mut out2, &mut work2).number,
        ),
    ]
}

/// Prints the tables of docs/SPEED.md.
pub fn run() {
    let all: Vec<Vec<[(f64, f64); 5]>> =
        KINDS.iter().map(|kind| SIZES.iter().map(|&t| times(&mesh(kind, t))).collect()).collect();
    for (call, name) in crate::compare::CALLS.iter().enumerate() {
        println!("\n{name}\n");
        println!("| mesh | t = 2,000 | t = 20,000 | t = 65,536 | growth |");
        println!("|---|---:|---:|---:|---:|");
        for (kind, sizes) in KINDS.iter().zip(&all) {
            print!("| {kind} |");
            for calls in sizes {
                let (ours, theirs) = calls[call];
                print!(" {ours:.1} / {theirs:.1} = {:.2} |", ours / theirs);
            }
            println!(" {:.2} |", sizes[2][call].0 / sizes[0][call].0);
        }
    }
}
