//! The worked examples of document 01, on the library and on the plain calls.
use crate::inputs::{self, Mesh};
use crate::plain;
use last::raw;

struct Both {
    wrong: u32,
}

impl Both {
    fn expect(&mut self, name: &str, right: bool) {
        if !right {
            self.wrong += 1;
            println!("WRONG in the worked example {name}");
        }
    }

    fn read(&mut self, name: &str, s: &[u8], number: u32, place: u32, tables: Option<(&[u32], &[u32])>) {
        let n = 3 * s.len();
        let (mut vs, mut os, mut work) = (vec![7; n], vec![7; n], vec![7; 4 * n]);
        let a = raw::read_string(s, &mut vs, &mut os, &mut work);
        let (mut vs2, mut os2, mut work2) = (vec![7; n], vec![7; n], vec![7; 4 * n]);
        let b = plain::read_string(s, &mut vs2, &mut os2, &mut work2);
        self.expect(name, (a.number, a.place) == (number, place) && (b.number, b.place) == (number, place));
        if let Some((v, o)) = tables {
            self.expect(name, vs == v && vs2 == v);
            self.expect(name, (os == o && os2 == o) || o.is_empty());
        }
    }

    fn check(&mut self, name: &str, m: &Mesh, number: u32, place: u32) {
        let mut work = vec![7; 4 * m.vs.len()];
        let a = raw::check_mesh(&m.vs, &m.os, m.v, m.gate, &mut work);
        let b = plain::check_mesh(&m.vs, &m.os, m.v, m.gate, &mut work);
        self.expect(name, (a.number, a.place) == (number, place) && (b.number, b.place) == (number, place));
    }

    fn write(&mut self, name: &str, m: &Mesh, gate: u32, s: &[u8], corners: &[u32]) {
        let t = s.len();
        let (mut letters, mut walk, mut work) = (vec![0; t], vec![0; t], vec![7; 12 * t]);
        raw::write_string(&m.vs, &m.os, m.v, gate, &mut letters, &mut walk, &mut work);
        self.expect(name, letters == s && walk == corners);
        plain::write_string(&m.vs, &m.os, m.v, gate, &mut letters, &mut walk, &mut work);
        self.expect(name, letters == s && walk == corners);
    }
}

/// How many worked examples come out wrong.
pub fn run() -> u32 {
    let b = &mut Both { wrong: 0 };
    let two = Mesh { vs: vec![2, 0, 1, 0, 2, 1], os: vec![4, 3, 5, 1, 0, 2], v: 3, gate: 0 };
    b.read("M1", b"CE", 0, 0, Some((&two.vs, &two.os)));
    let v = vec![2, 0, 1, 3, 2, 1, 0, 3, 1, 2, 3, 0];
    let o = vec![7, 3, 10, 1, 6, 11, 4, 0, 9, 8, 2, 5];
    b.read("M2", b"CCRE", 0, 0, Some((&v, &o)));
    let four = Mesh { vs: v, os: o, v: 4, gate: 0 };
    b.write("M3", &four, 0, b"CCRE", &[0, 3, 6, 9]);
    b.write("M4", &four, 7, b"CCRE", &[7, 9, 2, 3]);
    b.read("M5", b"CCCSEE", 0, 0, Some((&[2, 0, 1, 3, 2, 1, 4, 3, 1, 2, 4, 1, 0, 2, 1, 3, 4, 2], &[])));
    b.read("M6", b"CCCE", 6, 1, None);
    b.read("M7", b"LE", 7, 0, None);
    b.read("M8", b"CCSE", 4, 4, None);
    b.read("M9", b"CERE", 5, 2, None);
    b.read("M10", b"CCxE", 3, 2, None);
    b.check("M11", &Mesh { v: 4, ..two.clone() }, 13, 3);
    b.check("M12", &inputs::beside(&two, &two), 14, 2);
    b.read("empty", b"", 1, 0, None);
    b.read("CEE", b"CEE", 1, 0, None);
    let mut m = two.clone();
    m.os[0] = 0;
    b.check("M1 with O[0] = 0", &m, 10, 0);
    let mut m = two.clone();
    m.vs[0] = 1;
    b.check("M1 with V[0] = 1", &m, 11, 1);
    b.check("M1 with all V 0", &Mesh { vs: vec![0; 6], v: 1, ..two.clone() }, 12, 0);
    b.check("torus", &inputs::torus7(), 15, 0);
    b.wrong
}
