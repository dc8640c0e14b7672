//! Connectivity of closed, sphere-like triangle meshes, over a proved library.
//!
//! A mesh of t triangles has corners 0 to 3t - 1, corner c in triangle c / 3. Table V holds a vertex at each corner,
//! table O the opposite corner. From a corner, the gate, the walk of Rossignac and Szymczak writes one letter of
//! C, L, E, R, S for each triangle; the letters alone give the tables back, in walk order.
//!
//! The calls on slices ([`check_mesh`], [`write_string`], [`read_string`], [`read_record`], [`write_record`]) allocate
//! nothing. They take slices of any length and any content: what does not fit is refused, by number and place, and a
//! refusal leaves the results as they came. Each needs a work space of [`work_len`] numbers; what it holds before the
//! call has no influence, and it is all zero afterwards, but after the refusals that do not touch it (1, 2, 16 to 18,
//! and 8 from a record). [`Mesh`], [`Walk`] and [`Record`] allocate what is needed.
//!
//! ```
//! use last::{Mesh, Walk};
//!
//! let mesh = Mesh::from_string(b"CCRE")?;
//! assert_eq!(mesh.vertices, [2, 0, 1, 3, 2, 1, 0, 3, 1, 2, 3, 0]);
//! assert_eq!(mesh.opposites, [7, 3, 10, 1, 6, 11, 4, 0, 9, 8, 2, 5]);
//!
//! let Walk { letters, corners } = mesh.walk(7)?;
//! assert_eq!(letters, b"CCRE");
//! assert_eq!(corners, [7, 9, 2, 3]);
//!
//! let refusal = Mesh::from_string(b"CCCE").unwrap_err();
//! assert_eq!(refusal.to_string(), "6 at 1: a C stands before a word of width 2");
//! # Ok::<(), last::Refusal>(())
//! ```

mod owned;
pub mod raw;
mod refusal;

pub use owned::{Mesh, Record, Walk};
pub use refusal::{Refusal, Rule};

/// The most triangles that a mesh may have.
pub const MOST_TRIANGLES: usize = 65_536;

/// How many numbers the work space of a mesh or string of t triangles needs.
pub const fn work_len(t: usize) -> usize {
    12 * t
}

/// How many entries each of V and O has for t triangles.
pub const fn table_len(t: usize) -> usize {
    3 * t
}

/// Triangles and vertices of an accepted mesh or string.
#[derive(Clone, Copy, PartialEq, Eq, Debug)]
pub struct Counts {
    pub triangles: u32,
    pub vertices: u32,
}

/// What an opened record answers: its counts and the gate its walk began at, in the packer's own numbering.
#[derive(Clone, Copy, PartialEq, Eq, Debug)]
pub struct Opened {
    pub counts: Counts,
    pub gate: u32,
}

/// What writing a record answers: the counts of its string and how many bytes of text it wrote.
#[derive(Clone, Copy, PartialEq, Eq, Debug)]
pub struct Written {
    pub counts: Counts,
    pub length: usize,
}

fn counts(a: raw::Answer) -> Result<Counts, Refusal> {
    match Rule::from_number(a.number) {
        None => Ok(Counts { triangles: a.t, vertices: a.v }),
        Some(rule) => Err(Refusal { rule, place: a.place }),
    }
}

/// Judges the tables of a mesh with v vertices, reached from the gate corner.
///
/// ```
/// let (vs, os) = ([2, 0, 1, 0, 2, 1], [4, 3, 5, 1, 0, 2]);
/// let mut work = [0; last::work_len(2)];
/// let counts = last::check_mesh(&vs, &os, 3, 0, &mut work)?;
/// assert_eq!((counts.triangles, counts.vertices), (2, 3));
///
/// let refusal = last::check_mesh(&vs, &os, 4, 0, &mut work).unwrap_err();
/// assert_eq!((refusal.rule, refusal.place), (last::Rule::Ring, 3));
/// # Ok::<(), last::Refusal>(())
/// ```
pub fn check_mesh(vs: &[u32], os: &[u32], v: u32, gate: u32, work: &mut [u32]) -> Result<Counts, Refusal> {
    counts(raw::check_mesh(vs, os, v, gate, work))
}

/// Writes the string and the walk table of a mesh from the gate corner, one entry for each triangle.
///
/// ```
/// let (vs, os) = ([2, 0, 1, 0, 2, 1], [4, 3, 5, 1, 0, 2]);
/// let (mut letters, mut walk, mut work) = ([0; 2], [0; 2], [0; last::work_len(2)]);
/// last::write_string(&vs, &os, 3, 0, &mut letters, &mut walk, &mut work)?;
/// assert_eq!((&letters, walk), (b"CE", [0, 3]));
/// # Ok::<(), last::Refusal>(())
/// ```
pub fn write_string(
    vs: &[u32],
    os: &[u32],
    v: u32,
    gate: u32,
    letters: &mut [u8],
    walk: &mut [u32],
    work: &mut [u32],
) -> Result<Counts, Refusal> {
    counts(raw::write_string(vs, os, v, gate, letters, walk, work))
}

/// Reads a string into its tables, three entries of each for each letter.
///
/// ```
/// let (mut vs, mut os, mut work) = ([9; 7], [9; 7], [0; last::work_len(2)]);
/// last::read_string(b"CE", &mut vs, &mut os, &mut work)?;
/// assert_eq!((vs, os), ([2, 0, 1, 0, 2, 1, 9], [4, 3, 5, 1, 0, 2, 9]));
/// # Ok::<(), last::Refusal>(())
/// ```
pub fn read_string(letters: &[u8], vs: &mut [u32], os: &mut [u32], work: &mut [u32]) -> Result<Counts, Refusal> {
    counts(raw::read_string(letters, vs, os, work))
}

/// Reads a record into the tables of its string, and answers its gate.
///
/// ```
/// let (mut vs, mut os, mut work) = ([0; 12], [0; 12], [0; last::work_len(4)]);
/// let opened = last::read_record(b"form=1\ntri=4\ngate=7\nsym=CCRE\n", &mut vs, &mut os, &mut work)?;
/// assert_eq!((opened.counts.vertices, opened.gate), (4, 7));
/// # Ok::<(), last::Refusal>(())
/// ```
pub fn read_record(record: &[u8], vs: &mut [u32], os: &mut [u32], work: &mut [u32]) -> Result<Opened, Refusal> {
    let a = raw::read_record(record, vs, os, work);
    Ok(Opened { counts: counts(a)?, gate: a.gate })
}

/// Writes the record of a string and its gate as text.
///
/// ```
/// let (mut text, mut work) = ([0; 40], [0; last::work_len(4)]);
/// let written = last::write_record(b"CCRE", 7, &mut text, &mut work)?;
/// assert_eq!(&text[..written.length], b"form=1\ntri=4\ngate=7\nsym=CCRE\n");
/// # Ok::<(), last::Refusal>(())
/// ```
pub fn write_record(letters: &[u8], gate: u32, text: &mut [u8], work: &mut [u32]) -> Result<Written, Refusal> {
    let a = raw::write_record(letters, gate, text, work);
    Ok(Written { counts: counts(a)?, length: a.length as usize })
}
