//! The calls with buffers allocated for the caller.
use crate::{check_mesh, read_record, read_string, table_len, work_len, write_record, write_string};
use crate::{Counts, Refusal, MOST_TRIANGLES};

// Room for t triangles, none for more than a mesh may have: those are refused before any buffer counts.
fn room(t: usize) -> usize {
    if t > MOST_TRIANGLES { 0 } else { t }
}

/// The tables of a mesh: a vertex and an opposite corner at each corner.
#[derive(Clone, PartialEq, Eq, Debug)]
pub struct Mesh {
    pub vertices: Vec<u32>,
    pub opposites: Vec<u32>,
    pub vertex_count: u32,
}

/// A string, one letter for each triangle in the order of the walk, and the corner at which the walk met each.
#[derive(Clone, PartialEq, Eq, Debug)]
pub struct Walk {
    pub letters: Vec<u8>,
    pub corners: Vec<u32>,
}

/// An opened record: its mesh in walk order, and the gate in the packer's own numbering.
#[derive(Clone, PartialEq, Eq, Debug)]
pub struct Record {
    pub mesh: Mesh,
    pub gate: u32,
}

impl Mesh {
    /// The mesh of a string, in walk order.
    ///
    /// ```
    /// let mesh = last::Mesh::from_string(b"CE")?;
    /// assert_eq!((mesh.triangles(), mesh.vertex_count), (2, 3));
    /// assert_eq!(last::Mesh::from_string(b"CEE").unwrap_err().number(), 1);
    /// # Ok::<(), last::Refusal>(())
    /// ```
    pub fn from_string(letters: &[u8]) -> Result<Mesh, Refusal> {
        let t = room(letters.len());
        let (mut vertices, mut opposites) = (vec![0; table_len(t)], vec![0; table_len(t)]);
        let counts = read_string(letters, &mut vertices, &mut opposites, &mut vec![0; work_len(t)])?;
        Ok(Mesh { vertices, opposites, vertex_count: counts.vertices })
    }

    /// How many triangles the tables have.
    pub fn triangles(&self) -> usize {
        self.vertices.len() / 3
    }

    /// Whether the tables are a mesh, with every triangle reached from the gate.
    ///
    /// ```
    /// let mut mesh = last::Mesh::from_string(b"CE")?;
    /// assert!(mesh.check(0).is_ok());
    /// mesh.opposites[0] = 0;
    /// assert_eq!(mesh.check(0).unwrap_err().to_string(), "10 at 0: the opposite rule is broken at this corner");
    /// # Ok::<(), last::Refusal>(())
    /// ```
    pub fn check(&self, gate: u32) -> Result<Counts, Refusal> {
        let mut work = vec![0; work_len(room(self.triangles()))];
        check_mesh(&self.vertices, &self.opposites, self.vertex_count, gate, &mut work)
    }

    /// The string and walk table from a gate.
    ///
    /// ```
    /// let walk = last::Mesh::from_string(b"CCRE")?.walk(0)?;
    /// assert_eq!((walk.letters, walk.corners), (b"CCRE".to_vec(), vec![0, 3, 6, 9]));
    /// # Ok::<(), last::Refusal>(())
    /// ```
    pub fn walk(&self, gate: u32) -> Result<Walk, Refusal> {
        let t = room(self.triangles());
        let (mut letters, mut corners) = (vec![0; t], vec![0; t]);
        let mut work = vec![0; work_len(t)];
        let (vs, os) = (&self.vertices, &self.opposites);
        write_string(vs, os, self.vertex_count, gate, &mut letters, &mut corners, &mut work)?;
        Ok(Walk { letters, corners })
    }
}

impl Walk {
    /// The record of the string, with the gate from which the walk began.
    ///
    /// ```
    /// let walk = last::Mesh::from_string(b"CE")?.walk(4)?;
    /// assert_eq!(walk.record()?, b"form=1\ntri=2\ngate=4\nsym=CE\n");
    /// # Ok::<(), last::Refusal>(())
    /// ```
    pub fn record(&self) -> Result<Vec<u8>, Refusal> {
        // of an empty walk no gate is a corner, and its string is refused before that
        Record::write(&self.letters, self.corners.first().copied().unwrap_or(0))
    }
}

impl Record {
    /// Opens a record.
    ///
    /// ```
    /// use last::Record;
    ///
    /// let record = Record::open(b"form=1\ntri=4\ngate=7\nsym=CCRE\n")?;
    /// assert_eq!((record.mesh.vertex_count, record.gate), (4, 7));
    /// let refusal = Record::open(b"form=1\ntri=4\ngate=7\nsym=CCRE").unwrap_err();
    /// assert_eq!((refusal.rule, refusal.place), (last::Rule::Line, 3));
    /// # Ok::<(), last::Refusal>(())
    /// ```
    pub fn open(record: &[u8]) -> Result<Record, Refusal> {
        // a record holds its letters, so it has at least as many bytes as triangles
        let t = record.len().min(MOST_TRIANGLES);
        let (mut vertices, mut opposites) = (vec![0; table_len(t)], vec![0; table_len(t)]);
        let opened = read_record(record, &mut vertices, &mut opposites, &mut vec![0; work_len(t)])?;
        let entries = table_len(opened.counts.triangles as usize);
        vertices.truncate(entries);
        opposites.truncate(entries);
        Ok(Record { mesh: Mesh { vertices, opposites, vertex_count: opened.counts.vertices }, gate: opened.gate })
    }

    /// The record of a string and its gate as text.
    ///
    /// ```
    /// assert_eq!(last::Record::write(b"CCRE", 7)?, b"form=1\ntri=4\ngate=7\nsym=CCRE\n");
    /// assert_eq!(last::Record::write(b"CCRE", 12).unwrap_err().number(), 8);
    /// # Ok::<(), last::Refusal>(())
    /// ```
    pub fn write(letters: &[u8], gate: u32) -> Result<Vec<u8>, Refusal> {
        // around the letters stand at most 34 bytes: tri has at most five digits and gate six
        let mut text = vec![0; letters.len() + 34];
        let written = write_record(letters, gate, &mut text, &mut vec![0; work_len(room(letters.len()))])?;
        text.truncate(written.length);
        Ok(text)
    }
}
