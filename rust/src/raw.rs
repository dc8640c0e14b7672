//! The calls as the proved library has them: any slices in, an [`Answer`] of numbers out.
//!
//! Each asks nothing of its caller. The rest of this crate says the same with a [`Result`](crate::Refusal).

/// What a call answers: number 0 is done, any other a refusal. What a call does not answer is 0.
#[repr(C)]
#[derive(Clone, Copy, PartialEq, Eq, Debug, Default)]
pub struct Answer {
    pub number: u32,
    pub place: u32,
    pub t: u32,
    pub v: u32,
    pub gate: u32,
    pub length: u32,
}

mod linked {
    use super::Answer;

    extern "C" {
        pub fn last_check_mesh(
            vs: *const u32,
            vs_len: usize,
            os: *const u32,
            os_len: usize,
            v: u32,
            gate: u32,
            work: *mut u32,
            work_len: usize,
        ) -> Answer;
        pub fn last_write_string(
            vs: *const u32,
            vs_len: usize,
            os: *const u32,
            os_len: usize,
            v: u32,
            gate: u32,
            letters: *mut u8,
            letters_len: usize,
            walk: *mut u32,
            walk_len: usize,
            work: *mut u32,
            work_len: usize,
        ) -> Answer;
        pub fn last_read_string(
            letters: *const u8,
            letters_len: usize,
            vs: *mut u32,
            vs_len: usize,
            os: *mut u32,
            os_len: usize,
            work: *mut u32,
            work_len: usize,
        ) -> Answer;
        pub fn last_read_record(
            record: *const u8,
            record_len: usize,
            vs: *mut u32,
            vs_len: usize,
            os: *mut u32,
            os_len: usize,
            work: *mut u32,
            work_len: usize,
        ) -> Answer;
        pub fn last_write_record(
            letters: *const u8,
            letters_len: usize,
            gate: u32,
            text: *mut u8,
            text_len: usize,
            work: *mut u32,
            work_len: usize,
        ) -> Answer;
    }
}

// Safety, of every call below: a slice is its own pointer and length, the borrows keep the lent buffers apart, and the
// library is proved to stay inside them for every content and every length.

/// Judges the tables of a mesh.
pub fn check_mesh(vs: &[u32], os: &[u32], v: u32, gate: u32, work: &mut [u32]) -> Answer {
    unsafe {
        linked::last_check_mesh(vs.as_ptr(), vs.len(), os.as_ptr(), os.len(), v, gate, work.as_mut_ptr(), work.len())
    }
}

/// Writes the string and the walk table of a mesh.
pub fn write_string(
    vs: &[u32],
    os: &[u32],
    v: u32,
    gate: u32,
    letters: &mut [u8],
    walk: &mut [u32],
    work: &mut [u32],
) -> Answer {
    unsafe {
        linked::last_write_string(
            vs.as_ptr(),
            vs.len(),
            os.as_ptr(),
            os.len(),
            v,
            gate,
            letters.as_mut_ptr(),
            letters.len(),
            walk.as_mut_ptr(),
            walk.len(),
            work.as_mut_ptr(),
            work.len(),
        )
    }
}

/// Reads a string into its tables.
pub fn read_string(letters: &[u8], vs: &mut [u32], os: &mut [u32], work: &mut [u32]) -> Answer {
    unsafe {
        linked::last_read_string(
            letters.as_ptr(),
            letters.len(),
            vs.as_mut_ptr(),
            vs.len(),
            os.as_mut_ptr(),
            os.len(),
            work.as_mut_ptr(),
            work.len(),
        )
    }
}

/// Reads a record into its tables.
pub fn read_record(record: &[u8], vs: &mut [u32], os: &mut [u32], work: &mut [u32]) -> Answer {
    unsafe {
        linked::last_read_record(
            record.as_ptr(),
            record.len(),
            vs.as_mut_ptr(),
            vs.len(),
            os.as_mut_ptr(),
            os.len(),
            work.as_mut_ptr(),
            work.len(),
        )
    }
}

/// Writes a record from a string and a gate.
pub fn write_record(letters: &[u8], gate: u32, text: &mut [u8], work: &mut [u32]) -> Answer {
    unsafe {
        linked::last_write_record(
            letters.as_ptr(),
            letters.len(),
            gate,
            text.as_mut_ptr(),
            text.len(),
            work.as_mut_ptr(),
            work.len(),
        )
    }
}
