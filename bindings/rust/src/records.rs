//! Frames from their records.

use crate::refusal::Refusal;
use crate::sys;
use std::iter::FusedIterator;

/// The bytes of a record, all big-endian: two of length (193), one of version (1), 24 doubles.
pub const RECORD_SIZE: usize = 195;

/// What a record holds: a plate as the camera sees it.
#[derive(Clone, Copy, Debug, PartialEq)]
pub struct Frame {
    /// Three world points, each x, y, z.
    pub world: [[f64; 3]; 3],
    /// The bearings to them.
    pub bearings: [[f64; 3]; 3],
    /// The checking target, a world point.
    pub target: [f64; 3],
    /// The bearing to it.
    pub bearing: [f64; 3],
}

/// The frame of the record at the start of some bytes. No bytes are a record that is cut short.
pub fn read_record(bytes: &[u8]) -> Result<Frame, Refusal> {
    let mut vectors = [[0.0; 3]; 8];
    // SAFETY: the pointer and the length are a slice's, of which the C function reads no more, and
    // the reference is to an array of this function's own, of the length that it writes.
    let number = unsafe { sys::p3p_read_record(bytes.as_ptr(), bytes.len(), &mut vectors) };
    let [p0, p1, p2, f0, f1, f2, target, bearing] = vectors;
    let frame = Frame { world: [p0, p1, p2], bearings: [f0, f1, f2], target, bearing };
    Refusal::unless_zero(number, frame)
}

/// The records of an input, one after another. After one of another version
/// ([`Refusal::RecordVersion`]) the next follows; any other refusal is the last item, since nobody
/// knows where a next record begins.
pub fn records(input: &[u8]) -> Records<'_> {
    Records { rest: input }
}

/// The iterator of [`records`].
#[derive(Clone, Debug)]
pub struct Records<'a> {
    rest: &'a [u8],
}

impl Iterator for Records<'_> {
    type Item = Result<Frame, Refusal>;

    fn next(&mut self) -> Option<Self::Item> {
        if self.rest.is_empty() {
            return None;
        }
        let record = read_record(self.rest);
        self.rest = match record {
            Ok(_) | Err(Refusal::RecordVersion) => &self.rest[RECORD_SIZE..],
            Err(_) => &[],
        };
        Some(record)
    }
}

impl FusedIterator for Records<'_> {}
