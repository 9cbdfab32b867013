//! The runs of all ranges, and the outputs that they have together.

use crate::sys::{self, Lengths, Mark, Place, Planned, RunPlaces};
use crate::{answered, filled, Compaction, Refused, Run, MEMORY};
use std::mem::size_of;

/// The runs of ranges, one after the other, and where each lies.
#[derive(Clone, Debug, Default, PartialEq, Eq)]
pub struct Runs {
    pub bytes: Vec<u8>,
    pub entries: Vec<Lengths>,
    pub marks: Vec<Mark>,
    pub places: Vec<RunPlaces>,
}

impl Runs {
    /// Copies a run after the others. It is of the range after theirs.
    pub fn push(&mut self, run: &Run) -> Result<(), Refused> {
        let places = RunPlaces {
            bytes: append(&mut self.bytes, &run.bytes)?,
            lengths: append(&mut self.entries, &run.entries)?,
            marks: append(&mut self.marks, &run.marks)?,
        };
        append(&mut self.places, &[places])?;
        Ok(())
    }
}

/// Copies values after others, and answers where they lie.
fn append<T: Copy>(to: &mut Vec<T>, from: &[T]) -> Result<Place, Refused> {
    if to.try_reserve(from.len()).is_err() {
        answered(MEMORY)?;
    }
    let place = Place {
        from: to.len() as u64,
        len: from.len() as u64,
    };
    to.extend_from_slice(from);
    Ok(place)
}

/// The outputs of the runs of all ranges. They don't depend on how the entries were dealt out to
/// ranges. An output has the entries after those of the one before it.
pub fn plan(of: &Compaction, runs: &Runs) -> Result<Vec<Planned>, Refused> {
    let told = sys::Runs {
        size: size_of::<sys::Runs>(),
        bytes: runs.bytes.as_ptr(),
        bytes_len: runs.bytes.len(),
        lengths: runs.entries.as_ptr(),
        lengths_len: runs.entries.len(),
        marks: runs.marks.as_ptr(),
        marks_len: runs.marks.len(),
        runs: runs.places.as_ptr(),
        runs_len: runs.places.len(),
    };
    filled(64, |room, room_len, len| {
        // SAFETY: each pointer is a slice's or a reference's; `room` and `len` are written, and are
        // apart from the others.
        unsafe { sys::sedvokt_plan(&of.told(), &told, room, room_len, len) }
    })
}
