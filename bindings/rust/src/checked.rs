//! Inputs that were checked, and what only they can be asked.

use crate::sys::{self, Input, KeysSize, Lengths, Mark, Place, Range, RunRoom, RunSize};
use crate::{answered, check_table, with_room, Compaction, Refused, MISUSE, ROOM};
use std::mem::size_of;

/// A compaction whose inputs were checked. What is lent can't change as long as this lives, so it
/// may be merged: `sedvokt_merge` tests no table again.
#[derive(Clone, Copy, Debug)]
pub struct Checked<'a>(Compaction<'a>);

/// The run of a range: its entries one after the other, each as its key and then its value; their
/// lengths; and the marks.
#[derive(Clone, Debug, Default, PartialEq, Eq)]
pub struct Run {
    pub bytes: Vec<u8>,
    pub entries: Vec<Lengths>,
    pub marks: Vec<Mark>,
}

/// User keys that part the inputs: their bytes one after the other, and how long each is.
#[derive(Clone, Debug, Default, PartialEq, Eq)]
pub struct Boundaries {
    pub bytes: Vec<u8>,
    pub lengths: Vec<u64>,
}

impl Boundaries {
    /// The ranges between them, if the keys that are lent have their bytes from place `from` on.
    pub fn ranges(&self, from: u64) -> Result<Vec<Range>, Refused> {
        let mut ranges = with_room(self.lengths.len() as u64 + 1)?;
        let mut lower = Place { from, len: 0 };
        for at in 0..=self.lengths.len() {
            let upper = Place {
                from: lower.from + lower.len,
                len: self.lengths.get(at).copied().unwrap_or(0),
            };
            ranges.push(Range {
                has_lower: u32::from(at != 0),
                has_upper: u32::from(at != self.lengths.len()),
                lower,
                upper,
            });
            lower = upper;
        }
        Ok(ranges)
    }
}

impl<'a> Checked<'a> {
    /// Tests all inputs, one after the other, and sets their counts. `of` has no inputs: these are
    /// its inputs then.
    pub fn new(of: Compaction<'a>, inputs: &'a mut [Input]) -> Result<Checked<'a>, Refused> {
        for (at, input) in inputs.iter_mut().enumerate() {
            let answer = check_table(of.request.order, of.keys, of.tables, input);
            answer.map_err(|it| Refused {
                input: Some(at),
                ..it
            })?;
        }
        Ok(Checked(Compaction { inputs, ..of }))
    }

    /// The compaction, whose inputs have their counts.
    pub fn compaction(&self) -> &Compaction<'a> {
        &self.0
    }

    /// The same inputs over keys with more bytes after the others, as those of boundaries.
    /// [`MISUSE`] unless `keys` begins with the keys that they were checked with.
    pub fn over(self, keys: &'a [u8]) -> Result<Checked<'a>, Refused> {
        if !keys.starts_with(self.0.keys) {
            answered(MISUSE)?;
        }
        Ok(Checked(Compaction { keys, ..self.0 }))
    }

    /// Boundaries for at most `want` ranges.
    pub fn boundaries(&self, want: u64) -> Result<Boundaries, Refused> {
        let mut found = Boundaries::default();
        let mut size = KeysSize {
            bytes: 4096,
            keys: want.min(4096),
        };
        let mut code = ROOM;
        for _ in 0..2 {
            if code == ROOM {
                found.bytes = with_room(size.bytes)?;
                found.lengths = with_room(size.keys)?;
                // SAFETY: as of `merge`.
                code = unsafe {
                    sys::sedvokt_boundaries(
                        &self.0.told(),
                        want,
                        found.bytes.as_mut_ptr(),
                        found.bytes.capacity(),
                        found.lengths.as_mut_ptr(),
                        found.lengths.capacity(),
                        &mut size,
                    )
                };
            }
        }
        answered(code)?;
        // SAFETY: the call was done, so it wrote that many.
        unsafe {
            found.bytes.set_len(size.bytes as usize);
            found.lengths.set_len(size.keys as usize);
        }
        Ok(found)
    }

    /// The kept entries of one of so many ranges: the room is at first as of such a part of all
    /// tables, and half as much again.
    pub fn merge(&self, range: &Range, parts: u64) -> Result<Run, Refused> {
        let mut run = Run::default();
        let mut size = self.share(parts.max(1));
        let mut code = ROOM;
        for _ in 0..2 {
            if code == ROOM {
                run.bytes = with_room(size.bytes)?;
                run.entries = with_room(size.entries)?;
                run.marks = with_room(size.marks)?;
                let room = RunRoom {
                    size: size_of::<RunRoom>(),
                    bytes: run.bytes.as_mut_ptr(),
                    bytes_len: run.bytes.capacity(),
                    lengths: run.entries.as_mut_ptr(),
                    lengths_len: run.entries.capacity(),
                    marks: run.marks.as_mut_ptr(),
                    marks_len: run.marks.capacity(),
                };
                // SAFETY: each pointer is a slice's, a vector's or a reference's; what is written
                // is apart from the others. The inputs were checked in this order, and are as they
                // were then.
                code = unsafe { sys::sedvokt_merge(&self.0.told(), range, &room, &mut size) };
            }
        }
        answered(code)?;
        // SAFETY: the call was done, so it wrote that many.
        unsafe {
            run.bytes.set_len(size.bytes as usize);
            run.entries.set_len(size.entries as usize);
            run.marks.set_len(size.marks as usize);
        }
        Ok(run)
    }

    fn share(&self, parts: u64) -> RunSize {
        let bytes = self.0.tables.len() as u64 / parts;
        let counted = self.0.inputs.iter().map(|it| it.counts.entries);
        let entries = counted.fold(0, u64::saturating_add) / parts;
        RunSize {
            bytes: bytes + bytes / 2 + 4096,
            entries: entries + entries / 2 + 64,
            marks: self.0.deeper.len() as u64 + 1,
        }
    }
}
