//! Parts of one LevelDB compaction inside a store, over the archive `libsedvokt.a`.
//!
//! No call opens a file, starts a thread, takes a lock or keeps anything, so any number of them may
//! run at once, in threads of the caller. What is lent are slices, and places in them: a call tests
//! each place, and answers [`MISUSE`] if one isn't within what is lent. The man page sedvokt(3) and
//! `sedvokt.h` say what each call does.

mod checked;
mod runs;
pub mod sys;

use std::error::Error;
use std::ffi::CStr;
use std::fmt::{Display, Formatter};
use std::mem::size_of;
use std::num::NonZeroU32;

pub use checked::{Boundaries, Checked, Run};
pub use runs::{plan, Runs};
pub use sys::{
    Counts, Entry, File, FilePlace, Input, Lengths, Mark, Numbers, Place, Planned, Range, Request,
    RunPlaces,
};

/// LevelDB's own order of user keys, `leveldb.BytewiseComparator`.
pub const BYTEWISE: u32 = 1;

/// `subcompaction.ShortlexComparator`.
pub const SHORTLEX: u32 = 2;

/// The number of a room that is too small.
const ROOM: u32 = 26;

/// The number of a refusal: a file that stays has to be an input, too.
pub const OPEN_INPUTS: u32 = 37;

/// The number of a refusal: a place isn't within what is lent, or no internal key is there.
pub const MISUSE: u32 = 98;

/// The number of a refusal: there was no memory.
pub const MEMORY: u32 = 99;

/// A call that was refused, by the number that `sedvokt.h` and REFUSALS name.
#[derive(Clone, Copy, Debug, PartialEq, Eq)]
pub struct Refused {
    code: NonZeroU32,
    input: Option<usize>,
}

impl Refused {
    pub fn code(self) -> u32 {
        self.code.get()
    }

    /// The place of the input that [`Checked::new`] refused.
    pub fn input(self) -> Option<usize> {
        self.input
    }
}

impl Display for Refused {
    fn fmt(&self, f: &mut Formatter<'_>) -> std::fmt::Result {
        // SAFETY: the answer is a text of the archive, whatever the number is.
        let says = unsafe { CStr::from_ptr(sys::sedvokt_strerror(self.code())) };
        write!(f, "{} ({})", says.to_string_lossy(), self.code)
    }
}

impl Error for Refused {}

/// What the number of a call means.
fn answered(code: u32) -> Result<(), Refused> {
    NonZeroU32::new(code).map_or(Ok(()), |code| Err(Refused { code, input: None }))
}

/// What a compaction is asked for, and what is lent to its calls.
#[derive(Clone, Copy, Debug, Default)]
pub struct Compaction<'a> {
    pub request: Request,
    /// The snapshots that stay readable, if they are listed.
    pub snapshots: &'a [u64],
    /// The keys of all files and ranges.
    pub keys: &'a [u8],
    /// The bytes of all tables.
    pub tables: &'a [u8],
    pub inputs: &'a [Input],
    /// All files of the levels from `level` + 2 on, by level and in version order.
    pub deeper: &'a [File],
}

impl Compaction<'_> {
    fn told(&self) -> sys::Compaction {
        sys::Compaction {
            size: size_of::<sys::Compaction>(),
            request: self.request,
            snapshots: self.snapshots.as_ptr(),
            snapshots_len: self.snapshots.len(),
            keys: self.keys.as_ptr(),
            keys_len: self.keys.len(),
            tables: self.tables.as_ptr(),
            tables_len: self.tables.len(),
            inputs: self.inputs.as_ptr(),
            inputs_len: self.inputs.len(),
            deeper: self.deeper.as_ptr(),
            deeper_len: self.deeper.len(),
        }
    }
}

/// Tests a request without its tables.
pub fn check_request(of: &Compaction) -> Result<(), Refused> {
    // SAFETY: each pointer is a slice's or a reference's, and nothing is kept or written.
    answered(unsafe { sys::sedvokt_check_request(&of.told()) })
}

/// Asks whether a compaction of `level` may take the files of these numbers, and no others. `files`
/// are all files of the version. If another one has to be taken too, the answer names it.
pub fn check_closed(
    order: u32,
    level: u64,
    keys: &[u8],
    files: &[File],
    numbers: &[u64],
) -> Result<Option<FilePlace>, Refused> {
    let mut missing = FilePlace::default();
    // SAFETY: as above; `missing` is written, and is apart from the others.
    let code = unsafe {
        sys::sedvokt_check_closed(
            order,
            level,
            keys.as_ptr(),
            keys.len(),
            files.as_ptr(),
            files.len(),
            numbers.as_ptr(),
            numbers.len(),
            &mut missing,
        )
    };
    match code {
        OPEN_INPUTS => Ok(Some(missing)),
        _ => answered(code).map(|()| None),
    }
}

/// Tests each byte of an input's table, and its length and bounds. At Ok its counts are set.
pub fn check_table(
    order: u32,
    keys: &[u8],
    tables: &[u8],
    input: &mut Input,
) -> Result<(), Refused> {
    // SAFETY: as above; `input` is written, and is apart from the others.
    answered(unsafe {
        sys::sedvokt_check_table(
            order,
            keys.as_ptr(),
            keys.len(),
            tables.as_ptr(),
            tables.len(),
            input,
        )
    })
}

/// The table of `entries`, with the request's order and options.
pub fn output(
    request: &Request,
    keys: &[u8],
    values: &[u8],
    entries: &[Entry],
) -> Result<Vec<u8>, Refused> {
    let about = request.file_size.min(1 << 30);
    filled(
        (about + about / 8 + 65536) as usize,
        |room, room_len, len| {
            // SAFETY: as above; `room` and `len` are written, and are apart from the others.
            unsafe {
                sys::sedvokt_output(
                    request,
                    keys.as_ptr(),
                    keys.len(),
                    values.as_ptr(),
                    values.len(),
                    entries.as_ptr(),
                    entries.len(),
                    room,
                    room_len,
                    len,
                )
            }
        },
    )
}

/// The bytes of the edit of a compaction: the inputs go, and `added` come.
pub fn edit(of: &Compaction, numbers: &Numbers, added: &[File]) -> Result<Vec<u8>, Refused> {
    filled(4096, |room, room_len, len| {
        // SAFETY: as of `output`.
        unsafe {
            sys::sedvokt_edit(
                &of.told(),
                numbers,
                added.as_ptr(),
                added.len(),
                room,
                room_len,
                len,
            )
        }
    })
}

/// A vector without values, with room for that many.
fn with_room<T>(len: u64) -> Result<Vec<T>, Refused> {
    let mut room = Vec::new();
    match room.try_reserve_exact(len as usize) {
        Ok(()) => Ok(room),
        Err(_) => answered(MEMORY).map(|()| room),
    }
}

/// What a call writes into a room for about so many values. It is made once more if that was too
/// small. At 0 it has written as many as it says.
fn filled<T>(
    about: usize,
    mut write: impl FnMut(*mut T, usize, &mut u64) -> u32,
) -> Result<Vec<T>, Refused> {
    let mut room = Vec::new();
    let mut len = about as u64;
    let mut code = ROOM;
    for _ in 0..2 {
        if code == ROOM {
            room = with_room(len)?;
            code = write(room.as_mut_ptr(), room.capacity(), &mut len);
        }
    }
    answered(code)?;
    // SAFETY: the call was done, so it wrote that many.
    unsafe { room.set_len(len as usize) };
    Ok(room)
}
