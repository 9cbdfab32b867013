//! What `sedvokt.h` declares, word for word.

use std::ffi::c_char;

/// A part of lent bytes.
#[repr(C)]
#[derive(Clone, Copy, Debug, Default, PartialEq, Eq)]
pub struct Place {
    pub from: u64,
    pub len: u64,
}

/// A file of the version. Both keys are internal keys, in the keys that are lent.
#[repr(C)]
#[derive(Clone, Copy, Debug, Default, PartialEq, Eq)]
pub struct File {
    pub level: u64,
    pub number: u64,
    pub size: u64,
    pub smallest: Place,
    pub largest: Place,
}

/// A file by its level and number.
#[repr(C)]
#[derive(Clone, Copy, Debug, Default, PartialEq, Eq)]
pub struct FilePlace {
    pub level: u64,
    pub number: u64,
}

/// What is counted of a table: its entries, their least and greatest sequence, and 1 if an entry
/// has the user key and the sequence of the one before it.
#[repr(C)]
#[derive(Clone, Copy, Debug, Default, PartialEq, Eq)]
pub struct Counts {
    pub entries: u64,
    pub oldest: u64,
    pub newest: u64,
    pub has_twins: u32,
}

/// An input. Its table is in the tables that are lent.
#[repr(C)]
#[derive(Clone, Copy, Debug, Default, PartialEq, Eq)]
pub struct Input {
    pub file: File,
    pub table: Place,
    pub counts: Counts,
}

/// What is asked for. If `is_listed` isn't 0, the snapshots that are passed stay readable, and each
/// sequence from `last_sequence` on. Else `oldest` and each later one stay readable.
#[repr(C)]
#[derive(Clone, Copy, Debug, Default, PartialEq, Eq)]
pub struct Request {
    pub order: u32,
    pub is_listed: u32,
    pub level: u64,
    pub oldest: u64,
    pub last_sequence: u64,
    pub block_size: u64,
    pub restart_interval: u64,
    pub file_size: u64,
    pub first_number: u64,
}

/// The version's numbers when the edit is installed.
#[repr(C)]
#[derive(Clone, Copy, Debug, Default, PartialEq, Eq)]
pub struct Numbers {
    pub next_file: u64,
    pub log_number: u64,
    pub previous_log: u64,
    pub last_sequence: u64,
}

/// An entry of an output: an internal key and a value, in what is lent.
#[repr(C)]
#[derive(Clone, Copy, Debug, Default, PartialEq, Eq)]
pub struct Entry {
    pub key: Place,
    pub value: Place,
}

/// A range of user keys: those at or after `lower`, unless `has_lower` is 0, and before `upper`,
/// unless `has_upper` is 0. Both bounds are user keys, in the keys that are lent.
#[repr(C)]
#[derive(Clone, Copy, Debug, Default, PartialEq, Eq)]
pub struct Range {
    pub has_lower: u32,
    pub has_upper: u32,
    pub lower: Place,
    pub upper: Place,
}

/// How many bytes the internal key and the value of a kept entry have.
#[repr(C)]
#[derive(Clone, Copy, Debug, Default, PartialEq, Eq)]
pub struct Lengths {
    pub key: u64,
    pub value: u64,
}

/// `below` grandparents end before the user key to come, after `kept` entries of the run.
#[repr(C)]
#[derive(Clone, Copy, Debug, Default, PartialEq, Eq)]
pub struct Mark {
    pub below: u64,
    pub kept: u64,
}

/// How much room a run takes.
#[repr(C)]
#[derive(Clone, Copy, Debug, Default, PartialEq, Eq)]
pub struct RunSize {
    pub bytes: u64,
    pub entries: u64,
    pub marks: u64,
}

/// How much room user keys take.
#[repr(C)]
#[derive(Clone, Copy, Debug, Default, PartialEq, Eq)]
pub struct KeysSize {
    pub bytes: u64,
    pub keys: u64,
}

/// Where the run of a range lies, in the bytes, lengths and marks that are lent.
#[repr(C)]
#[derive(Clone, Copy, Debug, Default, PartialEq, Eq)]
pub struct RunPlaces {
    pub bytes: Place,
    pub lengths: Place,
    pub marks: Place,
}

/// What a compaction is asked for, and what is lent to its calls. `size` is that of the structure.
#[repr(C)]
#[derive(Clone, Copy, Debug)]
pub struct Compaction {
    pub size: usize,
    pub request: Request,
    pub snapshots: *const u64,
    pub snapshots_len: usize,
    pub keys: *const u8,
    pub keys_len: usize,
    pub tables: *const u8,
    pub tables_len: usize,
    pub inputs: *const Input,
    pub inputs_len: usize,
    pub deeper: *const File,
    pub deeper_len: usize,
}

/// The room for the run of a range. `size` is that of the structure.
#[repr(C)]
#[derive(Clone, Copy, Debug)]
pub struct RunRoom {
    pub size: usize,
    pub bytes: *mut u8,
    pub bytes_len: usize,
    pub lengths: *mut Lengths,
    pub lengths_len: usize,
    pub marks: *mut Mark,
    pub marks_len: usize,
}

/// The runs of all ranges, each where it lies in three arrays. `size` is that of the structure.
#[repr(C)]
#[derive(Clone, Copy, Debug)]
pub struct Runs {
    pub size: usize,
    pub bytes: *const u8,
    pub bytes_len: usize,
    pub lengths: *const Lengths,
    pub lengths_len: usize,
    pub marks: *const Mark,
    pub marks_len: usize,
    pub runs: *const RunPlaces,
    pub runs_len: usize,
}

/// An output: how many entries of the runs lie before it, how many it has, and the length of its
/// table.
#[repr(C)]
#[derive(Clone, Copy, Debug, Default, PartialEq, Eq)]
pub struct Planned {
    pub first: u64,
    pub entries: u64,
    pub len: u64,
}

extern "C" {
    pub fn sedvokt_version() -> u32;

    pub fn sedvokt_strerror(code: u32) -> *const c_char;

    pub fn sedvokt_check_request(lent: *const Compaction) -> u32;

    pub fn sedvokt_check_closed(
        order: u32,
        level: u64,
        keys: *const u8,
        keys_len: usize,
        files: *const File,
        files_len: usize,
        numbers: *const u64,
        numbers_len: usize,
        missing: *mut FilePlace,
    ) -> u32;

    pub fn sedvokt_check_table(
        order: u32,
        keys: *const u8,
        keys_len: usize,
        tables: *const u8,
        tables_len: usize,
        input: *mut Input,
    ) -> u32;

    pub fn sedvokt_boundaries(
        lent: *const Compaction,
        want: u64,
        bytes: *mut u8,
        bytes_len: usize,
        lengths: *mut u64,
        lengths_len: usize,
        size: *mut KeysSize,
    ) -> u32;

    pub fn sedvokt_merge(
        lent: *const Compaction,
        range: *const Range,
        room: *const RunRoom,
        size: *mut RunSize,
    ) -> u32;

    pub fn sedvokt_plan(
        lent: *const Compaction,
        runs: *const Runs,
        room: *mut Planned,
        room_len: usize,
        len: *mut u64,
    ) -> u32;

    pub fn sedvokt_output(
        request: *const Request,
        keys: *const u8,
        keys_len: usize,
        values: *const u8,
        values_len: usize,
        entries: *const Entry,
        entries_len: usize,
        room: *mut u8,
        room_len: usize,
        len: *mut u64,
    ) -> u32;

    pub fn sedvokt_edit(
        lent: *const Compaction,
        numbers: *const Numbers,
        added: *const File,
        added_len: usize,
        room: *mut u8,
        room_len: usize,
        len: *mut u64,
    ) -> u32;
}
