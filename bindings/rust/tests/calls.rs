//! Each call, with the table of `u@4 del, u@2 put x`.

use sedvokt::{
    check_closed, check_request, check_table, edit, output, plan, Checked, Compaction, Entry, File,
    FilePlace, Input, Lengths, Numbers, Place, Planned, Range, Request, Runs, BYTEWISE, MISUSE,
};
use std::thread;

const TABLE: &[u8] = include_bytes!("../../../tests/data/made/u4_u2.ldb");

/// u@4 del, u@2 put
const KEYS: &[u8] = b"u\0\x04\0\0\0\0\0\0u\x01\x02\0\0\0\0\0\0";

const REQUEST: Request = Request {
    order: BYTEWISE,
    is_listed: 0,
    level: 0,
    oldest: 4,
    last_sequence: 4,
    block_size: 4096,
    restart_interval: 16,
    file_size: 2_097_152,
    first_number: 7,
};

/// What is lent, without inputs: both entries are kept if sequence 3 stays readable.
const LENT: Compaction = Compaction {
    request: Request {
        oldest: 3,
        ..REQUEST
    },
    snapshots: &[],
    keys: KEYS,
    tables: TABLE,
    inputs: &[],
    deeper: &[],
};

const fn place(from: u64, len: u64) -> Place {
    Place { from, len }
}

fn input(number: u64) -> Input {
    Input {
        file: File {
            level: 0,
            number,
            size: TABLE.len() as u64,
            smallest: place(0, 9),
            largest: place(9, 9),
        },
        table: place(0, TABLE.len() as u64),
        ..Input::default()
    }
}

#[test]
fn tables_are_checked_in_threads() {
    let mut inputs = [input(5), input(6), input(7)];
    inputs[1].file.size += 1;
    inputs[2].table.len += 1;
    let codes: Vec<_> = thread::scope(|scope| {
        let running: Vec<_> = inputs
            .iter_mut()
            .map(|it| scope.spawn(|| check_table(BYTEWISE, KEYS, TABLE, it)))
            .collect();
        running
            .into_iter()
            .map(|it| it.join().unwrap().map_err(|it| it.code()))
            .collect()
    });
    assert_eq!(codes, [Ok(()), Err(21), Err(MISUSE)]);
    assert_eq!((inputs[0].counts.entries, inputs[1].counts.entries), (2, 0));
}

#[test]
fn ranges_are_merged() {
    let mut inputs = [input(5)];
    let checked = Checked::new(LENT, &mut inputs).unwrap();
    let below = Range {
        has_upper: 1,
        upper: place(0, 1),
        ..Range::default()
    };
    let run = checked.merge(&Range::default(), 1).unwrap();
    assert_eq!(run.bytes, [KEYS, b"x"].concat());
    assert_eq!(
        run.entries,
        [Lengths { key: 9, value: 0 }, Lengths { key: 9, value: 1 }]
    );
    assert_eq!(checked.merge(&below, 1).unwrap().entries, []);
    // The room for such a part of the tables is too small at first.
    let large = checked.merge(&Range::default(), 1 << 20).unwrap();
    assert_eq!(large, run);
    let cut = Compaction {
        tables: &TABLE[1..],
        ..LENT
    };
    let refused = Checked::new(cut, &mut [input(5)]).unwrap_err();
    assert_eq!((refused.code(), refused.input()), (MISUSE, Some(0)));
}

#[test]
fn outputs_are_planned() {
    let mut inputs = [input(5)];
    let checked = Checked::new(LENT, &mut inputs).unwrap();
    // The index has one key, the user key u.
    let boundaries = checked.boundaries(2).unwrap();
    assert_eq!(
        (&boundaries.bytes[..], &boundaries.lengths[..]),
        (&b"u"[..], &[1][..])
    );
    let keys = [KEYS, &boundaries.bytes].concat();
    let checked = checked.over(&keys).unwrap();
    assert!(checked.over(&keys[1..]).is_err());
    let mut runs = Runs::default();
    for range in boundaries.ranges(KEYS.len() as u64).unwrap() {
        runs.push(&checked.merge(&range, 2).unwrap()).unwrap();
    }
    let whole = Planned {
        first: 0,
        entries: 2,
        len: TABLE.len() as u64,
    };
    assert_eq!(plan(checked.compaction(), &runs), Ok(vec![whole]));
    runs.places[1].lengths.len += 1;
    assert_eq!(
        plan(checked.compaction(), &runs).unwrap_err().code(),
        MISUSE
    );
}

#[test]
fn choices_are_checked() {
    let files = [input(5).file, input(7).file];
    let asked = Compaction {
        inputs: &[input(5)],
        ..LENT
    };
    assert_eq!(check_request(&asked), Ok(()));
    let refused = check_request(&LENT).unwrap_err();
    assert_eq!(refused.code(), 1);
    assert_eq!(refused.to_string(), "NoInput: there is no input (1)");
    assert_eq!(check_closed(BYTEWISE, 0, KEYS, &files, &[5, 7]), Ok(None));
    let seven = FilePlace {
        level: 0,
        number: 7,
    };
    assert_eq!(
        check_closed(BYTEWISE, 0, KEYS, &files, &[5]),
        Ok(Some(seven))
    );
    assert_eq!(
        check_closed(BYTEWISE, 6, KEYS, &files, &[5])
            .unwrap_err()
            .code(),
        2
    );
}

#[test]
fn tables_and_edits_are_written() {
    let entries = [
        Entry {
            key: place(0, 9),
            value: place(0, 0),
        },
        Entry {
            key: place(9, 9),
            value: place(0, 1),
        },
    ];
    assert_eq!(output(&REQUEST, KEYS, b"x", &entries).as_deref(), Ok(TABLE));
    assert_eq!(output(&REQUEST, KEYS, b"", &[]).unwrap_err().code(), 20);
    // A value that takes more room than a table of this size is thought to.
    let value = vec![7; 1 << 20];
    let long = [Entry {
        key: place(9, 9),
        value: place(0, value.len() as u64),
    }];
    let small = Request {
        file_size: 1,
        ..REQUEST
    };
    assert!(output(&small, KEYS, &value, &long).unwrap().len() > value.len());
    let numbers = Numbers {
        next_file: 8,
        log_number: 3,
        previous_log: 0,
        last_sequence: 4,
    };
    let added = File {
        level: 1,
        number: 7,
        size: 90,
        ..input(5).file
    };
    let wanted = b"\x02\x03\x09\0\x03\x08\x04\x04\x05\0\x09u\x01\x02\0\0\0\0\0\0\x06\0\x05\x07\x01\
        \x07Z\x09u\0\x04\0\0\0\0\0\0\x09u\x01\x02\0\0\0\0\0\0";
    let asked = Compaction {
        inputs: &[input(5)],
        ..LENT
    };
    let given = edit(&asked, &numbers, &[added]);
    assert_eq!(given.as_deref(), Ok(&wanted[..]));
}
