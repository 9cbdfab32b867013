/* sedvokt.h: one LevelDB compaction inside a store, as calls that keep nothing between them.

   No call opens a file, starts a thread, takes a lock or keeps a pointer. Any number of them may
   run at once, in any threads, also about the same bytes: what isn't passed as a pointer to other
   than const is only read. What is written must not overlap anything else that is passed.

   Memory comes from the malloc, realloc and free of the program. Each call frees what it took. An
   output takes about twice its table; a merge takes the keys that it keeps, and some 40 bytes for
   each; a plan takes as much for all runs together; check_closed and check_request take both keys
   of each file, and some 120 bytes. Beside that a call takes less than a megabyte.

   A slice is a pointer and a length. Without items the pointer may be NULL. Else it has to be
   aligned as its items are, and the answer is SEDVOKT_MISUSE if it isn't, or if no memory is so
   long.

   Until version 1.0.0 all of this may change. From then on only the first number of the version
   tells that a name, a number, a structure or what a call does is another. These may change at any
   time: where boundaries are, how much memory a call takes, and the words of sedvokt_strerror. */

#ifndef SEDVOKT_H
#define SEDVOKT_H
#include <stddef.h>
#include <stdint.h>
#ifdef __cplusplus
extern "C" {
#endif

/* The version of this header, 10,000 times the first number, 100 times the second, and the third.
   What the archive answers is another one if they don't belong together. */
#define SEDVOKT_VERSION 100 /* 0.1.0 */
uint32_t sedvokt_version(void);

/* Which parameters of a call are never NULL. */
#ifdef __GNUC__
#define SEDVOKT_CALL(...) __attribute__((warn_unused_result, nonnull(__VA_ARGS__)))
#else
#define SEDVOKT_CALL(...)
#endif

/* Orders of user keys. */
#define SEDVOKT_BYTEWISE 1 /* leveldb.BytewiseComparator */
#define SEDVOKT_SHORTLEX 2 /* subcompaction.ShortlexComparator */

/* What a call answers: 0, or what it refuses. Unless it is 0 nothing that was passed has changed,
   but for what the call says of that number. docs/REFUSALS.md says more. These numbers stay. */
enum {
  SEDVOKT_DONE = 0,
  /* Of what is asked. */
  SEDVOKT_NO_INPUT = 1,       /* there is no input */
  SEDVOKT_LEVEL = 2,          /* a level is above 5, or an input is of another one */
  SEDVOKT_OPTIONS = 3,        /* an option is outside its limits, or there are over 256 inputs */
  SEDVOKT_SPLIT_COUNT = 5,    /* a wanted number of ranges is outside 1 to 4,096 */
  SEDVOKT_SNAPSHOT = 7,       /* a snapshot, or the last sequence, is 2^56 - 1 or more */
  SEDVOKT_SNAPSHOT_LIST = 25, /* listed snapshots don't rise, or are over 4,096 */
  SEDVOKT_COMPARATOR = 34,    /* no order has this number */
  SEDVOKT_APPLY = 35,         /* two files of the version have one number */
  SEDVOKT_OPEN_INPUTS = 37,   /* a file that stays has to be an input, too */
  /* Of a table. */
  SEDVOKT_SIZE = 8,        /* it has more than 2^30 bytes */
  SEDVOKT_SHORT = 9,       /* it is shorter than a footer */
  SEDVOKT_MAGIC = 10,      /* it doesn't end as a table does */
  SEDVOKT_HANDLE = 11,     /* it doesn't say where its blocks are */
  SEDVOKT_RANGE = 12,      /* a block would lie outside of it */
  SEDVOKT_TRAILER = 13,    /* a block's checksum is wrong */
  SEDVOKT_COMPRESSED = 14, /* a block is compressed */
  SEDVOKT_BLOCK_TYPE = 15, /* a block is of an unknown type */
  SEDVOKT_BLOCK = 16,      /* a block's bytes can't be read as entries */
  SEDVOKT_KEY = 17,        /* a key is no internal key */
  SEDVOKT_INDEX = 18,      /* its index doesn't fit its blocks */
  SEDVOKT_ORDER = 19,      /* its keys don't rise */
  SEDVOKT_EMPTY = 20,      /* it, or a block of it, has no entry */
  SEDVOKT_BOUNDS = 21,     /* its length, or its first or last key, isn't what its file states */
  SEDVOKT_DUPLICATE = 22,  /* one user key and sequence is there twice */
  /* Of what is written. */
  SEDVOKT_NUMBERS = 23,   /* file numbers would exceed 2^64 - 1 */
  SEDVOKT_TOO_LARGE = 24, /* a user key, a value or an output is over its limit */
  SEDVOKT_ROOM = 26,      /* the room is too small */
  SEDVOKT_MISUSE = 98,    /* a place isn't within what is lent, or no internal key is there */
  SEDVOKT_MEMORY = 99     /* malloc or realloc refused */
};

/* The name of a number and what it says, as "Trailer: a block's checksum is wrong". Never null. */
const char *sedvokt_strerror(uint32_t code);

/* A part of lent bytes, or of another lent array. */
typedef struct sedvokt_place {
  uint64_t from, len;
} sedvokt_place;

/* A file of the version. Both keys are internal keys, in `keys`. */
typedef struct sedvokt_file {
  uint64_t level, number, size;
  sedvokt_place smallest, largest;
} sedvokt_file;

typedef struct sedvokt_file_place {
  uint64_t level, number;
} sedvokt_file_place;

/* What is counted of a table: its entries, their least and greatest sequence, and 1 if an entry has
   the user key and the sequence of the one before it. */
typedef struct sedvokt_counts {
  uint64_t entries, oldest, newest;
  uint32_t has_twins;
} sedvokt_counts;

/* An input. Its table is in `tables`. */
typedef struct sedvokt_input {
  sedvokt_file file;
  sedvokt_place table;
  sedvokt_counts counts;
} sedvokt_input;

/* What is asked for. If is_listed isn't 0, the snapshots that are passed stay readable, and each
   sequence from last_sequence on. Else `oldest` and each later one stay readable. Outputs get the
   numbers from first_number on. If you number them only after the plan, give 0, and see to it that
   the number after the last one's is below 2^64. */
typedef struct sedvokt_request {
  uint32_t order, is_listed;
  uint64_t level, oldest, last_sequence;
  uint64_t block_size, restart_interval, file_size;
  uint64_t first_number;
} sedvokt_request;

/* The version's numbers when the edit is installed. */
typedef struct sedvokt_numbers {
  uint64_t next_file, log_number, previous_log, last_sequence;
} sedvokt_numbers;

/* An entry of an output: an internal key in `keys`, and a value in `values`. */
typedef struct sedvokt_entry {
  sedvokt_place key, value;
} sedvokt_entry;

/* A range of user keys: those at or after `lower`, unless has_lower is 0, and before `upper`,
   unless has_upper is 0. Both bounds are user keys, in `keys`. */
typedef struct sedvokt_range {
  uint32_t has_lower, has_upper;
  sedvokt_place lower, upper;
} sedvokt_range;

/* How many bytes the internal key and the value of a kept entry have. The entries lie one after
   the other, each as its key and then its value. */
typedef struct sedvokt_lengths {
  uint64_t key, value;
} sedvokt_lengths;

/* A mark: `below` grandparents end before the user key to come, after `kept` entries of the run. */
typedef struct sedvokt_mark {
  uint64_t below, kept;
} sedvokt_mark;

/* How much room a run takes: all bytes of its entries, and how many entries and marks it has. */
typedef struct sedvokt_run_size {
  uint64_t bytes, entries, marks;
} sedvokt_run_size;

/* How much room user keys take: the bytes of all of them, and how many they are. */
typedef struct sedvokt_keys_size {
  uint64_t bytes, keys;
} sedvokt_keys_size;

/* Where the run of a range lies, in the bytes, lengths and marks that are lent. */
typedef struct sedvokt_run {
  sedvokt_place bytes, lengths, marks;
} sedvokt_run;

/* What a compaction is asked for, and what is lent to its calls. Set `size` to its sizeof.

   `keys` has the keys of all files and ranges, and `tables` the bytes of all tables, in any order.
   `deeper` are all files of the levels from level + 2 on, by level and in version order. */
typedef struct sedvokt_compaction {
  size_t size;
  sedvokt_request request;
  const uint64_t *snapshots;
  size_t snapshots_len;
  const uint8_t *keys;
  size_t keys_len;
  const uint8_t *tables;
  size_t tables_len;
  const sedvokt_input *inputs;
  size_t inputs_len;
  const sedvokt_file *deeper;
  size_t deeper_len;
} sedvokt_compaction;

/* The room for the run of a range. Set `size` to its sizeof. */
typedef struct sedvokt_run_room {
  size_t size;
  uint8_t *bytes;
  size_t bytes_len;
  sedvokt_lengths *lengths;
  size_t lengths_len;
  sedvokt_mark *marks;
  size_t marks_len;
} sedvokt_run_room;

/* The runs of all ranges, in the order of the ranges, each where it lies in three arrays. Set
   `size` to its sizeof. */
typedef struct sedvokt_runs {
  size_t size;
  const uint8_t *bytes;
  size_t bytes_len;
  const sedvokt_lengths *lengths;
  size_t lengths_len;
  const sedvokt_mark *marks;
  size_t marks_len;
  const sedvokt_run *runs;
  size_t runs_len;
} sedvokt_runs;

/* An output: how many entries of the runs lie before it, how many it has, and the length of its
   table. */
typedef struct sedvokt_planned {
  uint64_t first, entries, len;
} sedvokt_planned;

/* Tests a request without its tables; `tables` isn't looked at. The first that applies: MISUSE, 34
   Comparator, 1 NoInput, 2 Level, 3 Options, 7 Snapshot, 25 SnapshotList. Without an input of the
   level it is 2, too. */
SEDVOKT_CALL(1)
uint32_t sedvokt_check_request(const sedvokt_compaction *lent);

/* Asks whether a compaction of `level` may take the files of these numbers, at the level and the
   next one, and no others. `files` are all files of the version. OPEN_INPUTS: the file that
   *missing names has to be taken, too. MISUSE also if a file's level is above 6; 35 Apply if two
   files have one number; 2 Level if `level` is above 5. */
SEDVOKT_CALL(9)
uint32_t sedvokt_check_closed(uint32_t order, uint64_t level, const uint8_t *keys, size_t keys_len,
                              const sedvokt_file *files, size_t files_len,
                              const uint64_t *numbers, size_t numbers_len,
                              sedvokt_file_place *missing);

/* Tests an input: each byte of its table, and then whether its length and bounds are as its file
   states (21 Bounds). If the answer is 0, input->counts is set, and nothing else of it. */
SEDVOKT_CALL(6)
uint32_t sedvokt_check_table(uint32_t order, const uint8_t *keys, size_t keys_len,
                             const uint8_t *tables, size_t tables_len, sedvokt_input *input);

/* Chooses boundaries for at most `want` ranges: fewer than `want` user keys of the tables' indexes,
   at even places of a sample of these. They rise. Range i is then from boundary i - 1, if there is
   one, to boundary i, if there is one. `bytes` begins with their bytes, one after the other, and
   `lengths` with the length of each. *size is how much room that takes, also if the answer is ROOM,
   and then nothing else has changed. 34 Comparator; 5 SplitCount unless `want` is 1 to 4,096.
   What you have to keep is what sedvokt_merge asks of its inputs, tables and keys. */
SEDVOKT_CALL(1, 7)
uint32_t sedvokt_boundaries(const sedvokt_compaction *lent, uint64_t want,
                            uint8_t *bytes, size_t bytes_len,
                            uint64_t *lengths, size_t lengths_len, sedvokt_keys_size *size);

/* Merges the inputs in a range: the arrays of `room` begin with its run then. *size is how much
   room that takes, also if the answer is ROOM, and then nothing else has changed. The refusals of
   the request are as for sedvokt_check_request; 22 Duplicate if the range has one user key and
   sequence twice.
   What you have to keep: sedvokt_check_table answered 0 to each input, with this order, and neither
   what it set nor any byte of the tables and the keys has changed since. Else the call may read or
   write outside of what is lent. More bytes may lie after the keys, as those of the bounds. */
SEDVOKT_CALL(1, 2, 3, 4)
uint32_t sedvokt_merge(const sedvokt_compaction *lent, const sedvokt_range *range,
                       const sedvokt_run_room *room, sedvokt_run_size *size);

/* Plans the outputs of the runs of all ranges, each as sedvokt_merge wrote it. They don't depend on
   how the entries were dealt out to ranges. `room` begins with the outputs then; *len is how many
   they are, also if the answer is ROOM. An output has the entries after those of the one before it,
   and the keys of its first and its last one bound it. MISUSE also if lengths and marks can't be
   those of a run, though not every wrong run is found; 34 Comparator, 3 Options, 23 Numbers if the
   number after the last output's would be 2^64, 24 TooLarge of an output. */
SEDVOKT_CALL(1, 2, 5)
uint32_t sedvokt_plan(const sedvokt_compaction *lent, const sedvokt_runs *runs,
                      sedvokt_planned *room, size_t room_len, uint64_t *len);

/* Writes the table of `entries`, with the request's order and options, to the beginning of `room`.
   *len is its length, also if the answer is ROOM. 3 Options, 20 Empty without an entry, 17 Key and
   24 TooLarge of an entry, 19 Order unless the keys rise, 24 TooLarge of the table. */
SEDVOKT_CALL(1, 10)
uint32_t sedvokt_output(const sedvokt_request *request, const uint8_t *keys, size_t keys_len,
                        const uint8_t *values, size_t values_len,
                        const sedvokt_entry *entries, size_t entries_len,
                        uint8_t *room, size_t room_len, uint64_t *len);

/* Writes the bytes of the edit of a compaction to the beginning of `room`: these numbers, the
   level's compact pointer, the inputs go, and `added` come, numbered by the host. *len is how many
   bytes they are, also if the answer is ROOM. MISUSE also if a file's level is above 6; 34
   Comparator; 1 NoInput; 2 Level if the level is above 5 or no input is of it. */
SEDVOKT_CALL(1, 2, 7)
uint32_t sedvokt_edit(const sedvokt_compaction *lent, const sedvokt_numbers *numbers,
                      const sedvokt_file *added, size_t added_len,
                      uint8_t *room, size_t room_len, uint64_t *len);

#ifdef __cplusplus
}
#endif
#endif
