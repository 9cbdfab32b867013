/* The calls of sedvokt.h. Each tests the pointers that it is given, which no proof can see, and
   then makes the proved call. No proof covers what is here. */

#include "sedvokt.h"

#include <stdbool.h>

/* What is lent to a proved call, and the range that is merged. */
typedef struct lent {
  sedvokt_compaction all;
  sedvokt_range range;
} lent;

uint32_t proved_check_request(const lent *lent);
uint32_t proved_check_closed(uint32_t order, uint64_t level, const uint8_t *keys, size_t keys_len,
                             const sedvokt_file *files, size_t files_len, const uint64_t *numbers,
                             size_t numbers_len, sedvokt_file_place *missing);
uint32_t proved_check_table(uint32_t order, const uint8_t *keys, size_t keys_len,
                            const uint8_t *tables, size_t tables_len, sedvokt_input *input);
uint32_t proved_boundaries(const lent *lent, uint64_t want, uint8_t *bytes, size_t bytes_len,
                           uint64_t *lengths, size_t lengths_len, sedvokt_keys_size *size);
uint32_t proved_merge(const lent *lent, uint8_t *bytes, size_t bytes_len, sedvokt_lengths *lengths,
                      size_t lengths_len, sedvokt_mark *marks, size_t marks_len,
                      sedvokt_run_size *size);
uint32_t proved_plan(const lent *lent, const sedvokt_runs *runs, sedvokt_planned *room,
                     size_t room_len, uint64_t *len);
uint32_t proved_output(const sedvokt_request *request, const uint8_t *keys, size_t keys_len,
                       const uint8_t *values, size_t values_len, const sedvokt_entry *entries,
                       size_t entries_len, uint8_t *room, size_t room_len, uint64_t *len);
uint32_t proved_edit(const lent *lent, const sedvokt_numbers *numbers, const sedvokt_file *added,
                     size_t added_len, uint8_t *room, size_t room_len, uint64_t *len);

/* What a slice without items points at, since a proved call takes no NULL. */
static uint64_t nothing;

/* Whether `len` items of `each` bytes can lie there. They are bytes, or have words of 64 bits. */
static bool can_lie(const void *items, size_t len, size_t each) {
  const uintptr_t align = each == 1 ? 1 : _Alignof(uint64_t);
  return len == 0 || (items && (uintptr_t)items % align == 0 && len <= PTRDIFF_MAX / each);
}

/* The same of a slice, which then points at something. */
#define TAKE(items, len) \
  (can_lie(items, len, sizeof *(items)) && (len || ((items) = (void *)&nothing)))

static bool take(const sedvokt_compaction *from, lent *to) {
  sedvokt_compaction *all = &to->all;
  if (from->size != sizeof *from) return false;
  *to = (lent){.all = *from};
  return TAKE(all->snapshots, all->snapshots_len) && TAKE(all->keys, all->keys_len) &&
         TAKE(all->tables, all->tables_len) && TAKE(all->inputs, all->inputs_len) &&
         TAKE(all->deeper, all->deeper_len);
}

uint32_t sedvokt_check_request(const sedvokt_compaction *from) {
  lent all;
  return take(from, &all) ? proved_check_request(&all) : SEDVOKT_MISUSE;
}

uint32_t sedvokt_check_closed(uint32_t order, uint64_t level, const uint8_t *keys, size_t keys_len,
                              const sedvokt_file *files, size_t files_len, const uint64_t *numbers,
                              size_t numbers_len, sedvokt_file_place *missing) {
  if (!TAKE(keys, keys_len) || !TAKE(files, files_len) || !TAKE(numbers, numbers_len))
    return SEDVOKT_MISUSE;
  return proved_check_closed(order, level, keys, keys_len, files, files_len, numbers, numbers_len,
                             missing);
}

uint32_t sedvokt_check_table(uint32_t order, const uint8_t *keys, size_t keys_len,
                             const uint8_t *tables, size_t tables_len, sedvokt_input *input) {
  if (!TAKE(keys, keys_len) || !TAKE(tables, tables_len)) return SEDVOKT_MISUSE;
  return proved_check_table(order, keys, keys_len, tables, tables_len, input);
}

uint32_t sedvokt_boundaries(const sedvokt_compaction *from, uint64_t want, uint8_t *bytes,
                            size_t bytes_len, uint64_t *lengths, size_t lengths_len,
                            sedvokt_keys_size *size) {
  lent all;
  if (!take(from, &all) || !TAKE(bytes, bytes_len) || !TAKE(lengths, lengths_len))
    return SEDVOKT_MISUSE;
  return proved_boundaries(&all, want, bytes, bytes_len, lengths, lengths_len, size);
}

uint32_t sedvokt_merge(const sedvokt_compaction *from, const sedvokt_range *range,
                       const sedvokt_run_room *room, sedvokt_run_size *size) {
  lent all;
  sedvokt_run_room to = *room;
  if (to.size != sizeof to || !take(from, &all) || !TAKE(to.bytes, to.bytes_len) ||
      !TAKE(to.lengths, to.lengths_len) || !TAKE(to.marks, to.marks_len))
    return SEDVOKT_MISUSE;
  all.range = *range;
  return proved_merge(&all, to.bytes, to.bytes_len, to.lengths, to.lengths_len, to.marks,
                      to.marks_len, size);
}

uint32_t sedvokt_plan(const sedvokt_compaction *from, const sedvokt_runs *runs,
                      sedvokt_planned *room, size_t room_len, uint64_t *len) {
  lent all;
  sedvokt_runs of = *runs;
  if (of.size != sizeof of || !take(from, &all) || !TAKE(of.bytes, of.bytes_len) ||
      !TAKE(of.lengths, of.lengths_len) || !TAKE(of.marks, of.marks_len) ||
      !TAKE(of.runs, of.runs_len) || !TAKE(room, room_len))
    return SEDVOKT_MISUSE;
  return proved_plan(&all, &of, room, room_len, len);
}

uint32_t sedvokt_output(const sedvokt_request *request, const uint8_t *keys, size_t keys_len,
                        const uint8_t *values, size_t values_len, const sedvokt_entry *entries,
                        size_t entries_len, uint8_t *room, size_t room_len, uint64_t *len) {
  if (!TAKE(keys, keys_len) || !TAKE(values, values_len) || !TAKE(entries, entries_len) ||
      !TAKE(room, room_len))
    return SEDVOKT_MISUSE;
  return proved_output(request, keys, keys_len, values, values_len, entries, entries_len, room,
                       room_len, len);
}

uint32_t sedvokt_edit(const sedvokt_compaction *from, const sedvokt_numbers *numbers,
                      const sedvokt_file *added, size_t added_len, uint8_t *room, size_t room_len,
                      uint64_t *len) {
  lent all;
  if (!take(from, &all) || !TAKE(added, added_len) || !TAKE(room, room_len)) return SEDVOKT_MISUSE;
  return proved_edit(&all, numbers, added, added_len, room, room_len, len);
}

uint32_t sedvokt_version(void) { return SEDVOKT_VERSION; }

const char *sedvokt_strerror(uint32_t code) {
  switch (code) {
    case SEDVOKT_DONE: return "done";
    case SEDVOKT_NO_INPUT: return "NoInput: there is no input";
    case SEDVOKT_LEVEL: return "Level: a level is above 5, or an input is of another one";
    case SEDVOKT_OPTIONS:
      return "Options: an option is outside its limits, or there are over 256 inputs";
    case SEDVOKT_SPLIT_COUNT:
      return "SplitCount: a wanted number of ranges is outside 1 to 4096";
    case SEDVOKT_SNAPSHOT:
      return "Snapshot: a snapshot, or the last sequence, is 2^56 - 1 or more";
    case SEDVOKT_SNAPSHOT_LIST:
      return "SnapshotList: listed snapshots don't rise, are over 4096, or above the last sequence";
    case SEDVOKT_COMPARATOR: return "Comparator: no order has this number";
    case SEDVOKT_APPLY: return "Apply: two files of the version have one number";
    case SEDVOKT_OPEN_INPUTS: return "OpenInputs: a file that stays has to be an input, too";
    case SEDVOKT_SIZE: return "Size: a table has more than 2^30 bytes";
    case SEDVOKT_SHORT: return "Short: a table is shorter than a footer";
    case SEDVOKT_MAGIC: return "Magic: a table doesn't end as one";
    case SEDVOKT_HANDLE: return "Handle: a table doesn't say where its blocks are";
    case SEDVOKT_RANGE: return "Range: a block would lie outside of its table";
    case SEDVOKT_TRAILER: return "Trailer: a block's checksum is wrong";
    case SEDVOKT_COMPRESSED: return "Compressed: a block is compressed";
    case SEDVOKT_BLOCK_TYPE: return "BlockType: a block is of an unknown type";
    case SEDVOKT_BLOCK: return "Block: a block's bytes can't be read as entries";
    case SEDVOKT_KEY: return "Key: a key is no internal key";
    case SEDVOKT_INDEX: return "Index: a table's index doesn't fit its blocks";
    case SEDVOKT_ORDER: return "Order: keys don't rise";
    case SEDVOKT_EMPTY: return "Empty: a table, or a block of it, has no entry";
    case SEDVOKT_BOUNDS: return "Bounds: a table's length or bounds aren't what its file states";
    case SEDVOKT_DUPLICATE: return "Duplicate: one user key and sequence is there twice";
    case SEDVOKT_NUMBERS: return "Numbers: file numbers would exceed 2^64 - 1";
    case SEDVOKT_TOO_LARGE: return "TooLarge: a user key, a value or an output is over its limit";
    case SEDVOKT_ROOM: return "Room: the room is too small";
    case SEDVOKT_MISUSE:
      return "Misuse: a place isn't within what is lent, or no internal key is there";
    case SEDVOKT_MEMORY: return "Memory: malloc or realloc refused";
    default: return "no number of sedvokt";
  }
}
