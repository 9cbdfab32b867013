/* One compaction by the calls of crates/c_api/sedvokt.h. It asks malloc for nothing itself, but for
   what a thread takes.

     compaction REQUEST OUT RANGES THREADS

   REQUEST is a text of these lines; keys are in hex, and files and boundaries in their order:

     order N | level N | oldest N | snapshots N.. | last N | options BLOCK INTERVAL FILE
     numbers FIRST LOG PREVIOUS
     file LEVEL NUMBER SIZE SMALLEST LARGEST        a file of the version, by level
     input LEVEL NUMBER SIZE SMALLEST LARGEST PATH  the same, whose table is at PATH
     boundary KEY                                   a user key; - is the empty one
     closed                                         asks sedvokt_check_closed, too

   The inputs are merged in the ranges between the boundaries. Without any, sedvokt_boundaries is
   asked for so many RANGES. Each round of calls is made in so many THREADS, or here if that is 0.
   Writes the outputs and the edit into the folder OUT, and prints how many outputs there are, or
   the number of the first refusal, with the place of the input that it is about. */

#include "sedvokt.h"

#include <fcntl.h>
#include <inttypes.h>
#include <pthread.h>
#include <stdio.h>
#include <stdlib.h>
#include <string.h>
#include <unistd.h>

#define MOST_RANGES 4096
#define MOST_OUTPUTS (1 << 20)
#define MOST_FILES 4096
#define MOST_BYTES (1 << 24)
#define MOST_ENTRIES (1 << 20)

static uint8_t keys[MOST_BYTES], tables[MOST_BYTES];
static uint64_t snapshots[MOST_FILES];
static sedvokt_input inputs[MOST_FILES];
static sedvokt_file deeper[MOST_FILES];
static sedvokt_compaction of = {
    .size = sizeof of,
    .snapshots = snapshots,
    .keys = keys,
    .tables = tables,
    .inputs = inputs,
    .deeper = deeper,
};
static sedvokt_numbers numbers;
static int asks_closed;
static sedvokt_file files[MOST_FILES], added[MOST_OUTPUTS];
static size_t files_len;
static uint64_t input_numbers[MOST_FILES];

static sedvokt_range ranges[MOST_RANGES];
static size_t ranges_len;
static uint32_t answers[MOST_OUTPUTS];

/* All runs, each after the one before it, and the room that each gets for its merge. */
static uint8_t bytes[2 * MOST_BYTES];
static sedvokt_lengths lengths[2 * MOST_ENTRIES];
static sedvokt_mark marks[MOST_ENTRIES];
static sedvokt_run runs[MOST_RANGES];
static sedvokt_planned outputs[MOST_OUTPUTS];
static uint64_t outputs_len;
static sedvokt_entry entries[MOST_ENTRIES];
static const char *folder;

static void fail(const char *what) {
  fprintf(stderr, "compaction: %s\n", what);
  exit(1);
}

static size_t read_file(const char *path, uint8_t *room, size_t room_len) {
  const int file = open(path, O_RDONLY);
  size_t len = 0;
  ssize_t more = 1;
  if (file < 0) fail(path);
  while (more > 0 && len < room_len) {
    more = read(file, room + len, room_len - len);
    if (more > 0) len += more;
  }
  if (more != 0) fail(path);
  close(file);
  return len;
}

static void write_file(const char *name, const uint8_t *data, size_t len) {
  char path[4096];
  snprintf(path, sizeof path, "%s/%s", folder, name);
  const int file = open(path, O_WRONLY | O_CREAT | O_EXCL, 0666);
  if (file < 0 || write(file, data, len) != (ssize_t)len || close(file)) fail(path);
}

/* The next word of the line, or of the text. */
static char *place;

static char *word(void) {
  char *begin = place + strspn(place, " \n");
  char *end = begin + strcspn(begin, " \n");
  if (begin == end) fail("the request ends too early");
  place = *end ? end + 1 : end;
  *end = 0;
  return begin;
}

static uint64_t number(void) { return strtoull(word(), NULL, 10); }

static sedvokt_place key(void) {
  const char *hex = word();
  sedvokt_place here = {of.keys_len, 0};
  for (; hex[0] && hex[1]; hex += 2) {
    unsigned byte;
    if (sscanf(hex, "%2x", &byte) != 1) fail("no hex");
    keys[of.keys_len++] = byte;
  }
  here.len = of.keys_len - here.from;
  return here;
}

static sedvokt_file file(void) {
  sedvokt_file it;
  it.level = number();
  it.number = number();
  it.size = number();
  it.smallest = key();
  it.largest = key();
  files[files_len++] = it;
  if (it.level >= of.request.level + 2) deeper[of.deeper_len++] = it;
  return it;
}

static void input(void) {
  sedvokt_input *it = &inputs[of.inputs_len];
  it->file = file();
  input_numbers[of.inputs_len++] = it->file.number;
  it->table.from = of.tables_len;
  it->table.len = read_file(word(), tables + of.tables_len, sizeof tables - of.tables_len);
  of.tables_len += it->table.len;
}

static void boundary(sedvokt_place at) {
  if (ranges_len == 0) ranges_len = 1;
  ranges[ranges_len - 1].has_upper = ranges[ranges_len].has_lower = 1;
  ranges[ranges_len - 1].upper = ranges[ranges_len].lower = at;
  ranges_len++;
}

static void line(const char *name) {
  if (!strcmp(name, "order")) {
    of.request.order = number();
  } else if (!strcmp(name, "level")) {
    of.request.level = number();
  } else if (!strcmp(name, "oldest")) {
    of.request.oldest = number();
  } else if (!strcmp(name, "snapshots")) {
    of.request.is_listed = 1;
    for (uint64_t left = number(); left > 0; left--) snapshots[of.snapshots_len++] = number();
  } else if (!strcmp(name, "last")) {
    of.request.last_sequence = numbers.last_sequence = number();
  } else if (!strcmp(name, "options")) {
    of.request.block_size = number();
    of.request.restart_interval = number();
    of.request.file_size = number();
  } else if (!strcmp(name, "numbers")) {
    of.request.first_number = number();
    numbers.log_number = number();
    numbers.previous_log = number();
  } else if (!strcmp(name, "file")) {
    file();
  } else if (!strcmp(name, "input")) {
    input();
  } else if (!strcmp(name, "closed")) {
    asks_closed = 1;
  } else if (!strcmp(name, "boundary")) {
    boundary(key());
  } else {
    fail(name);
  }
}

/* Has work done at each place below `count`, in threads, and answers the first refusal by place. */
static size_t threads, count_of_round, next_of_round;
static uint32_t (*work_of_round)(size_t);

static void *work(void *none) {
  size_t at;
  while ((at = __atomic_fetch_add(&next_of_round, 1, __ATOMIC_RELAXED)) < count_of_round)
    answers[at] = work_of_round(at);
  return none;
}

static uint32_t each(size_t count, uint32_t (*one)(size_t), size_t *refused) {
  pthread_t running[64];
  size_t started = 0;
  count_of_round = count;
  next_of_round = 0;
  work_of_round = one;
  while (started < threads && !pthread_create(&running[started], NULL, work, NULL)) started++;
  if (started == 0) work(NULL);
  while (started > 0) pthread_join(running[--started], NULL);
  for (size_t at = 0; at < count; at++) {
    if (answers[at]) {
      if (refused) *refused = at;
      return answers[at];
    }
  }
  return 0;
}

static uint32_t check_one(size_t at) {
  return sedvokt_check_table(of.request.order, keys, of.keys_len, tables, of.tables_len,
                             &inputs[at]);
}

/* Each range has an equal part of the arrays first; then the runs are put together. */
static uint32_t merge_one(size_t at) {
  const size_t bytes_each = sizeof bytes / ranges_len;
  const size_t entries_each = 2 * MOST_ENTRIES / ranges_len, marks_each = MOST_ENTRIES / ranges_len;
  sedvokt_run_size size;
  const sedvokt_run_room room = {
      sizeof room,  bytes + at * bytes_each, bytes_each, lengths + at * entries_each,
      entries_each, marks + at * marks_each, marks_each,
  };
  const uint32_t code = sedvokt_merge(&of, &ranges[at], &room, &size);
  runs[at].bytes = (sedvokt_place){at * bytes_each, size.bytes};
  runs[at].lengths = (sedvokt_place){at * entries_each, size.entries};
  runs[at].marks = (sedvokt_place){at * marks_each, size.marks};
  return code;
}

/* The kept entries of all runs, in order, in `entries`. */
static void list_entries(void) {
  size_t all = 0;
  for (size_t run = 0; run < ranges_len; run++) {
    uint64_t from = runs[run].bytes.from;
    for (size_t at = 0; at < runs[run].lengths.len; at++) {
      const sedvokt_lengths it = lengths[runs[run].lengths.from + at];
      if (all == MOST_ENTRIES) fail("too many entries");
      entries[all].key = (sedvokt_place){from, it.key};
      entries[all++].value = (sedvokt_place){from + it.key, it.value};
      from += it.key + it.value;
    }
  }
}

static uint32_t plan_all(void) {
  const sedvokt_runs all = {
      sizeof all, bytes, sizeof bytes, lengths, 2 * MOST_ENTRIES,
      marks,      MOST_ENTRIES, runs,  ranges_len,
  };
  return sedvokt_plan(&of, &all, outputs, MOST_OUTPUTS, &outputs_len);
}

/* Where each output is made. They are as long as the plan says, so no two meet. */
static uint8_t made[2 * MOST_BYTES];
static uint64_t made_at[MOST_OUTPUTS];

static uint32_t output_one(size_t at) {
  uint64_t len = 0;
  const uint32_t code =
      sedvokt_output(&of.request, bytes, sizeof bytes, bytes, sizeof bytes,
                     entries + outputs[at].first, outputs[at].entries, made + made_at[at],
                     outputs[at].len, &len);
  if (code == 0 && len != outputs[at].len) fail("an output is not as long as planned");
  return code;
}

static sedvokt_place added_key(const sedvokt_entry *entry) {
  const sedvokt_place here = {of.keys_len, entry->key.len};
  if (sizeof keys - of.keys_len < here.len) fail("too many keys");
  memcpy(keys + of.keys_len, bytes + entry->key.from, here.len);
  of.keys_len += here.len;
  return here;
}

static uint32_t edit(void) {
  static uint8_t room[MOST_BYTES];
  uint64_t len;
  for (size_t at = 0; at < outputs_len; at++) {
    const sedvokt_entry *first = entries + outputs[at].first;
    added[at].level = of.request.level + 1;
    added[at].number = of.request.first_number + at;
    added[at].size = outputs[at].len;
    added[at].smallest = added_key(first);
    added[at].largest = added_key(first + outputs[at].entries - 1);
  }
  numbers.next_file = of.request.first_number + outputs_len;
  const uint32_t code =
      sedvokt_edit(&of, &numbers, added, outputs_len, room, sizeof room, &len);
  if (code == 0) write_file("EDIT", room, len);
  return code;
}

static void put_outputs(void) {
  for (size_t at = 0; at < outputs_len; at++) {
    char name[40];
    snprintf(name, sizeof name, "%06" PRIu64 ".ldb",
             of.request.first_number + at);
    write_file(name, made + made_at[at], outputs[at].len);
  }
}

static uint32_t choose(uint64_t want) {
  static uint8_t room[1 << 20];
  static uint64_t room_lengths[MOST_RANGES];
  sedvokt_keys_size size;
  if (ranges_len > 0) return 0;
  const uint32_t code =
      sedvokt_boundaries(&of, want, room, sizeof room, room_lengths, MOST_RANGES, &size);
  if (code) return code;
  memcpy(keys + of.keys_len, room, size.bytes);
  ranges_len = 1;
  for (size_t at = 0; at < size.keys; at++) {
    boundary((sedvokt_place){of.keys_len, room_lengths[at]});
    of.keys_len += room_lengths[at];
  }
  return 0;
}

static uint32_t compact(uint64_t want, size_t *refused) {
  uint32_t code = sedvokt_check_request(&of);
  sedvokt_file_place missing;
  if (!code && asks_closed)
    code = sedvokt_check_closed(of.request.order, of.request.level, keys, of.keys_len, files,
                                files_len, input_numbers, of.inputs_len, &missing);
  if (!code) code = each(of.inputs_len, check_one, refused);
  /* Whoever merges an input that isn't checked may read anything. */
  if (!code) code = choose(want);
  if (!code) code = each(ranges_len, merge_one, NULL);
  if (!code) code = plan_all();
  if (code) return code;
  list_entries();
  for (size_t at = 1; at < outputs_len; at++)
    made_at[at] = made_at[at - 1] + outputs[at - 1].len;
  code = each(outputs_len, output_one, NULL);
  if (!code) code = edit();
  return code;
}

int main(int argc, char **argv) {
  static char text[MOST_BYTES];
  size_t refused = SIZE_MAX;
  if (argc != 5) fail("give a REQUEST, OUT, RANGES and THREADS");
  read_file(argv[1], (uint8_t *)text, sizeof text - 1);
  folder = argv[2];
  threads = strtoull(argv[4], NULL, 10);
  if (threads > 64) fail("too many threads");
  place = text;
  while (place[strspn(place, " \n")]) line(word());
  const uint32_t code = compact(strtoull(argv[3], NULL, 10), &refused);
  if (code && refused != SIZE_MAX) {
    printf("refused: %u, input %zu\n", code, refused);
  } else if (code) {
    printf("refused: %u\n", code);
  } else {
    put_outputs();
    printf("%" PRIu64 " outputs of %zu ranges\n", outputs_len, ranges_len);
  }
  return 0;
}
