/* Each call of crates/c_api/sedvokt.h, with the table of `u@4 del, u@2 put x` whose path is the
   first word. Without a second word one call is made in four threads at once, too. Prints what the
   calls answer. */

#include "sedvokt.h"

#include <fcntl.h>
#include <pthread.h>
#include <stdio.h>
#include <stdlib.h>
#include <string.h>
#include <unistd.h>

/* u@4 del, u@2 put */
static const uint8_t keys[] = {'u', 0, 4, 0, 0, 0, 0, 0, 0, 'u', 1, 2, 0, 0, 0, 0, 0, 0};

static uint8_t table[4096];
static size_t table_len;

static sedvokt_input input(void) {
  sedvokt_input it;
  memset(&it, 0, sizeof it);
  it.file.number = 5;
  it.file.size = table_len;
  it.file.smallest = (sedvokt_place){0, 9};
  it.file.largest = (sedvokt_place){9, 9};
  it.table = (sedvokt_place){0, table_len};
  return it;
}

static const sedvokt_request request = {
    SEDVOKT_BYTEWISE, 0, 0, 4, 4, 4096, 16, 2097152, 7,
};

/* What is lent, with so many of these inputs. */
static sedvokt_compaction lent(const sedvokt_input *inputs, size_t inputs_len) {
  sedvokt_compaction of;
  memset(&of, 0, sizeof of);
  of.size = sizeof of;
  of.request = request;
  of.keys = keys;
  of.keys_len = sizeof keys;
  of.tables = table;
  of.tables_len = table_len;
  of.inputs = inputs;
  of.inputs_len = inputs_len;
  return of;
}

static void *checked(void *answer) {
  sedvokt_input it = input();
  *(uint32_t *)answer =
      sedvokt_check_table(SEDVOKT_BYTEWISE, keys, sizeof keys, table, table_len, &it);
  return it.counts.entries == 2 ? answer : NULL;
}

static void check_in_threads(void) {
  pthread_t threads[4];
  uint32_t answers[4];
  for (int i = 0; i < 4; i++)
    if (pthread_create(&threads[i], NULL, checked, &answers[i])) exit(1);
  for (int i = 0; i < 4; i++) {
    void *found;
    pthread_join(threads[i], &found);
    printf("check_table in a thread: %u, %s\n", answers[i], found ? "counted" : "not counted");
  }
}

static void check(void) {
  sedvokt_input it = input();
  const uint64_t five[1] = {5}, both[2] = {5, 7};
  sedvokt_compaction of = lent(&it, 1);
  sedvokt_file files[2] = {it.file, it.file};
  sedvokt_file_place missing = {9, 9};
  files[1].number = 7;
  it.file.size++;
  printf("check_table of another length: %u\n",
         sedvokt_check_table(SEDVOKT_BYTEWISE, keys, sizeof keys, table, table_len, &it));
  it = input();
  it.table.len--;
  printf("check_table without the last byte: %u\n",
         sedvokt_check_table(SEDVOKT_BYTEWISE, keys, sizeof keys, table, table_len, &it));
  it.table.len += 2;
  printf("check_table beyond what is lent: %u\n",
         sedvokt_check_table(SEDVOKT_BYTEWISE, keys, sizeof keys, table, table_len, &it));
  it = input();
  printf("check_request: %u\n", sedvokt_check_request(&of));
  of.inputs_len = 0;
  of.inputs = NULL;
  printf("check_request without inputs: %u\n", sedvokt_check_request(&of));
  of.size++;
  printf("check_request of another structure: %u\n", sedvokt_check_request(&of));
  of.size--;
  of.deeper_len = SIZE_MAX / 2;
  printf("check_request of files at NULL: %u\n", sedvokt_check_request(&of));
  of.deeper = files;
  printf("check_request of too many files: %u\n", sedvokt_check_request(&of));
  of.deeper = (const sedvokt_file *)((const uint8_t *)files + 1);
  of.deeper_len = 1;
  printf("check_request of files that aren't aligned: %u\n", sedvokt_check_request(&of));
  printf("check_closed of both files: %u\n",
         sedvokt_check_closed(SEDVOKT_BYTEWISE, 0, keys, sizeof keys, files, 2, both, 2, &missing));
  printf("check_closed of one: %u\n",
         sedvokt_check_closed(SEDVOKT_BYTEWISE, 0, keys, sizeof keys, files, 2, five, 1, &missing));
  printf("missing: level %d, number %d\n", (int)missing.level, (int)missing.number);
}

/* The index has one key, the user key u. */
static void part(void) {
  sedvokt_input it = input();
  uint8_t bytes[4];
  uint64_t lengths[4];
  sedvokt_keys_size size = {9, 9};
  /* A table that isn't checked must not be asked. */
  if (sedvokt_check_table(SEDVOKT_BYTEWISE, keys, sizeof keys, table, table_len, &it)) {
    printf("boundaries: 99\nboundaries without room: 99\nboundaries of one range: 99\n");
    printf("boundaries of no range: 99\n");
    return;
  }
  const sedvokt_compaction of = lent(&it, 1);
#define PART(want, room) sedvokt_boundaries(&of, want, bytes, room, lengths, 4, &size)
  uint32_t code = PART(2, sizeof bytes);
  printf("boundaries: %u, %s\n", code,
         size.keys == 1 && size.bytes == 1 && lengths[0] == 1 && bytes[0] == 'u' ? "u" : "others");
  size.bytes = 9;
  code = PART(2, 0);
  printf("boundaries without room: %u, %s\n", code, size.bytes == 1 ? "its size" : "another");
  code = PART(1, sizeof bytes);
  printf("boundaries of one range: %u, %d keys\n", code, (int)size.keys);
  printf("boundaries of no range: %u\n", PART(0, sizeof bytes));
}

/* Both entries are kept if sequence 3 stays readable; none is if 4 and later ones do. */
static void merge(void) {
  static const uint8_t wanted[] = {'u', 0, 4, 0, 0, 0, 0, 0, 0, 'u', 1, 2, 0, 0, 0, 0, 0, 0, 'x'};
  sedvokt_input it = input();
  sedvokt_compaction of = lent(&it, 1);
  sedvokt_range range;
  uint8_t bytes[64];
  sedvokt_lengths lengths[4];
  sedvokt_mark marks[4];
  sedvokt_run_room room = {sizeof room, bytes, sizeof bytes, lengths, 4, marks, 4};
  sedvokt_run_size size = {9, 9, 9};
  memset(&range, 0, sizeof range);
  of.request.oldest = 3;
  /* A table that isn't checked must not be merged. */
  if (sedvokt_check_table(SEDVOKT_BYTEWISE, keys, sizeof keys, table, table_len, &it)) {
    printf("merge: 99\nmerge without room: 99\nmerge from u on: 99\n");
    printf("merge from outside on: 99\nmerge below u: 99\n");
    printf("merge at 4: 99\n");
    return;
  }
  uint32_t code = sedvokt_merge(&of, &range, &room, &size);
  printf("merge: %u, %s\n", code,
         size.bytes == sizeof wanted && !memcmp(bytes, wanted, sizeof wanted) &&
                 size.entries == 2 && lengths[0].key == 9 && lengths[0].value == 0 &&
                 lengths[1].key == 9 && lengths[1].value == 1 && size.marks == 1 &&
                 marks[0].below == 0 && marks[0].kept == 0
             ? "both entries"
             : "others");
  room.bytes_len = 18;
  code = sedvokt_merge(&of, &range, &room, &size);
  room.bytes_len = sizeof bytes;
  printf("merge without room: %u, %s\n", code,
         size.bytes == sizeof wanted ? "its size" : "another");
  range.lower = (sedvokt_place){0, 1};
  range.has_lower = 2;
  code = sedvokt_merge(&of, &range, &room, &size);
  printf("merge from u on: %u, %d entries\n", code, (int)size.entries);
  range.lower.len = sizeof keys + 1;
  printf("merge from outside on: %u\n", sedvokt_merge(&of, &range, &room, &size));
  range.lower.len = 1;
  range.upper = range.lower;
  range.has_upper = 1;
  range.has_lower = 0;
  code = sedvokt_merge(&of, &range, &room, &size);
  printf("merge below u: %u, %d entries\n", code, (int)size.entries);
  range.has_upper = 0;
  of.request.oldest = 4;
  code = sedvokt_merge(&of, &range, &room, &size);
  printf("merge at 4: %u, %d entries\n", code, (int)size.entries);
}

/* The runs of two ranges, with an entry each: one output has both. */
static void plan(void) {
  static const uint8_t bytes[] = {'u', 0, 4, 0, 0, 0, 0, 0, 0, 'u', 1, 2, 0, 0, 0, 0, 0, 0, 'x'};
  const sedvokt_lengths lengths[2] = {{9, 0}, {9, 1}};
  const sedvokt_mark marks[1] = {{0, 0}};
  sedvokt_run places[2] = {{{0, 9}, {0, 1}, {0, 1}}, {{9, 10}, {1, 1}, {1, 0}}};
  const sedvokt_runs runs = {sizeof runs, bytes, sizeof bytes, lengths, 2, marks, 1, places, 2};
  sedvokt_input it = input();
  const sedvokt_compaction of = lent(&it, 1);
  sedvokt_planned room[2];
  uint64_t len = 9;
#define PLAN(room_len) sedvokt_plan(&of, &runs, room, room_len, &len)
  uint32_t code = PLAN(2);
  printf("plan: %u, %s\n", code,
         len == 1 && room[0].first == 0 && room[0].entries == 2 && room[0].len == table_len
             ? "one output"
             : "others");
  len = 9;
  code = sedvokt_plan(&of, &runs, NULL, 0, &len);
  printf("plan without room: %u, %s\n", code, len == 1 ? "its length" : "another");
  places[1].lengths.len = 2;
  printf("plan of a length beyond what is lent: %u\n", PLAN(2));
  places[1].lengths.len = 1;
  places[1].bytes.len = 9;
  printf("plan of an entry beyond its run: %u\n", PLAN(2));
}

static void put(void) {
  static const uint8_t value[1] = {'x'};
  static const uint8_t edit[] = {
      2, 3, 9, 0, 3, 8, 4, 4, 5, 0, 9, 'u', 1, 2, 0, 0, 0, 0, 0, 0, 6, 0, 5, 7, 1, 7, 90,
      9, 'u', 0, 4, 0, 0, 0, 0, 0, 0, 9, 'u', 1, 2, 0, 0, 0, 0, 0, 0,
  };
  const sedvokt_entry entries[2] = {{{0, 9}, {0, 0}}, {{9, 9}, {0, 1}}};
  const sedvokt_numbers numbers = {8, 3, 0, 4};
  sedvokt_input it = input();
  sedvokt_file added = it.file;
  uint8_t room[4096];
  uint64_t len = 0;
  uint32_t code = sedvokt_output(&request, keys, sizeof keys, value, 1, entries, 2, room,
                                 sizeof room, &len);
  printf("output: %u, %s\n", code,
         len == table_len && !memcmp(room, table, len) ? "the table" : "other bytes");
  code = sedvokt_output(&request, keys, sizeof keys, value, 1, entries, 2, room, 9, &len);
  printf("output without room: %u, %s\n", code, len == table_len ? "its length" : "another");
  added.level = 1;
  added.number = 7;
  added.size = 90;
  const sedvokt_compaction of = lent(&it, 1);
  code = sedvokt_edit(&of, &numbers, &added, 1, room, sizeof room, &len);
  printf("edit: %u, %s\n", code,
         len == sizeof edit && !memcmp(room, edit, len) ? "the edit" : "other bytes");
}

int main(int argc, char **argv) {
  int file = argc > 1 ? open(argv[1], O_RDONLY) : -1;
  ssize_t len = read(file, table, sizeof table);
  if (len < 0) return 1;
  table_len = len;
  close(file);
  if (argc == 2) check_in_threads();
  check();
  part();
  merge();
  plan();
  put();
  return 0;
}
