// Each call of crates/c_api/sedvokt.hpp, with the table of `u@4 del, u@2 put x` whose path is the
// first word. Prints what the calls answer.

#include "sedvokt.hpp"

#include <cstdio>
#include <cstring>
#include <fstream>
#include <iterator>
#include <string>
#include <thread>
#include <vector>

namespace {

using sedvokt::bytes;

// u@4 del, u@2 put
const std::string keys("u\0\4\0\0\0\0\0\0u\1\2\0\0\0\0\0\0", 18);

const sedvokt::request asked = {SEDVOKT_BYTEWISE, 0, 0, 4, 4, 4096, 16, 2097152, 7};

sedvokt::input input_of(uint64_t number, size_t size) {
  sedvokt::input it = {};
  it.file = {0, number, size, {0, 9}, {9, 9}};
  it.table = {0, size};
  return it;
}

// A thread for each piece of work.
const auto threads = [](size_t count, auto work) {
  std::vector<std::thread> running;
  for (size_t at = 0; at < count; at++) running.emplace_back(work, at);
  for (auto& it : running) it.join();
};

void check(const std::string& table) {
  std::vector<sedvokt::input> inputs(4, input_of(5, table.size()));
  sedvokt::parallel run(threads);
  auto code = run.check_tables(SEDVOKT_BYTEWISE, bytes(keys), bytes(table), inputs).code();
  std::printf("check_tables: %u, %d entries\n", code, static_cast<int>(inputs[3].counts.entries));
  // Two of them are refused; the answer is the first one's.
  inputs[3].table.len--;
  inputs[1].file.size++;
  const auto refused = run.check_tables(SEDVOKT_BYTEWISE, bytes(keys), bytes(table), inputs);
  std::printf("check_tables, one of another length: %u, input %d, %s\n", refused.code(),
              static_cast<int>(refused.at()), refused.what());
  sedvokt::compaction of;
  of.asked = asked;
  of.keys = bytes(keys);
  std::printf("check_request without inputs: %u\n", sedvokt::check_request(of).code());
  of.inputs = {&inputs[0], 1};
  std::printf("check_request: %u\n", sedvokt::check_request(of).code());
  const sedvokt::file files[] = {inputs[0].file, input_of(7, table.size()).file};
  const uint64_t five[] = {5};
  sedvokt::file_place missing = {9, 9};
  code = sedvokt::check_closed(SEDVOKT_BYTEWISE, 0, bytes(keys), files, five, missing).code();
  std::printf("check_closed of one: %u, missing: level %d, number %d\n", code,
              static_cast<int>(missing.level), static_cast<int>(missing.number));
}

bool is(const sedvokt::buffer& given, std::string_view wanted) {
  return given.size() == wanted.size() && !std::memcmp(given.data(), wanted.data(), wanted.size());
}

// The index has one key, the user key u. Both entries are kept if sequence 3 stays readable: from u
// on, and none below.
void merge(const std::string& table) {
  sedvokt::input inputs[] = {input_of(5, table.size())};
  if (!sedvokt::check_table(SEDVOKT_BYTEWISE, bytes(keys), bytes(table), inputs[0])) return;
  sedvokt::compaction of = {asked, {}, bytes(keys), bytes(table), inputs, {}};
  of.asked.oldest = 3;
  sedvokt::user_keys chosen;
  auto code = sedvokt::boundaries(of, 2, chosen).code();
  std::printf("boundaries: %u, %s\n", code,
              chosen.size() == 1 && is(chosen.bytes, "u") ? "u" : "others");
  // They lie after the keys.
  const std::string all_keys = keys + "u";
  of.keys = bytes(all_keys);
  sedvokt::range ranges[2];
  if (!chosen.part(keys.size(), ranges)) return;
  sedvokt::run runs[2];
  sedvokt::parallel run(threads);
  code = run.merges(of, ranges, runs).code();
  std::printf("merges: %u, %d and %d entries, %s\n", code,
              static_cast<int>(runs[0].entries.size()), static_cast<int>(runs[1].entries.size()),
              is(runs[1].bytes, keys + "x") && runs[1].entries[1].value == 1 ? "both" : "others");
  sedvokt::runs all;
  sedvokt::owned<sedvokt::planned> outputs;
  if (!all.join(runs)) return;
  const auto planned = sedvokt::plan(of, all, outputs).code();
  std::printf("plan: %u, %s\n", planned,
              outputs.size() == 1 && outputs[0].entries == 2 && outputs[0].len == table.size()
                  ? "one output"
                  : "others");
}

void put(const std::string& table) {
  const sedvokt::entry entries[] = {{{0, 9}, {0, 0}}, {{9, 9}, {0, 1}}};
  const std::string value = "x";
  sedvokt::buffer tables[2];
  const sedvokt::span<const sedvokt::entry> parts[] = {entries, entries};
  sedvokt::parallel run(threads);
  auto code = run.outputs(asked, bytes(keys), bytes(value), parts, tables).code();
  std::printf("outputs: %u, %s\n", code,
              is(tables[0], table) && is(tables[1], table) ? "the tables" : "other bytes");
  // The first room is too small.
  code = tables[0].fill(9, [&](auto... room) {
    return sedvokt_output(&asked, bytes(keys).data(), keys.size(), bytes(value).data(), 1, entries,
                          2, room...);
  }).code();
  std::printf("output, at first without room: %u, %s\n", code,
              is(tables[0], table) ? "the table" : "other bytes");
  sedvokt::buffer moved = std::move(tables[0]);
  std::printf("output of no entry: %u, %d bytes\n",
              sedvokt::output(asked, bytes(keys), {}, {}, tables[0]).code(),
              static_cast<int>(tables[0].size()));
  const std::string edit("\2\3\11\0\3\10\4\4\5\0\11u\1\2\0\0\0\0\0\0\6\0\5\7\1\7Z"
                         "\11u\0\4\0\0\0\0\0\0\11u\1\2\0\0\0\0\0\0", 47);
  const sedvokt::input inputs[] = {input_of(5, table.size())};
  sedvokt::file added[] = {inputs[0].file};
  added[0].level = 1;
  added[0].number = 7;
  added[0].size = 90;
  const sedvokt::compaction of = {asked, {}, bytes(keys), {}, inputs, {}};
  code = sedvokt::edit(of, {8, 3, 0, 4}, added, moved).code();
  std::printf("edit: %u, %s\n", code, is(moved, edit) ? "the edit" : "other bytes");
}

}  // namespace

int main(int, char** words) {
  std::ifstream file(words[1], std::ios::binary);
  const std::string table{std::istreambuf_iterator<char>(file), {}};
  check(table);
  merge(table);
  put(table);
}
