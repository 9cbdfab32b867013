// As compaction.c, which says what it takes and what it prints, by the calls of
// crates/c_api/sedvokt.hpp.

#include "sedvokt.hpp"

#include <atomic>
#include <cinttypes>
#include <cstdio>
#include <cstdlib>
#include <fstream>
#include <iterator>
#include <optional>
#include <sstream>
#include <string>
#include <thread>
#include <vector>

namespace {

using sedvokt::bytes;

[[noreturn]] void fail(const std::string& what) {
  std::fprintf(stderr, "compaction: %s\n", what.c_str());
  std::exit(1);
}

std::string read_file(const std::string& path) {
  std::ifstream file(path, std::ios::binary);
  if (!file) fail(path);
  return {std::istreambuf_iterator<char>(file), {}};
}

void write_file(const std::string& path, const sedvokt::buffer& data) {
  std::ofstream file(path, std::ios::binary);
  file.write(reinterpret_cast<const char*>(data.data()), static_cast<std::streamsize>(data.size()));
  if (!file.flush()) fail(path);
}

// What is asked for, and what lies in lent memory.
struct asked {
  sedvokt::request request = {};
  sedvokt::numbers numbers = {};
  bool asks_closed = false;
  std::vector<uint64_t> snapshots, input_numbers;
  std::string keys, tables;
  std::vector<sedvokt::input> inputs;
  std::vector<sedvokt::file> files, deeper;
  std::vector<sedvokt::range> ranges;
  // The place of the input that was refused.
  std::optional<size_t> refused;

  sedvokt::compaction of() const {
    return {request, snapshots, bytes(keys), bytes(tables), inputs, deeper};
  }

  explicit asked(const std::string& path) {
    std::istringstream text(read_file(path));
    std::string name;
    while (text >> name) line(name, text);
  }

  sedvokt::place lend(std::string_view key) {
    keys += key;
    return {keys.size() - key.size(), key.size()};
  }

  void add_boundary(sedvokt::place at) {
    if (ranges.empty()) ranges.emplace_back();
    ranges.back().has_upper = 1;
    ranges.back().upper = at;
    ranges.push_back({1, 0, at, {0, 0}});
  }

 private:
  sedvokt::place key(std::istringstream& text) {
    std::string hex, key;
    text >> hex;
    for (size_t at = 0; at + 1 < hex.size(); at += 2)
      key += static_cast<char>(std::stoi(hex.substr(at, 2), nullptr, 16));
    return lend(key);
  }

  sedvokt::file file(std::istringstream& text) {
    sedvokt::file it = {};
    text >> it.level >> it.number >> it.size;
    it.smallest = key(text);
    it.largest = key(text);
    files.push_back(it);
    if (it.level >= request.level + 2) deeper.push_back(it);
    return it;
  }

  void input(std::istringstream& text) {
    sedvokt::input it = {};
    it.file = file(text);
    std::string path;
    text >> path;
    const std::string table = read_file(path);
    it.table = {tables.size(), table.size()};
    tables += table;
    inputs.push_back(it);
    input_numbers.push_back(it.file.number);
  }

  void line(const std::string& name, std::istringstream& text) {
    if (name == "order") {
      text >> request.order;
    } else if (name == "level") {
      text >> request.level;
    } else if (name == "oldest") {
      text >> request.oldest;
    } else if (name == "snapshots") {
      request.is_listed = 1;
      size_t count;
      text >> count;
      snapshots.resize(count);
      for (uint64_t& it : snapshots) text >> it;
    } else if (name == "last") {
      text >> request.last_sequence;
      numbers.last_sequence = request.last_sequence;
    } else if (name == "options") {
      text >> request.block_size >> request.restart_interval >> request.file_size;
    } else if (name == "numbers") {
      text >> request.first_number >> numbers.log_number >> numbers.previous_log;
    } else if (name == "file") {
      file(text);
    } else if (name == "input") {
      input(text);
    } else if (name == "boundary") {
      add_boundary(key(text));
    } else if (name == "closed") {
      asks_closed = true;
    } else {
      fail(name);
    }
  }
};

// Threads that take the pieces of a round in turn; without any, the calling one does all.
struct host_threads {
  size_t most;

  template <class Work>
  void operator()(size_t count, const Work& work) const {
    std::atomic<size_t> next{0};
    const auto some = [&] {
      for (size_t at; (at = next.fetch_add(1)) < count;) work(at);
    };
    std::vector<std::thread> running;
    for (size_t at = 0; at < most; at++) running.emplace_back(some);
    if (running.empty()) some();
    for (std::thread& it : running) it.join();
  }
};

// The kept entries of all runs, in order.
std::vector<sedvokt::entry> entries_of(const sedvokt::runs& runs) {
  std::vector<sedvokt::entry> entries;
  for (size_t run = 0; run < runs.places.size(); run++) {
    const sedvokt::run_places& places = runs.places[run];
    uint64_t from = places.bytes.from;
    for (uint64_t at = 0; at < places.lengths.len; at++) {
      const sedvokt::lengths& it = runs.entries[places.lengths.from + at];
      entries.push_back({{from, it.key}, {from + it.key, it.value}});
      from += it.key + it.value;
    }
  }
  return entries;
}

sedvokt::status check(asked& all, sedvokt::parallel<host_threads>& on) {
  if (auto answer = sedvokt::check_request(all.of()); !answer) return answer;
  sedvokt::file_place missing;
  if (all.asks_closed)
    if (auto answer = sedvokt::check_closed(all.request.order, all.request.level, bytes(all.keys),
                                            all.files, all.input_numbers, missing);
        !answer)
      return answer;
  const auto answer =
      on.check_tables(all.request.order, bytes(all.keys), bytes(all.tables), all.inputs);
  if (!answer) all.refused = answer.at();
  return answer;
}

sedvokt::status choose(asked& all, uint64_t want) {
  if (!all.ranges.empty()) return SEDVOKT_DONE;
  sedvokt::user_keys boundaries;
  const auto answer = sedvokt::boundaries(all.of(), want, boundaries);
  if (!answer) return answer;
  const auto from = all.lend({reinterpret_cast<const char*>(boundaries.bytes.data()),
                              boundaries.bytes.size()}).from;
  all.ranges.resize(boundaries.size() + 1);
  if (!boundaries.part(from, all.ranges)) fail("too few ranges");
  return SEDVOKT_DONE;
}

sedvokt::status merge(const asked& all, sedvokt::parallel<host_threads>& on,
                      sedvokt::runs& joined) {
  std::vector<sedvokt::run> runs(all.ranges.size());
  const auto answer = on.merges(all.of(), all.ranges, runs);
  return answer ? joined.join(runs) : answer;
}

// The outputs and the edit, in the folder.
sedvokt::status put(asked& all, sedvokt::parallel<host_threads>& on, const sedvokt::runs& runs,
                    const sedvokt::owned<sedvokt::planned>& planned, const std::string& folder) {
  const auto entries = entries_of(runs);
  std::vector<sedvokt::span<const sedvokt::entry>> parts;
  for (size_t at = 0; at < planned.size(); at++)
    parts.push_back({entries.data() + planned[at].first, planned[at].entries});
  std::vector<sedvokt::buffer> tables(parts.size());
  if (auto answer = on.outputs(all.request, runs.bytes, runs.bytes, parts, tables); !answer)
    return answer;
  std::vector<sedvokt::file> added;
  for (size_t at = 0; at < parts.size(); at++) {
    const auto key = [&](const sedvokt::place& it) {
      return all.lend({reinterpret_cast<const char*>(runs.bytes.data()) + it.from, it.len});
    };
    const auto smallest = key(parts[at][0].key);
    const auto largest = key(parts[at][parts[at].size() - 1].key);
    added.push_back({all.request.level + 1, all.request.first_number + at, planned[at].len,
                     smallest, largest});
    char name[40];
    std::snprintf(name, sizeof name, "/%06" PRIu64 ".ldb", all.request.first_number + at);
    write_file(folder + name, tables[at]);
  }
  all.numbers.next_file = all.request.first_number + planned.size();
  sedvokt::buffer edit;
  const auto answer = sedvokt::edit(all.of(), all.numbers, added, edit);
  if (answer) write_file(folder + "/EDIT", edit);
  return answer;
}

// All calls in turn.
sedvokt::status compact(asked& all, uint64_t want, size_t threads, const std::string& folder,
                        size_t& outputs) {
  sedvokt::parallel on(host_threads{threads});
  if (auto answer = check(all, on); !answer) return answer;
  if (auto answer = choose(all, want); !answer) return answer;
  sedvokt::runs runs;
  if (auto answer = merge(all, on, runs); !answer) return answer;
  sedvokt::owned<sedvokt::planned> planned;
  if (auto answer = sedvokt::plan(all.of(), runs, planned); !answer) return answer;
  outputs = planned.size();
  return put(all, on, runs, planned, folder);
}

}  // namespace

int main(int count, char** words) {
  if (count != 5) fail("give a REQUEST, OUT, RANGES and THREADS");
  asked all(words[1]);
  size_t outputs = 0;
  const auto answer =
      compact(all, std::stoull(words[3]), std::stoull(words[4]), words[2], outputs);
  if (!answer && all.refused) {
    std::printf("refused: %" PRIu32 ", input %zu\n", answer.code(), *all.refused);
  } else if (!answer) {
    std::printf("refused: %" PRIu32 "\n", answer.code());
  } else {
    std::printf("%zu outputs of %zu ranges\n", outputs, all.ranges.size());
  }
}
