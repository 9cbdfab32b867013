/* sedvokt.hpp: the calls of sedvokt.h for C++17. Nothing here throws, and nothing is kept between
   two calls. A call that was refused answers the number that sedvokt.h names. What is lent is a
   span, what is written a buffer of the program's malloc. */

#ifndef SEDVOKT_HPP
#define SEDVOKT_HPP
#include <atomic>
#include <cstdlib>
#include <cstring>
#include <string_view>
#include <type_traits>
#include <utility>

#include "sedvokt.h"

namespace sedvokt {

/* Whether the archive is of this version. */
inline bool is_current() noexcept { return sedvokt_version() == SEDVOKT_VERSION; }

using place = sedvokt_place;
using file = sedvokt_file;
using file_place = sedvokt_file_place;
using counts = sedvokt_counts;
using input = sedvokt_input;
using request = sedvokt_request;
using numbers = sedvokt_numbers;
using entry = sedvokt_entry;
using range = sedvokt_range;
using lengths = sedvokt_lengths;
using mark = sedvokt_mark;
using run_places = sedvokt_run;
using planned = sedvokt_planned;

/* Lent values that lie one after the other: those of an array, of a container, or so many from a
   pointer on. */
template <class T>
class span {
 public:
  constexpr span() noexcept = default;
  constexpr span(T* data, size_t size) noexcept : data_(data), size_(size) {}
  template <size_t N>
  constexpr span(T (&values)[N]) noexcept : span(values, N) {}
  template <class C, class = std::enable_if_t<
                         std::is_convertible_v<decltype(std::declval<C&>().data()), T*>>>
  constexpr span(C&& values) noexcept : span(values.data(), values.size()) {}

  constexpr T* data() const noexcept { return data_; }
  constexpr size_t size() const noexcept { return size_; }
  constexpr T& operator[](size_t at) const noexcept { return data_[at]; }

 private:
  T* data_ = nullptr;
  size_t size_ = 0;
};

using lent = span<const uint8_t>;

/* The bytes of a text. */
inline lent bytes(std::string_view text) noexcept {
  return {reinterpret_cast<const uint8_t*>(text.data()), text.size()};
}

/* Whether a call was done; else the number of its refusal, and if it was one of several, which. */
class [[nodiscard]] status {
 public:
  constexpr status(uint32_t code = SEDVOKT_DONE, size_t at = 0) noexcept : code_(code), at_(at) {}
  constexpr explicit operator bool() const noexcept { return code_ == SEDVOKT_DONE; }
  constexpr uint32_t code() const noexcept { return code_; }
  /* The place of the input, range or output that was refused, by a call of `parallel`. */
  constexpr size_t at() const noexcept { return at_; }
  /* The name of the number, and what it says. */
  const char* what() const noexcept { return sedvokt_strerror(code_); }

 private:
  uint32_t code_;
  size_t at_;
};

/* Values that belong to it, as a call wrote them. */
template <class T>
class owned {
 public:
  owned() noexcept = default;
  owned(owned&& other) noexcept { swap(other); }
  owned& operator=(owned&& other) noexcept {
    swap(other);
    return *this;
  }
  ~owned() { std::free(data_); }

  const T* data() const noexcept { return data_; }
  size_t size() const noexcept { return size_; }
  const T& operator[](size_t at) const noexcept { return data_[at]; }

  /* Has none, and room for at least so many. False: malloc refused. */
  bool make_room(size_t room) noexcept {
    size_ = 0;
    if (room <= room_ && data_ != nullptr) return true;
    std::free(data_);
    room_ = room == 0 ? 1 : room;
    data_ = room_ > SIZE_MAX / sizeof(T) ? nullptr
                                         : static_cast<T*>(std::malloc(room_ * sizeof(T)));
    if (data_ == nullptr) room_ = 0;
    return data_ != nullptr;
  }
  T* room_data() noexcept { return data_; }
  size_t room() const noexcept { return room_; }
  /* Has those that were written at the beginning of its room. */
  void has(uint64_t size) noexcept { size_ = static_cast<size_t>(size); }

  /* Has a call write them: write(T* room, size_t room_len, uint64_t* len), as in sedvokt.h. It is
     made again if the room was too small. Refused, there are none. */
  template <class Write>
  status fill(size_t room, Write write) noexcept {
    uint64_t len = room;
    uint32_t code = SEDVOKT_ROOM;
    for (int tries = 0; tries < 2 && code == SEDVOKT_ROOM; tries++) {
      if (!make_room(static_cast<size_t>(len))) return SEDVOKT_MEMORY;
      code = write(data_, room_, &len);
    }
    if (code == SEDVOKT_DONE) has(len);
    return code;
  }

 private:
  void swap(owned& other) noexcept {
    std::swap(data_, other.data_);
    std::swap(size_, other.size_);
    std::swap(room_, other.room_);
  }

  T* data_ = nullptr;
  size_t size_ = 0, room_ = 0;
};

using buffer = owned<uint8_t>;

/* What a compaction is asked for, and what is lent to its calls. */
struct compaction {
  request asked = {};
  span<const uint64_t> snapshots;
  lent keys, tables;
  span<const input> inputs;
  span<const file> deeper;

  sedvokt_compaction told() const noexcept {
    return {sizeof(sedvokt_compaction), asked, snapshots.data(), snapshots.size(), keys.data(),
            keys.size(), tables.data(), tables.size(), inputs.data(), inputs.size(),
            deeper.data(), deeper.size()};
  }
};

/* sedvokt_check_request. */
inline status check_request(const compaction& of) noexcept {
  const sedvokt_compaction told = of.told();
  return sedvokt_check_request(&told);
}

/* sedvokt_check_closed. `missing` is set if the answer is SEDVOKT_OPEN_INPUTS. */
inline status check_closed(uint32_t order, uint64_t level, lent keys, span<const file> files,
                           span<const uint64_t> numbers, file_place& missing) noexcept {
  return sedvokt_check_closed(order, level, keys.data(), keys.size(), files.data(), files.size(),
                              numbers.data(), numbers.size(), &missing);
}

/* sedvokt_check_table. */
inline status check_table(uint32_t order, lent keys, lent tables, input& of) noexcept {
  return sedvokt_check_table(order, keys.data(), keys.size(), tables.data(), tables.size(), &of);
}

/* User keys, one after the other, and how long each is. */
struct user_keys {
  buffer bytes;
  owned<uint64_t> lengths;

  size_t size() const noexcept { return lengths.size(); }

  /* Sets size() + 1 ranges, between the keys as boundaries, if the keys that are lent have `bytes`
     from place `from` on. False: there is no place for so many ranges. */
  bool part(uint64_t from, span<range> ranges) const noexcept {
    if (ranges.size() <= size()) return false;
    place key = {from, 0};
    for (size_t at = 0; at <= size(); at++) {
      range& here = ranges[at];
      here.has_lower = at != 0;
      here.has_upper = at != size();
      here.lower = key;
      key = {key.from + key.len, here.has_upper ? lengths[at] : 0};
      here.upper = key;
    }
    return true;
  }
};

/* sedvokt_boundaries, into `to`. The inputs are as for merge. */
inline status boundaries(const compaction& of, uint64_t want, user_keys& to) noexcept {
  const sedvokt_compaction told = of.told();
  sedvokt_keys_size size = {4096, want < 4096 ? want : 4096};
  uint32_t code = SEDVOKT_ROOM;
  for (int tries = 0; tries < 2 && code == SEDVOKT_ROOM; tries++) {
    if (!to.bytes.make_room(static_cast<size_t>(size.bytes)) ||
        !to.lengths.make_room(static_cast<size_t>(size.keys)))
      return SEDVOKT_MEMORY;
    code = sedvokt_boundaries(&told, want, to.bytes.room_data(), to.bytes.room(),
                              to.lengths.room_data(), to.lengths.room(), &size);
  }
  if (code == SEDVOKT_DONE) {
    to.bytes.has(size.bytes);
    to.lengths.has(size.keys);
  }
  return code;
}

/* The run of a range: its entries one after the other, each as its key and then its value; their
   lengths; and the marks. */
struct run {
  buffer bytes;
  owned<lengths> entries;
  owned<mark> marks;
};

/* sedvokt_merge, into `to`, which has at first room for so many parts of all tables as are asked
   for, and half as much again. check_table has answered true to each input, with this order, and
   nothing of the inputs, the tables and the keys has changed since. */
inline status merge(const compaction& of, const range& range, run& to,
                    uint64_t parts = 1) noexcept {
  const sedvokt_compaction told = of.told();
  sedvokt_run_size size = {of.tables.size(), 0, of.deeper.size() + 1};
  for (size_t at = 0; at < of.inputs.size(); at++) size.entries += of.inputs[at].counts.entries;
  if (parts > 1) {
    size.bytes = size.bytes / parts + size.bytes / (2 * parts) + 4096;
    size.entries = size.entries / parts + size.entries / (2 * parts) + 64;
  }
  uint32_t code = SEDVOKT_ROOM;
  for (int tries = 0; tries < 2 && code == SEDVOKT_ROOM; tries++) {
    if (!to.bytes.make_room(static_cast<size_t>(size.bytes)) ||
        !to.entries.make_room(static_cast<size_t>(size.entries)) ||
        !to.marks.make_room(static_cast<size_t>(size.marks)))
      return SEDVOKT_MEMORY;
    const sedvokt_run_room room = {
        sizeof room, to.bytes.room_data(), to.bytes.room(), to.entries.room_data(),
        to.entries.room(), to.marks.room_data(), to.marks.room()};
    code = sedvokt_merge(&told, &range, &room, &size);
  }
  if (code == SEDVOKT_DONE) {
    to.bytes.has(size.bytes);
    to.entries.has(size.entries);
    to.marks.has(size.marks);
  }
  return code;
}

/* The runs of ranges, one after the other, and where each lies. */
struct runs {
  buffer bytes;
  owned<lengths> entries;
  owned<mark> marks;
  owned<run_places> places;

  sedvokt_runs told() const noexcept {
    return {sizeof(sedvokt_runs), bytes.data(), bytes.size(), entries.data(), entries.size(),
            marks.data(), marks.size(), places.data(), places.size()};
  }

  /* Has copies of these, in the order of their ranges. */
  status join(span<const run> of) noexcept {
    size_t all_bytes = 0, all_entries = 0, all_marks = 0;
    for (size_t at = 0; at < of.size(); at++) {
      all_bytes += of[at].bytes.size();
      all_entries += of[at].entries.size();
      all_marks += of[at].marks.size();
    }
    if (!bytes.make_room(all_bytes) || !entries.make_room(all_entries) ||
        !marks.make_room(all_marks) || !places.make_room(of.size()))
      return SEDVOKT_MEMORY;
    for (size_t at = 0; at < of.size(); at++)
      places.room_data()[at] = {append(bytes, of[at].bytes), append(entries, of[at].entries),
                                append(marks, of[at].marks)};
    places.has(of.size());
    return SEDVOKT_DONE;
  }

 private:
  template <class T>
  static place append(owned<T>& to, const owned<T>& from) noexcept {
    const place here = {to.size(), from.size()};
    if (from.size() != 0)
      std::memcpy(to.room_data() + to.size(), from.data(), from.size() * sizeof(T));
    to.has(here.from + here.len);
    return here;
  }
};

/* sedvokt_plan of joined runs, into `outputs`. */
inline status plan(const compaction& of, const runs& all, owned<planned>& outputs) noexcept {
  const sedvokt_compaction told = of.told();
  const sedvokt_runs runs = all.told();
  return outputs.fill(64, [&](auto... room) { return sedvokt_plan(&told, &runs, room...); });
}

/* sedvokt_output, into `table`. */
inline status output(const request& asked, lent keys, lent values, span<const entry> entries,
                     buffer& table) noexcept {
  const uint64_t most = 1u << 30;
  const uint64_t about = asked.file_size < most ? asked.file_size : most;
  return table.fill(static_cast<size_t>(about + about / 8 + 65536), [&](auto... room) {
    return sedvokt_output(&asked, keys.data(), keys.size(), values.data(), values.size(),
                          entries.data(), entries.size(), room...);
  });
}

/* sedvokt_edit, into `bytes`. */
inline status edit(const compaction& of, const numbers& now, span<const file> added,
                   buffer& bytes) noexcept {
  const sedvokt_compaction told = of.told();
  return bytes.fill(4096, [&](auto... room) {
    return sedvokt_edit(&told, &now, added.data(), added.size(), room...);
  });
}

/* Makes calls that don't wait for one another on threads of the host. `run(count, work)` calls
   work(0) to work(count - 1), each once, in any order and in any threads, and returns when all have
   returned. All of them are made. The answer is the first refusal in the order of the calls, so it
   is the same whatever `run` does. */
template <class Run>
class parallel {
 public:
  explicit parallel(Run run) noexcept : run_(std::move(run)) {}

  /* check_table of each input. */
  status check_tables(uint32_t order, lent keys, lent tables, span<input> inputs) {
    if (inputs.size() > UINT32_MAX) return SEDVOKT_MISUSE;
    return each(static_cast<uint32_t>(inputs.size()), [&](size_t at) {
      return check_table(order, keys, tables, inputs[at]);
    });
  }

  /* merge of each range, into the run at its place. */
  status merges(const compaction& of, span<const range> ranges, span<run> runs) {
    if (ranges.size() != runs.size() || ranges.size() > UINT32_MAX) return SEDVOKT_MISUSE;
    return each(static_cast<uint32_t>(ranges.size()), [&](size_t at) {
      return merge(of, ranges[at], runs[at], ranges.size());
    });
  }

  /* output of each span of entries, into the buffer at its place. */
  status outputs(const request& asked, lent keys, lent values,
                 span<const span<const entry>> parts, span<buffer> tables) {
    if (parts.size() != tables.size() || parts.size() > UINT32_MAX) return SEDVOKT_MISUSE;
    return each(static_cast<uint32_t>(parts.size()), [&](size_t at) {
      return output(asked, keys, values, parts[at], tables[at]);
    });
  }

  /* call(0) to call(count - 1), each of which answers a status. */
  template <class Call>
  status each(uint32_t count, const Call& call) {
    /* The least place of a refusal, and its number below it. */
    std::atomic<uint64_t> first{UINT64_MAX};
    run_(count, [&](size_t at) noexcept {
      const status answer = call(at);
      if (answer) return;
      const uint64_t mine = static_cast<uint64_t>(at) << 32 | answer.code();
      uint64_t least = first;
      while (mine < least && !first.compare_exchange_weak(least, mine)) {
      }
    });
    if (first == UINT64_MAX) return SEDVOKT_DONE;
    return {static_cast<uint32_t>(first), static_cast<size_t>(first >> 32)};
  }

 private:
  Run run_;
};

}  // namespace sedvokt
#endif
