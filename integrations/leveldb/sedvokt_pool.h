// A few threads that make the calls of a compaction, beside LevelDB's own background thread.

#ifndef SEDVOKT_POOL_H_
#define SEDVOKT_POOL_H_

#include <algorithm>
#include <chrono>
#include <condition_variable>
#include <cstddef>
#include <functional>
#include <mutex>
#include <thread>
#include <vector>

namespace leveldb {

class SedvoktPool {
 public:
  // Starts `others` threads. They end with the process, as those of LevelDB's Env do.
  explicit SedvoktPool(size_t others) : others_(others) {
    for (size_t at = 0; at < others; at++) std::thread([this] { Serve(); }).detach();
  }

  SedvoktPool(const SedvoktPool&) = delete;
  SedvoktPool& operator=(const SedvoktPool&) = delete;

  // How many threads work for a caller, with its own.
  size_t threads() const { return others_ + 1; }

  // Calls work(0) to work(count - 1), each once, in the calling thread and the others. Several
  // callers may be here at once: each works for itself, and the others for all.
  //
  // The calling thread asks `goes_on` before each piece of its own, and every millisecond while it
  // waits for others, so that what it has to do besides is never late by more than a piece. If the
  // answer is false, no more pieces are begun, and so is the answer here.
  bool Run(size_t count, const std::function<void(size_t)>& work,
           const std::function<bool()>& goes_on) {
    Round round(count, work);
    // One piece alone is for another thread: the caller stays free for its own duties.
    const bool watches = count == 1 && others_ > 0;
    std::unique_lock<std::mutex> lock(mutex_);
    rounds_.push_back(&round);
    if (others_ > 0) begun_.notify_all();
    while (!round.Ended()) {
      lock.unlock();
      const bool goes = goes_on();
      lock.lock();
      if (!goes) round.Stop();
      if (!watches && round.HasPiece()) {
        DoPiece(&round, &lock);
      } else if (!round.Ended()) {
        done_.wait_for(lock, std::chrono::milliseconds(1));
      }
    }
    rounds_.erase(std::find(rounds_.begin(), rounds_.end(), &round));
    return !round.stopped;
  }

 private:
  // What one caller wants done. mutex_ guards it.
  struct Round {
    Round(size_t all, const std::function<void(size_t)>& one) : count(all), work(one) {}

    bool HasPiece() const { return !stopped && next < count; }
    bool Ended() const { return !HasPiece() && running == 0; }
    void Stop() { stopped = stopped || next < count; }

    const size_t count;
    const std::function<void(size_t)>& work;
    size_t next = 0;
    size_t running = 0;
    bool stopped = false;
  };

  // Does the next piece of a round that has one.
  void DoPiece(Round* round, std::unique_lock<std::mutex>* lock) {
    const size_t piece = round->next++;
    round->running++;
    lock->unlock();
    round->work(piece);
    lock->lock();
    round->running--;
    // The round is its caller's, who takes it away once it has ended.
    if (round->Ended()) done_.notify_all();
  }

  void Serve() {
    std::unique_lock<std::mutex> lock(mutex_);
    for (;;) {
      const auto round = std::find_if(rounds_.begin(), rounds_.end(),
                                      [](const Round* it) { return it->HasPiece(); });
      if (round == rounds_.end()) {
        begun_.wait(lock);
      } else {
        DoPiece(*round, &lock);
      }
    }
  }

  const size_t others_;
  std::mutex mutex_;
  std::condition_variable begun_, done_;
  std::vector<Round*> rounds_;
};

}  // namespace leveldb

#endif  // SEDVOKT_POOL_H_
