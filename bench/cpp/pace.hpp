// Where threads meet before each turn, and when a turn of theirs began and ended.
#pragma once
#include <atomic>
#include <chrono>
#include <condition_variable>
#include <cstdint>
#include <mutex>
#include <thread>
#include <unistd.h>

struct Turn {
  using Time = std::chrono::steady_clock::time_point;
  using Nanos = std::chrono::duration<double, std::nano>;

  Time start;
  Time end;

  double nanos() const { return Nanos(end - start).count(); }
};

inline uint64_t cores() { return static_cast<uint64_t>(sysconf(_SC_NPROCESSORS_ONLN)); }

class Pace {
  alignas(128) std::atomic<uint64_t> arrived{0};
  uint64_t threads;
  bool is_crowded;
  std::mutex guard;
  std::condition_variable all_are_here;

  bool is_complete(uint64_t turn) const { return arrived.load() >= threads * (turn + 1); }

  // what is waited for may need this core
  void sleep(uint64_t turn) {
    std::unique_lock<std::mutex> held(guard);
    arrived.fetch_add(1);
    if (is_complete(turn)) return all_are_here.notify_all();
    all_are_here.wait(held, [&] { return is_complete(turn); });
  }

public:
  explicit Pace(uint64_t threads) : threads(threads), is_crowded(threads > cores()) {}

  void meet(uint64_t turn) {
    if (is_crowded) return sleep(turn);
    arrived.fetch_add(1);
    while (!is_complete(turn)) std::this_thread::yield();
  }
};
