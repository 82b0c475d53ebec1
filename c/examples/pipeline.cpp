// Two readers write lines into buffers, one writer takes them from a bounded queue, checks them, and lets
// them go.
//
// A buffer owns what it was lent: where the writer's loop drops one, it goes home to the reader that lent
// it. Build: c++ -std=c++17 -pthread pipeline.cpp -lfustrevol
#include "fustrevol.hpp"

#include <condition_variable>
#include <cstdio>
#include <cstring>
#include <deque>
#include <mutex>
#include <thread>
#include <vector>

namespace {

constexpr std::size_t readers = 2, lines = 200000, depth = 256;

class bounded_queue {
public:
  explicit bounded_queue(std::size_t senders) : senders_(senders) {}

  void send(fustrevol::buffer line) {
    std::unique_lock<std::mutex> held(lock_);
    moved_.wait(held, [this] { return lines_.size() < depth; });
    lines_.push_back(std::move(line));
    moved_.notify_all();
  }

  void end() {
    std::lock_guard<std::mutex> held(lock_);
    senders_--;
    moved_.notify_all();
  }

  // The next line, or a buffer that holds none at the end.
  fustrevol::buffer receive() {
    std::unique_lock<std::mutex> held(lock_);
    moved_.wait(held, [this] { return !lines_.empty() || senders_ == 0; });
    if (lines_.empty()) return {};
    fustrevol::buffer line = std::move(lines_.front());
    lines_.pop_front();
    moved_.notify_all();
    return line;
  }

private:
  std::mutex lock_;
  std::condition_variable moved_;
  std::deque<fustrevol::buffer> lines_;
  std::size_t senders_;
};

// Writes its lines. Says whether all went well.
bool read(fustrevol::pool &pool, bounded_queue &out, std::size_t reader) {
  fustrevol::allocator mine(pool);
  for (std::size_t number = 0; mine && number < lines; number++) {
    auto line = mine.alloc(48);
    if (!line) {
      std::fprintf(stderr, "pipeline: %s\n", message(line.error()));
      return false;
    }
    int length = std::snprintf(reinterpret_cast<char *>(line->data()), line->size(), "reader %zu line %zu",
                               reader, number);
    line->resize(static_cast<std::size_t>(length));
    out.send(std::move(*line));
  }
  return static_cast<bool>(mine);
}

// Counts the lines that are as they should be.
std::size_t write(fustrevol::pool &pool, bounded_queue &in) {
  fustrevol::allocator mine(pool);
  std::size_t next[readers] = {}, right = 0;
  while (fustrevol::buffer line = in.receive()) {
    std::size_t reader = line[7] - '0';
    char expected[48];
    int length = std::snprintf(expected, sizeof expected, "reader %zu line %zu", reader, next[reader]++);
    if (line.size() == static_cast<std::size_t>(length) &&
        std::memcmp(line.data(), expected, line.size()) == 0)
      right++;
  }
  return right;
}

} // namespace

int main() {
  std::vector<unsigned char> region(256 * FV_CHUNK);
  fustrevol::pool pool(region.data(), region.size(), {readers + 1});
  bounded_queue queue(readers);
  std::vector<std::thread> threads;
  bool read_all[readers] = {};
  std::size_t right = 0;
  for (std::size_t i = 0; i < readers; i++) {
    threads.emplace_back([&, i] {
      read_all[i] = read(pool, queue, i);
      queue.end();
    });
  }
  threads.emplace_back([&] { right = write(pool, queue); });
  for (std::thread &thread : threads) thread.join();
  fustrevol::status audit = pool.close();
  std::printf("lines %zu of %zu right, audit: %s\n", right, readers * lines, message(audit));
  return !read_all[0] || !read_all[1] || right != readers * lines || audit != fustrevol::status::ok;
}
