// What fustrevol.hpp adds to the C calls: who owns, where what is destroyed goes, and what is refused.
#include "fustrevol.hpp"

#include <condition_variable>
#include <cstdio>
#include <cstdlib>
#include <cstring>
#include <deque>
#include <mutex>
#include <thread>
#include <type_traits>
#include <vector>

#define CHECK(condition)                                                                                   \
  do {                                                                                                     \
    if (!(condition)) {                                                                                    \
      std::fprintf(stderr, "%s:%d: not so: %s\n", __FILE__, __LINE__, #condition);                         \
      std::exit(1);                                                                                        \
    }                                                                                                      \
  } while (0)

using fustrevol::allocator;
using fustrevol::buffer;
using fustrevol::burst;
using fustrevol::pool;
using fustrevol::status;

static_assert(std::is_nothrow_move_constructible<buffer>::value &&
                  !std::is_copy_constructible<buffer>::value,
              "");
static_assert(std::is_nothrow_move_assignable<burst>::value && !std::is_copy_assignable<burst>::value, "");
static_assert(!std::is_move_constructible<allocator>::value && !std::is_move_constructible<pool>::value,
              "");

static constexpr std::size_t length = 1 << 20;
alignas(4096) static unsigned char region[2 * length];

static buffer alloc(allocator &from, std::size_t size) {
  auto made = from.alloc(size);
  CHECK(made);
  return std::move(*made);
}

static void refusals() {
  pool none(region, 100);
  CHECK(!none && none.error() == status::bad_argument && none.close() == status::empty);
  CHECK(std::strcmp(message(status::used_up), fv_strerror(FV_USED_UP)) == 0);
  allocator nobody(none);
  CHECK(!nobody && nobody.error() == status::empty && nobody.alloc(1).error() == status::empty);
  pool one(region, length, {1});
  CHECK(one);
  allocator mine(one), too_many(one);
  CHECK(mine && !too_many && too_many.error() == status::empty && one.close() == status::full);
  auto large = mine.alloc(513);
  CHECK(!large && large.error() == status::too_large && !*large);
  buffer empty;
  CHECK(!empty && empty.size() == 0 && empty.capacity() == 0 && !empty.resize(0));
  CHECK(mine.free(std::move(empty)) == status::empty);
}

static void ownership() {
  pool lines(region, length, {1});
  {
    allocator mine(lines);
    buffer a = alloc(mine, 100), b;
    CHECK(a.size() == 100 && a.capacity() == 112 && a.data() >= region &&
          a.data() + 112 <= region + length);
    std::memset(a.data(), 7, a.size());
    unsigned char *at = a.data();
    b = std::move(a);
    CHECK(!a && a.size() == 0 && b.data() == at && b[99] == 7);
    CHECK(b.resize(112) && !b.resize(113) && b.size() == 112);
    b = alloc(mine, 10); // frees the first
    CHECK(b.size() == 10 && mine.stat(FV_ALLOCATOR_LENT) == 2 && mine.stat(FV_ALLOCATOR_FREED) == 1);
    std::size_t sum = 0;
    for (unsigned char &byte : b) byte = 1;
    for (unsigned char byte : b) sum += byte;
    CHECK(sum == 10);
    CHECK(mine.free(std::move(b)) == status::ok && !b && mine.stat(FV_ALLOCATOR_FREED) == 2);
#ifdef FUSTREVOL_HAS_SPAN
    buffer c = alloc(mine, 33);
    CHECK(c.span().size() == 33 && c.span().data() == c.data());
    std::span<unsigned char> all(c);
    CHECK(all.size() == 33);
#endif
    std::vector<buffer> many;
    for (int i = 0; i < 100; i++) many.push_back(alloc(mine, 16 + static_cast<std::size_t>(i)));
    many.erase(many.begin() + 10, many.begin() + 60);
    CHECK(mine.stat(FV_ALLOCATOR_LENT) - mine.stat(FV_ALLOCATOR_FREED) >= 50);
  }
  CHECK(lines.close() == status::ok && lines.close() == status::empty);
}

static void through_c() {
  pool lines(region, length, {1});
  {
    allocator mine(lines);
    buffer a = alloc(mine, 40);
    CHECK(a.resize(33));
    fv_buf raw = a.release();
    CHECK(!a && fv_buf_len(&raw) == 33);
    a = buffer::adopt(lines, raw);
    CHECK(a && a.size() == 33);
  }
  CHECK(lines.close() == status::ok);
}

static void bursts() {
  pool lines(region, length, {2}), others(region + length, length, {1});
  {
    allocator mine(lines), second(lines), other(others);
    auto opened = mine.open_burst(8);
    CHECK(opened);
    burst packets = std::move(*opened);
    CHECK(mine.fill(packets, 64, 7) == status::ok && packets.size() == 7 && packets[6].size() == 64 &&
          packets[7].data() == nullptr);
    CHECK(second.fill(packets, 64, 1) == status::stranger &&
          other.fill(packets, 64, 1) == status::stranger);
    buffer one = alloc(mine, 64), strange = alloc(other, 64);
    one[0] = 9;
    CHECK(one.resize(3));
    CHECK(packets.push(std::move(strange)) == status::stranger &&
          strange); // another pool's, of the same number
    CHECK(packets.push(std::move(one)) == status::ok && !one && packets.size() == 8);
    buffer left = alloc(mine, 64);
    CHECK(packets.push(std::move(left)) == status::full && left);
    auto last = packets.pop();
    CHECK(last && last->size() == 3 && (*last)[0] == 9);
    CHECK(mine.free(std::move(strange)) == status::stranger && strange);
    burst moved = std::move(packets);
    CHECK(!packets && packets.size() == 0 && moved.size() == 7);
    for (std::size_t i = 0; i < moved.size(); i++) {
      for (unsigned char &byte : moved[i]) byte = static_cast<unsigned char>(i);
    }
    CHECK(other.free(std::move(moved)) == status::stranger && moved.size() == 7);
    CHECK(second.free(std::move(moved)) == status::ok && second.stat(FV_ALLOCATOR_FREED) == 7);
  } // what is left here goes home by the destructors, each to its own pool
  CHECK(lines.close() == status::ok && others.close() == status::ok);
}

fv_buf remembered; // keeps what is forgotten on purpose, so that a leak detector sees other leaks alone

// What is destroyed where there is no allocator is kept, and goes home with the next one.
static void kept() {
  pool lines(region, length, {2});
  buffer a, b, last;
  burst c;
  std::thread([&] {
    allocator mine(lines);
    a = alloc(mine, 100);
    b = alloc(mine, 200);
    last = alloc(mine, 300);
    auto opened = mine.open_burst(4);
    CHECK(opened && mine.fill(*opened, 50, 4) == status::ok);
    c = std::move(*opened);
  }).join();
  { buffer gone = std::move(a); }
  { burst gone = std::move(c); }
  CHECK(lines.kept() == 2);
  std::thread([&] {
    allocator mine(lines);
    CHECK(lines.kept() == 0);
    std::thread([&] { buffer gone = std::move(b); }).join();
    CHECK(lines.kept() == 1 && mine.flush() == status::ok && lines.kept() == 0);
  }).join();
  { buffer gone = std::move(last); }
  CHECK(lines.kept() == 1 && lines.close() == status::ok && lines.kept() == 0);

  pool careless(region, length, {1});
  buffer forgotten;
  {
    allocator mine(careless);
    forgotten = alloc(mine, 512);
  }
  CHECK(careless.close() == status::audit_missing && careless.fault() == 0);
  remembered = forgotten.release();
}

struct queue {
  std::mutex lock;
  std::condition_variable moved;
  std::deque<buffer> buffers;
  bool ended = false;
};

static void across_threads() {
  constexpr std::size_t pairs = 4, count = 20000, depth = 64;
  pool lines(region, 2 * length, {2 * pairs, 8192});
  std::vector<queue> queues(pairs);
  std::vector<std::thread> threads;
  for (queue &q : queues) {
    threads.emplace_back([&lines, &q] {
      allocator mine(lines);
      for (std::size_t i = 0; i < count; i++) {
        buffer b = alloc(mine, 16 + i % 64);
        std::memset(b.data(), static_cast<int>(i & 127), b.size());
        std::unique_lock<std::mutex> held(q.lock);
        q.moved.wait(held, [&q] { return q.buffers.size() < depth; });
        q.buffers.push_back(std::move(b));
        q.moved.notify_all();
      }
      std::lock_guard<std::mutex> held(q.lock);
      q.ended = true;
      q.moved.notify_all();
    });
    threads.emplace_back([&lines, &q] {
      allocator mine(lines);
      // A thread that has ended may have left it, and its counts.
      const auto freed_before = mine.stat(FV_ALLOCATOR_FREED);
      std::size_t i = 0;
      for (;; i++) {
        std::unique_lock<std::mutex> held(q.lock);
        q.moved.wait(held, [&q] { return !q.buffers.empty() || q.ended; });
        if (q.buffers.empty()) break;
        buffer b = std::move(q.buffers.front());
        q.buffers.pop_front();
        q.moved.notify_all();
        held.unlock();
        CHECK(b.size() == 16 + i % 64 && b[0] == (i & 127) && b[b.size() - 1] == (i & 127));
      }
      CHECK(i == count && mine.stat(FV_ALLOCATOR_FREED) == freed_before + count);
    });
  }
  for (std::thread &thread : threads) thread.join();
  CHECK(lines.close() == status::ok);
}

int main() {
  refusals();
  ownership();
  through_c();
  bursts();
  kept();
  across_threads();
  std::printf("front (C++%ld): buffers and bursts go home where they are destroyed: audit 0\n",
              __cplusplus / 100 % 100);
  return 0;
}
