// Threads that lend buffers, each for itself or to hand them over to another.
#pragma once
#include "blocks.hpp"
#include "lenders.hpp"
#include "pace.hpp"
#include "sizes.hpp"
#include <algorithm>
#include <memory>
#include <thread>

constexpr uint32_t FEW = 16;

// what one thread does, from turn to turn; no two share a cache line
template <class Lender, class Packing, class Sizes> struct alignas(128) Worker {
  using Lent = typename Lender::Lent;

  uint64_t number;
  Way<Packing> *to = nullptr;
  Way<Packing> *from = nullptr;
  Lender lender{};
  uint64_t sum = 0;
  std::vector<Turn> turns{};

  uint32_t next_size(Pcg32 &random) {
    uint32_t size = Sizes::next(random);
    sum += size;
    return size;
  }

  // one of a row is freed, and another is lent
  void replace(Pcg32 &random, uint64_t count) {
    Lent row[FEW] = {};
    for (uint64_t i = 0; i < count; i++) {
      Lent &place = row[random.next() % FEW];
      if (place) lender.give(place);
      place = lender.lend(next_size(random));
    }
    for (Lent &place : row)
      if (place) lender.give(place);
  }

  // fills a block and hands it over, where there is an empty one
  bool send(Pcg32 &random) {
    typename Packing::Back back;
    if (!to->back.pop(back)) return false;
    to->full.push(Packing::filled(lender, back, [&] { return next_size(random); }));
    return true;
  }

  // frees a block, where one has come
  bool receive() {
    typename Packing::Block block;
    if (!from->full.pop(block)) return false;
    from->back.push(Packing::give_all(lender, block));
    return true;
  }

  void hand_over(Pcg32 &random, uint64_t count) {
    uint64_t to_send = to ? count / BLOCK : 0;
    uint64_t to_receive = from ? count / BLOCK : 0;
    while (to_send || to_receive) {
      bool sent = to_send && send(random);
      bool received = to_receive && receive();
      to_send -= sent;
      to_receive -= received;
      if (!sent && !received) std::this_thread::yield();
    }
  }

  void run(Pace &pace, uint64_t count, uint64_t many) {
    for (uint64_t turn = 0; turn < many; turn++) {
      before_turn(lender, turn);
      pace.meet(turn);
      auto start = std::chrono::steady_clock::now();
      Pcg32 random(1 + number);
      sum = 0;
      if (to || from) {
        hand_over(random, count);
      } else {
        replace(random, count);
      }
      turns.push_back({start, std::chrono::steady_clock::now()});
    }
  }
};

template <class Lender, class Packing = InBlocks<Lender>, class Sizes = Drawn> class Crew {
  // from this worker to that one
  void join(size_t one, size_t other, size_t window) {
    ways.push_back(std::make_unique<Way<Packing>>(window));
    workers[one].to = ways.back().get();
    workers[other].from = ways.back().get();
  }

  template <class OfTurn> double best(OfTurn of_turn) const {
    double best = 1e18;
    for (size_t turn = 0; turn < workers[0].turns.size(); turn++) best = std::min(best, of_turn(turn));
    return best;
  }

public:
  std::vector<std::unique_ptr<Way<Packing>>> ways{};
  std::vector<Worker<Lender, Packing, Sizes>> workers{};

  // each for itself
  void add(size_t threads) {
    for (size_t number = 0; number < threads; number++) workers.push_back({number});
  }
  // in pairs: the first of each lends, the other frees
  void pair(size_t threads, size_t window) {
    add(threads);
    for (size_t i = 0; i + 1 < threads; i += 2) join(i, i + 1, window);
  }
  // each to the next
  void ring(size_t threads, size_t window) {
    add(threads);
    for (size_t i = 0; i < threads; i++) join(i, (i + 1) % threads, window);
  }

  void run(uint64_t count, uint64_t turns) {
    Pace pace(workers.size());
    std::vector<std::thread> threads;
    for (auto &worker : workers) threads.emplace_back([&, turns] { worker.run(pace, count, turns); });
    for (auto &thread : threads) thread.join();
  }

  // the nanoseconds of the best turn, where one takes as long as its slowest thread
  double of_slowest() const {
    return best([&](size_t turn) {
      double slowest = 0;
      for (auto &worker : workers) slowest = std::max(slowest, worker.turns[turn].nanos());
      return slowest;
    });
  }

  // the same, where one takes from the first thread's start to the last one's end
  double of_all() const {
    return best([&](size_t turn) {
      Turn whole = workers[0].turns[turn];
      for (auto &worker : workers) {
        whole.start = std::min(whole.start, worker.turns[turn].start);
        whole.end = std::max(whole.end, worker.turns[turn].end);
      }
      return whole.nanos();
    });
  }

  uint64_t sum() const {
    uint64_t sum = 0;
    for (auto &worker : workers) sum += worker.sum;
    return sum;
  }
};
