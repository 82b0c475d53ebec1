// rte_mempool of DPDK: elements of one size in a ring, and a cache for each thread that is registered as an lcore.
#pragma once
#include "blocks.hpp"
#include "lenders.hpp"
#include <cstdio>
#include <rte_eal.h>
#include <rte_errno.h>
#include <rte_lcore.h>
#include <rte_mempool.h>
#include <sched.h>
#include <string>

// of pin.cpp: the next thread that is started goes to the first core
extern "C" __attribute__((weak)) void pin_anew();

// the one pool of the process
class Elements {
  static void must(bool is_done, const char *what) {
    if (is_done) return;
    fprintf(stderr, "the mempool: %s: %s\n", what, rte_strerror(rte_errno));
    abort();
  }

  static size_t first_of(const cpu_set_t &cores) {
    size_t first = 0;
    while (!CPU_ISSET(first, &cores)) first++;
    return first;
  }

  // as a program without huge pages and devices; it pins this thread, and starts one that sleeps
  static void start() {
    cpu_set_t mine;
    must(!sched_getaffinity(0, sizeof mine, &mine), "no cores");
    std::string core = std::to_string(first_of(mine));
    const char *words[] = {"bench", "--no-huge", "--no-pci", "--no-shconf", "--no-telemetry", "--log-level=critical",
                           "-m", "256", "-l", core.c_str()};
    must(rte_eal_init(sizeof words / sizeof *words, const_cast<char **>(words)) >= 0, "rte_eal_init");
    sched_setaffinity(0, sizeof mine, &mine);
    if (pin_anew) pin_anew();
  }

  // a cache keeps half as many again before it gives some back
  static constexpr unsigned CACHE = RTE_MEMPOOL_CACHE_MAX_SIZE;
  static constexpr size_t A_THREADS = CACHE * 3 / 2 + BLOCK;

public:
  static inline rte_mempool *pool = nullptr;

  // Opens the pool with elements for what is under way and what caches keep, so that none is ever wanting. A ring
  // takes the least memory where they are one less than a power of two.
  static void open(size_t size, size_t threads, size_t under_way) {
    start();
    size_t places = 1;
    while (places <= under_way + threads * A_THREADS) places *= 2;
    pool = rte_mempool_create("bench", static_cast<unsigned>(places - 1), static_cast<unsigned>(size), CACHE, 0, nullptr,
                              nullptr, nullptr, nullptr, SOCKET_ID_ANY, 0);
    must(pool, "rte_mempool_create");
  }

  // a thread without this has no cache
  static void enter() { must(!rte_thread_register(), "rte_thread_register"); }
};

struct Mempool {
  using Lent = uint8_t *;

  // not written to
  Lent take(size_t) {
    void *it;
    if (rte_mempool_get(Elements::pool, &it)) abort();
    return static_cast<Lent>(it);
  }
  Lent lend(size_t size) {
    Lent it = take(size);
    touch(it);
    return it;
  }
  void give(Lent it) { rte_mempool_put(Elements::pool, it); }
};

inline void before_turn(Mempool &, uint64_t turn) {
  if (turn == 0) Elements::enter();
}

// All of a block are taken by one call, and given back by one.
class InBulk {
  InBlocks<Mempool> blocks{};

public:
  using Block = InBlocks<Mempool>::Block;
  using Back = Block;

  Back first() { return blocks.first(); }

  template <class Next> static Block filled(Mempool &, Block back, Next next) {
    if (rte_mempool_get_bulk(Elements::pool, reinterpret_cast<void **>(back.places), BLOCK)) abort();
    for (; back.length < BLOCK; back.length++) {
      next();
      touch(back.places[back.length]);
    }
    return back;
  }
  static Back give_all(Mempool &, Block &block) {
    rte_mempool_put_bulk(Elements::pool, reinterpret_cast<void **>(block.places), BLOCK);
    block.length = 0;
    return block;
  }
};
