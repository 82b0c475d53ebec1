// What a program in C lends from: the library of ../../c. All workers have allocators of one pool.
#pragma once
#include "blocks.hpp"
#include "lenders.hpp"
#include <algorithm>
#include <cstdio>
#include <fustrevol.h>
#include <memory>
#include <sched.h>

// one pool for the whole run, with an allocator for each thread; its audit is looked at in the end
class LibraryPool {
  static constexpr size_t BYTES = FV_MOST_CHUNKS * FV_CHUNK;
  static constexpr uint64_t CACHE = 262144;
  std::unique_ptr<unsigned char[]> region{new unsigned char[BYTES]};
  fv_pool pool;

  static void must(uint32_t answer) {
    if (answer == FV_OK) return;
    fprintf(stderr, "the library: %s\n", fv_strerror(answer));
    abort();
  }

public:
  // this is set before the first thread comes
  static inline uint32_t threads = 4;

  LibraryPool() {
    fv_pool_init(&pool);
    // as fustrevol.h advises
    uint64_t limit = std::min<uint64_t>(CACHE, BYTES / 4 / threads);
    must(fv_pool_open(&pool, region.get(), BYTES, threads, 6, limit));
  }
  ~LibraryPool() { must(fv_pool_close(&pool)); }
  void attach(fv_allocator &allocator) { must(fv_pool_attach(&pool, &allocator)); }
  void detach(fv_allocator &allocator) { must(fv_pool_detach(&pool, &allocator)); }

  static LibraryPool &only() {
    static LibraryPool pool;
    return pool;
  }
};

class Library {
public:
  // what a handle is that holds no buffer
  static fv_buf none() {
    fv_buf buf;
    fv_buf_init(&buf);
    return buf;
  }
  inline static const fv_buf NONE = none();

  struct Lent {
    fv_buf buf = NONE;

    Lent() = default;
    Lent(std::nullptr_t) {}
    explicit operator bool() const { return buf.at != nullptr; }
  };

private:
  // where it lies doesn't change when workers are moved
  std::unique_ptr<fv_allocator> allocator{new fv_allocator};
  uint64_t missed = 0;

  // Where the pool is used up, others may free meanwhile. Who has once waited in vain doesn't wait again.
  template <class Again> __attribute__((noinline, cold)) bool wait(Again again) {
    for (uint64_t tries = missed ? 1 : patience; tries; tries--) {
      fv_flush(get());
      sched_yield();
      if (again()) return true;
    }
    return false;
  }

  bool try_alloc(Lent &lent, size_t size) { return fv_alloc(get(), &lent.buf, size) == FV_OK; }

  // whether a buffer was to be had; where not, the handle holds none
  bool alloc(Lent &lent, size_t size) {
    if (try_alloc(lent, size) || wait([&] { return try_alloc(lent, size); })) return true;
    missed++;
    return false;
  }

public:
  Library() {
    fv_allocator_init(allocator.get());
    LibraryPool::only().attach(*allocator);
  }
  Library(Library &&) = default;
  ~Library() {
    if (allocator) LibraryPool::only().detach(*allocator);
  }

  fv_allocator *get() { return allocator.get(); }

  // how often a thread tries it again where the pool is used up
  static inline uint64_t patience = UINT64_MAX;
  // how many buffers it did without
  uint64_t starved() const { return missed; }
  uint64_t chunks() const { return fv_allocator_stat(allocator.get(), FV_ALLOCATOR_CHUNKS); }

  // not written to
  Lent take(size_t size) {
    Lent lent;
    alloc(lent, size);
    return lent;
  }
  void lend_into(Lent &lent, size_t size) {
    if (alloc(lent, size)) touch(lent.buf.at);
  }
  Lent lend(size_t size) {
    Lent lent;
    lend_into(lent, size);
    return lent;
  }
  // so many of one size by one call
  void fill(fv_burst &burst, size_t size, size_t count) {
    auto is_full = [&] { return fv_burst_fill(get(), &burst, size, count - fv_burst_len(&burst)) == FV_OK; };
    if (fv_burst_fill(get(), &burst, size, count) != FV_OK && !wait(is_full)) missed += count - fv_burst_len(&burst);
  }
  void give(Lent &lent) { fv_free(get(), &lent.buf); }
  void give(Lent &&lent) { fv_free(get(), &lent.buf); }
};

// A program in C fills a handle where it lies. This stands before the one for all lenders.
inline void renew(Library &library, Library::Lent &place, uint32_t size) {
  if (place) library.give(place);
  library.lend_into(place, size);
}

inline fv_burst opened_burst(Library &library) {
  fv_burst burst;
  fv_burst_init(&burst);
  if (fv_burst_open(library.get(), &burst, BLOCK) != FV_OK) abort();
  return burst;
}

// The block that goes is a burst.
struct InBursts {
  using Block = fv_burst;
  struct Back {};

  static Back first() { return {}; }
  template <class Next> static Block filled(Library &lender, Back, Next next) {
    Block burst = opened_burst(lender);
    for (size_t i = 0; i < BLOCK; i++) {
      Library::Lent lent = lender.lend(next());
      if (fv_burst_push(&burst, &lent.buf) != FV_OK) abort();
    }
    return burst;
  }
  static Back give_all(Library &lender, Block &burst) {
    fv_burst_free(lender.get(), &burst);
    return {};
  }
};

// A burst whose buffers are lent by one call, all of one size.
template <uint32_t SIZE> struct InFilledBursts : InBursts {
  template <class Next> static Block filled(Library &lender, Back, Next next) {
    Block burst = opened_burst(lender);
    lender.fill(burst, SIZE, BLOCK);
    for (size_t i = 0; i < BLOCK; i++) {
      next();
      fv_span span = {nullptr, 0};
      if (fv_burst_at(&burst, &span, i) == FV_OK) touch(span.at);
    }
    return burst;
  }
};
