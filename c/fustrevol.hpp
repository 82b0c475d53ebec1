// fustrevol.hpp: the pool of fustrevol.h for C++17 and later. Header only; no exception is thrown.
//
// For who calls the pool from C++. A pool lends the bytes of one region. Each thread makes an allocator of
// its own; buffers and bursts own what they were lent, and may be destroyed on any thread.
//
//     #include <fustrevol.hpp>
//     #include <cstdio>
//     #include <thread>
//
//     int main() {
//       alignas(16) static unsigned char region[1 << 20];
//       fustrevol::pool pool(region, sizeof region, {2});
//       if (!pool) return 1;
//       fustrevol::buffer line;
//       std::thread([&] {
//         fustrevol::allocator mine(pool);
//         if (auto made = mine.alloc(32)) line = std::move(*made);
//       }).join();
//       std::snprintf(reinterpret_cast<char *>(line.data()), line.size(), "a line of text");
//       std::puts(reinterpret_cast<char *>(line.data()));
//       line = {};     // no allocator on this thread: the pool keeps the buffer, until it is closed
//       std::printf("audit: %s\n", message(pool.close()));
//     }
//
// WHERE A BUFFER GOES. One that is destroyed goes to an allocator of its pool that its thread has. Where
// the thread has none, the pool object keeps it for the next allocator that is made, flushed or asked to
// collect, or for close(). That takes a lock and some bytes from malloc; where malloc refuses them, the
// buffer is lost, and the audit names it.
//
// RULES. A pool outlives its allocators, buffers and bursts. An allocator is used and destroyed on the
// thread that made it. Buffers and bursts go from thread to thread, one thread at a time. The rules of
// fustrevol.h hold beside these.
#ifndef FUSTREVOL_HPP
#define FUSTREVOL_HPP

#include "fustrevol.h"

#include <atomic>
#include <cstddef>
#include <cstdint>
#include <cstdlib>
#include <mutex>
#include <new>
#include <utility>
#if defined(__has_include) && __cplusplus >= 202002L
#if __has_include(<span>)
#include <span>
#define FUSTREVOL_HAS_SPAN 1
#endif
#endif

namespace fustrevol {

enum class status : std::uint32_t {
  ok = FV_OK,
  too_large = FV_TOO_LARGE,
  used_up = FV_USED_UP,
  no_memory = FV_NO_MEMORY,
  holds = FV_HOLDS,
  empty = FV_EMPTY,
  stranger = FV_STRANGER,
  full = FV_FULL,
  bad_argument = FV_BAD_ARGUMENT,
  no_chunk = FV_NO_CHUNK,
  audit_stranger = FV_AUDIT_STRANGER,
  audit_doubled = FV_AUDIT_DOUBLED,
  audit_missing = FV_AUDIT_MISSING,
  audit_no_memory = FV_AUDIT_NO_MEMORY
};

inline const char *message(status s) noexcept { return fv_strerror(static_cast<std::uint32_t>(s)); }

// A value, or why there is none.
template <class T> class [[nodiscard]] result {
public:
  result(status s) noexcept : error_(s) {}
  result(T &&value) noexcept : value_(std::move(value)), error_(status::ok) {}
  explicit operator bool() const noexcept { return error_ == status::ok; }
  status error() const noexcept { return error_; }
  // Where there is none, these are an object that holds nothing.
  T &operator*() &noexcept { return value_; }
  T &&operator*() &&noexcept { return std::move(value_); }
  T *operator->() noexcept { return &value_; }

private:
  T value_;
  status error_;
};

// The bytes of a buffer in a burst.
class bytes {
public:
  bytes() noexcept = default;
  bytes(unsigned char *at, std::size_t len) noexcept : at_(at), len_(len) {}
  unsigned char *data() const noexcept { return at_; }
  std::size_t size() const noexcept { return len_; }
  unsigned char *begin() const noexcept { return at_; }
  unsigned char *end() const noexcept { return at_ + len_; }
  unsigned char &operator[](std::size_t i) const noexcept { return at_[i]; }
#ifdef FUSTREVOL_HAS_SPAN
  std::span<unsigned char> span() const noexcept { return {at_, len_}; }
#endif

private:
  unsigned char *at_ = nullptr;
  std::size_t len_ = 0;
};

class allocator;
class buffer;
class burst;

struct options {
  std::uint32_t allocators = 1; // 1 to 64: how many threads allocate and free at a time
  std::uint64_t limit = 65536;  // bytes that an allocator caches for others
  std::uint32_t bits = 6;       // see fv_pool_open
};

// One region that is lent in buffers. Its calls may be made on several threads at the same time.
class pool {
public:
  pool(void *region, std::size_t size, options chosen = {}) noexcept {
    fv_pool_init(&pool_);
    if (fv_pool_size() > sizeof(fv_pool) || fv_allocator_size() > sizeof(fv_allocator) ||
        fv_buf_size() > sizeof(fv_buf) || fv_burst_size() > sizeof(fv_burst)) {
      opened_ = status::bad_argument; // the library that is linked is not this header's
      return;
    }
    opened_ = static_cast<status>(
        fv_pool_open(&pool_, region, size, chosen.allocators, chosen.bits, chosen.limit));
  }
  pool(const pool &) = delete;
  pool &operator=(const pool &) = delete;
  ~pool() { (void)close(); }

  // Whether it was opened, and why not.
  explicit operator bool() const noexcept { return opened_ == status::ok; }
  status error() const noexcept { return opened_; }

  // Closes the pool: what the audit says, or `full` where an allocator is left, or `empty` where it is
  // closed.
  status close() noexcept {
    std::lock_guard<std::mutex> held(lock_);
    if (kept_.load() > 0) free_kept_at_an_idle_one();
    return static_cast<status>(fv_pool_close(&pool_));
  }

  // 256 * chunk + index of the slot that the last audit named.
  std::uint64_t fault() noexcept { return stat(FV_POOL_FAULT); }
  std::uint64_t idle() noexcept { return stat(FV_POOL_IDLE); }

  // How many buffers and bursts were destroyed where no allocator of this pool was, and wait for one.
  std::size_t kept() const noexcept { return kept_.load(); }

private:
  friend class allocator;
  friend class buffer;
  friend class burst;

  // What was destroyed on a thread without an allocator.
  struct waiting {
    waiting *next;
    fv_buf buf;
    fv_burst burst;
  };

  std::uint64_t stat(std::uint32_t which) noexcept {
    std::lock_guard<std::mutex> held(lock_);
    return fv_pool_stat(&pool_, which);
  }

  status attach(fv_allocator *to) noexcept {
    std::lock_guard<std::mutex> held(lock_);
    return static_cast<status>(fv_pool_attach(&pool_, to));
  }

  void detach(fv_allocator *from) noexcept {
    std::lock_guard<std::mutex> held(lock_);
    (void)fv_pool_detach(&pool_, from);
  }

  // Where malloc refuses, the buffer is lost, and the audit names it.
  void keep(const fv_buf &buf, const fv_burst &burst) noexcept {
    void *room = std::malloc(sizeof(waiting));
    if (room == nullptr) return;
    std::lock_guard<std::mutex> held(lock_);
    first_ = new (room) waiting{first_, buf, burst};
    kept_.fetch_add(1);
  }

  void keep(const fv_buf &buf) noexcept {
    fv_burst none;
    fv_burst_init(&none);
    keep(buf, none);
  }

  void keep(const fv_burst &burst) noexcept {
    fv_buf none;
    fv_buf_init(&none);
    keep(none, burst);
  }

  waiting *take_kept() noexcept {
    std::lock_guard<std::mutex> held(lock_);
    kept_.store(0);
    return std::exchange(first_, nullptr);
  }

  static void free_all(waiting *first, fv_allocator *at) noexcept {
    while (first != nullptr) {
      (void)fv_free(at, &first->buf);
      (void)fv_burst_free(at, &first->burst);
      std::free(std::exchange(first, first->next));
    }
  }

  // What is kept goes home by this allocator.
  void free_kept(fv_allocator *at) noexcept {
    if (kept_.load() > 0) free_all(take_kept(), at);
  }

  // With the lock held. Where all allocators are out, close() is refused anyway.
  void free_kept_at_an_idle_one() noexcept {
    fv_allocator idle;
    fv_allocator_init(&idle);
    if (fv_pool_attach(&pool_, &idle) != FV_OK) return;
    kept_.store(0);
    free_all(std::exchange(first_, nullptr), &idle);
    (void)fv_pool_detach(&pool_, &idle);
  }

  fv_pool pool_;
  std::mutex lock_;
  waiting *first_ = nullptr;
  std::atomic<std::size_t> kept_{0};
  status opened_;
};

// Bytes that this object was lent, or none. It is moved and never copied.
class buffer {
public:
  buffer() noexcept { fv_buf_init(&buf_); }
  buffer(buffer &&from) noexcept
      : buf_(from.buf_), pool_(std::exchange(from.pool_, nullptr)), size_(std::exchange(from.size_, 0)) {
    fv_buf_init(&from.buf_);
  }
  buffer &operator=(buffer &&from) noexcept {
    buffer old(std::move(*this));
    std::swap(buf_, from.buf_);
    std::swap(pool_, from.pool_);
    std::swap(size_, from.size_);
    return *this;
  }
  inline ~buffer();

  explicit operator bool() const noexcept { return pool_ != nullptr; }
  unsigned char *data() const noexcept { return buf_.at; }
  // How many bytes are filled: at first as many as were asked for.
  std::size_t size() const noexcept { return size_; }
  std::size_t capacity() const noexcept { return fv_buf_capacity(&buf_); }
  bool resize(std::size_t size) noexcept {
    if (fv_buf_set_len(&buf_, size) != FV_OK) return false;
    size_ = size;
    return true;
  }
  unsigned char *begin() const noexcept { return data(); }
  unsigned char *end() const noexcept { return data() + size_; }
  unsigned char &operator[](std::size_t i) const noexcept { return data()[i]; }
#ifdef FUSTREVOL_HAS_SPAN
  std::span<unsigned char> span() const noexcept { return {data(), size_}; }
#endif

  // Hands the buffer to C code, its filled length with it; this object holds none then.
  fv_buf release() noexcept {
    (void)fv_buf_set_len(&buf_, size_);
    fv_buf out = buf_;
    fv_buf_init(&buf_);
    pool_ = nullptr;
    size_ = 0;
    return out;
  }
  // Takes a buffer of this pool over from C code.
  static buffer adopt(pool &of, const fv_buf &buf) noexcept { return buffer(of, buf, fv_buf_len(&buf)); }

private:
  friend class allocator;
  friend class burst;
  buffer(pool &of, const fv_buf &buf, std::size_t size) noexcept : buf_(buf), pool_(&of), size_(size) {}

  fv_buf buf_;
  pool *pool_ = nullptr;
  std::size_t size_ = 0;
};

// Buffers of one allocator that are handed over and freed as a whole, or none. It is moved and never
// copied.
class burst {
public:
  burst() noexcept { fv_burst_init(&burst_); }
  burst(burst &&from) noexcept : burst_(from.burst_), pool_(std::exchange(from.pool_, nullptr)) {
    fv_burst_init(&from.burst_);
  }
  burst &operator=(burst &&from) noexcept {
    burst old(std::move(*this));
    std::swap(burst_, from.burst_);
    std::swap(pool_, from.pool_);
    return *this;
  }
  inline ~burst();

  explicit operator bool() const noexcept { return pool_ != nullptr; }
  std::size_t size() const noexcept { return static_cast<std::size_t>(fv_burst_len(&burst_)); }
  // The bytes of a buffer, all of its class; none where there is no such buffer.
  bytes operator[](std::size_t index) const noexcept {
    fv_span span = {nullptr, 0};
    (void)fv_burst_at(&burst_, &span, index);
    return bytes(span.at, span.len);
  }
  // Where it is refused, the buffer stays with the caller.
  status push(buffer &&from) noexcept {
    if (from.pool_ != pool_ && from.pool_ != nullptr) return status::stranger;
    (void)fv_buf_set_len(&from.buf_, from.size_);
    status pushed = static_cast<status>(fv_burst_push(&burst_, &from.buf_));
    if (pushed == status::ok) {
      from.pool_ = nullptr;
      from.size_ = 0;
    }
    return pushed;
  }
  // The last buffer.
  result<buffer> pop() noexcept {
    fv_buf last;
    fv_buf_init(&last);
    status popped = static_cast<status>(fv_burst_pop(&burst_, &last));
    if (popped != status::ok) return popped;
    return buffer(*pool_, last, fv_buf_len(&last));
  }

private:
  friend class allocator;
  fv_burst burst_;
  pool *pool_ = nullptr;
};

// What one thread allocates and frees at. It stays where it was made, on its thread.
class allocator {
public:
  explicit allocator(pool &of) noexcept : pool_(of) {
    fv_allocator_init(&allocator_);
    attached_ = of.attach(&allocator_);
    if (attached_ != status::ok) return;
    next_ = std::exchange(first_here(), this);
    pool_.free_kept(&allocator_);
  }
  allocator(const allocator &) = delete;
  allocator &operator=(const allocator &) = delete;
  ~allocator() {
    if (attached_ != status::ok) return;
    allocator **at = &first_here();
    while (*at != this) at = &(*at)->next_;
    *at = next_;
    pool_.detach(&allocator_);
  }

  // Whether the pool had one left, and why not.
  explicit operator bool() const noexcept { return attached_ == status::ok; }
  status error() const noexcept { return attached_; }

  // A buffer of at least so many bytes, whose size() is `size`.
  result<buffer> alloc(std::size_t size) noexcept {
    fv_buf made;
    fv_buf_init(&made);
    status lent = static_cast<status>(fv_alloc(&allocator_, &made, size));
    if (lent != status::ok) return lent;
    return buffer(pool_, made, size);
  }
  // As the destructor of a buffer, without a look for the allocator. Where it is refused, the caller has it
  // still.
  status free(buffer &&from) noexcept {
    if (from.pool_ != &pool_) return from.pool_ ? status::stranger : status::empty;
    status freed = static_cast<status>(fv_free(&allocator_, &from.buf_));
    if (freed == status::ok) {
      from.pool_ = nullptr;
      from.size_ = 0;
    }
    return freed;
  }
  status free(burst &&from) noexcept {
    if (from.pool_ != &pool_) return from.pool_ ? status::stranger : status::empty;
    status freed = static_cast<status>(fv_burst_free(&allocator_, &from.burst_));
    if (freed == status::ok) from.pool_ = nullptr;
    return freed;
  }

  // An empty burst for this allocator's buffers.
  result<burst> open_burst(std::size_t places) noexcept {
    burst made;
    status opened = static_cast<status>(fv_burst_open(&allocator_, &made.burst_, places));
    if (opened != status::ok) return opened;
    made.pool_ = &pool_;
    return made;
  }
  // Lends `count` buffers more into a burst of this allocator. Where it stops early, size() tells how many
  // there are.
  status fill(burst &into, std::size_t size, std::size_t count) noexcept {
    if (into.pool_ != &pool_) return into.pool_ ? status::stranger : status::empty;
    return static_cast<status>(fv_burst_fill(&allocator_, &into.burst_, size, count));
  }

  // Posts what is cached for others: before this thread waits for another one.
  status flush() noexcept {
    pool_.free_kept(&allocator_);
    return static_cast<status>(fv_flush(&allocator_));
  }
  // Takes what came home, and says whether anything did.
  bool collect() noexcept {
    pool_.free_kept(&allocator_);
    return fv_collect(&allocator_) == FV_OK;
  }
  std::uint64_t stat(fv_allocator_number which) const noexcept {
    return fv_allocator_stat(&allocator_, which);
  }

private:
  friend class buffer;
  friend class burst;

  // The allocators of this thread: a list, of which the last made is the first.
  static allocator *&first_here() noexcept {
    static thread_local allocator *first = nullptr;
    return first;
  }
  static allocator *here(const pool *of) noexcept {
    allocator *at = first_here();
    while (at != nullptr && &at->pool_ != of) at = at->next_;
    return at;
  }

  fv_allocator allocator_;
  pool &pool_;
  allocator *next_ = nullptr;
  status attached_;
};

inline buffer::~buffer() {
  if (pool_ == nullptr) return;
  if (allocator *mine = allocator::here(pool_)) (void)fv_free(&mine->allocator_, &buf_);
  else pool_->keep(buf_);
}

inline burst::~burst() {
  if (pool_ == nullptr) return;
  if (allocator *mine = allocator::here(pool_)) (void)fv_burst_free(&mine->allocator_, &burst_);
  else pool_->keep(burst_);
}

} // namespace fustrevol
#endif
