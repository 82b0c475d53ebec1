// The atomic steps of a post and a take of LinkInbox, by themselves: one sender, one receiver, one thread.
//
// Prints the nanoseconds of a post and a take, the least of many turns: with each store sequentially consistent, as in
// LinkInbox, so that the processor locks it as it does an exchange, and with each store a release.
#include <algorithm>
#include <atomic>
#include <chrono>
#include <cstdint>
#include <cstdio>
#include <cstdlib>

const uint64_t NODES = 16, FREE = UINT64_MAX, ROUNDS = 1000000;

struct alignas(64) Node {
  std::atomic<uint64_t> next;
  uint64_t batch;
};

static Node nodes[NODES + 1];
static std::atomic<uint64_t> back;

template <std::memory_order STORE> double turn() {
  for (Node &node : nodes) node.next = FREE;
  nodes[0].next = 0;
  back = 0;
  uint64_t front = 0, sum = 0;
  auto start = std::chrono::steady_clock::now();
  for (uint64_t i = 0; i < ROUNDS; i++) {
    uint64_t node = 1 + i % NODES, free = FREE;
    if (!nodes[node].next.compare_exchange_strong(free, 0)) abort();
    nodes[node].batch = i;
    uint64_t before = back.exchange(node);
    nodes[before].next.store(node, STORE);
    uint64_t found = nodes[front].next.load(std::memory_order_acquire);
    if (found == 0) abort();
    sum += nodes[found].batch;
    nodes[front].next.store(FREE, STORE);
    front = found;
  }
  std::chrono::duration<double, std::nano> took = std::chrono::steady_clock::now() - start;
  if (sum != ROUNDS * (ROUNDS - 1) / 2) abort();
  return took.count() / ROUNDS;
}

int main() {
  double locked = 1e9, released = 1e9;
  for (int i = 0; i < 40; i++) {
    locked = std::min(locked, turn<std::memory_order_seq_cst>());
    released = std::min(released, turn<std::memory_order_release>());
  }
  printf("each store sequentially consistent %5.1f\neach store a release               %5.1f\n", locked, released);
}
