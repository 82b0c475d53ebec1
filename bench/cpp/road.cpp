// The three stages of ../road_bench over malloc: fill, check, release, with bounded queues of blocks under a lock.
//
// `road PACKETS BLOCK` prints BLOCK, how many packets were intact, and the nanoseconds for one.
#include <chrono>
#include <condition_variable>
#include <cstdio>
#include <cstdlib>
#include <cstring>
#include <deque>
#include <mutex>
#include <thread>
#include <vector>

namespace {

constexpr std::size_t SIZE = 512;
constexpr std::size_t WINDOW = 4096;

using Block = std::vector<unsigned char *>;

// A queue of at most so many blocks.
class Queue {
public:
    explicit Queue(std::size_t places) : places(places) {}

    void put(Block block) {
        std::unique_lock<std::mutex> lock(mutex);
        changed.wait(lock, [&] { return blocks.size() < places; });
        blocks.push_back(std::move(block));
        changed.notify_all();
    }

    Block get() {
        std::unique_lock<std::mutex> lock(mutex);
        changed.wait(lock, [&] { return !blocks.empty(); });
        Block block = std::move(blocks.front());
        blocks.pop_front();
        changed.notify_all();
        return block;
    }

private:
    const std::size_t places;
    std::mutex mutex;
    std::condition_variable changed;
    std::deque<Block> blocks;
};

unsigned char byte_of(long packet) { return static_cast<unsigned char>(packet % 251); }

// An empty block is the last one.
void fill(long packets, std::size_t block, Queue &to) {
    for (long packet = 0; packet < packets;) {
        Block full;
        full.reserve(block);
        for (; full.size() < block && packet < packets; packet++) {
            auto *bytes = static_cast<unsigned char *>(std::malloc(SIZE));
            if (bytes == nullptr) std::abort();
            std::memset(bytes, byte_of(packet), SIZE);
            full.push_back(bytes);
        }
        to.put(std::move(full));
    }
    to.put({});
}

long check(Queue &from, Queue &to) {
    long packet = 0, intact = 0;
    for (;;) {
        Block block = from.get();
        const bool last = block.empty();
        for (const unsigned char *bytes : block) {
            unsigned char difference = 0;
            for (std::size_t at = 0; at < SIZE; at++) difference |= bytes[at] ^ byte_of(packet);
            intact += difference == 0;
            packet++;
        }
        to.put(std::move(block));
        if (last) return intact;
    }
}

void release(Queue &from) {
    for (;;) {
        const Block block = from.get();
        if (block.empty()) return;
        for (unsigned char *bytes : block) std::free(bytes);
    }
}

}  // namespace

int main(int count, char **words) {
    if (count != 3) return 2;
    const long packets = std::atol(words[1]);
    const std::size_t block = std::strtoul(words[2], nullptr, 10);
    if (packets < 1 || block < 1 || block > WINDOW) return 2;
    Queue filled(WINDOW / block), checked(WINDOW / block);
    long intact = 0;
    const auto began = std::chrono::steady_clock::now();
    std::thread first([&] { fill(packets, block, filled); });
    std::thread second([&] { intact = check(filled, checked); });
    std::thread third([&] { release(checked); });
    first.join();
    second.join();
    third.join();
    const std::chrono::duration<double, std::nano> took = std::chrono::steady_clock::now() - began;
    std::printf("%zu %ld %.0f\n", block, intact, took.count() / static_cast<double>(packets));
}
