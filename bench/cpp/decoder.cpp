// The program ../../crates/example_decoder over malloc: one thread reads packets into buffers, some decode them in place,
// one counts. They go in blocks of 64, through bounded queues under a lock, and each buffer is freed by the thread that
// counts.
//
// `decoder FILE DECODERS` prints what it counted as JSON: packets, bytes, flows, bytes by protocol, and the bytes of the
// ten flows that have most. It reads Ethernet captures of this machine's byte order, which is what is measured.
#include <algorithm>
#include <array>
#include <condition_variable>
#include <cstdint>
#include <cstdio>
#include <cstdlib>
#include <cstring>
#include <deque>
#include <memory>
#include <mutex>
#include <thread>
#include <unordered_map>
#include <vector>

namespace {

constexpr std::size_t MOST = 512, PACKETS = 64, BOUND = 4, READ_AHEAD = 1 << 16;

enum Protocol { ETHERNET, VLAN, ARP, IPV4, IPV6, FRAGMENT, ICMP, ICMPV6, TCP, UDP, OTHER_NETWORK, OTHER_TRANSPORT, PROTOCOLS };
const char *const NAMES[PROTOCOLS] = {"ethernet", "vlan", "arp", "ipv4", "ipv6", "ip fragment", "icmp", "icmpv6",
                                      "tcp", "udp", "other network", "other transport"};
enum Fault : std::uint8_t { NONE, CUT, SHORT, VERSION, HEADER_LENGTH, LENGTH };

struct Flow {
    std::array<std::uint8_t, 16> source{}, destination{};
    std::uint16_t ports[2] = {0, 0};
    std::uint8_t protocol = 0, version = 0, has_ports = 0, unused = 0;

    bool operator==(const Flow &other) const { return std::memcmp(this, &other, sizeof(Flow)) == 0; }
};

struct FlowHash {
    std::size_t operator()(const Flow &flow) const {
        std::uint64_t words[5], hash = 0;
        std::memcpy(words, &flow, sizeof words);
        for (std::uint64_t word : words) {
            const auto product = static_cast<unsigned __int128>(hash ^ word) * 0x9e3779b97f4a7c15u;
            hash = static_cast<std::uint64_t>(product) ^ static_cast<std::uint64_t>(product >> 64);
        }
        return hash;
    }
};
static_assert(sizeof(Flow) == 40);

// What a decoder leaves in a packet's buffer.
struct Note {
    Flow flow;
    std::uint16_t protocols = 0, kept = 0;
    Fault fault = NONE;
};

struct Entry {
    std::uint32_t size, captured;
};

struct Block {
    std::vector<std::uint8_t *> packets;
    std::vector<Entry> entries;
};

// A queue of at most so many blocks.
class Queue {
public:
    explicit Queue(std::size_t places) : places(places) {}

    void put(Block block) {
        std::unique_lock<std::mutex> lock(mutex);
        changed.wait(lock, [&] { return blocks.size() < places; });
        blocks.push_back(std::move(block));
        changed.notify_all();
    }

    Block get() {
        std::unique_lock<std::mutex> lock(mutex);
        changed.wait(lock, [&] { return !blocks.empty(); });
        Block block = std::move(blocks.front());
        blocks.pop_front();
        changed.notify_all();
        return block;
    }

private:
    const std::size_t places;
    std::mutex mutex;
    std::condition_variable changed;
    std::deque<Block> blocks;
};

// A layer of a packet: of its `size` bytes so many were captured.
struct Layer {
    const std::uint8_t *bytes;
    std::size_t captured, size;

    Fault has(std::size_t count) const { return count <= captured ? NONE : count <= size ? CUT : SHORT; }
    unsigned word(std::size_t at) const { return bytes[at] << 8 | bytes[at + 1]; }
    Layer behind(std::size_t count) const { return {bytes + count, captured - count, size - count}; }
    Layer front(std::size_t count) const { return {bytes, std::min(captured, count), count}; }
};

#define NEED(layer, count) \
    if (const Fault fault = (layer).has(count)) return fault

void add(Note &note, Protocol protocol) { note.protocols |= 1 << protocol; }

void set_ports(Note &note, const Layer &layer) {
    note.flow.has_ports = 1;
    note.flow.ports[0] = layer.word(0);
    note.flow.ports[1] = layer.word(2);
}

Fault carried(Note &note, Layer layer, unsigned offset, bool has_more) {
    if (has_more || offset != 0) add(note, FRAGMENT);
    if (offset != 0) return NONE;
    switch (note.flow.protocol) {
    case 1:
        NEED(layer, 8);
        add(note, ICMP);
        return NONE;
    case 6: {
        NEED(layer, 20);
        const std::size_t header = 4 * (layer.bytes[12] >> 4);
        if (header < 20) return HEADER_LENGTH;
        NEED(layer, header);
        set_ports(note, layer);
        add(note, TCP);
        return NONE;
    }
    case 17: {
        NEED(layer, 8);
        const std::size_t size = layer.word(4);
        if (size < 8 || (!has_more && size > layer.size)) return LENGTH;
        set_ports(note, layer);
        add(note, UDP);
        return NONE;
    }
    case 58:
        NEED(layer, 4);
        add(note, ICMPV6);
        return NONE;
    default:
        add(note, OTHER_TRANSPORT);
        return NONE;
    }
}

Fault ipv4(Note &note, Layer layer) {
    NEED(layer, 20);
    if (layer.bytes[0] >> 4 != 4) return VERSION;
    const std::size_t header = 4 * (layer.bytes[0] & 15);
    if (header < 20) return HEADER_LENGTH;
    NEED(layer, header);
    const std::size_t size = layer.word(2) == 0 ? layer.size : layer.word(2);
    if (size < header || size > layer.size) return LENGTH;
    add(note, IPV4);
    note.flow.version = 4;
    note.flow.protocol = layer.bytes[9];
    std::memcpy(note.flow.source.data(), layer.bytes + 12, 4);
    std::memcpy(note.flow.destination.data(), layer.bytes + 16, 4);
    const unsigned fragment = layer.word(6);
    return carried(note, layer.front(size).behind(header), fragment & 0x1fff, fragment >> 13 & 1);
}

Fault ipv6(Note &note, Layer layer) {
    NEED(layer, 40);
    if (layer.bytes[0] >> 4 != 6) return VERSION;
    const std::size_t size = 40 + layer.word(4);
    if (size > layer.size) return LENGTH;
    add(note, IPV6);
    note.flow.version = 6;
    note.flow.protocol = layer.bytes[6];
    std::memcpy(note.flow.source.data(), layer.bytes + 8, 16);
    std::memcpy(note.flow.destination.data(), layer.bytes + 24, 16);
    Layer payload = layer.front(size).behind(40);
    unsigned offset = 0;
    bool has_more = false;
    for (int count = 0; count < 32 && offset == 0; count++) {
        const unsigned number = note.flow.protocol;
        if (number != 0 && number != 43 && number != 44 && number != 51 && number != 60 && number != 135 && number != 139 && number != 140) break;
        NEED(payload, 8);
        const std::size_t length = number == 44 ? 8 : number == 51 ? 4 * (payload.bytes[1] + 2u) : 8 * (payload.bytes[1] + 1u);
        NEED(payload, length);
        if (number == 44) {
            offset = payload.word(2) >> 3;
            has_more = payload.word(2) & 1;
        }
        note.flow.protocol = payload.bytes[0];
        payload = payload.behind(length);
    }
    return carried(note, payload, offset, has_more);
}

Fault frame(Note &note, Layer packet) {
    NEED(packet, 14);
    add(note, ETHERNET);
    unsigned kind = packet.word(12);
    Layer payload = packet.behind(14);
    for (int count = 0; count < 8 && (kind == 0x8100 || kind == 0x88a8 || kind == 0x9100); count++) {
        NEED(payload, 4);
        add(note, VLAN);
        kind = payload.word(2);
        payload = payload.behind(4);
    }
    switch (kind) {
    case 0x0800:
        return ipv4(note, payload);
    case 0x86dd:
        return ipv6(note, payload);
    case 0x0806:
        NEED(payload, 8);
        NEED(payload, 8 + 2u * payload.bytes[4] + 2u * payload.bytes[5]);
        add(note, ARP);
        return NONE;
    default:
        add(note, OTHER_NETWORK);
        return NONE;
    }
}

// Deals blocks to the decoders in turn; an empty one is the last for each.
void read(std::FILE *file, std::vector<std::unique_ptr<Queue>> &to) {
    std::size_t next = 0;
    Block block;
    std::uint32_t head[4];
    while (std::fread(head, sizeof head, 1, file) == 1) {
        const Entry entry{head[3], head[2]};
        const std::size_t kept = std::min<std::size_t>(entry.captured, MOST);
        auto *packet = static_cast<std::uint8_t *>(std::malloc(std::max(kept, sizeof(Note))));
        if (packet == nullptr || (kept != 0 && std::fread(packet, kept, 1, file) != 1)) std::abort();
        for (std::size_t rest = entry.captured - kept; rest != 0;) {
            std::uint8_t passed[4096];
            const std::size_t count = std::fread(passed, 1, std::min(rest, sizeof passed), file);
            if (count == 0) std::abort();
            rest -= count;
        }
        if (block.packets.empty()) {
            block.packets.reserve(PACKETS);
            block.entries.reserve(PACKETS);
        }
        block.packets.push_back(packet);
        block.entries.push_back(entry);
        if (block.packets.size() == PACKETS) {
            to[next]->put(std::move(block));
            block = Block{};
            next = (next + 1) % to.size();
        }
    }
    if (!block.packets.empty()) to[next]->put(std::move(block));
    for (auto &queue : to) queue->put(Block{});
}

void decode(Queue &from, Queue &to) {
    for (;;) {
        Block block = from.get();
        const bool last = block.packets.empty();
        for (std::size_t place = 0; place < block.packets.size(); place++) {
            const Entry entry = block.entries[place];
            const std::size_t kept = std::min<std::size_t>(entry.captured, MOST);
            Note note;
            note.kept = kept;
            note.fault = frame(note, Layer{block.packets[place], kept, std::max<std::size_t>(entry.size, kept)});
            std::memcpy(block.packets[place], &note, sizeof note);
        }
        to.put(std::move(block));
        if (last) return;
    }
}

struct Count {
    std::uint64_t packets = 0, bytes = 0;

    void add(std::uint64_t more) {
        packets++;
        bytes += more;
    }
};

struct Counts {
    Count all;
    std::uint64_t faults[6] = {}, cut_by_capture = 0, cut_to_buffer = 0;
    std::vector<Count> by_set = std::vector<Count>(1 << PROTOCOLS);
    std::unordered_map<Flow, Count, FlowHash> flows;
};

Counts count(Queue &from, std::size_t decoders) {
    Counts counts;
    for (std::size_t ended = 0; ended < decoders;) {
        const Block block = from.get();
        ended += block.packets.empty();
        for (std::size_t place = 0; place < block.packets.size(); place++) {
            const Entry entry = block.entries[place];
            Note note;
            std::memcpy(&note, block.packets[place], sizeof note);
            counts.all.add(entry.size);
            counts.by_set[note.protocols].add(entry.size);
            if (note.flow.version != 0) counts.flows[note.flow].add(entry.size);
            counts.faults[note.fault]++;
            counts.cut_by_capture += entry.captured < entry.size;
            counts.cut_to_buffer += note.kept < entry.captured;
            std::free(block.packets[place]);
        }
    }
    return counts;
}

void print(const Counts &counts) {
    std::printf("{\"packets\": %lu, \"bytes\": %lu, \"flows\": %zu, \"protocols\": {", counts.all.packets, counts.all.bytes, counts.flows.size());
    const char *between = "";
    for (int protocol = 0; protocol < PROTOCOLS; protocol++) {
        std::uint64_t bytes = 0;
        for (std::size_t set = 0; set < counts.by_set.size(); set++)
            if (set >> protocol & 1) bytes += counts.by_set[set].bytes;
        if (bytes != 0) std::printf("%s\"%s\": %lu", between, NAMES[protocol], bytes), between = ", ";
    }
    std::vector<std::uint64_t> most;
    most.reserve(counts.flows.size());
    for (const auto &[flow, count] : counts.flows) most.push_back(count.bytes);
    std::sort(most.rbegin(), most.rend());
    most.resize(std::min<std::size_t>(most.size(), 10));
    std::printf("}, \"top\": [");
    for (std::size_t place = 0; place < most.size(); place++) std::printf("%s%lu", place ? ", " : "", most[place]);
    std::printf("], \"cut_to_buffer\": %lu}\n", counts.cut_to_buffer);
}

}  // namespace

int main(int words, char **word) {
    if (words != 3) return 2;
    const std::size_t decoders = std::strtoul(word[2], nullptr, 10);
    std::FILE *file = std::fopen(word[1], "rb");
    std::uint32_t header[6];
    if (decoders < 1 || decoders > 62 || file == nullptr) return 2;
    std::setvbuf(file, nullptr, _IOFBF, READ_AHEAD);
    if (std::fread(header, sizeof header, 1, file) != 1 || header[0] != 0xa1b2c3d4 || header[5] != 1) return 1;
    std::vector<std::unique_ptr<Queue>> dealt;
    for (std::size_t decoder = 0; decoder < decoders; decoder++) dealt.push_back(std::make_unique<Queue>(BOUND));
    Queue decoded(BOUND * decoders);
    Counts counts;
    std::vector<std::thread> threads;
    threads.emplace_back([&] { read(file, dealt); });
    for (std::size_t decoder = 0; decoder < decoders; decoder++) threads.emplace_back([&, decoder] { decode(*dealt[decoder], decoded); });
    threads.emplace_back([&] { counts = count(decoded, decoders); });
    for (auto &thread : threads) thread.join();
    print(counts);
}
