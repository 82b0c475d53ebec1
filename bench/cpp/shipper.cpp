// The log shipper in C++, to be run over any malloc: the same stages, the same bounded queues of blocks, and the same
// bytes of output as `example_shipper` without --match and --level.
//
//     shipper FILE PARSERS
//
// The reader allocates a block for each line, with room for its object, and deals bursts of 64 to the parsers in turn. A
// parser writes the object in place of the line. The writer puts bursts back into order, writes, and frees each block.
#include <condition_variable>
#include <cstdint>
#include <cstdio>
#include <cstdlib>
#include <cstring>
#include <deque>
#include <fcntl.h>
#include <map>
#include <memory>
#include <mutex>
#include <string>
#include <string_view>
#include <thread>
#include <unistd.h>
#include <vector>

using std::string_view;

constexpr size_t BLOCK = 65536, MOST = 1004, BURST = 64, QUEUED = 4, ROOM = 160;

struct Block {
    uint64_t line, piece;
    uint32_t room, len;
    bool is_last, is_object;
    char *text() { return reinterpret_cast<char *>(this + 1); }
};

struct Burst {
    uint64_t number = 0;
    std::vector<Block *> blocks;
};

template <class T> class Queue {
    std::mutex lock;
    std::condition_variable has_some, has_room;
    std::deque<T> items;
    size_t places;
    int senders;

  public:
    Queue(size_t places, int senders) : places(places), senders(senders) {}

    void send(T item) {
        std::unique_lock<std::mutex> held(lock);
        has_room.wait(held, [&] { return items.size() < places; });
        items.push_back(std::move(item));
        has_some.notify_one();
    }

    bool receive(T &item) {
        std::unique_lock<std::mutex> held(lock);
        has_some.wait(held, [&] { return !items.empty() || senders == 0; });
        if (items.empty()) return false;
        item = std::move(items.front());
        items.pop_front();
        has_room.notify_one();
        return true;
    }

    void end() {
        std::unique_lock<std::mutex> held(lock);
        if (--senders == 0) has_some.notify_all();
    }
};

using Bursts = Queue<std::unique_ptr<Burst>>;

[[noreturn]] static void fail(const char *what) {
    perror(what);
    _exit(1);
}

// ---- The reader.

struct Dealer {
    std::vector<std::unique_ptr<Bursts>> &to;
    std::unique_ptr<Burst> burst;
    uint64_t line = 1, piece = 0, number = 0;
    size_t turn = 0;

    void put(const char *bytes, size_t len, bool is_last) {
        size_t room = len + ROOM;
        Block *block = static_cast<Block *>(malloc(sizeof(Block) + room));
        if (!block) fail("malloc");
        *block = {line, piece, uint32_t(room), uint32_t(len), is_last, false};
        memcpy(block->text(), bytes, len);
        if (!burst) {
            burst = std::make_unique<Burst>();
            burst->blocks.reserve(BURST);
        }
        burst->blocks.push_back(block);
        if (is_last) line++, piece = 0;
        else piece++;
        if (burst->blocks.size() == BURST) hand_over();
    }

    void hand_over() {
        if (!burst) return;
        bool ends_line = burst->blocks.back()->is_last;
        burst->number = number++;
        to[turn]->send(std::move(burst));
        if (ends_line) turn = (turn + 1) % to.size();
    }
};

static size_t cut_at(const char *bytes) {
    for (size_t back = 0; back < 4; back++)
        if ((bytes[MOST - back] & 0xC0) != 0x80) return MOST - back;
    return MOST;
}

static void read_all(const char *name, std::vector<std::unique_ptr<Bursts>> &to) {
    int file = open(name, O_RDONLY);
    if (file < 0) fail(name);
    std::vector<char> bytes(BLOCK);
    Dealer dealer{to, nullptr};
    size_t start = 0, end = 0;
    for (bool is_end = false; !is_end;) {
        if (start > 0) memmove(bytes.data(), bytes.data() + start, end - start), end -= start, start = 0;
        ssize_t count = read(file, bytes.data() + end, BLOCK - end);
        if (count < 0) fail(name);
        is_end = count == 0;
        end += size_t(count);
        for (;;) {
            const char *at = bytes.data() + start;
            size_t left = end - start, within = left < MOST + 1 ? left : MOST + 1;
            if (const void *feed = memchr(at, '\n', within)) {
                size_t len = size_t(static_cast<const char *>(feed) - at);
                dealer.put(at, len, true);
                start += len + 1;
            } else if (left > MOST) {
                size_t len = cut_at(at);
                dealer.put(at, len, false);
                start += len;
            } else {
                if (is_end && left > 0) dealer.put(at, left, true), start = end;
                break;
            }
        }
        dealer.hand_over();
    }
    close(file);
    for (auto &queue : to) queue->end();
}

// ---- Heads.

struct Head {
    int priority = -1;
    string_view time, host, app, procid, msgid, data, message;
    bool has_time = false, has_host = false, has_app = false, has_procid = false, has_msgid = false, has_data = false;
};

static bool is_digit(char c) { return c >= '0' && c <= '9'; }

static bool begins_as(string_view text, string_view shape) {
    if (text.size() < shape.size()) return false;
    for (size_t i = 0; i < shape.size(); i++) {
        char c = text[i], want = shape[i];
        bool fits = want == '0' ? is_digit(c) : want == '_' ? c == ' ' || is_digit(c) : c == want;
        if (!fits) return false;
    }
    return true;
}

static bool split_word(string_view text, string_view &word, string_view &rest) {
    const void *space = text.empty() ? nullptr : memchr(text.data(), ' ', text.size());
    if (!space) return false;
    size_t at = size_t(static_cast<const char *>(space) - text.data());
    word = text.substr(0, at), rest = text.substr(at + 1);
    return true;
}

static int read_priority(string_view line, string_view &rest) {
    if (line.empty() || line[0] != '<') return -1;
    size_t end = line.find('>');
    if (end == string_view::npos || end < 2 || end > 4 || (line[1] == '0' && end > 2)) return -1;
    int number = 0;
    for (size_t i = 1; i < end; i++) {
        if (!is_digit(line[i])) return -1;
        number = number * 10 + (line[i] - '0');
    }
    rest = line.substr(end + 1);
    return number < 192 ? number : -1;
}

static bool field(string_view &text, string_view &word, bool &has) {
    string_view rest;
    if (!split_word(text, word, rest) || word.empty()) return false;
    for (char c : word)
        if (c < 33 || c > 126) return false;
    has = word != "-";
    text = rest;
    return true;
}

static size_t elements(string_view text) {
    enum { BETWEEN, INSIDE, VALUE, ESCAPE } place = BETWEEN;
    for (size_t i = 0; i < text.size(); i++) {
        char c = text[i];
        if (place == BETWEEN) {
            if (c != '[') return i;
            place = INSIDE;
        } else if (place == INSIDE) {
            if (c == ']') place = BETWEEN;
            else if (c == '"') place = VALUE;
        } else if (place == VALUE) {
            if (c == '"') place = INSIDE;
            else if (c == '\\') place = ESCAPE;
        } else {
            place = VALUE;
        }
    }
    return place == BETWEEN ? text.size() : 0;
}

static bool read_5424(string_view text, Head &head) {
    if (text.substr(0, 2) != "1 ") return false;
    text.remove_prefix(2);
    if (!field(text, head.time, head.has_time)) return false;
    if (head.has_time && !begins_as(head.time, "0000-00-00T00:00:00")) return false;
    if (!field(text, head.host, head.has_host) || !field(text, head.app, head.has_app)) return false;
    if (!field(text, head.procid, head.has_procid) || !field(text, head.msgid, head.has_msgid)) return false;
    size_t len = !text.empty() && text[0] == '-' ? 1 : elements(text);
    if (len == 0) return false;
    head.data = text.substr(0, len), head.has_data = head.data != "-";
    text.remove_prefix(len);
    if (!text.empty() && text[0] != ' ') return false;
    head.message = text.empty() ? text : text.substr(1);
    return true;
}

static bool is_month(string_view word) {
    static const string_view names = "JanFebMarAprMayJunJulAugSepOctNovDec";
    for (size_t i = 0; i < names.size(); i += 3)
        if (word == names.substr(i, 3)) return true;
    return false;
}

static bool read_tag(string_view text, Head &head) {
    size_t end = text.find_first_of(":[ ");
    if (end == string_view::npos || end == 0 || text[end] == ' ') return false;
    string_view message = text.substr(end + 1);
    if (text[end] == '[') {
        size_t close = message.find_first_of("][ ");
        if (close == string_view::npos || message[close] != ']' || close + 1 >= message.size()) return false;
        char next = message[close + 1];
        if (next != ':' && next != ' ') return false;
        head.procid = message.substr(0, close), head.has_procid = true;
        message = message.substr(next == ':' ? close + 2 : close + 1);
    }
    head.app = text.substr(0, end), head.has_app = true;
    head.message = !message.empty() && message[0] == ' ' ? message.substr(1) : message;
    return true;
}

static bool read_local(string_view text, Head &head) {
    string_view rest;
    if (begins_as(text, "0000-00-00T00:00:00")) {
        if (!split_word(text, head.time, rest)) return false;
    } else {
        if (!(text.size() > 15 && is_month(text.substr(0, 3)) && begins_as(text.substr(3), " _0 00:00:00 "))) return false;
        head.time = text.substr(0, 15), rest = text.substr(16);
    }
    head.has_time = true;
    string_view word, behind;
    if (split_word(rest, word, behind) && !word.empty() && word.back() != ':' && word.back() != ']')
        head.host = word, head.has_host = true, rest = behind;
    if (!read_tag(rest, head)) head.message = rest;
    return true;
}

static Head read_head(string_view line) {
    string_view rest = line;
    int priority = read_priority(line, rest);
    if (priority < 0) rest = line;
    Head head;
    if (priority >= 0 && read_5424(rest, head)) return head.priority = priority, head;
    head = Head();
    if (!read_local(rest, head)) head = Head(), head.message = rest;
    head.priority = priority;
    return head;
}

// ---- Objects.

static bool is_utf8(string_view bytes) {
    const unsigned char *at = reinterpret_cast<const unsigned char *>(bytes.data()), *end = at + bytes.size();
    while (at < end) {
        uint64_t eight;
        if (end - at >= 8 && (memcpy(&eight, at, 8), (eight & 0x8080808080808080u) == 0)) {
            at += 8;
            continue;
        }
        unsigned char c = *at;
        if (c < 0x80) {
            at++;
            continue;
        }
        int more = c >= 0xC2 && c < 0xE0 ? 1 : c >= 0xE0 && c < 0xF0 ? 2 : c >= 0xF0 && c < 0xF5 ? 3 : 0;
        if (more == 0 || end - at <= more) return false;
        if (c == 0xE0 ? at[1] < 0xA0 : c == 0xED ? at[1] > 0x9F : c == 0xF0 ? at[1] < 0x90 : c == 0xF4 && at[1] > 0x8F) return false;
        for (int i = 1; i <= more; i++)
            if ((at[i] & 0xC0) != 0x80) return false;
        at += more + 1;
    }
    return true;
}

static void push_number(std::string &out, uint64_t number) {
    char digits[20];
    int at = 20;
    do digits[--at] = char('0' + number % 10);
    while (number /= 10);
    out.append(digits + at, size_t(20 - at));
}

static void push_text(std::string &out, string_view bytes, bool is_text) {
    static const char hex[] = "0123456789abcdef";
    size_t start = 0;
    for (size_t i = 0; i < bytes.size(); i++) {
        unsigned char c = static_cast<unsigned char>(bytes[i]);
        if (c >= 32 && c != '"' && c != '\\' && (c < 128 || is_text)) continue;
        out.append(bytes.data() + start, i - start);
        start = i + 1;
        char pair[] = {hex[c / 16], hex[c % 16], 0};
        if (c == '"') out += "\\\"";
        else if (c == '\\') out += is_text ? "\\\\" : "\\\\\\\\";
        else if (c == '\n') out += "\\n";
        else if (c == '\r') out += "\\r";
        else if (c == '\t') out += "\\t";
        else out += c < 32 ? "\\u00" : "\\\\x", out += pair;
    }
    out.append(bytes.data() + start, bytes.size() - start);
}

static void push_member(std::string &out, const char *ahead, string_view text, bool has, bool is_text) {
    if (!has) return;
    out += ahead;
    push_text(out, text, is_text);
    out += '"';
}

static void push_object(std::string &out, const Block &block, string_view piece) {
    static const char *const facilities[] = {"kern", "user", "mail", "daemon", "auth", "syslog", "lpr", "news", "uucp", "cron",
        "authpriv", "ftp", "ntp", "audit", "alert", "clock", "local0", "local1", "local2", "local3", "local4", "local5", "local6",
        "local7"};
    static const char *const severities[] = {"emerg", "alert", "crit", "err", "warning", "notice", "info", "debug"};
    Head head;
    if (block.piece == 0) head = read_head(piece);
    else head.message = piece;
    bool is_text = is_utf8(piece);
    out += "{\"line\":";
    push_number(out, block.line);
    if (block.piece != 0 || !block.is_last) {
        out += ",\"piece\":";
        push_number(out, block.piece + 1);
        out += block.is_last ? ",\"last\":true" : ",\"last\":false";
    }
    if (!is_text) out += ",\"escaped\":true";
    if (head.priority >= 0) {
        out += ",\"priority\":";
        push_number(out, uint64_t(head.priority));
        ((out += ",\"facility\":\"") += facilities[head.priority / 8]) += '"';
        ((out += ",\"severity\":\"") += severities[head.priority % 8]) += '"';
    }
    push_member(out, ",\"time\":\"", head.time, head.has_time, is_text);
    push_member(out, ",\"host\":\"", head.host, head.has_host, is_text);
    push_member(out, ",\"app\":\"", head.app, head.has_app, is_text);
    push_member(out, ",\"procid\":\"", head.procid, head.has_procid, is_text);
    push_member(out, ",\"msgid\":\"", head.msgid, head.has_msgid, is_text);
    push_member(out, ",\"data\":\"", head.data, head.has_data, is_text);
    push_member(out, ",\"message\":\"", head.message, true, is_text);
    out += "}\n";
}

static void parse(Bursts &from, Bursts &to) {
    std::string object;
    for (std::unique_ptr<Burst> burst; from.receive(burst);) {
        for (Block *block : burst->blocks) {
            object.clear();
            push_object(object, *block, {block->text(), block->len});
            if (object.size() > block->room) continue;
            memcpy(block->text(), object.data(), object.size());
            block->len = uint32_t(object.size());
            block->is_object = true;
        }
        to.send(std::move(burst));
    }
    to.end();
}

// ---- The writer.

static void write_whole(std::string &text) {
    for (size_t done = 0; done < text.size();) {
        ssize_t count = write(1, text.data() + done, text.size() - done);
        if (count <= 0) fail("write");
        done += size_t(count);
    }
    text.clear();
}

static void write_all(Bursts &from) {
    std::map<uint64_t, std::unique_ptr<Burst>> early;
    std::string text, object;
    text.reserve(BLOCK);
    uint64_t next = 0;
    for (std::unique_ptr<Burst> burst; from.receive(burst);) {
        uint64_t number = burst->number;
        early[number] = std::move(burst);
        for (auto due = early.begin(); due != early.end() && due->first == next; due = early.erase(due), next++) {
            for (Block *block : due->second->blocks) {
                string_view is{block->text(), block->len};
                if (!block->is_object) {
                    object.clear();
                    push_object(object, *block, is);
                    is = object;
                }
                if (text.size() + is.size() > BLOCK) write_whole(text);
                text += is;
                free(block);
            }
        }
    }
    write_whole(text);
}

int main(int count, char **words) {
    int parsers = count == 3 ? atoi(words[2]) : 0;
    if (parsers < 1) return fputs("shipper FILE PARSERS\n", stderr), 2;
    std::vector<std::unique_ptr<Bursts>> queues;
    Bursts out(QUEUED * size_t(parsers), parsers);
    std::vector<std::thread> threads;
    for (int i = 0; i < parsers; i++) queues.push_back(std::make_unique<Bursts>(QUEUED, 1));
    for (auto &queue : queues) threads.emplace_back(parse, std::ref(*queue), std::ref(out));
    threads.emplace_back(read_all, words[1], std::ref(queues));
    write_all(out);
    for (auto &thread : threads) thread.join();
}
