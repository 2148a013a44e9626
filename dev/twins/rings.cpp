// What the figures of the rings are compared with: a plain C++ venue that does what `bench stages` does, with the same words
// (docs/RINGS.md) and the same batches. Build and run it beside that program, on one quiet machine of x86-64:
//
//   c++ -O2 -std=c++17 -pthread -o /tmp/rings_twin dev/twins/rings.cpp
//   /tmp/rings_twin COMMANDS GATEWAYS
//
// Each load and store of a word is sequentially consistent. -DPAYLOAD=std::memory_order_relaxed leaves that to the control
// words and the availability words, which is enough in C++, and shows what it costs for all others. Messages are checked as
// the venue checks them. There are day orders and cancels, and no trades: a message with a fault, and a request that the book
// refuses, have no output. Where the outputs that a gateway took aren't those due to it, each byte in order, or it finds
// nothing to do for too long, the status is 2.
#include <algorithm>
#include <atomic>
#include <charconv>
#include <chrono>
#include <cstdint>
#include <cstdio>
#include <cstdlib>
#include <cstring>
#include <memory>
#include <string>
#include <thread>
#include <utility>
#include <vector>
#include "digits.h"

#ifndef PAYLOAD
#define PAYLOAD std::memory_order_seq_cst
#endif

// The table: control words, then the input rows, then the output rows. A row's availability word is its first.
constexpr u64 PROCESSED = 0, CLAIM = 8, UNMARSHALLED = 16, JOURNALLED = 24, MARSHALLED = 32, TAKEN = 32, PUBLISHED = 104;
constexpr u64 ROWS = 1024, INPUT = 128, INPUT_WORDS = 64, RAW = 1, COMMAND = 48;
constexpr u64 OUTPUT = INPUT + INPUT_WORDS * ROWS, OUTPUT_WORDS = 128, TEXT = 64, MOST_BYTES = 320;
alignas(64) static std::atomic<u64> words[OUTPUT + OUTPUT_WORDS * ROWS];

inline u64 row(u64 sequence) { return INPUT + INPUT_WORDS * (sequence % ROWS); }
inline u64 output_row(u64 place) { return OUTPUT + OUTPUT_WORDS * (place % ROWS); }
inline u64 word(u64 at) { return words[at].load(PAYLOAD); }
inline void put_word(u64 at, u64 value) { words[at].store(value, PAYLOAD); }

inline void put_words(u64 at, const u64 *values, u64 count) {
    for (u64 each = 0; each < count; each++) put_word(at + each, values[each]);
}

inline void take_words(u64 at, u64 *values, u64 count) {
    for (u64 each = 0; each < count; each++) values[each] = word(at + each);
}

// Bytes lie eight a word, big-endian, the last word filled up with zeros. Buffers have room for whole words.
inline void put_bytes(u64 at, const u8 *bytes, u64 length) {
    for (const u8 *end = bytes + length; bytes < end; bytes += 8) put_word(at++, __builtin_bswap64(eight(bytes)));
}

inline void take_bytes(u64 at, u8 *bytes, u64 length) {
    for (u8 *end = bytes + length; bytes < end; bytes += 8) {
        u64 value = __builtin_bswap64(word(at++));
        memcpy(bytes, &value, 8);
    }
}

// A command takes 1, 4 or 5 words. In the first stand kind, gateway, side, TimeInForce (0 is a day), quantity and price.
enum Kind : u64 { VOID, NEW, CANCEL };
enum Word { HEAD, TIME, NAME, SYMBOL, ORIG };
struct Command { u64 words[5]; };
inline u64 words_of(u64 head) { return head % 8 == VOID ? 1 : 3 + head % 8; }

// A message's bytes are checked and read in one walk. A reader goes past a value and its SOH, and says whether it was right.
// Behind the last field stands the trailer, so that each of them ends.
constexpr u8 SOH = 1;

inline bool is_digit(u8 byte) { return (u8)(byte - '0') < 10; }

inline bool read_number(const u8 *&at, u64 most, u64 &number) {
    const u8 *from = at, *to = at;
    u64 found = 0;
    while (is_digit(*to) && found <= most) found = found * 10 + (*to++ - '0');
    at = to + 1, number = found;
    return found - 1 < most && *from != '0' && *to == SOH;
}

inline bool read_byte(const u8 *&at, u8 least, u8 most, u64 &place) {
    place = (u8)(*at - least), at += 2;
    return place <= (u8)(most - least) && at[-1] == SOH;
}

inline bool read_symbol(const u8 *&at, u64 &symbol) {
    u64 found = 0, shift = 64;
    for (; shift > 0 && (is_digit(*at) || (u8)(*at - 'A') < 26); at++) found |= (u64)*at << (shift -= 8);
    symbol = found;
    return shift < 64 && *at++ == SOH;
}

inline bool read_time(const u8 *&at, const u8 *end, u64 &time) {
    if (end - at < 18 || at[17] != SOH || !read_clock(at, time)) return false;
    at += 18;
    return true;
}

inline bool read_any(const u8 *&at) {
    const u8 *to = at;
    while (*to != SOH) to++;
    return std::exchange(at, to + 1) < to;
}

template <size_t N> inline bool goes_on(const u8 *&at, const char (&text)[N]) {
    return memcmp(std::exchange(at, at + N - 1), text, N - 1) == 0;
}

// The sum of the bytes, modulo 256, sixteen at a time.
inline u8 sum_of(const u8 *bytes, u64 length) {
    u8 lanes[16] = {}, sum = 0;
    for (; length >= 16; bytes += 16, length -= 16)
        for (int lane = 0; lane < 16; lane++) lanes[lane] += bytes[lane];
    for (; length > 0; length--) sum += *bytes++;
    for (u8 lane : lanes) sum += lane;
    return sum;
}

// The fields behind the header: each that the type requires, once, and no other but TimeInForce (59) of an order.
template <int... TAGS> constexpr u64 SET = ((1ull << TAGS) | ...);

inline bool read_fields(const u8 *at, const u8 *end, Command &c) {
    u64 seen = 0, side = 0, terms = 0, quantity = 0, price = 0, ignored;
    while (at < end) {
        if (!is_digit(at[0]) || !is_digit(at[1]) || at[2] != '=') return false;
        int tag = at[0] * 10 + at[1] - '0' * 11;
        bool right = false;
        at += 3;
        switch (tag) {
        case 11: right = read_number(at, 999'999'999'999'999, c.words[NAME]); break;
        case 38: right = read_number(at, 1'000'000, quantity); break;
        case 40: right = read_byte(at, '2', '2', ignored); break;
        case 41: right = read_number(at, 999'999'999'999'999, c.words[ORIG]); break;
        case 44: right = read_number(at, 1'000'000, price); break;
        case 54: right = read_byte(at, '1', '2', side); break;
        case 55: right = read_symbol(at, c.words[SYMBOL]); break;
        case 59: right = read_byte(at, '0', '4', terms) && terms != 1 && terms != 2; break;
        case 60: right = read_time(at, end, ignored); break;
        }
        if (!right || (seen >> tag & 1)) return false;
        seen |= 1ull << tag;
    }
    if (seen == SET<11, 38, 41, 54, 55, 60>) return c.words[HEAD] |= side << 7, c.words[HEAD] % 8 == CANCEL;
    c.words[HEAD] |= side << 7 | terms << 8 | quantity << 10 | price << 30;
    return (seen & ~SET<59>) == SET<11, 38, 40, 44, 54, 55, 60> && c.words[HEAD] % 8 == NEW;
}

static bool read_message(const u8 *bytes, u64 length, Command &c) {
    const u8 *at = bytes, *tail = bytes + length - 7;
    u64 body, number;
    if (length < 26 || !goes_on(at, "8=FIX.4.4\x01" "9=") || !read_number(at, 297, body)) return false;
    if (body < 5 || at + body != tail || tail[-1] != SOH || memcmp(tail, "10=", 3) || tail[6] != SOH) return false;
    u8 sum = sum_of(bytes, tail - bytes);
    if (tail[3] != '0' + sum / 100 || tail[4] != '0' + sum / 10 % 10 || tail[5] != '0' + sum % 10) return false;
    if (!goes_on(at, "35=") || (*at != 'D' && *at != 'F')) return false;
    c.words[HEAD] |= *at++ == 'D' ? NEW : CANCEL;
    if (!goes_on(at, "\x01" "49=") || !read_any(at) || !goes_on(at, "56=") || !read_any(at)) return false;
    if (!goes_on(at, "34=") || !read_number(at, 999'999'999, number)) return false;
    return goes_on(at, "52=") && read_time(at, tail, c.words[TIME]) && read_fields(at, tail, c);
}

// An output is an execution report. Its body is written with zeros behind it.
enum Event : u64 { ACKNOWLEDGED = 0, CANCELED = 3 };
struct Order { u64 id, client, name, symbol, side, price, total, cum, notional, stamp; };
struct Output { u64 to, cause, time, kind, event, orig, none; Order order; };

// It lies with its place in a box, of which each output row has one in its slot; processor and marshaller have one to exchange.
struct Report { Output output; u64 place; };
using Box = std::unique_ptr<Report>;

static std::vector<Box> boxes() {
    std::vector<Box> made(ROWS);
    for (Box &box : made) box = std::make_unique<Report>();
    return made;
}

static std::vector<Box> slots = boxes();

template <size_t N> inline char *put(char *at, const char (&text)[N]) { return (char *)memcpy(at, text, N - 1) + N - 1; }

template <size_t N> inline char *put(char *at, const char (&tag)[N], u64 number) {
    at = put(at, tag);
    if (number < 10) *at++ = (char)('0' + number);
    else at = std::to_chars(at, at + 20, number).ptr;
    return *at = SOH, at + 1;
}

static u64 body_of(const Output &o, u64 exec_id, u8 *body) {
    const Order &order = o.order;
    char *at = put(put((char *)body, "37=", order.id), "17=", exec_id);
    at = o.event == CANCELED ? put(at, "150=4\x01" "39=4\x01") : put(at, "150=0\x01" "39=0\x01");
    at = put(at, "11=", order.name);
    if (o.event == CANCELED) at = put(at, "41=", o.orig);
    at = put(at, "55=");
    for (u64 symbol = order.symbol; symbol; symbol <<= 8) *at++ = (char)(symbol >> 56);
    at = order.side == 0 ? put(at, "\x01" "54=1\x01") : put(at, "\x01" "54=2\x01");
    at = put(put(at, "38=", order.total), "44=", order.price);
    at = put(put(at, "151=", o.event == CANCELED ? 0 : order.total - order.cum), "14=", order.cum);
    at = put(at, "6=", order.cum ? order.notional / order.cum : 0);
    memset(at, 0, 8);
    return (u8 *)at - body;
}

// The book: its orders by time, of one symbol, and each client's greatest name. It answers how many outputs there are.
struct Book {
    std::vector<Order> orders;
    u64 greatest[9] = {};

    u64 apply(u64 sequence, const Command &c, Output &out) {
        constexpr u64 ABC = 0x4142430000000000, MOST_RESTING = 4096;
        u64 head = c.words[HEAD], client = head >> 3 & 15, side = head >> 7 & 1, name = c.words[NAME], symbol = c.words[SYMBOL], at = 0;
        if (head % 8 == VOID || name <= greatest[client]) return 0;
        if (head % 8 == NEW) {
            u64 terms = head >> 8 & 3, price = head >> 30;
            if (symbol != ABC || terms != 0 || orders.size() == MOST_RESTING) return 0;
            for (const Order &other : orders)
                if (other.symbol == symbol && other.side != side && (side == 0 ? other.price <= price : price <= other.price)) return 0;
            orders.push_back(Order{sequence + 1, client, name, symbol, side, price, head >> 10 & 0xFFFFF, 0, 0, sequence});
            out = Output{client, sequence, c.words[TIME], 0, ACKNOWLEDGED, 0, 0, orders.back()};
        } else {
            while (at < orders.size() && (orders[at].client != client || orders[at].name != c.words[ORIG])) at++;
            if (at == orders.size() || orders[at].symbol != symbol || orders[at].side != side) return 0;
            orders[at].name = name;
            out = Output{client, sequence, c.words[TIME], 0, CANCELED, c.words[ORIG], 0, orders[at]};
            orders.erase(orders.begin() + at);
        }
        greatest[client] = name;
        return 1;
    }
};

// The stages and the gateways. A turn says whether there was something to do.
struct Reader {
    u64 own = 0, known = 0;

    bool has_some() {
        while (known < own + ROWS && words[row(known)].load() == known + 1) known++;
        return known > own;
    }
};

struct alignas(128) Unmarshaller : Reader {
    u8 message[MOST_BYTES];

    bool turn() {
        if (!has_some()) return false;
        for (u64 sequence = own; sequence < known; sequence++) {
            u64 at = row(sequence), head = word(at + RAW), length = head % 65536;
            take_bytes(at + RAW + 1, message, length);
            Command command{{head / 65536 << 3}};
            if (!read_message(message, length, command)) command.words[HEAD] = VOID;
            put_words(at + COMMAND, command.words, words_of(command.words[HEAD]));
        }
        words[UNMARSHALLED].store(own = known);
        return true;
    }
};

// A block is its length, a record of gateway, length and bytes for each message, and the gate of the next block.
struct alignas(128) Journaller : Reader {
    std::vector<u8> block = std::vector<u8>(4 + (3 + MOST_BYTES) * ROWS + 8);

    bool turn() {
        if (!has_some()) return false;
        u8 *at = block.data() + 4;
        for (u64 sequence = own; sequence < known; sequence++) {
            u64 from = row(sequence) + RAW, head = word(from), length = head % 65536;
            at[0] = (u8)(head / 65536), at[1] = (u8)(length / 256), at[2] = (u8)length;
            take_bytes(from + 1, at + 3, length);
            at += 3 + length;
        }
        *at = 0;
        uint32_t length = __builtin_bswap32((uint32_t)(at - block.data() - 4));
        memcpy(block.data(), &length, 4);
        asm volatile("" : : "r"(block.data()) : "memory"); // Here a device would see the block.
        words[JOURNALLED].store(own = known);
        return true;
    }
};

// It does one command, and publishes its output, if it has one, when there is room for it.
struct alignas(128) Processor {
    u64 gateways, own = 0, published = 0, left = 0, taken[9] = {};
    bool is_applied = false;
    Book book;
    Output out;
    Box spare = std::make_unique<Report>();

    // By the values loaded last, or, where these leave no room, by new ones.
    bool has_room(bool loads) {
        u64 least = published;
        for (u64 gateway = 1; gateway <= gateways; gateway++) {
            if (loads) taken[gateway] = words[TAKEN + 8 * gateway].load();
            least = std::min(least, taken[gateway]);
        }
        return published < least + ROWS;
    }

    bool turn() {
        if (!is_applied) {
            u64 unmarshalled = words[UNMARSHALLED].load(), journalled = words[JOURNALLED].load();
            if (std::min(unmarshalled, journalled) == own) return false;
            u64 at = row(own) + COMMAND;
            Command command{{word(at)}};
            take_words(at + 1, command.words + 1, words_of(command.words[HEAD]) - 1);
            left = book.apply(own, command, out), is_applied = true;
        }
        for (; left > 0; left--) {
            if (!has_room(false) && !has_room(true)) return false;
            *spare = Report{out, published};
            put_word(output_row(published), out.to);
            std::swap(slots[published % ROWS], spare);
            words[PUBLISHED].store(++published);
        }
        is_applied = false;
        words[PROCESSED].store(++own);
        return true;
    }
};

// A text is its type (0) and length times 4, SendingTime, and the body.
struct alignas(128) Marshaller {
    u64 own = 0;
    u8 body[MOST_BYTES + 8];
    Box spare = std::make_unique<Report>();

    bool turn() {
        u64 upto = words[PUBLISHED].load();
        if (upto == own) return false;
        for (; own < upto; own++) {
            word(output_row(own));
            std::swap(slots[own % ROWS], spare);
            Output out = spare->output;
            std::swap(slots[own % ROWS], spare);
            word(output_row(own));
            u64 length = body_of(out, own + 1, body), text = output_row(own) + TEXT;
            put_word(text, 4 * length), put_word(text + 1, out.time);
            put_bytes(text + 2, body, length);
        }
        words[MARSHALLED].store(own);
        return true;
    }
};

struct Message { u64 length; u8 bytes[MOST_BYTES]; };

// The text as bytes, with SOH for each |.
static u64 spell(const std::string &text, u8 *bytes) {
    std::replace_copy(text.begin(), text.end(), bytes, '|', (char)SOH);
    return text.size();
}

// What a gateway's outputs come to: all words of their texts, in order.
static u64 mixed(u64 sum, u64 time, const u8 *body, u64 length) {
    constexpr u64 ODD = 0x9E3779B97F4A7C15;
    sum = ((sum ^ length) * ODD ^ time) * ODD;
    for (u64 at = 0; at < length; at += 8) sum = (sum ^ eight(body + at)) * ODD;
    return sum;
}

struct alignas(128) Gateway {
    u64 number, commands;
    const std::vector<Message> &messages;
    std::vector<u64> sequences; // Of the messages that it published.
    u64 taken = 0, processed = 0, answers = 0, sum = 0, idle = 0;
    u8 body[MOST_BYTES];

    bool is_over() const { return taken == commands || idle == 50'000; }

    bool take() {
        if (words[MARSHALLED].load() == taken) return false;
        u64 at = output_row(taken), text = at + TEXT;
        if (word(at) == number) {
            u64 length = word(text) / 4, time = word(text + 1);
            take_bytes(text + 2, body, length);
            sum = mixed(sum, time, body, length), answers++;
        }
        words[TAKEN + 8 * number].store(++taken);
        return true;
    }

    bool publish() {
        if (sequences.size() == messages.size()) return false;
        const Message &message = messages[sequences.size()];
        u64 at = words[CLAIM].load();
        if (at >= processed + ROWS && at >= (processed = words[PROCESSED].load()) + ROWS) return false;
        if (!words[CLAIM].compare_exchange_strong(at, at + 1)) return false;
        put_word(row(at) + RAW, 65536 * number + message.length);
        put_bytes(row(at) + RAW + 1, message.bytes, message.length);
        words[row(at)].store(at + 1);
        sequences.push_back(at);
        return true;
    }

    bool turn() {
        bool worked = take() || publish();
        idle = worked ? 0 : idle + 1;
        return worked;
    }

    // Whether it has what is due to it. OrderID and ExecID follow from the sequences of its messages.
    bool is_right() const {
        u64 due = 0;
        for (u64 k = 0; k < sequences.size(); k++) {
            std::string text = "37=" + std::to_string(sequences[k - k % 2] + 1) + "|17=" + std::to_string(sequences[k] + 1);
            text += (k % 2 ? "|150=4|39=4|11=" : "|150=0|39=0|11=") + std::to_string(k + 1);
            text += (k % 2 ? "|41=" + std::to_string(k) : "") + "|55=ABC|54=1|38=1|44=50|151=" + (k % 2 ? "0" : "1") + "|14=0|6=0|";
            u8 bytes[MOST_BYTES] = {};
            due = mixed(due, 20250102093000, bytes, spell(text, bytes));
        }
        return taken == commands && sequences.size() == messages.size() && answers == messages.size() && sum == due;
    }
};

// A thread that finds nothing to do spins, then lets others run, and then sleeps.
template <class W, class E> static void work(W &worker, E ends) {
    for (u64 idle = 0; !ends(); idle++) {
        if (worker.turn()) idle = -1;
        else if (idle <= 6) for (u64 spins = 1ull << idle; spins > 0; spins--) __builtin_ia32_pause();
        else if (idle < 10'000) std::this_thread::yield();
        else std::this_thread::sleep_for(std::chrono::microseconds(std::clamp<u64>(idle - 10'000, 50, 2'000)));
    }
}

struct Venue {
    Unmarshaller unmarshaller;
    Journaller journaller;
    Processor processor;
    Marshaller marshaller;
    std::vector<Gateway> gateways;

    Venue(u64 commands, const std::vector<std::vector<Message>> &messages) : processor{messages.size()} {
        for (auto &word : words) word = 0;
        for (auto &each : messages) {
            gateways.push_back(Gateway{gateways.size() + 1, commands, each});
            gateways.back().sequences.reserve(each.size());
        }
    }

    void run_on_threads(u64) {
        std::atomic<bool> stop{false};
        std::vector<std::thread> stages, others;
        auto told = [&] { return stop.load(); };
        stages.emplace_back([&] { work(unmarshaller, told); });
        stages.emplace_back([&] { work(journaller, told); });
        stages.emplace_back([&] { work(processor, told); });
        stages.emplace_back([&] { work(marshaller, told); });
        for (Gateway &one : gateways) others.emplace_back([&] { work(one, [&] { return told() || one.is_over(); }); });
        for (std::thread &thread : others) thread.join();
        stop = true;
        for (std::thread &thread : stages) thread.join();
    }

    // One command after another, each of the next gateway. It ends early where one of them finds nothing to do.
    void run_on_one_thread(u64 commands) {
        bool went = true;
        for (u64 command = 0; went && command < commands; command++) {
            went = gateways[command % gateways.size()].turn();
            went = went && unmarshaller.turn() && journaller.turn() && processor.turn() && marshaller.turn();
            for (Gateway &gateway : gateways) went = went && gateway.turn();
        }
    }
};

// The messages of a gateway, so many: orders to buy and their cancels by turns.
static std::vector<Message> messages_of(u64 gateway, u64 count) {
    std::vector<Message> all(count);
    for (u64 k = 0; k < count; k++) {
        std::string time = "20250102-09:30:00|", fields = k % 2 ? "35=F" : "35=D", &f = fields;
        f += "|49=C" + std::to_string(gateway) + "|56=VENUE|34=" + std::to_string(k + 2) + "|52=" + time;
        f += (k % 2 ? "41=" + std::to_string(k) + "|11=" : "11=") + std::to_string(k + 1) + "|55=ABC|54=1|60=" + time + "38=1|";
        f += k % 2 ? "" : "40=2|44=50|";
        u8 *bytes = all[k].bytes;
        u64 end = spell("8=FIX.4.4|9=" + std::to_string(f.size()) + "|" + f, bytes), sum = 0;
        for (u64 at = 0; at < end; at++) sum += bytes[at];
        all[k].length = end + spell("10=" + std::to_string(1000 + sum % 256).substr(1) + "|", bytes + end);
    }
    return all;
}

// How many nanoseconds the task takes.
static u64 time_of(u64 commands, const std::vector<std::vector<Message>> &messages, void (Venue::*run)(u64)) {
    Venue venue(commands, messages);
    auto begun = std::chrono::steady_clock::now();
    (venue.*run)(commands);
    u64 took = std::chrono::nanoseconds(std::chrono::steady_clock::now() - begun).count();
    bool right = venue.processor.own == commands;
    for (const Gateway &gateway : venue.gateways) right = right && gateway.is_right();
    if (!right) exit((fprintf(stderr, "rings_twin: wrong outputs\n"), 2));
    return took;
}

int main(int count, char **word) {
    u64 commands = count == 3 ? atoll(word[1]) : 0, gateways = count == 3 ? atoll(word[2]) : 0;
    if (commands < 1 || commands > 10'000'000 || gateways < 1 || gateways > 8)
        return fprintf(stderr, "usage: rings_twin COMMANDS GATEWAYS\n"), 1;
    std::vector<std::vector<Message>> messages;
    for (u64 number = 1; number <= gateways; number++) messages.push_back(messages_of(number, (commands + gateways - number) / gateways));
    u64 rate = commands * 100'000 / time_of(commands, messages, &Venue::run_on_threads);
    printf("ring.venue.g%lu.joined.cpp: %lu.%02lu Mmsg/s\n", gateways, rate / 100, rate % 100);
    printf("ring.turns.cpp: %lu ns/message\n", time_of(commands, messages, &Venue::run_on_one_thread) / commands);
}
