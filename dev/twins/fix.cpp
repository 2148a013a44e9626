// What the figures of FIX are compared with: plain C++ that does what `bench fix` does, on the same bytes. Build and run it
// beside that program, on one quiet machine:
//
//   c++ -O2 -std=c++14 -o /tmp/fix_twin dev/twins/fix.cpp
//   /tmp/fix_twin MESSAGES [parse|report|frame]
//
// It frames and decodes so many copies of the order of the first session, and sums up what was read; it writes as many bodies
// of reports, those of an order's life by turns; and it writes as many whole messages of them, as a session does. With a third
// word it does that part alone. What was read and written goes to standard error, as `bench fix` tells it; where the sum or a
// first body is wrong the status is 2. It leaves nothing out.
#include "fix.h"
#include <chrono>
#include <cstdlib>
#include <string>

constexpr u64 SUM = 20'250'102'093'000 + 1 + 50 + 100 + 3, FIRST_EXEC_ID = 1'234'567, ABC = 0x4142430000000000;
static const char FIRST_BODY[] =
    "37=601234\x01" "17=1234567\x01" "150=0\x01" "39=0\x01" "11=1000000017\x01" "55=ABC\x01" "54=1\x01" "38=2500\x01" "44=10050\x01"
    "151=2500\x01" "14=0\x01" "6=0\x01";

// Another compilation unit could do this: it is called for each message, as the venue calls its own.
__attribute__((noinline)) static bool read_message(const u8 *bytes, u32 have, Frame &f, Command &c) {
    Header h;
    read_frame(bytes, have, f);
    if (f.fault || f.length != have || !read_header(f, h) || h.type != 'D') return false;
    return read_order(f, h, true, c), c.kind == NEW;
}

static u64 read_orders(u32 messages) {
    std::vector<u8> stream(LONGEST + 8);
    Frame f;
    Command c;
    u64 sum = 0;
    for (u32 at = 0; at < messages; at++) {
        memcpy(stream.data(), ORDER, sizeof ORDER - 1); // The framer's buffer, into which bytes come.
        if (!read_message(stream.data(), sizeof ORDER - 1, f, c)) continue;
        u64 length = 8 - __builtin_ctzll(c.symbol) / 8;
        if (c.side == 0 && c.term == 0) sum += c.time + c.name + c.price + c.quantity + length;
    }
    return sum;
}

struct Report { u8 client; Event event; u64 cum, a, b; };
static const Report REPORTS[4] = {{1, ACKNOWLEDGED, 0, 0, 0}, {4, TRADED, 700, 700, 10'050}, {7, TRADED, 2'500, 1'800, 10'050},
                                  {8, CANCELED, 700, 1'000'000'016, 0}};

static std::vector<Order> orders() {
    std::vector<Order> all;
    for (const Report &it : REPORTS)
        all.push_back(Order{601'234, 1'000'000'017, ABC, 10'050, 2'500, it.cum, it.cum * 10'050, it.client, 0, false});
    return all;
}

__attribute__((noinline)) static char *write_body(char *at, u64 exec_id, const Report &report, const Order &order) {
    return put_execution(at, exec_id, report.event, order, report.a, report.b);
}

static u64 write_bodies(u32 messages) {
    std::vector<Order> all = orders();
    char body[2 * LONGEST];
    u64 written = 0;
    for (u32 at = 0; at < messages; at++) written += write_body(body, FIRST_EXEC_ID + at, REPORTS[at % 4], all[at % 4]) - body;
    return written;
}

static u64 write_frames(u32 messages) {
    std::vector<Order> all = orders();
    std::vector<Session> sessions;
    for (const Report &it : REPORTS) sessions.emplace_back(it.client);
    u64 written = 0;
    for (u32 at = 0; at < messages; at++) {
        Session &to = sessions[at % 4];
        to.seal(write_body(to.head('8', 20'250'102'093'000), FIRST_EXEC_ID + at, REPORTS[at % 4], all[at % 4]));
        written += to.end, to.end = 0;
    }
    return written;
}

// The figure of a part, and what it came to.
static u64 measured(const char *name, u32 messages, u64 (*part)(u32)) {
    auto begun = std::chrono::steady_clock::now();
    u64 came = part(messages);
    double micros = std::chrono::duration<double, std::micro>(std::chrono::steady_clock::now() - begun).count();
    return printf("fix.%s.cpp: %.2f Mmsg/s\n", name, messages / micros), came;
}

int main(int count, char **word) {
    u32 messages = count > 1 ? (u32)atoll(word[1]) : 0;
    std::string part = count > 2 ? word[2] : "";
    if (!messages || count > 3) return fprintf(stderr, "usage: fix_twin MESSAGES [parse|report|frame]\n"), 1;
    char body[2 * LONGEST];
    size_t length = write_body(body, FIRST_EXEC_ID, REPORTS[0], orders()[0]) - body;
    bool right = length == sizeof FIRST_BODY - 1 && !memcmp(body, FIRST_BODY, length);
    u64 sum = messages * SUM, bytes = 0;
    if (part.empty() || part == "parse") sum = measured("parse", messages, read_orders);
    if (part.empty() || part == "report") bytes = measured("report", messages, write_bodies);
    if (part.empty() || part == "frame") measured("frame", messages, write_frames);
    if (!right || sum != messages * SUM) return fprintf(stderr, "fix_twin: wrong results\n"), 2;
    fprintf(stderr, "sum %lu, bytes %lu\n", (unsigned long)sum, (unsigned long)bytes);
}
