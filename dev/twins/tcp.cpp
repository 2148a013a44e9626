// What the venue that listens is compared with: plain C++ that serves up to eight members over TCP, on the same words, with the
// same answers, and stops by the same file. Build and run it beside venued, on one quiet machine, under one load client:
//
//   c++ -O2 -std=c++14 -pthread -o /tmp/tcp_twin dev/twins/tcp.cpp
//   /tmp/tcp_twin PORT JOURNAL GATEWAYS SYMBOL...
//
// There are no rings. One thread reads what has come from all members, frames and decodes it, books it and writes its reports;
// another keeps the journal, a block with two syncs of all that came while it kept the one before. Meanwhile the orders of the
// block are booked, and their reports wait to be sent until it is kept: then each member gets all of its own by one call. A
// third thread waits for the stop file. It leaves out the lock on the journal, snapshots, and patience with members that take
// nothing: whoever has more than a megabyte to take isn't read meanwhile.
#include "venue.h"
#include <arpa/inet.h>
#include <atomic>
#include <chrono>
#include <netinet/tcp.h>
#include <string>
#include <sys/epoll.h>
#include <sys/socket.h>
#include <thread>

constexpr size_t READ = 1 << 16, MOST_UNSENT = 1 << 20;

static std::atomic<bool> stop{false};

// A thread that finds nothing to do spins, then lets others run, and then sleeps.
static void rest(u64 idle) {
    if (idle <= 6) for (u64 spins = 1ull << idle; spins > 0; spins--) __builtin_ia32_pause();
    else if (idle < 10'000) std::this_thread::yield();
    else std::this_thread::sleep_for(std::chrono::microseconds(50));
}

// The blocks go from one thread to the other: as many were kept as were handed on, or one less.
struct Journaller {
    Journal journal;
    Block filling, keeping;
    std::atomic<u64> handed{0}, kept{0};

    bool is_free() const { return kept.load(std::memory_order_acquire) == handed.load(std::memory_order_relaxed); }

    void hand_on() {
        std::swap(filling, keeping);
        filling.begin(journal.kinds);
        handed.store(handed.load() + 1, std::memory_order_release);
    }

    void run() {
        for (u64 idle = 0; !stop; idle++) {
            if (handed.load(std::memory_order_acquire) == kept.load()) rest(idle);
            else journal.keep(keeping), kept.store(kept.load() + 1, std::memory_order_release), idle = -1;
        }
    }
};

// A member: its port, its connection if it has one, and what was read of it.
struct Member {
    Session session;
    int port = -1, end = -1;
    bool is_closed = false, is_shut = false;
    std::vector<u8> in = std::vector<u8>(READ + LONGEST + 8);
    size_t have = 0, at = 0, safe = 0; // What stands before `safe` may be sent before the block is kept.

    explicit Member(u8 number) : session(number) {}
};

struct Venue {
    Journaller journaller;
    Recovered recovered;
    std::vector<Member> members;
    std::vector<Command> heard; // Of the block that is filled.
    u64 commands, outputs, time = 0;
    int events = epoll_create1(0);

    Venue(const char *path, const std::vector<u64> &symbols) : recovered(journaller.journal, path, symbols) {
        commands = recovered.entries, outputs = recovered.told.outputs;
        journaller.filling.begin(journaller.journal.kinds);
        heard.reserve(MOST_ENTRIES);
    }

    // What the book tells goes to the member's session, if it has one.
    template <class Put> void tell(u8 to, char type, Put put) {
        outputs++;
        if (to > members.size() || !members[to - 1].session.is_open || members[to - 1].session.is_over) return;
        Session &session = members[to - 1].session;
        session.seal(put(session.head(type, time)));
    }
    void execution(Event event, const Order &order, u64 a, u64 b) {
        tell(order.client, '8', [&](char *at) { return put_execution(at, outputs, event, order, a, b); });
    }
    void cancel_reject(const Command &c, const Order *named, u32 reason) {
        tell(c.client, '9', [&](char *at) { return put_cancel_reject(at, c, named, reason); });
    }
    void reject(const Command &c) {
        tell(c.client, '3', [&](char *at) { return put_reject(at, c); });
    }

    bool listen_on(int port, int count) {
        for (int at = 0; at < count; at++) {
            sockaddr_in address = {};
            address.sin_family = AF_INET, address.sin_port = htons((u16)(port + at));
            address.sin_addr.s_addr = htonl(INADDR_LOOPBACK);
            int one = 1, door = socket(AF_INET, SOCK_STREAM | SOCK_NONBLOCK | SOCK_CLOEXEC, 0);
            setsockopt(door, SOL_SOCKET, SO_REUSEADDR, &one, sizeof one);
            if (bind(door, (sockaddr *)&address, sizeof address) || listen(door, 128))
                return fprintf(stderr, "venued: cannot listen on %d\n", port + at), false;
            members.emplace_back((u8)(at + 1));
            members.back().port = door;
        }
        return true;
    }

    void let_in(Member &m) {
        m.end = accept4(m.port, nullptr, nullptr, SOCK_NONBLOCK | SOCK_CLOEXEC);
        if (m.end < 0) return;
        int one = 1;
        setsockopt(m.end, IPPROTO_TCP, TCP_NODELAY, &one, sizeof one);
        epoll_event event = {};
        event.events = EPOLLIN, event.data.u32 = (u32)(&m - members.data());
        epoll_ctl(events, EPOLL_CTL_ADD, m.end, &event);
        m.session.begin();
        m.have = m.at = m.safe = 0, m.is_closed = m.is_shut = false;
    }

    void let_go(Member &m) {
        close(m.end);
        m.end = -1, m.session.is_open = false, m.session.sent = m.session.end = 0;
    }

    void receive(Member &m) {
        if (m.session.end - m.session.sent > MOST_UNSENT) return;
        memmove(m.in.data(), m.in.data() + m.at, m.have - m.at);
        m.have -= m.at, m.at = 0;
        if (m.have >= m.in.size() - 8) return;
        ssize_t count = recv(m.end, m.in.data() + m.have, m.in.size() - 8 - m.have, 0);
        if (count > 0) m.have = m.session.is_over ? 0 : m.have + count;
        else if (count == 0 || errno != EAGAIN) m.is_closed = true;
    }

    // Hears the messages of which all bytes are there. An order goes to the block that is filled.
    bool hear(Member &m) {
        Frame frame;
        Header header;
        bool some = false;
        while (m.at < m.have && !m.session.is_over && journaller.filling.entries < MOST_ENTRIES) {
            read_frame(m.in.data() + m.at, (u32)(m.have - m.at), frame);
            if (frame.length == 0 && !frame.fault) break;
            some = true;
            if (m.session.hear(frame, header)) {
                heard.emplace_back();
                heard.back().client = m.session.member;
                read_order(frame, header, commands + heard.size() - 1 >= journaller.journal.cut, heard.back());
                journaller.filling.add(m.session.member, frame.bytes, frame.length);
            }
            m.at += frame.length;
        }
        return some;
    }

    // Hands the block on to be kept, and does its orders.
    void do_block() {
        journaller.hand_on();
        for (Member &m : members) m.safe = m.session.end;
        for (const Command &command : heard) time = command.time, recovered.book.apply(commands++, command, *this);
        heard.clear();
    }

    // Sends what may be sent. A session that is over, or whose member has closed its side, ends behind the last report.
    bool send_to(Member &m, bool all) {
        Session &s = m.session;
        size_t upto = all ? s.end : m.safe, before = s.sent;
        if (s.sent < upto) {
            ssize_t count = send(m.end, s.out.data() + s.sent, upto - s.sent, MSG_NOSIGNAL);
            if (count > 0) s.sent += count;
            else if (errno != EAGAIN) return let_go(m), true;
        }
        bool some = s.sent > before;
        if (s.sent == s.end) s.sent = s.end = m.safe = 0;
        if (!all || s.end > 0 || journaller.filling.entries > 0) return some;
        if (m.is_closed) let_go(m);
        else if (s.is_over && !m.is_shut) shutdown(m.end, SHUT_WR), m.is_shut = true;
        return some;
    }

    bool turn() {
        epoll_event ready[8];
        bool some = false;
        int count = epoll_wait(events, ready, 8, 0);
        for (int at = 0; at < count; at++) receive(members[ready[at].data.u32]);
        for (Member &m : members) some |= m.end >= 0 && hear(m);
        bool is_free = journaller.is_free();
        for (Member &m : members) some |= m.end >= 0 && send_to(m, is_free);
        if (is_free && journaller.filling.entries > 0) do_block(), some = true;
        return some;
    }

    void run() {
        for (u64 idle = 0, turns = 0; !stop; idle++, turns++) {
            if (idle > 0 || turns % 256 == 0)
                for (Member &m : members)
                    if (m.end < 0) let_in(m);
            if (turn()) idle = -1;
            else rest(idle);
        }
    }

    void say(const char *what) const {
        printf("venued: %s, %lu commands, %lu outputs\n", what, (unsigned long)commands, (unsigned long)outputs);
        fflush(stdout);
    }
};

int main(int count, char **word) {
    int port = count > 1 ? atoi(word[1]) : 0, gateways = count > 3 ? atoi(word[3]) : 0;
    if (count < 5 || count > 12 || port < 1 || port > 65528 || gateways < 1 || gateways > 8)
        return fprintf(stderr, "usage: tcp_twin PORT JOURNAL GATEWAYS SYMBOL...\n"), 1;
    std::string file = std::string(word[2]) + ".stop";
    unlink(file.c_str());
    Venue venue(word[2], symbols_of(word + 4, count - 4));
    if (!venue.listen_on(port, gateways)) return 1;
    venue.say("ready");
    std::thread keeps([&] { venue.journaller.run(); }), trades([&] { venue.run(); });
    while (access(file.c_str(), F_OK)) std::this_thread::sleep_for(std::chrono::milliseconds(5));
    stop = true;
    trades.join(), keeps.join();
    venue.say("stopped");
}
