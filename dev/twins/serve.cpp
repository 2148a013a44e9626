// What the mode `-` is compared with: plain C++ that serves one session over its standard input and output, on the same words,
// with the same answers and the same journal, byte by byte. Build and run it beside venued, on one quiet machine:
//
//   c++ -O2 -std=c++14 -o /tmp/serve_twin dev/twins/serve.cpp
//   /tmp/serve_twin - JOURNAL 1 SYMBOL... <in >out
//
// It makes the calls that venued makes: it reads up to 16,384 bytes, looks at 512 of them at most once all that came before is
// answered, keeps each order as a block of its own, with two syncs, and writes each report by a call of its own. There are no
// rings and no stages: an order is framed, decoded, kept, booked and told by one thread, and its bytes are walked once. It
// leaves out what no session shows: the lock on the journal, snapshots, and waiting for a client that takes nothing.
#include "venue.h"

constexpr size_t A_LOOK = 512, A_READ = 16384;

// Standard input, read ahead.
struct Input {
    std::vector<u8> bytes = std::vector<u8>(A_READ);
    size_t from = 0, upto = 0;

    // The next bytes, or none at the end.
    size_t next(u8 *to) {
        if (from == upto) {
            ssize_t count = read(0, bytes.data(), A_READ);
            from = 0, upto = count <= 0 ? 0 : count;
        }
        size_t count = std::min(upto - from, A_LOOK);
        memcpy(to, bytes.data() + from, count);
        from += count;
        return count;
    }
};

// The outputs that wait for a turn of the session, as bodies.
struct Queue {
    struct Item { u8 to; char type; u64 time; size_t from, length; };
    std::vector<Item> items;
    std::vector<char> texts = std::vector<char>(1 << 16);
    size_t end = 0, next = 0;
    u64 outputs = 0, time = 0;

    char *room() {
        if (texts.size() - end < LONGEST) texts.resize(2 * texts.size());
        return texts.data() + end;
    }
    void add(u8 to, char type, const char *upto) {
        size_t length = upto - texts.data() - end;
        items.push_back(Item{to, type, time, end, length});
        end += length, outputs++;
    }
    void execution(Event event, const Order &order, u64 a, u64 b) {
        char *at = room();
        add(order.client, '8', put_execution(at, outputs + 1, event, order, a, b));
    }
    void cancel_reject(const Command &c, const Order *named, u32 reason) {
        char *at = room();
        add(c.client, '9', put_cancel_reject(at, c, named, reason));
    }
    void reject(const Command &c) {
        char *at = room();
        add(c.client, '3', put_reject(at, c));
    }
    bool is_empty() const { return next == items.size(); }
    const Item &take() { return items[next++]; }
    void clear() { items.clear(), end = next = 0; }
};

struct Serving {
    Journal journal;
    Block block;
    Recovered recovered;
    Session session;
    Queue queue;
    u64 entries;
    Input input;
    std::vector<u8> in = std::vector<u8>(LONGEST + A_LOOK + 8);
    size_t have = 0, at = 0;
    Frame frame;
    Header header;
    bool is_held = false, is_closed = false;

    Serving(const char *path, const std::vector<u64> &symbols) : recovered(journal, path, symbols) {
        entries = recovered.entries, queue.outputs = recovered.told.outputs;
    }

    bool flush() {
        while (session.sent < session.end) {
            ssize_t count = write(1, session.out.data() + session.sent, session.end - session.sent);
            if (count < 0 && errno != EINTR) return false;
            if (count > 0) session.sent += count;
        }
        session.sent = session.end = 0;
        return true;
    }

    // Looks at the next frame; where there is none, reads, once all reports are written.
    void hear() {
        read_frame(in.data() + at, (u32)(have - at), frame);
        if (frame.length == 0 && !frame.fault) {
            if (!queue.is_empty()) return;
            memmove(in.data(), in.data() + at, have - at);
            have -= at, at = 0;
            size_t count = input.next(in.data() + have);
            is_closed = count == 0, have += count;
            read_frame(in.data(), (u32)have, frame);
            if (frame.length == 0 && !frame.fault) return;
        }
        is_held = session.hear(frame, header);
        if (!is_held) at += frame.length;
    }

    // Keeps and does the order that was heard.
    void carry_out() {
        Command command;
        command.client = 1;
        block.begin(journal.kinds);
        block.add(1, frame.bytes, frame.length);
        journal.keep(block);
        read_order(frame, header, entries >= journal.cut, command);
        if (queue.is_empty()) queue.clear();
        queue.time = header.time;
        recovered.book.apply(entries++, command, queue);
        at += frame.length;
    }

    void run() {
        while (flush() && !session.is_over && !(is_closed && queue.is_empty())) {
            bool is_due = is_held;
            is_held = false;
            if (!is_due) hear();
            if (!session.is_over && !queue.is_empty()) {
                const Queue::Item &it = queue.take();
                if (it.to == session.member) session.say(it.type, it.time, queue.texts.data() + it.from, it.length);
            }
            if (is_due) carry_out();
        }
    }
};

int main(int count, char **word) {
    if (count < 5 || count > 12 || strcmp(word[1], "-") || strcmp(word[3], "1"))
        return fprintf(stderr, "usage: serve_twin - JOURNAL 1 SYMBOL...\n"), 1;
    Serving serving(word[2], symbols_of(word + 4, count - 4));
    serving.run();
}
