// What the book's figures are compared with: a plain C++ book of price levels that is asked the same commands as
// `bench book` asks, and has the same outputs. Build and run it beside that program, on one quiet machine:
//
//   c++ -O2 -std=c++17 -o /tmp/book_twin dev/twins/book.cpp
//   /tmp/book_twin RESTING COMMANDS
//
// Orders lie in an array with a list of free places; each symbol and side has its levels in a sorted array, the best one
// last, and each level a doubly linked list in the order of time. A table with open addressing finds an order by client
// and ClOrdID. It checks what the venue's book checks: names that rise, who asks, symbol and side. As there, commands and
// orders carry a symbol's bytes, which lead to its levels by a look through the table of the eight.
#include "names.h"
#include <algorithm>
#include <chrono>
#include <cstdint>
#include <cstdio>
#include <cstdlib>
#include <cstring>
#include <vector>

using u64 = uint64_t;
using u32 = uint32_t;
using u8 = uint8_t;

enum Kind : u8 { NEW, CANCEL, REPLACE };
enum What : u8 { ACKNOWLEDGED, TRADED, CANCELED, REPLACED, REFUSED };

struct Symbol {
    char bytes[8];
    u8 length;
    bool operator==(const Symbol &other) const { return !memcmp(bytes, other.bytes, 8) && length == other.length; }
};

static const Symbol SYMBOLS[8] = {{"A", 1}, {"BB", 2}, {"CCC", 3}, {"DDDD", 4}, {"EEEEE", 5}, {"F6", 2}, {"G77", 3}, {"H888", 4}};

struct Command {
    Kind kind;
    u8 client, side, is_day;
    Symbol symbol;
    u64 name, orig, price, quantity;
};

struct Order {
    u64 id, name, price, total, cum, notional, stamp;
    Symbol symbol;
    u8 client, side;
};

struct Output {
    u8 to;
    What what;
    u64 cause, last_qty, last_px, orig;
    Order order;
};

constexpr int MOST = 4096;

struct Node { Order order; int prev, next; u8 symbol; };
struct Level { u64 price; int first, last; };

struct Book {
    std::vector<Node> nodes{MOST};
    std::vector<int> free_places;
    std::vector<Level> levels[8][2];
    NameTable<Node> names;
    u64 greatest[9] = {};

    Book() {
        for (int place = MOST; place-- > 0;) free_places.push_back(place);
        for (auto &symbol : levels)
            for (auto &side : symbol) side.reserve(MOST);
    }

    static bool ahead(u8 side, u64 a, u64 b) { return side == 0 ? a > b : a < b; }

    static int index_of(const Symbol &symbol) {
        for (int index = 0; index < 8; index++)
            if (SYMBOLS[index] == symbol) return index;
        return NONE;
    }

    // Where a price's level stands, or would stand: behind it are those ahead of it.
    static int level_at(const std::vector<Level> &all, u8 side, u64 price) {
        return (int)(std::partition_point(all.begin(), all.end(), [&](const Level &l) { return ahead(side, price, l.price); }) - all.begin());
    }

    void rest(const Order &order, u8 symbol) {
        int place = free_places.back();
        free_places.pop_back();
        auto &all = levels[symbol][order.side];
        int at = level_at(all, order.side, order.price);
        if (at == (int)all.size() || all[at].price != order.price) {
            all.insert(all.begin() + at, Level{order.price, place, place});
            nodes[place] = Node{order, NONE, NONE, symbol};
        } else {
            nodes[place] = Node{order, all[at].last, NONE, symbol};
            nodes[all[at].last].next = place;
            all[at].last = place;
        }
        names.put(nodes, place);
    }

    void leave(int place) {
        Node &node = nodes[place];
        names.drop(nodes, place);
        auto &all = levels[node.symbol][node.order.side];
        if (node.prev == NONE || node.next == NONE) {
            int at = level_at(all, node.order.side, node.order.price);
            if (node.prev == NONE && node.next == NONE) all.erase(all.begin() + at);
            else if (node.prev == NONE) all[at].first = node.next;
            else all[at].last = node.prev;
        }
        if (node.prev != NONE) nodes[node.prev].next = node.next;
        if (node.next != NONE) nodes[node.next].prev = node.prev;
        free_places.push_back(place);
    }

    static void say(std::vector<Output> &out, u8 to, What what, u64 cause, const Order &o, u64 qty = 0, u64 px = 0, u64 orig = 0) {
        out.push_back(Output{to, what, cause, qty, px, orig, o});
    }

    void match(Order &order, u8 symbol, u64 sequence, std::vector<Output> &out) {
        auto &other = levels[symbol][1 - order.side];
        while (order.cum < order.total && !other.empty()) {
            Level &best = other.back();
            if (ahead(order.side, best.price, order.price)) return;
            int place = best.first;
            Order &resting = nodes[place].order;
            u64 qty = std::min(order.total - order.cum, resting.total - resting.cum), px = resting.price;
            order.cum += qty, order.notional += qty * px;
            resting.cum += qty, resting.notional += qty * px;
            say(out, order.client, TRADED, sequence, order, qty, px);
            say(out, resting.client, TRADED, sequence, resting, qty, px);
            if (resting.cum == resting.total) leave(place);
        }
    }

    void apply(u64 sequence, const Command &c, std::vector<Output> &out) {
        if (c.kind == NEW) {
            Order order{sequence + 1, c.name, c.price, c.quantity, 0, 0, sequence, c.symbol, c.client, c.side};
            int symbol = index_of(c.symbol);
            if (c.name <= greatest[c.client] || symbol == NONE) return say(out, c.client, REFUSED, sequence, order);
            greatest[c.client] = c.name;
            say(out, c.client, ACKNOWLEDGED, sequence, order);
            match(order, symbol, sequence, out);
            if (order.cum == order.total) return;
            if (c.is_day && !free_places.empty()) rest(order, symbol);
            else say(out, c.client, CANCELED, sequence, order);
            return;
        }
        int place = names.find(nodes, c.client, c.orig);
        if (c.name <= greatest[c.client] || place == NONE || !(nodes[place].order.symbol == c.symbol) || nodes[place].order.side != c.side)
            return say(out, c.client, REFUSED, sequence, Order{});
        greatest[c.client] = c.name;
        Order order = nodes[place].order;
        order.name = c.name;
        if (c.kind == CANCEL) {
            leave(place);
            return say(out, c.client, CANCELED, sequence, order, 0, 0, c.orig);
        }
        bool keeps = c.price == order.price && c.quantity <= order.total;
        order.price = c.price, order.total = c.quantity;
        if (keeps && order.cum < order.total) {
            names.drop(nodes, place);
            nodes[place].order = order;
            names.put(nodes, place);
            return say(out, c.client, REPLACED, sequence, order, 0, 0, c.orig);
        }
        u8 symbol = nodes[place].symbol;
        leave(place);
        order.stamp = sequence;
        say(out, c.client, REPLACED, sequence, order, 0, 0, c.orig);
        match(order, symbol, sequence, out);
        if (order.cum < order.total) rest(order, symbol);
    }
};

// The flow of `bench book`, number by number.
constexpr u64 PLACES = 4096, NO_PLACE = 4095, MIDDLE = 10000, PRICES = 32;
struct Resting { bool is; u8 client, side; Symbol symbol; u64 name; };
static u64 state = 1;
static u64 chance() { return (state = state * 6364136223846793005ull + 1442695040888963407ull) >> 33; }
static u64 resting_price(u8 side, u64 n) { return side == 0 ? MIDDLE - 1 - n % PRICES : MIDDLE + n % PRICES; }
static u64 name_of(u32 turn, u64 place) { return ((u64)turn + 1) * PLACES + place % PLACES; }

static Command choose(const std::vector<Resting> &known, u32 resting, u32 turn, u32 wanted) {
    u64 place = chance() % wanted, kind = chance() % 100;
    const Resting &order = known[place];
    if (order.is && turn >= wanted && kind < 25)
        return {CANCEL, order.client, order.side, 0, order.symbol, name_of(turn, place), order.name, 0, 0};
    if (order.is && turn >= wanted && kind < 40)
        return {REPLACE, order.client, order.side, 1, order.symbol, name_of(turn, place), order.name, resting_price(order.side, chance()), 100};
    u8 symbol = chance() % 8, side = chance() % 2;
    if (resting >= wanted) {
        u64 price = side == 0 ? 2 * MIDDLE : 1;
        u8 client = 1 + chance() % 8;
        return {NEW, client, side, 0, SYMBOLS[symbol], name_of(turn, NO_PLACE), 0, price, 100};
    }
    place = 0;
    while (known[place].is) place++;
    u64 price = resting_price(side, chance());
    u8 client = 1 + chance() % 8;
    return {NEW, client, side, 1, SYMBOLS[symbol], name_of(turn, place), 0, price, 100};
}

int main(int words, char **word) {
    if (words != 3) return fprintf(stderr, "usage: book_twin RESTING COMMANDS\n"), 1;
    u32 wanted = atoi(word[1]), commands = atoi(word[2]), resting = 0;
    std::vector<Command> asked;
    std::vector<Output> out;
    out.reserve(8194);
    std::vector<Resting> known(PLACES);
    Book chooser;
    u64 all = 0, told = 0;
    for (u32 turn = 0; turn < wanted + commands; turn++) {
        asked.push_back(choose(known, resting, turn, wanted));
        out.clear();
        chooser.apply(turn, asked.back(), out);
        all += out.size();
        for (const Output &o : out) {
            u64 place = o.order.name % PLACES;
            if (o.what == REFUSED || place == NO_PLACE || (o.what == TRADED && o.order.cum != o.order.total)) continue;
            Resting &there = known[place];
            bool rests = o.what == ACKNOWLEDGED || o.what == REPLACED;
            resting += rests - there.is;
            there = {rests, o.order.client, o.order.side, o.order.symbol, o.order.name};
        }
    }
    Book book;
    for (u32 turn = 0; turn < wanted; turn++) out.clear(), book.apply(turn, asked[turn], out), told += out.size();
    u64 filled = told;
    auto begun = std::chrono::steady_clock::now();
    for (u32 turn = wanted; turn < wanted + commands; turn++) out.clear(), book.apply(turn, asked[turn], out), told += out.size();
    double seconds = std::chrono::duration<double>(std::chrono::steady_clock::now() - begun).count();
    if (told != all) return fprintf(stderr, "wrong results\n"), 2;
    printf("book.%u.cpp: %.3f Morders/s\n", wanted, commands / seconds / 1e6);
    fprintf(stderr, "%lu outputs\n", (unsigned long)(told - filled));
}
