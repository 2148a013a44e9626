// The table by which the books of the C++ twins find an order by its client and its name: the places of nodes, with open
// addressing. Where one leaves, those that had made way for it move up. C++14.
#pragma once
#include <cstdint>
#include <vector>

constexpr int NAMES = 8192, NONE = -1;

// The nodes, which have an order each, are the book's.
template <class Node> class NameTable {
    using Nodes = std::vector<Node>;
    std::vector<int> table = std::vector<int>(NAMES, NONE);

    static uint32_t home(uint8_t client, uint64_t name) {
        return (uint32_t)(((name * 8 + client) * 0x9E3779B97F4A7C15ull) >> 51);
    }

    static uint32_t home_of(const Nodes &nodes, int place) { return home(nodes[place].order.client, nodes[place].order.name); }

public:
    int find(const Nodes &nodes, uint8_t client, uint64_t name) const {
        for (uint32_t at = home(client, name);; at = (at + 1) % NAMES) {
            int place = table[at];
            if (place == NONE || (nodes[place].order.client == client && nodes[place].order.name == name)) return place;
        }
    }

    void put(const Nodes &nodes, int place) {
        uint32_t at = home_of(nodes, place);
        while (table[at] != NONE) at = (at + 1) % NAMES;
        table[at] = place;
    }

    void drop(const Nodes &nodes, int place) {
        uint32_t hole = home_of(nodes, place);
        while (table[hole] != place) hole = (hole + 1) % NAMES;
        for (uint32_t at = (hole + 1) % NAMES; table[at] != NONE; at = (at + 1) % NAMES) {
            uint32_t from = home_of(nodes, table[at]);
            if ((at - from) % NAMES >= (at - hole) % NAMES) table[hole] = table[at], hole = at;
        }
        table[hole] = NONE;
    }
};
