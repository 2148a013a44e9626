// What a restart is compared with: plain C++ that reads a journal, does again what its entries ask, and prints the book behind
// them as `venue-replay JOURNAL book SYMBOL...` does. Build and run it beside venued and venue-replay, on one quiet machine:
//
//   c++ -O2 -std=c++14 -o /tmp/restart_twin dev/twins/restart.cpp
//   /tmp/restart_twin JOURNAL book SYMBOL...
//
// It reads versions 1 to 3, frames and decodes each entry, books it, and counts what it tells. It leaves out the snapshots: it
// neither compares nor adds them.
#include "venue.h"

static void print_line(const Order &o) {
    char symbol[9] = {};
    put_symbol(symbol, o.symbol);
    printf("%s %d %lu %lu %lu C%d %lu\n", symbol, o.side + 1, (unsigned long)o.price, (unsigned long)o.left(), (unsigned long)o.id,
           o.client, (unsigned long)o.name);
}

// By symbol, buys before sells, each order ahead of the next.
static void print_book(const Book &book) {
    for (size_t symbol = 0; symbol < book.symbols.size(); symbol++)
        for (const std::vector<Level> &side : book.levels[symbol])
            for (size_t at = side.size(); at-- > 0;)
                for (int place = side[at].first; place != NONE; place = book.nodes[place].next) print_line(book.nodes[place].order);
}

int main(int count, char **word) {
    if (count < 4 || count > 11 || strcmp(word[2], "book"))
        return fprintf(stderr, "usage: restart_twin JOURNAL book SYMBOL...\n"), 1;
    Journal journal;
    Recovered recovered(journal, word[1], symbols_of(word + 3, count - 3));
    print_book(recovered.book);
    printf("commands %lu outputs %lu\n", (unsigned long)recovered.entries, (unsigned long)recovered.told.outputs);
}
