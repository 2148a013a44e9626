// A target of libFuzzer: lines as venue-events prints them, of reports with bars, become a member's open orders and
// messages, the market's last trades and its books, whatever is in them. fuzz_tests.py compiles and runs it.
#include "books.h"
#include "market.h"
#include "replay.h"
#include "told.h"

extern "C" int LLVMFuzzerTestOneInput(const std::uint8_t *data, std::size_t size) {
    static fuzz::Told told;
    static const std::map<std::string, edge::Tick> ticks{{"ABC", edge::Tick("0.25")}};
    static edge::Market market(ticks, {"C2"});
    static edge::Books books(ticks);
    const std::string bytes(reinterpret_cast<const char *>(data), size);
    for (std::size_t at = 0, end; (end = bytes.find('\n', at)) != std::string::npos; at = end + 1) {
        market.take(bytes.data() + at, end - at);
        books.take(bytes.data() + at, end - at);
        fuzz::want(market.lastTradeOf("ABC") >= 0 && market.lastTradeOf("ABC") <= edge::MOST && books.commands() >= 0);
        if (const std::size_t front = edge::reportIn(bytes.data() + at, end - at, "C1"))
            told.take(edge::Fields(bytes.data() + at + front, end - at - front, '|'));
    }
    books.settle();
    for (const char side : {'1', '2'})
        for (const edge::Level &it : books.of("ABC").best(side, 100))
            fuzz::want(it.price > 0 && it.price <= edge::MOST && it.orders > 0 && it.quantity >= 0);
    told.clear();
    market.clear();
    books.clear();
    return 0;
}
