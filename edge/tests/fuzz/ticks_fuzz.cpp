// A target of libFuzzer: a step, a price and a quantity, a line each. What is taken is within the venue's bounds, and a
// price goes to steps and back as it was. fuzz_tests.py compiles and runs it.
#include <cstdlib>
#include <sstream>
#include <stdexcept>

#include "ticks.h"

namespace {

void want(bool isSo) {
    if (!isSo) std::abort();
}

void tryPrice(const std::string &step, const std::string &price) {
    try {
        const edge::Tick tick(step);
        const long steps = tick.stepsOf(price);
        want(steps >= 0 && steps <= edge::MOST);
        for (const long it : {steps, 1L, edge::MOST}) {
            const std::string written = tick.priceOf(it);
            const std::size_t point = written.find('.');
            const std::size_t whole = point == std::string::npos ? written.size() : point;
            want(tick.stepsOf(written) == it || whole > 9);  // A price of more digits is none of a member.
        }
    } catch (const std::invalid_argument &) {}
}

}

extern "C" int LLVMFuzzerTestOneInput(const std::uint8_t *data, std::size_t size) {
    std::istringstream from(std::string(reinterpret_cast<const char *>(data), size));
    std::string step, price, quantity;
    std::getline(from, step) && std::getline(from, price) && std::getline(from, quantity);
    tryPrice(step, price);
    const long whole = edge::wholeQuantity(quantity);
    want(whole >= 0 && whole <= edge::MOST && (!whole || edge::wholeQuantity(std::to_string(whole)) == whole));
    return 0;
}
