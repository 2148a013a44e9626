// A target of libFuzzer: a settings file of any bytes is read, or refused in words. fuzz_tests.py compiles and runs it.
#include <cstdlib>

#include "memory_file.h"
#include "settings.h"

extern "C" int LLVMFuzzerTestOneInput(const std::uint8_t *data, std::size_t size) {
    try {
        for (const edge::Settings &it : edge::readAll(fuzz::pathOf(data, size)))
            if (it.ticks.size() != it.venue.symbols.size() || it.ticks.empty() || it.member.number < 1) std::abort();
    } catch (const edge::BadSetting &) {}
    return 0;
}
