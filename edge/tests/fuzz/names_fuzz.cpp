// A target of libFuzzer: the file of names of an edge of before, of any bytes, is taken over or refused in words.
// fuzz_tests.py compiles and runs it.
#include <cstdlib>

#include "memory_file.h"
#include "names.h"
#include "record.h"

extern "C" int LLVMFuzzerTestOneInput(const std::uint8_t *data, std::size_t size) {
    static edge::Record record("fuzz.db", "C1", edge::Before());
    if (!record.database().isOpen()) record.open();
    const edge::Before before{fuzz::pathOf(data, size), "C1.told", "", FIX::SessionID()};
    record.database().run("BEGIN");
    edge::State state;
    try {
        if (!edge::takeOver(before, "C1", record.database(), state)) std::abort();
        const long most = edge::Names::GREATEST + static_cast<long>(size);  // Refused names come behind all others.
        if (state.first < 1 || state.last < state.first - 1 || state.last > most) std::abort();
    } catch (const edge::DatabaseFault &) {}
    record.database().run("ROLLBACK");
    return 0;
}
