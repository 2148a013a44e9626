// A target of libFuzzer: messages of the venue become messages for a member, whatever is in them. fuzz_tests.py
// compiles and runs it.
#include "told.h"

extern "C" int LLVMFuzzerTestOneInput(const std::uint8_t *data, std::size_t size) {
    static fuzz::Told told;
    const std::string bytes(reinterpret_cast<const char *>(data), size);
    told.take(edge::Fields(bytes.data(), bytes.size(), '\1'));
    told.clear();
    return 0;
}
