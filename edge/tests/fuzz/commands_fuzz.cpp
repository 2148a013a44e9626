// A target of libFuzzer: what is said at the socket of operators. What is taken for a command is written as it came, and
// is of no symbol but one that may be. fuzz_tests.py compiles and runs it.
#include <cstdint>
#include <cstdlib>
#include <string>

#include "commands.h"
#include "settings.h"

extern "C" int LLVMFuzzerTestOneInput(const std::uint8_t *data, std::size_t size) {
    const std::string line(reinterpret_cast<const char *>(data), size);
    edge::Command it;
    if (!edge::Command::read(line, it)) return 0;
    if (it.words() != line || !(it.symbol.empty() || edge::isSymbol(it.symbol))) std::abort();
    return 0;
}
