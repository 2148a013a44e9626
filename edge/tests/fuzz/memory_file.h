#pragma once

// A file that stands in memory, for targets of libFuzzer whose parser opens a path. fuzz_tests.py compiles and runs
// them.

#include <sys/mman.h>
#include <unistd.h>

#include <cstdlib>
#include <string>

namespace fuzz {

/// The path of a file that has these bytes, until the next one is asked for.
inline std::string pathOf(const std::uint8_t *data, std::size_t size) {
    static const int file = ::memfd_create("fuzz", 0);
    if (::ftruncate(file, 0) || ::pwrite(file, data, size, 0) != static_cast<ssize_t>(size)) std::abort();
    return "/proc/self/fd/" + std::to_string(file);
}

}
