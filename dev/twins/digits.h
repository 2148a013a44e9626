// What the C++ twins read of digits, some at a time. C++14, little-endian.
#pragma once
#include <cstdint>
#include <cstring>

using u8 = uint8_t;
using u64 = uint64_t;

inline u64 eight(const u8 *bytes) {
    u64 value;
    return memcpy(&value, bytes, 8), value;
}

// The 17 bytes of a time as a number, YYYYMMDDHHMMSS, by both halves of its digits at once: YYYYMMDD, and 00HHMMSS.
inline bool read_clock(const u8 *at, u64 &time) {
    if (at[8] != '-' || at[11] != ':' || at[14] != ':') return false;
    constexpr u64 HIGH = 0xF0F0F0F0F0F0F0F0, ZEROS = 0x3030303030303030;
    u64 clock = eight(at + 9), wrong = 0;
    u64 halves[2] = {eight(at), 0x3030 | (clock & 0xFFFF) << 16 | (clock >> 24 & 0xFFFF) << 32 | clock >> 48 << 48};
    for (u64 &half : halves) {
        wrong |= ((half & HIGH) ^ ZEROS) | (((half + 0x0606060606060606) & HIGH) ^ ZEROS);
        half = (half - ZEROS) * 2561 >> 8 & 0x00FF00FF00FF00FF;
        half = (half * 6553601 >> 16 & 0x0000FFFF0000FFFF) * 42949672960001 >> 32;
    }
    time = halves[0] * 1'000'000 + halves[1];
    return !wrong;
}
