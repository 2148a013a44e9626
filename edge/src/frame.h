#pragma once

// How a message of FIX 4.4 is framed, for venue_link.h and teller.h.

#include <cstddef>
#include <string>

namespace edge {

/// Puts a message with these fields behind a text: with its BeginString, BodyLength and CheckSum.
inline void frame(const std::string &fields, std::string &to) {
    const std::size_t from = to.size();
    to += "8=FIX.4.4\0019=";
    to += std::to_string(fields.size());
    to += '\1';
    to += fields;
    unsigned sum = 0;
    for (std::size_t at = from; at < to.size(); at++) sum += static_cast<unsigned char>(to[at]);
    const std::string digits = std::to_string(1000 + sum % 256);
    to += "10=";
    to.append(digits, 1, 3);
    to += '\1';
}

}
