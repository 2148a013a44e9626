#pragma once

// Small words of the library's messages, for all that writes some.

#include <quickfix/Message.h>

#include <string>

#include "fields.h"

namespace edge {

/// So begins the Text (58) of what the edge itself says.
constexpr const char *SAID_BY_EDGE = "edge: ";

/// A message of this MsgType (35), without anything in it.
inline FIX::Message made(const char *type) {
    FIX::Message it;
    it.getHeader().setField(FIX::FIELD::MsgType, type);
    return it;
}

/// Copies a field where it is there.
inline void copy(const FIX::FieldMap &from, FIX::FieldMap &into, int tag) {
    const std::string text = textOf(from, tag);
    if (!text.empty()) into.setField(tag, text);
}

}
