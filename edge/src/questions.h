#pragma once

// What a member's questions have in common, which order_status.h, securities.h and own_trades.h answer.

#include <quickfix/Message.h>

#include <initializer_list>
#include <set>
#include <string>

namespace edge {

/// The first field of a message that is neither one of these nor dropped in silence, or 0.
int otherFieldOf(const FIX::Message &message, std::initializer_list<int> used, const std::set<int> &dropped);

/// A BusinessMessageReject of a question, whose name this field has: the reason in FIX's numbers (380), and in words.
FIX::Message questionReject(const FIX::Message &asked, int nameField, int reason, const std::string &why);

// Reasons of 380.
constexpr int OTHER_REASON = 0, NOT_AVAILABLE = 4;

}
