#include "resends.h"

#include <quickfix/FixFields.h>

#include <algorithm>

namespace edge {

void Resends::ask(const std::string &message, long first, long last) {
    message_ = message;
    next_ = first;
    last_ = last;
    isCounted_ = false;
}

/// All but the first have number 0, which is below what is ever expected, and so aren't counted: 1 would be counted
/// where the engine's first message is still awaited.
FIX::Message Resends::next(long kept) {
    const long end = std::min(last_, kept > next_ ? kept - 1 : next_ + PIECE - 1);
    FIX::Message piece(message_, false);
    piece.setField(FIX::BeginSeqNo(static_cast<int>(next_)));
    piece.setField(FIX::EndSeqNo(static_cast<int>(end)));
    piece.getHeader().setField(FIX::SendingTime(FIX::UtcTimeStamp(), 3));
    if (isCounted_) piece.getHeader().setField(FIX::MsgSeqNum(0));
    isCounted_ = true;
    next_ = end + 1;
    return piece;
}

}
