#include "trades.h"

namespace feed {

bool Trades::take(long number, const Event &event) {
    if (!event.isFill()) return false;
    if (place_.empty()) {
        place_ = event.word(0);
        return false;
    }
    symbol_ = event.field("55");
    text_ = "trade " + std::to_string(number) + " " + place_ + " " + symbol_ + " " + event.field("31") + " " +
            event.field("32") + " " + event.field("54") + " " + event.field("52");
    place_.clear();
    return true;
}

}
