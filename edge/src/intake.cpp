#include "intake.h"

#include <algorithm>

namespace edge {

namespace {

// In messages that go on to the venue. An engine at work sends hardly anything else.
constexpr double LOOKED = 10, ANSWERED = 100;

constexpr double PIECES = 50;  // In a second, of who sends more than may be read.

/// A piece of what may come in a second.
double pieceOf(std::size_t most) {
    return std::max(1.0, static_cast<double>(most) / PIECES);
}

double priceOf(Intake::Cost cost) {
    switch (cost) {
        case Intake::Cost::PassedOn: return 1;
        case Intake::Cost::Looked: return LOOKED;
        case Intake::Cost::Answered: break;
    }
    return ANSWERED;
}

}

Intake::Intake(std::size_t messages, std::size_t bytes)
    : messages_(static_cast<double>(messages)),
      bytes_(static_cast<double>(bytes)),
      someMessages_(pieceOf(messages)),
      someBytes_(pieceOf(bytes)) {}

bool Intake::hasRoom() {
    isUsed_ = !messages_.hasRoom(leastOf(someMessages_)) || !bytes_.hasRoom(leastOf(someBytes_));
    return !isUsed_;
}

void Intake::took(std::size_t size, Cost cost) {
    messages_.take(priceOf(cost));
    bytes_.take(static_cast<double>(size));
}

}
