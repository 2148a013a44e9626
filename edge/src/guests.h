#pragma once

#include <chrono>
#include <cstddef>
#include <cstdint>
#include <vector>

namespace edge {

/// A client at the door that hasn't said who it is yet: from which address, and since when.
struct Waiting {
    std::uint32_t address;
    std::chrono::steady_clock::time_point since;
};

/// Who goes, so that one more client finds room at the door. Each address has a share of the places, and a client that
/// has just come isn't displaced by who comes behind it.
class Guests {
public:
    static constexpr std::size_t MOST = 64, SHARE = 16;

    enum class Way { Free, InPlaceOf, Refused };

    /// Of those that wait, in the order in which they came, and one more from this address.
    Guests(const std::vector<Waiting> &waiting, std::uint32_t address, std::chrono::steady_clock::time_point now);

    Way way() const { return way_; }

    /// Which of those that wait goes, where one does.
    std::size_t place() const { return place_; }

private:
    void takePlaceOf(std::size_t place) {
        way_ = Way::InPlaceOf;
        place_ = place;
    }

    Way way_ = Way::Refused;
    std::size_t place_ = 0;
};

}
