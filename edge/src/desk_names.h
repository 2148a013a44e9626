#pragma once

// How the desks of a member are told apart: in lines and words by a name of two parts, and in the member's record by
// what stands in front of a request's name, and by the place of a message.

#include <cstdlib>
#include <cstring>
#include <string>

namespace edge {

/// Desks of a member have these numbers. The first one is the member's own where it has no others.
constexpr int FIRST_DESK = 1, MOST_DESKS = 8;

/// How a desk is called: the first one as the member is, as C1, and others as C1.2.
inline std::string deskName(const std::string &member, int desk) {
    return desk == FIRST_DESK ? member : member + "." + std::to_string(desk);
}

/// Whether a word is the name of a member, or of one of its desks, as C1 or C1.2: which one, or 0 where it names none.
inline bool isDeskOf(const std::string &word, const std::string &member, int &desk) {
    const std::string number = word.size() == member.size() + 2 ? word.substr(member.size() + 1) : "";
    desk = std::atoi(number.c_str());
    if (word == member) return true;
    return !word.compare(0, member.size() + 1, member + ".") && desk >= FIRST_DESK && desk <= MOST_DESKS;
}

/// In front of the names of a further desk in the record. No member can give such a name.
constexpr const char *OF_DESK = "edge-desk-";

/// A name as the record has it: that of a further desk as `edge-desk-2:ORD-7`.
inline std::string keptName(const std::string &name, int desk) {
    return desk == FIRST_DESK ? name : OF_DESK + std::to_string(desk) + ":" + name;
}

/// The desk of a name as the record has it, and the name itself.
inline int deskOfKept(const std::string &kept) {
    const std::size_t front = std::strlen(OF_DESK);
    return kept.compare(0, front, OF_DESK) ? FIRST_DESK : std::atoi(kept.c_str() + front);
}
inline std::string nameOfKept(const std::string &kept) {
    return deskOfKept(kept) == FIRST_DESK ? kept : kept.substr(kept.find(':') + 1);
}

/// So many places among the messages of a record each desk has: more than a session has numbers.
constexpr long PLACES = 10000000000;

/// The place of a desk's message of this number, and the number of a place.
inline long placeOf(int desk, long number) {
    return (desk - FIRST_DESK) * PLACES + number;
}
inline long numberAt(long place) {
    return place % PLACES;
}

}
