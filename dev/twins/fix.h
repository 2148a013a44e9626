// FIX as the C++ twins of the venue read and write it (docs/PROFILE.md): frames, order messages, reports, and a session. A
// frame's body is walked once, which finds where each field lies; header and orders are read from that. A message with a fault
// is looked at again, slowly, to tell which fault goes before the others. C++14, little-endian.
#pragma once
#include <algorithm>
#include <cstdint>
#include <cstdio>
#include <cstring>
#include <vector>
#include "digits.h"

// An order, for who needs one again and again.
constexpr char ORDER[] =
    "8=FIX.4.4\x01" "9=102\x01" "35=D\x01" "49=C1\x01" "56=VENUE\x01" "34=2\x01" "52=20250102-09:30:00\x01" "11=1\x01" "55=ABC\x01"
    "54=1\x01" "60=20250102-09:30:00\x01" "38=100\x01" "40=2\x01" "44=50\x01" "10=098\x01";

using u16 = uint16_t;
using u32 = uint32_t;

constexpr u8 SOH = 1;
constexpr u32 LONGEST = 320, MOST_FIELDS = 80, MOST_BODY = 297;
constexpr u64 MOST_NAME = 999'999'999'999'999, MOST_UNITS = 1'000'000, MOST_NUMBER = 999'999'999;

// A field of a body: its value is the bytes from `at` up to `end`.
struct Field { u32 tag; u16 at, end; };

// A frame at the front of some bytes: its length is 0 as long as more of them have to come. A fault is the text of the Logout.
struct Frame {
    const u8 *bytes;
    const char *fault;
    u32 length, count;
    Field fields[MOST_FIELDS];
};

// The sum of the bytes, modulo 256.
inline u8 sum_of(const u8 *bytes, u32 length) {
    constexpr u64 EVEN = 0x00FF00FF00FF00FF;
    u64 sums = 0;
    u32 at = 0, sum = 0;
    for (; at + 8 <= length; at += 8) sums += (eight(bytes + at) & EVEN) + (eight(bytes + at) >> 8 & EVEN);
    for (; at < length; at++) sum += bytes[at];
    return (u8)(sum + sums + (sums >> 16) + (sums >> 32) + (sums >> 48));
}

// The next SOH from there on, eight bytes at a time; up to seven behind it are looked at.
inline u32 next_soh(const u8 *bytes, u32 at) {
    constexpr u64 ONES = 0x0101010101010101;
    for (;; at += 8) {
        u64 other = eight(bytes + at) ^ ONES, zeros = (other - ONES) & ~other & ONES << 7;
        if (zeros) return at + __builtin_ctzll(zeros) / 8;
    }
}

// Finds the fields from there up to the end, which is behind a SOH and before a trailer, and says whether they are a run of
// fields. Most tags have two digits.
inline bool find_fields(Frame &f, u32 at, u32 end) {
    const u8 *bytes = f.bytes;
    u32 count = 0;
    while (at < end) {
        u32 first = at, tag = (u8)(bytes[at] - '0'), next = (u8)(bytes[at + 1] - '0');
        if (tag - 1 > 8) return false;
        if (next < 10 && bytes[at + 2] == '=') tag = tag * 10 + next, at += 2;
        else for (u32 digit; (digit = (u8)(bytes[++at] - '0')) < 10;) tag = tag * 10 + digit;
        if (bytes[at] != '=' || at - first > 5 || bytes[++at] == SOH) return false;
        u32 value = at;
        at = next_soh(bytes, at);
        f.fields[count++] = Field{tag, (u16)value, (u16)at++};
    }
    f.count = count;
    return count && f.fields[0].tag == 35;
}

// Looks for a frame at the front of the bytes, `have` in all, as they come: the first fault is told once its byte is there.
inline void read_frame(const u8 *bytes, u32 have, Frame &f) {
    static const char BEGIN[] = "8=FIX.4.4\x01" "9=";
    constexpr u32 LENGTH = sizeof BEGIN - 1;
    f.bytes = bytes, f.fault = nullptr, f.length = 0;
    if (have < LENGTH || memcmp(bytes, BEGIN, LENGTH)) {
        for (u32 at = 0; at < std::min(have, LENGTH); at++)
            if (bytes[at] != (u8)BEGIN[at]) return void(f.fault = at < LENGTH - 2 ? "bad begin" : "bad length");
        return;
    }
    u32 at = LENGTH, body = 0;
    for (;; at++) {
        if (at == have) return;
        u32 digit = (u8)(bytes[at] - '0');
        if (digit > 9 || (at == LENGTH && !digit)) break;
        body = body * 10 + digit;
        if (at == LENGTH + 3 || body > MOST_BODY) return void(f.fault = "too long");
    }
    if (bytes[at] != SOH || body < 5) return void(f.fault = "bad length");
    u32 start = at + 1, end = start + body;
    if (have < end + 7) return;
    f.length = end + 7;
    const u8 *tail = bytes + end;
    if (tail[-1] != SOH || memcmp(tail, "10=", 3)) return void(f.fault = "bad length");
    u8 sum = sum_of(bytes, end);
    if (tail[3] != '0' + sum / 100 || tail[4] != '0' + sum / 10 % 10 || tail[5] != '0' + sum % 10 || tail[6] != SOH)
        f.fault = "bad checksum";
    else if (!find_fields(f, start, end)) f.fault = "bad field";
}

// A number from 1 to the greatest one, or 0 where it is none of these.
inline u64 number_of(const u8 *at, const u8 *end, u64 most) {
    if (*at == '0' || end - at > 16) return 0;
    u64 found = 0;
    for (; at < end; at++) {
        u32 digit = (u8)(*at - '0');
        if (digit > 9) return 0;
        found = found * 10 + digit;
    }
    return found <= most ? found : 0;
}

inline bool read_time(const u8 *at, const u8 *end, u64 &time) { return end - at == 17 && read_clock(at, time); }

// A symbol as a word: its bytes, the first one the greatest, and zeros. 0 is none.
inline u64 symbol_of(const u8 *at, const u8 *end) {
    if (end - at > 8) return 0;
    u64 found = 0;
    for (u32 shift = 64; at < end; at++) {
        if ((u8)(*at - '0') > 9 && (u8)(*at - 'A') > 25) return 0;
        found |= (u64)*at << (shift -= 8);
    }
    return found;
}

// What a frame's header says. The type is 0 where it has more than one byte.
struct Header { u8 type; u64 number, time; };

inline bool read_header(const Frame &f, Header &h) {
    if (f.count < 5) return false;
    const Field *it = f.fields;
    if (it[1].tag != 49 || it[2].tag != 56 || it[3].tag != 34 || it[4].tag != 52) return false;
    h.type = it[0].end - it[0].at == 1 ? f.bytes[it[0].at] : 0;
    h.number = number_of(f.bytes + it[3].at, f.bytes + it[3].end, MOST_NUMBER);
    return h.number && read_time(f.bytes + it[4].at, f.bytes + it[4].end, h.time);
}

enum Kind : u8 { NEW, CANCEL, REPLACE, FAULTY };

// What an order message asks for. A faulty one has the tag and the reason of its Reject.
struct Command {
    Kind kind;
    u8 client, side, term, type; // Side: 0 buys, 1 sells. Term: 0, 3 or 4, as in 59.
    bool is_market;
    u32 tag, reason;
    u64 number, time, name, orig, symbol, price, quantity;
};

template <int... TAGS> struct Set;
template <> struct Set<> { static constexpr u64 value = 0; };
template <int TAG, int... TAGS> struct Set<TAG, TAGS...> { static constexpr u64 value = 1ull << TAG | Set<TAGS...>::value; };

constexpr u64 HEAD_TAGS = Set<8, 9, 10, 35, 49, 56, 34, 52>::value, TERM = Set<59>::value, PRICE = Set<44>::value;
constexpr u64 LIMIT_TAGS = Set<11, 38, 40, 44, 54, 55, 60>::value, CANCEL_TAGS = Set<11, 38, 41, 54, 55, 60>::value;

inline u64 needed_by(u8 type, bool is_market) {
    if (type == 'F') return CANCEL_TAGS;
    return type == 'G' ? LIMIT_TAGS | Set<41>::value : is_market ? LIMIT_TAGS & ~PRICE : LIMIT_TAGS;
}

// Whether the value of this tag has its format, and then whether it is in its range.
inline bool has_format(u32 tag, const u8 *at, const u8 *end) {
    u64 ignored;
    switch (tag) {
    case 11: case 38: case 41: case 44:
        return std::all_of(at, end, [](u8 byte) { return byte >= '0' && byte <= '9'; }) && (*at != '0' || end - at == 1);
    case 40: case 54: case 59: return end - at == 1;
    case 55: return symbol_of(at, end);
    default: return read_time(at, end, ignored);
    }
}

inline bool is_in_range(u32 tag, const u8 *at, const u8 *end, bool is_market) {
    switch (tag) {
    case 11: case 41: return number_of(at, end, MOST_NAME);
    case 38: case 44: return number_of(at, end, MOST_UNITS);
    case 40: return *at == (is_market ? '1' : '2');
    case 54: return *at == '1' || *at == '2';
    case 59: return *at == '0' || *at == '3' || *at == '4';
    default: return true;
    }
}

// Of the faults of an order message that has one: the first reason in their order, and of that the smallest tag.
inline void find_fault(const Frame &f, bool takes_market, Command &c) {
    std::vector<u32> tags = {8, 9, 10};
    u32 types = 0, markets = 0;
    for (const Field *it = f.fields; it < f.fields + f.count; it++) {
        tags.push_back(it->tag);
        if (it->tag == 40) types++, markets += it->end - it->at == 1 && f.bytes[it->at] == '1';
    }
    bool is_market = takes_market && c.type == 'D' && types == 1 && markets == 1;
    u64 needed = needed_by(c.type, is_market), allowed = needed | (c.type == 'F' ? 0 : TERM), given = 0;
    u32 least[5], reasons[] = {13, 2, 1, 6, 5};
    std::fill(least, least + 5, 100'000);
    auto found = [&](u32 place, u32 tag) { least[place] = std::min(least[place], tag); };
    std::sort(tags.begin(), tags.end());
    for (size_t at = 1; at < tags.size(); at++)
        if (tags[at] == tags[at - 1]) found(0, tags[at]);
    for (const Field *it = f.fields; it < f.fields + f.count; it++) {
        const u8 *at = f.bytes + it->at, *end = f.bytes + it->end;
        u64 bit = it->tag < 64 ? 1ull << it->tag : 0;
        if (bit & HEAD_TAGS) continue;
        given |= bit;
        if (!(bit & allowed)) found(1, it->tag);
        else if (!has_format(it->tag, at, end)) found(3, it->tag);
        else if (!is_in_range(it->tag, at, end, is_market)) found(4, it->tag);
    }
    for (u32 tag = 0; tag < 64; tag++)
        if (needed & ~given & 1ull << tag) found(2, tag);
    u32 place = 0;
    while (least[place] == 100'000) place++;
    c.kind = FAULTY, c.tag = least[place], c.reason = reasons[place];
}

// Reads the order fields of a frame whose type is D, F or G.
inline void read_order(const Frame &f, const Header &h, bool takes_market, Command &c) {
    c.type = h.type, c.number = h.number, c.time = h.time;
    c.kind = h.type == 'D' ? NEW : h.type == 'F' ? CANCEL : REPLACE;
    c.term = 0, c.is_market = false;
    u64 seen = 0, ignored;
    bool right = true;
    for (const Field *it = f.fields + 5, *last = f.fields + f.count; right && it < last; it++) {
        const u8 *at = f.bytes + it->at, *end = f.bytes + it->end;
        u64 bit = it->tag < 64 ? 1ull << it->tag : 0;
        u8 one = end - at == 1 ? *at : 0;
        right = !(seen & bit);
        seen |= bit;
        switch (it->tag) {
        case 11: right &= (c.name = number_of(at, end, MOST_NAME)) != 0; break;
        case 38: right &= (c.quantity = number_of(at, end, MOST_UNITS)) != 0; break;
        case 40: c.is_market = one == '1', right &= one == '2' || (one == '1' && takes_market && c.type == 'D'); break;
        case 41: right &= (c.orig = number_of(at, end, MOST_NAME)) != 0; break;
        case 44: right &= (c.price = number_of(at, end, MOST_UNITS)) != 0; break;
        case 54: c.side = one - '1', right &= c.side < 2; break;
        case 55: right &= (c.symbol = symbol_of(at, end)) != 0; break;
        case 59: c.term = one - '0', right &= c.term == 0 || c.term == 3 || c.term == 4; break;
        case 60: right &= read_time(at, end, ignored); break;
        default: right = false;
        }
    }
    u64 needed = needed_by(c.type, c.is_market);
    if (!right || (seen & ~(c.type == 'F' ? 0 : TERM)) != needed) find_fault(f, takes_market, c);
}

// What is put goes to `at`, and the place behind it is answered.
template <size_t N> inline char *put(char *at, const char (&text)[N]) { return (char *)memcpy(at, text, N - 1) + N - 1; }

inline char *put_two(char *at, u32 number) {
    static const char TWO[] = "00010203040506070809101112131415161718192021222324252627282930313233343536373839404142434445464748"
                              "4950515253545556575859606162636465666768697071727374757677787980818283848586878889909192939495969798"
                              "99";
    return (char *)memcpy(at, TWO + 2 * number, 2) + 2;
}

// A number below 10,000, with the digits that it needs; and one with all four.
inline char *put_short(char *at, u32 number) {
    if (number < 10) return *at = (char)('0' + number), at + 1;
    if (number < 100) return put_two(at, number);
    u32 high = number / 100;
    if (high < 10) *at++ = (char)('0' + high);
    else at = put_two(at, high);
    return put_two(at, number % 100);
}

inline char *put_four(char *at, u32 number) { return put_two(put_two(at, number / 100), number % 100); }

inline char *put_number(char *at, u64 number) {
    if (number < 10'000) return put_short(at, (u32)number);
    if (number < 100'000'000) return put_four(put_short(at, (u32)number / 10'000), (u32)number % 10'000);
    u32 low = number % 100'000'000;
    return put_four(put_four(put_number(at, number / 100'000'000), low / 10'000), low % 10'000);
}

template <size_t N> inline char *put(char *at, const char (&tag)[N], u64 number) {
    return *(at = put_number(put(at, tag), number)) = SOH, at + 1;
}

inline char *put_time(char *at, u64 time) {
    u32 day = time / 1'000'000, clock = time % 1'000'000;
    at = put_two(put_two(put_two(put_two(at, day / 1'000'000), day / 10'000 % 100), day / 100 % 100), day % 100);
    *at = '-', at[3] = at[6] = ':';
    return put_two(at + 1, clock / 10'000), put_two(at + 4, clock / 100 % 100), put_two(at + 7, clock % 100);
}

inline char *put_symbol(char *at, u64 symbol) {
    for (; symbol; symbol <<= 8) *at++ = (char)(symbol >> 56);
    return at;
}

// An order of a member: of a market order no price counts.
struct Order {
    u64 id, name, symbol, price, total, cum, notional;
    u8 client, side;
    bool is_market;
    u64 left() const { return total - cum; }
};

// What is told of an order, with two numbers: of a fill its quantity and price; of what was asked for the name before it, or 0;
// of a refusal the reason, and 1 where the book is full.
enum Event : u8 { ACKNOWLEDGED, TRADED, CANCELED, REPLACED, REFUSED };

inline char *put_execution(char *at, u64 exec_id, Event event, const Order &o, u64 a, u64 b) {
    at = put(put(at, "37=", o.id), "17=", exec_id);
    switch (event) {
    case ACKNOWLEDGED: at = put(at, "150=0\x01" "39=0\x01" "11="); break;
    case TRADED: at = o.left() ? put(at, "150=F\x01" "39=1\x01" "11=") : put(at, "150=F\x01" "39=2\x01" "11="); break;
    case CANCELED: at = put(at, "150=4\x01" "39=4\x01" "11="); break;
    case REPLACED: at = o.cum ? put(at, "150=5\x01" "39=1\x01" "11=") : put(at, "150=5\x01" "39=0\x01" "11="); break;
    case REFUSED: at = put(at, "150=8\x01" "39=8\x01" "11="); break;
    }
    at = put_number(at, o.name);
    if ((event == CANCELED || event == REPLACED) && a) at = put_number(put(at, "\x01" "41="), a);
    at = put_symbol(put(at, "\x01" "55="), o.symbol);
    at = o.side == 0 ? put(at, "\x01" "54=1\x01") : put(at, "\x01" "54=2\x01");
    at = put(at, "38=", o.total);
    if (!o.is_market) at = put(at, "44=", o.price);
    if (event == TRADED) at = put(put(at, "32=", a), "31=", b);
    at = put(put(at, "151=", event == CANCELED || event == REFUSED ? 0 : o.left()), "14=", o.cum);
    at = put(at, "6=", o.cum ? o.notional / o.cum : 0);
    if (event == REFUSED) at = put(at, "103=", a);
    return event == REFUSED && b ? put(at, "58=book full\x01") : at;
}

// Of a cancel or replace that is refused; without the order that it names where there is none.
inline char *put_cancel_reject(char *at, const Command &c, const Order *named, u32 reason) {
    at = named ? put(at, "37=", named->id) : put(at, "37=NONE\x01");
    at = put(put(at, "11=", c.name), "41=", c.orig);
    return put(put(put(at, "39=", named ? named->cum != 0 : 8), "434=", c.kind == CANCEL ? 1 : 2), "102=", reason);
}

inline char *put_reject(char *at, const Command &c) {
    at = put(put(put(at, "45=", c.number), "371=", c.tag), "372=");
    *at++ = (char)c.type, *at++ = SOH;
    return put(at, "373=", c.reason);
}

// A member's session: what it is told goes to `out`, of which the bytes up to `sent` are sent already.
struct Session {
    static constexpr u32 BEGIN = 16, MOST_MESSAGE = 1'100; // "8=FIX.4.4|9=nnn|"
    u8 member = 1;
    bool is_open = false, is_over = false;
    u64 accepted = 0, told = 0, time = 0;
    std::vector<char> out;
    size_t sent = 0, end = 0;

    explicit Session(u8 of = 1) : member(of), out(1 << 16) {}

    void begin() { *this = Session(member); }

    // A message's fields begin here, up to SendingTime; then the body is put, and `seal` makes a frame of it.
    char *head(char type, u64 when) {
        if (out.size() - end < MOST_MESSAGE) out.resize(2 * out.size());
        char *at = put(out.data() + end + BEGIN, "35=");
        *at++ = type;
        at = put(at, "\x01" "49=VENUE\x01" "56=C");
        *at++ = (char)('0' + member), *at++ = SOH;
        at = put_time(put(put(at, "34=", ++told), "52="), when);
        return *at = SOH, at + 1;
    }

    void seal(char *at) {
        char *body = out.data() + end + BEGIN, *begin = out.data() + end;
        u32 length = (u32)(at - body);
        if (length < 100) memmove(begin + BEGIN - 1, body, length), at--;
        put(put(begin, "8=FIX.4.4\x01"), "9=", length);
        u32 sum = sum_of((const u8 *)begin, (u32)(at - begin));
        at = put(at, "10=");
        *at++ = (char)('0' + sum / 100), at = put_two(at, sum % 100), *at++ = SOH;
        end = at - out.data();
    }

    void say(char type, u64 when, const char *body, size_t length) {
        char *at = head(type, when);
        seal((char *)memcpy(at, body, length) + length);
    }

    void over(const char *text) {
        char *at = head('5', time);
        if (text) {
            size_t length = strlen(text);
            at = put(at, "58="), memcpy(at, text, length), at += length, *at++ = SOH;
        }
        seal(at);
        is_over = true;
    }

    // Whether the frame is a message with an order. Else it was answered, was passed over, or has ended the session.
    bool hear(const Frame &f, Header &h) {
        static const char VENUE[] = "VENUE", LOGON[] = "98=0\x01" "108=0\x01" "141=Y\x01";
        if (f.fault) return over(f.fault), false;
        if (!read_header(f, h)) return over("bad header"), false;
        time = h.time;
        const Field &from = f.fields[1], &to = f.fields[2];
        if (from.end - from.at != 2 || f.bytes[from.at] != 'C' || f.bytes[from.at + 1] != '0' + member || to.end - to.at != 5 ||
            memcmp(f.bytes + to.at, VENUE, 5))
            return over("wrong party"), false;
        if (h.number != accepted + 1) return over("wrong number"), false;
        accepted++;
        if (!is_open && h.type != 'A') return over("no logon"), false;
        const u8 *own = f.bytes + f.fields[4].end + 1, *end = f.bytes + f.length - 7;
        switch (h.type) {
        case 'D': case 'F': case 'G': return true;
        case 'A':
            if (is_open || end - own != sizeof LOGON - 1 || memcmp(own, LOGON, end - own)) return over("bad logon"), false;
            is_open = true;
            return say('A', time, LOGON, sizeof LOGON - 1), false;
        case '1':
            if (f.count != 6 || f.fields[5].tag != 112 || f.fields[5].end - f.fields[5].at > 32) return over("bad test"), false;
            return say('0', time, (const char *)own, end - own), false;
        case '0': case '3': return false;
        case '5': return over(nullptr), false;
        default: return over("bad type"), false;
        }
    }
};
