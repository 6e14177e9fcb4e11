// A kept message and what is said of it, and what the messages of every kind are made of.
#ifndef KEPT_HPP
#define KEPT_HPP

#include "messages.hpp"
#include "pws_calls.hpp"

#include <map>

struct Kept {
    Bytes message;
    std::string reading;
};

using Messages = std::map<std::string, Kept>;

inline std::string digits(uint64_t number, int width) {
    char text[17];
    std::snprintf(text, sizeof text, "%0*llx", width, static_cast<unsigned long long>(number));
    return text;
}

inline Kept refused(unsigned number, const Bytes &message) {
    const std::string_view why = pws::text(static_cast<pws::Refusal>(number));
    return {message, "refused with " + std::to_string(number) + ": " + std::string(why) + "\n"};
}

// Sixteen cells of one operator, then sixteen of the next. An operator's last byte has the two digits of its code, turned round.
inline std::vector<uint64_t> cells(size_t count) {
    std::vector<uint64_t> some;
    for (uint64_t k = 0; k < count; ++k) {
        const uint64_t code = k / 16 + 1, plmn = 0x00f100 | code % 10 << 4 | code / 10;
        some.push_back(plmn << 36 | (0x123456789 ^ k * 0x01010101));
    }
    return some;
}

#endif
