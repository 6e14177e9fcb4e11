// What the programs share that show a message from the wire: PROGRAM [DIGITS]. The message is given in hexadecimal digits, as an argument
// or on standard input; spaces and line ends are for the eye. The status is 0 for a message that was read, 1 for a refusal, 2 for digits
// that are none.
#ifndef FROM_WIRE_HPP
#define FROM_WIRE_HPP

#include "pws.hpp"

#include <cctype>
#include <charconv>
#include <cstdint>
#include <cstdio>
#include <iostream>
#include <iterator>
#include <optional>
#include <span>
#include <string>
#include <string_view>
#include <vector>

using Bytes = std::vector<std::uint8_t>;

inline std::optional<Bytes> bytes(std::string digits) {
    std::erase_if(digits, [](unsigned char character) { return std::isspace(character) != 0; });
    if (digits.size() % 2 != 0) {
        return std::nullopt;
    }
    Bytes read;
    for (std::size_t at = 0; at < digits.size(); at += 2) {
        std::uint8_t byte = 0;
        const char *const end = digits.data() + at + 2;
        const auto [stopped, error] = std::from_chars(end - 2, end, byte, 16);
        if (error != std::errc{} || stopped != end) {
            return std::nullopt;
        }
        read.push_back(byte);
    }
    return read;
}

// The program as a whole: show prints what the message says, or gives the refusal.
inline int shown(int count, char **arguments, pws::Refusal (*show)(std::span<const std::uint8_t> message)) {
    const std::string digits = count > 1 ? arguments[1] : std::string(std::istreambuf_iterator<char>(std::cin), {});
    const std::optional<Bytes> message = bytes(digits);
    if (!message) {
        std::printf("not a message in hexadecimal digits\n");
        return 2;
    }
    const pws::Refusal refusal = show(*message);
    if (refusal != pws::Refusal::none) {
        const std::string_view why = pws::text(refusal);
        std::printf("refused with %u: %.*s\n", static_cast<unsigned>(refusal), static_cast<int>(why.size()), why.data());
        return 1;
    }
    return 0;
}

#endif
