// What every call of the C++ surface shares: its refusals, what it wrote, and how a span is lent. Hosts include pws.hpp.
#ifndef PWS_CALLS_HPP
#define PWS_CALLS_HPP

#if __cplusplus < 202002L
#error "pws.hpp is for C++20 and later: compile with -std=c++20. Hosts in C, or in older C++, include pws.h"
#endif

#include "pws.h"

#include <cstdint>
#include <span>
#include <string_view>
#include <type_traits>

namespace pws {

enum class Refusal : std::uint32_t {
    none = 0,
    table_mark = 1,
    table_wrong = 2,
    record_mark = 3,
    record_length = 4,
    record_fields = 5,
    record_limits = 6,
    cancels_nothing = 7,
    short_buffer = 8,
    bad_heads = 9,
    list_damaged = 10,
    too_many_segments = 11,
    no_such_segment = 12,
    badly_encoded = 13,
    other_message = 14,
    unknown_element = 15,
    wrong_elements = 16,
    wrong_answer = 17,
};

constexpr std::string_view text(Refusal refusal) noexcept {
    switch (refusal) {
    case Refusal::none: return "accepted";
    case Refusal::table_mark:
        return "the table is shorter than 5 bytes, or its mark or version is wrong: apply takes version 2, convert version 1";
    case Refusal::table_wrong: return "the table's bytes break a rule of tables";
    case Refusal::record_mark: return "the record is shorter than 26 bytes, or its mark or version is wrong";
    case Refusal::record_length: return "the record has more than 512 items, or its length is not that of its items";
    case Refusal::record_fields:
        return "the kind is unknown, or does not allow a flag, the area, the item count or a field that is not zero";
    case Refusal::record_limits:
        return "the period is above 131071 (4095 in a version 1 record), the SIB kind is not 6 to 8, or an item is too large for its area";
    case Refusal::cancels_nothing: return "the cancel has neither cancel-all nor a notification";
    case Refusal::short_buffer: return "the output buffer is too short";
    case Refusal::bad_heads: return "the heads are not 1 to 512 good heads in ascending order";
    case Refusal::list_damaged:
        return "the list ends inside a length or a segment; or the lengths to pack don't add up to the bytes, or one is above 65535";
    case Refusal::too_many_segments: return "the list has more than 63 segments";
    case Refusal::no_such_segment: return "the list ends before the segment asked for";
    case Refusal::badly_encoded:
        return "the message is cut short or badly encoded: its bytes are not those of aligned PER, or a length is fragmented or an "
               "extension bit set";
    case Refusal::other_message: return "the message is another one than the reader takes";
    case Refusal::unknown_element: return "the message has an unknown element that is marked reject";
    case Refusal::wrong_elements: return "the message lacks a mandatory element, or a known one is repeated or out of order";
    case Refusal::wrong_answer: return "no accepted Write-Replace or Cancel has such an answer, or the response's cells don't ascend";
    }
    return "a number that is no refusal";
}

// What a call wrote, the start of its output buffer; nothing if refused.
struct [[nodiscard]] Done {
    Refusal refusal{};
    std::span<std::uint8_t> written{};
    constexpr explicit operator bool() const noexcept { return refusal == Refusal::none; }
};

namespace detail {

template <class Element> Element *lent(std::span<Element> buffer) noexcept {
    static constinit std::remove_const_t<Element> stand_in{}; // never read or written: its length is 0
    return buffer.empty() ? &stand_in : buffer.data();
}

constexpr Done done(pws_done outcome, std::span<std::uint8_t> buffer) noexcept {
    return {static_cast<Refusal>(outcome.number), buffer.first(outcome.length)};
}

} // namespace detail

} // namespace pws

#endif
