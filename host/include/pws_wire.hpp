// Messages as they are on the wire, F1AP in aligned PER: cancels read into records, answers written as responses, and responses read.
// Hosts include pws.hpp.
#ifndef PWS_WIRE_HPP
#define PWS_WIRE_HPP

#include "pws_calls.hpp"

#include <cstddef>
#include <cstdint>
#include <span>

namespace pws {

// What a response takes at most, each here only.
namespace layout {

inline constexpr std::size_t RESPONSE_HEADER = 21; // with both lengths of two bytes
inline constexpr std::size_t RESPONSE_ITEM = 15;   // with a count

} // namespace layout

// The room that is enough for either response to an answer of so many rows.
constexpr std::size_t response_size(std::size_t rows) noexcept { return layout::RESPONSE_HEADER + layout::RESPONSE_ITEM * rows; }

// What a cancel says: its transaction identifier, which the response to it must carry, and the record written, the start of its
// buffer; nothing if refused.
struct [[nodiscard]] Message {
    Refusal refusal{};
    std::uint8_t transaction = 0;
    std::span<std::uint8_t> record{};
    constexpr explicit operator bool() const noexcept { return refusal == Refusal::none; }
};

// What a response says: its transaction identifier and the answer written, the start of its buffer; nothing if refused.
struct [[nodiscard]] Response {
    Refusal refusal{};
    std::uint8_t transaction = 0;
    std::span<std::uint8_t> answer{};
    constexpr explicit operator bool() const noexcept { return refusal == Refusal::none; }
};

// Reads a PWS CANCEL REQUEST, lent with its exact length, and writes it as a Cancel record of version 2, which apply and read take;
// record_size of as many items as cells are listed is enough. Without a list the record is for every cell. Refusals: badly_encoded
// to wrong_elements, the lowest that applies, then cancels_nothing, then short_buffer.
inline Message read_cancel(std::span<const std::uint8_t> message, std::span<std::uint8_t> record) noexcept {
    const pws_message read = pws_read_cancel(detail::lent(message), message.size(), detail::lent(record), record.size());
    return {static_cast<Refusal>(read.number), static_cast<std::uint8_t>(read.transaction), record.first(read.length)};
}

// Writes what apply wrote for a Write-Replace or a Cancel, with its exact length, as the message that answers the one with this
// transaction identifier. With response_size of as many rows as the table has cells that is never refused. Refusals: wrong_answer, then
// short_buffer.
inline Done write_response(std::span<const std::uint8_t> answer, std::uint8_t transaction, std::span<std::uint8_t> message) noexcept {
    return detail::done(pws_write_response(detail::lent(answer), answer.size(), transaction, detail::lent(message), message.size()),
                        message);
}

// Reads a WRITE-REPLACE WARNING RESPONSE or a PWS CANCEL RESPONSE, lent with its exact length, and writes it as an answer of that kind,
// whose identifier and serial number are 0; answer_size of as many cells as are listed is enough. Refusals: badly_encoded to
// wrong_answer, the lowest that applies, then short_buffer.
inline Response read_response(std::span<const std::uint8_t> message, std::span<std::uint8_t> answer) noexcept {
    const pws_message read = pws_read_response(detail::lent(message), message.size(), detail::lent(answer), answer.size());
    return {static_cast<Refusal>(read.number), static_cast<std::uint8_t>(read.transaction), answer.first(read.length)};
}

} // namespace pws

#endif
