// Texts that come in segments: the first SIB message of a long warning in one buffer, the additional ones in another, a list in
// which each stands behind its length. Hosts include pws.hpp.
#ifndef PWS_SEGMENTS_HPP
#define PWS_SEGMENTS_HPP

#include "pws_calls.hpp"

#include <cstddef>
#include <cstdint>
#include <span>

namespace pws {

// A list's limits, each here only.
namespace layout {

inline constexpr std::size_t MOST_SEGMENTS = 63;
inline constexpr std::size_t LENGTH_WIDTH = 2;
inline constexpr std::size_t LONGEST_SEGMENT = (std::size_t{1} << (8 * LENGTH_WIDTH)) - 1;

} // namespace layout

// One segment: bytes of the caller's own buffer, which live as long as that does; none if refused. A segment may be without
// bytes and not be refused, so ask the part whether it was, not its bytes.
struct [[nodiscard]] Part {
    Refusal refusal{};
    std::span<const std::uint8_t> bytes{};
    constexpr explicit operator bool() const noexcept { return refusal == Refusal::none; }
};

// What a list of so many segments takes, which have so many bytes together.
constexpr std::size_t list_size(std::size_t segments, std::size_t bytes) noexcept { return layout::LENGTH_WIDTH * segments + bytes; }

// Segment k of a text: the first SIB message for k = 0, else the list's k-th segment. The whole list is judged for every k, so what
// is not refused at k = 0 ends in no_such_segment and in nothing else. Refusals: list_damaged, too_many_segments, no_such_segment.
inline Part segment(std::span<const std::uint8_t> first, std::span<const std::uint8_t> more, std::size_t k) noexcept {
    const pws_part part = pws_segment(detail::lent(first), first.size(), detail::lent(more), more.size(), k);
    return {static_cast<Refusal>(part.number), (part.buffer == 0 ? first : more).subspan(part.start, part.length)};
}

// Packs a list of additional segments, whose bytes stand back to back, each with its length in lengths; there must be list_size.
// What it writes, segment gives back. Refusals: list_damaged (the lengths), too_many_segments, then short_buffer.
inline Done pack(std::span<const std::uint8_t> bytes, std::span<const std::uint64_t> lengths, std::span<std::uint8_t> list) noexcept {
    return detail::done(pws_pack(detail::lent(bytes), bytes.size(), detail::lent(lengths), lengths.size(), detail::lent(list), list.size()),
                        list);
}

} // namespace pws

#endif
