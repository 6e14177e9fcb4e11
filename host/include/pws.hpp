// The C surface for C++20 hosts: spans for pointers with lengths, enums for document 01's numbers, an answer as a range of rows.
//
// Nothing here allocates, throws or keeps a buffer. A span may be empty, with or without a pointer: pws.h forbids null, so a
// stand-in is lent then. That the spans of one call do not overlap, and that nobody else touches them meanwhile, stays with the host.
#ifndef PWS_HPP
#define PWS_HPP

#include "pws_calls.hpp"
#include "pws_segments.hpp"
#include "pws_wire.hpp"

#include <algorithm>
#include <array>
#include <cstddef>
#include <cstdint>
#include <iterator>
#include <span>

namespace pws {

// Documents 01's and 02's sizes, limits and fields, each here only.
namespace layout {

// A number in big-endian bytes.
struct Field {
    std::size_t at;
    std::size_t width;
    constexpr std::size_t end() const noexcept { return at + width; }
};

inline constexpr std::size_t MOST_CELLS = 512;
inline constexpr std::size_t MOST_ITEMS = 512;
inline constexpr std::size_t PLACES = 4;
inline constexpr std::size_t EMERGENCY_AREAS = 4;
inline constexpr std::uint32_t LONGEST_PERIOD = 131071;

inline constexpr std::size_t TABLE_HEADER = 16;
inline constexpr std::size_t CELL = 120;
inline constexpr std::size_t OLD_CELL = 104; // of a version 1 table
inline constexpr std::size_t HEAD = 24;
inline constexpr std::size_t RECORD_HEADER = 26;
inline constexpr std::size_t ITEM = 8;
inline constexpr std::size_t ANSWER_HEADER = 12;
inline constexpr std::size_t ROW = 14;

// In a head.
inline constexpr Field HEAD_CELL{0, 8}, HEAD_CODE{8, 3}, HEAD_USED{11, 1}, HEAD_FIRST_AREA{12, 3};

// In an answer, behind its mark and version.
inline constexpr Field ANSWER_KIND{5, 1}, ANSWER_IDENTIFIER{6, 2}, ANSWER_SERIAL{8, 2}, ANSWER_ROWS{10, 2};

// In a row.
inline constexpr Field ROW_CELL{0, 8}, ROW_COUNT{8, 2}, ROW_CONTENT{10, 4};

} // namespace layout

enum class Kind : std::uint8_t { write_replace = 1, cancel = 2, restart = 3, failure = 4, second = 5 };
enum class Area : std::uint8_t { none = 0, cells = 1, tracking_areas = 2, emergency_areas = 3 };
enum class Flags : std::uint8_t { none = 0, concurrent = 1, cancel_all = 2, notification = 4 };

constexpr Flags operator|(Flags some, Flags more) noexcept {
    return static_cast<Flags>(static_cast<unsigned>(some) | static_cast<unsigned>(more));
}

// Whether every flag of asked is set.
constexpr bool has(Flags flags, Flags asked) noexcept { return (flags | asked) == flags; }

// "A count of seconds never stands where a count of broadcasts is meant": a count converts to no other, nor from a bare number.
template <class Number, class Of> struct Count {
    Number number = 0;
    constexpr Count() noexcept = default;
    constexpr explicit Count(Number count) noexcept : number(count) {}
    bool operator==(const Count &) const noexcept = default;
};

using Seconds = Count<std::uint32_t, struct OfSeconds>;
using Broadcasts = Count<std::uint16_t, struct OfBroadcasts>;

// A request without its items. Which fields a kind leaves 0 stands in document 01's table of kinds. A Write-Replace of SIB kind 6, an
// earthquake primary, starts a text that goes out every second until it is stopped, whatever its period and requested count.
struct Request {
    Kind kind{};
    Flags flags{};
    Area area{};
    std::uint16_t identifier = 0;
    std::uint16_t serial = 0;
    std::uint32_t content = 0;
    Seconds period{};
    Broadcasts requested{};
    std::uint8_t sib = 0;
    bool operator==(const Request &) const noexcept = default;
};

// A cell's head: its NR CGI, its tracking area code and its emergency areas, the used ones first and ascending, the rest 0.
struct Head {
    std::uint64_t cell = 0;
    std::uint32_t code = 0;
    std::uint8_t used = 0;
    std::array<std::uint32_t, layout::EMERGENCY_AREAS> areas{};
};

// The fields and the count of items; everything 0 if refused.
struct [[nodiscard]] Reading {
    Refusal refusal{};
    Request request{};
    std::size_t items = 0;
    constexpr explicit operator bool() const noexcept { return refusal == Refusal::none; }
};

// One row of an answer. The content is 0 except for a second.
struct Row {
    std::uint64_t cell = 0;
    Broadcasts count{};
    std::uint32_t content = 0;
    bool operator==(const Row &) const noexcept = default;
};

// The sizes of buffers, for counts that document 01 allows. An old table is one of version 1, as convert takes it.
constexpr std::size_t table_size(std::size_t cells) noexcept { return layout::TABLE_HEADER + layout::CELL * cells; }
constexpr std::size_t old_table_size(std::size_t cells) noexcept { return layout::TABLE_HEADER + layout::OLD_CELL * cells; }
constexpr std::size_t record_size(std::size_t items) noexcept { return layout::RECORD_HEADER + layout::ITEM * items; }

// The room that a request asks for, however few rows there will be: a second may give a row for each place.
constexpr std::size_t answer_size(std::size_t cells, Kind kind) noexcept {
    return layout::ANSWER_HEADER + layout::ROW * cells * (kind == Kind::second ? layout::PLACES : 1);
}

namespace detail {

// 0 where the bytes end before the field.
template <class Number> constexpr Number get(std::span<const std::uint8_t> from, layout::Field field) noexcept {
    std::uint64_t number = 0;
    if (field.end() <= from.size()) {
        for (std::uint8_t byte : from.subspan(field.at, field.width)) {
            number = number << 8 | byte;
        }
    }
    return static_cast<Number>(number);
}

constexpr bool fits(std::uint32_t number, layout::Field field) noexcept { return std::uint64_t{number} >> (8 * field.width) == 0; }

constexpr void put(std::uint64_t number, std::span<std::uint8_t> to, layout::Field field) noexcept {
    for (std::size_t k = 0; k < field.width; ++k) {
        to[field.end() - 1 - k] = static_cast<std::uint8_t>(number >> (8 * k));
    }
}

} // namespace detail

// An answer's bytes as a range of its rows. Any bytes will do: there are as many rows as the bytes say and hold.
class Answer {
public:
    class Iterator {
    public:
        using value_type = Row;
        using difference_type = std::ptrdiff_t;

        constexpr Iterator() noexcept = default;
        constexpr explicit Iterator(std::span<const std::uint8_t> left) noexcept : left_(left) {}

        constexpr Row operator*() const noexcept {
            return {detail::get<std::uint64_t>(left_, layout::ROW_CELL), Broadcasts{detail::get<std::uint16_t>(left_, layout::ROW_COUNT)},
                    detail::get<std::uint32_t>(left_, layout::ROW_CONTENT)};
        }
        constexpr Iterator &operator++() noexcept {
            left_ = left_.subspan(layout::ROW);
            return *this;
        }
        constexpr Iterator operator++(int) noexcept {
            Iterator before = *this;
            ++*this;
            return before;
        }
        constexpr bool operator==(const Iterator &other) const noexcept { return left_.size() == other.left_.size(); }

    private:
        std::span<const std::uint8_t> left_{};
    };

    constexpr explicit Answer(std::span<const std::uint8_t> bytes) noexcept : bytes_(bytes) {
        if (bytes.size() > layout::ANSWER_HEADER) {
            const std::size_t held = (bytes.size() - layout::ANSWER_HEADER) / layout::ROW;
            const std::size_t said = detail::get<std::size_t>(bytes, layout::ANSWER_ROWS);
            rows_ = bytes.subspan(layout::ANSWER_HEADER, layout::ROW * std::min(held, said));
        }
    }

    constexpr Kind kind() const noexcept { return detail::get<Kind>(bytes_, layout::ANSWER_KIND); }
    constexpr std::uint16_t identifier() const noexcept { return detail::get<std::uint16_t>(bytes_, layout::ANSWER_IDENTIFIER); }
    constexpr std::uint16_t serial() const noexcept { return detail::get<std::uint16_t>(bytes_, layout::ANSWER_SERIAL); }

    constexpr std::size_t size() const noexcept { return rows_.size() / layout::ROW; }
    constexpr bool empty() const noexcept { return rows_.empty(); }
    constexpr Iterator begin() const noexcept { return Iterator{rows_}; }
    constexpr Iterator end() const noexcept { return Iterator{rows_.last(0)}; }

private:
    std::span<const std::uint8_t> bytes_;
    std::span<const std::uint8_t> rows_{};
};

// Writes a head for build, which judges it. Here refused, with nothing written: a code or an area that 3 bytes cannot hold.
[[nodiscard]] constexpr Refusal put_head(const Head &head, std::span<std::uint8_t, layout::HEAD> to) noexcept {
    const auto too_wide = [](std::uint32_t area) { return !detail::fits(area, layout::HEAD_FIRST_AREA); };
    if (!detail::fits(head.code, layout::HEAD_CODE) || std::ranges::any_of(head.areas, too_wide)) {
        return Refusal::bad_heads;
    }
    detail::put(head.cell, to, layout::HEAD_CELL);
    detail::put(head.code, to, layout::HEAD_CODE);
    detail::put(head.used, to, layout::HEAD_USED);
    layout::Field field = layout::HEAD_FIRST_AREA;
    for (std::uint32_t area : head.areas) {
        detail::put(area, to, field);
        field.at = field.end();
    }
    return Refusal::none;
}

// Writes an empty table of the heads' cells. Refusals: bad_heads, then short_buffer.
inline Done build(std::span<const std::uint8_t> heads, std::span<std::uint8_t> table) noexcept {
    return detail::done(pws_build(detail::lent(heads), heads.size(), detail::lent(table), table.size()), table);
}

// Writes a version 1 table, lent with its exact length, as a table of version 2, for which there must be table_size. Its texts run on
// where they were. Once is enough: apply gives table_mark for the one, and this for the other. Refusals: table_mark, table_wrong,
// short_buffer.
inline Done convert(std::span<const std::uint8_t> old, std::span<std::uint8_t> table) noexcept {
    return detail::done(pws_convert(detail::lent(old), old.size(), detail::lent(table), table.size()), table);
}

// Applies one record to one table, lent with its exact length (what build or convert gave as written), and writes the answer, for
// which there must be answer_size. Refusals: table_mark to short_buffer, the lowest that applies.
inline Done apply(std::span<std::uint8_t> table, std::span<const std::uint8_t> record, std::span<std::uint8_t> answer) noexcept {
    return detail::done(
        pws_apply(detail::lent(table), table.size(), detail::lent(record), record.size(), detail::lent(answer), answer.size()), answer);
}

// The fields and the count of items of a record; see item. Refusals: record_mark to cancels_nothing.
inline Reading read(std::span<const std::uint8_t> record) noexcept {
    const pws_reading reading = pws_read(detail::lent(record), record.size());
    const pws_request &fields = reading.request;
    return {static_cast<Refusal>(reading.number),
            {static_cast<Kind>(fields.kind), static_cast<Flags>(fields.flags), static_cast<Area>(fields.area), fields.identifier,
             fields.serial, fields.content, Seconds{fields.period}, Broadcasts{fields.requested}, fields.sib},
            reading.items};
}

// Writes a record of version 2, which read gives back. Refusals: record_length (too many items) to short_buffer.
inline Done write(const Request &request, std::span<const std::uint64_t> items, std::span<std::uint8_t> record) noexcept {
    const auto byte = [](auto number) { return static_cast<std::uint8_t>(number); };
    const pws_request fields = {byte(request.kind), byte(request.flags),   byte(request.area),       request.identifier, request.serial,
                                request.content,    request.period.number, request.requested.number, request.sib};
    return detail::done(pws_write(fields, detail::lent(items), items.size(), detail::lent(record), record.size()), record);
}

// The k-th item of a record, counted from 0; 0 where the record ends before it.
inline std::uint64_t item(std::span<const std::uint8_t> record, std::size_t k) noexcept {
    return pws_item(detail::lent(record), record.size(), k);
}

} // namespace pws

#endif
