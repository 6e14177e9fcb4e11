// Refusals 1 and 2: whether bytes are a table, of one version or the other.
#pragma once

#include "layout.hpp"

#include <algorithm>
#include <bit>

namespace {

// What the rules of a live place ask for. "marks" are SIB kind, live and the zero bytes.
struct Terms {
    uint32_t period, wait, marks;
    uint16_t requested, sent;
};

struct Version1 {
    static constexpr uint8_t NUMBER = 1;
    static constexpr size_t PLACE = 20, COUNTS = 8, MARKS = 16;
    static constexpr uint32_t LONGEST_PERIOD = OLD_LONGEST_PERIOD;

    static Terms terms(const uint8_t *place) {
        const uint64_t counts = be64(place + COUNTS);
        const uint16_t period = counts >> 48, requested = counts >> 32, sent = counts >> 16, wait = counts;
        return {period, wait, be32(place + MARKS), requested, sent};
    }
};

struct Version2 {
    static constexpr uint8_t NUMBER = 2;
    static constexpr size_t PLACE = ::PLACE;
    static constexpr uint32_t LONGEST_PERIOD = ::LONGEST_PERIOD;

    static Terms terms(const uint8_t *place) {
        const uint64_t counts = be64(place + PERIOD), rest = be64(place + WAIT);
        const uint32_t period = counts >> 32, wait = rest >> 32, marks = rest;
        const uint16_t requested = counts >> 16, sent = counts;
        return {period, wait, marks, requested, sent};
    }
};

bool areas_legal(const uint8_t *head) {
    // Which bits of the twelve bytes of areas are filling, by the number of used ones.
    static constexpr struct {
        uint64_t first;
        uint32_t last;
    } FILLING[] = {{~0ull, ~0u}, {0xffffffffff, ~0u}, {0xffff, ~0u}, {0, 0xffffff}, {0, 0}};
    const size_t used = head[USED];
    if (used > MOST_AREAS) {
        return false;
    }
    const uint8_t *areas = head + AREAS;
    for (size_t k = 1; k < used; ++k) {
        if (be24(areas + AREA * k) <= be24(areas + AREA * (k - 1))) {
            return false;
        }
    }
    return ((be64(areas) & FILLING[used].first) | (be32(areas + 8) & FILLING[used].last)) == 0;
}

// Also notes the identity as the one that the next head's must be above. "next" is the least that this head may have.
bool head_legal(const uint8_t *head, uint64_t &next) {
    const uint64_t identity = be64(head);
    const bool ordered = identity >= next && identity >> 60 == 0;
    next = identity + 1;
    return ordered && areas_legal(head);
}

// The tests are joined without branches, since a table is nearly always legal.
template <class Version> bool live_place_legal(const Terms &terms) {
    const auto [period, wait, marks, requested, sent] = terms;
    // SIB kind, live and the zero bytes: 6, 7 or 8, then 1, 0, 0.
    const bool marked = std::rotl(marks - 0x06010000u, 8) <= 2;
    const bool timed = (period <= Version::LONGEST_PERIOD) & (wait < std::max(period, 1u)) & ((period != 0) | (requested == 1));
    // Requested 0 wraps to the largest number, which every sent count is within.
    return marked & timed & (sent <= static_cast<uint16_t>(requested - 1));
}

template <class Version> bool places_legal(const uint8_t *places) {
    constexpr size_t PLACE = Version::PLACE;
    size_t live = 0;
    for (; live < PLACES; ++live) {
        const uint8_t *place = places + PLACE * live;
        const Terms terms = Version::terms(place);
        if (terms.marks == 0) {
            break;
        }
        if (!live_place_legal<Version>(terms)) {
            return false;
        }
        for (size_t k = 0; k < live; ++k) {
            if (raw<uint32_t>(places + PLACE * k) == raw<uint32_t>(place)) {
                return false;
            }
        }
    }
    uint64_t rest = 0;
    for (const uint8_t *place = places + PLACE * live; place != places + PLACE * PLACES; place += PLACE) {
        rest |= raw<uint64_t>(place) | raw<uint64_t>(place + 8) | raw<uint64_t>(place + PLACE - 8);
    }
    return rest == 0;
}

// 0, 1 or 2.
template <class Version> uint32_t table_refusal(const uint8_t *table, size_t length) {
    constexpr size_t CELL = HEAD + PLACES * Version::PLACE;
    if (length < 5 || version(table, 'T') != Version::NUMBER) {
        return 1;
    }
    if (length < TABLE_HEADER) {
        return 2;
    }
    const size_t cells = be16(table + 5);
    if (cells < 1 || cells > MOST_CELLS || table[7] != PLACES || raw<uint64_t>(table + 8) != 0 || length != TABLE_HEADER + CELL * cells) {
        return 2;
    }
    uint64_t next = 0;
    for (const uint8_t *cell = table + TABLE_HEADER; cell != table + length; cell += CELL) {
        if (!head_legal(cell, next) || !places_legal<Version>(cell + HEAD)) {
            return 2;
        }
    }
    return 0;
}

void put_table_header(uint8_t *table, size_t cells) {
    put_mark(table, 'T', Version2::NUMBER);
    put16(table + 5, cells);
    table[7] = PLACES;
    std::memset(table + 8, 0, 8);
}

}
