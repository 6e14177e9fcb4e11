// What happens in each reached cell, and the rows that tell of it.
#pragma once

#include "layout.hpp"

#include <limits>

namespace {

// The rows of an answer, written one behind the other.
struct Rows {
    uint8_t *next;
    uint16_t count = 0;

    // Content as it lies in its place.
    void put(const uint8_t *cell, uint16_t sent, uint32_t content) {
        put_raw(next, raw<uint64_t>(cell));
        put16(next + 8, sent);
        put_raw(next + 10, content);
        next += ROW;
        ++count;
    }

    void report(const uint8_t *cell) { put(cell, 0, 0); }
};

// The live place with this text, else the first free one, else the end of the places.
uint8_t *seek(uint8_t *cell, uint32_t text) {
    uint8_t *place = cell + HEAD;
    uint8_t *const end = cell + CELL;
    while (place != end && place[LIVE] != 0 && raw<uint32_t>(place) != text) {
        place += PLACE;
    }
    return place;
}

void free_all(uint8_t *cell) {
    // Place by place: of 96 bytes at once g++ makes a string instruction, which takes longer.
    for (size_t k = 0; k < PLACES; ++k) {
        std::memset(cell + HEAD + PLACE * k, 0, PLACE);
    }
}

bool has_live(const uint8_t *cell) {
    return cell[HEAD + LIVE] != 0;
}

struct Start {
    uint8_t place[PLACE] = {};
    bool concurrent;

    explicit Start(const uint8_t *record) : concurrent(record[6] & CONCURRENT) {
        std::memcpy(place, record + 8, 8);
        place[SIB] = record[22];
        place[LIVE] = 1;
        if (primary()) {
            // "stored with period 1 and requested 0, so it goes out every second until stopped"
            put32(place + PERIOD, 1);
        } else {
            // Period and requested lie side by side here as there.
            std::memcpy(place + PERIOD, record + 16, 6);
        }
    }

    bool primary() const { return place[SIB] == ETWS_PRIMARY; }

    // "a request starts nothing if requested is 0 without flag 1, or if period is 0 and requested is not 1". A primary "skips the
    // zero rules".
    bool nothing() const {
        const uint32_t period = be32(place + PERIOD);
        const uint16_t requested = be16(place + REQUESTED);
        return !primary() && ((requested == 0 && !concurrent) || (period == 0 && requested != 1));
    }

    void in_cell(uint8_t *cell, Rows &rows) const {
        uint8_t *const found = seek(cell, raw<uint32_t>(place));
        const bool full = found == cell + CELL;
        if (full || found[LIVE] == 0) {
            if (!concurrent) {
                free_all(cell);
                std::memcpy(cell + HEAD, place, PLACE);
            } else if (full) {
                return;
            } else {
                std::memcpy(found, place, PLACE);
            }
        }
        rows.report(cell);
    }
};

void cancel_all_in_cell(uint8_t *cell, Rows &rows) {
    if (has_live(cell)) {
        free_all(cell);
        rows.report(cell);
    }
}

void cancel_in_cell(uint8_t *cell, uint32_t text, Rows &rows) {
    uint8_t *place = seek(cell, text);
    uint8_t *const last = cell + CELL - PLACE;
    if (place > last || place[LIVE] == 0) {
        return;
    }
    rows.put(cell, be16(place + SENT), 0);
    for (; place != last; place += PLACE) {
        std::memcpy(place, place + PLACE, PLACE);
    }
    std::memset(last, 0, PLACE);
}

// Whether the place goes on. Period, requested and sent are one word.
bool broadcast(const uint8_t *cell, uint8_t *place, Rows &rows) {
    const uint64_t counts = be64(place + PERIOD);
    const uint32_t period = counts >> 32;
    const uint16_t requested = counts >> 16, before = counts;
    const uint16_t sent = before + (before != std::numeric_limits<uint16_t>::max());
    put16(place + SENT, sent);
    put32(place + WAIT, period - (period != 0));
    rows.put(cell, sent, raw<uint32_t>(place + CONTENT));
    return requested == 0 || sent != requested;
}

void second_in_cell(uint8_t *cell, Rows &rows) {
    uint8_t *const end = cell + CELL;
    uint8_t *to = cell + HEAD;
    uint8_t *place = to;
    for (; place != end; place += PLACE) {
        // Wait and the marks behind it: one load tells a free place, and one that is due.
        const uint64_t rest = raw<uint64_t>(place + WAIT);
        if (rest == 0) {
            break;
        }
        if (const uint32_t wait = __builtin_bswap32(rest)) {
            put32(place + WAIT, wait - 1);
        } else if (!broadcast(cell, place, rows)) {
            continue;
        }
        if (to != place) {
            std::memcpy(to, place, PLACE);
        }
        to += PLACE;
    }
    for (; to != place; to += PLACE) {
        std::memset(to, 0, PLACE);
    }
}

}
