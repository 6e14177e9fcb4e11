// Which cells a request reaches.
#pragma once

#include "layout.hpp"

#include <algorithm>

namespace {

// An item where it lies in a record, at no alignment.
struct [[gnu::packed]] Item {
    uint64_t number;
};

struct Reach {
    uint8_t area;
    const Item *first, *last;

    bool listed(uint64_t number) const {
        const uint64_t lying = __builtin_bswap64(number);
        return std::any_of(first, last, [=](const Item &item) { return item.number == lying; });
    }

    bool has(const uint8_t *cell) const {
        if (area == CELLS) {
            return listed(be64(cell));
        }
        if (area == TRACKING_AREAS) {
            return listed(be64(cell) >> 36 << 24 | be24(cell + CODE));
        }
        for (size_t k = 0; k < cell[USED]; ++k) {
            if (listed(be24(cell + AREAS + AREA * k))) {
                return true;
            }
        }
        return false;
    }
};

template <class Step> void each_cell(uint8_t *table, size_t cells, Step step) {
    uint8_t *const end = table + TABLE_HEADER + CELL * cells;
    for (uint8_t *cell = table + TABLE_HEADER; cell != end; cell += CELL) {
        step(cell);
    }
}

template <class Step> void each_reached(uint8_t *table, size_t cells, const Reach &reach, Step step) {
    if (reach.area == NO_AREA) {
        each_cell(table, cells, step);
        return;
    }
    each_cell(table, cells, [&](uint8_t *cell) {
        if (reach.has(cell)) {
            step(cell);
        }
    });
}

}
