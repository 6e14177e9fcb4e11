// A version 1 table into a version 2 table.
#pragma once

#include "table.hpp"

namespace {

// Of a legal place, live or free; a free one comes out as zeros.
void convert_place(const uint8_t *old, uint8_t *place) {
    std::memcpy(place, old, PERIOD);
    // Period, requested, sent and wait, two bytes each: as they lie, the first of them in the lowest bits. Period and wait
    // each get two zero bytes before theirs.
    const uint64_t counts = raw<uint64_t>(old + Version1::COUNTS), marks = raw<uint32_t>(old + Version1::MARKS);
    put_raw(place + PERIOD, counts << 16);
    put_raw(place + WAIT, counts >> 48 << 16 | marks << 32);
}

void convert_cells(const uint8_t *old, uint8_t *cell, size_t cells) {
    for (size_t left = cells; left != 0; --left) {
        std::memcpy(cell, old, HEAD);
        old += HEAD;
        cell += HEAD;
        for (size_t k = 0; k < PLACES; ++k) {
            convert_place(old, cell);
            old += Version1::PLACE;
            cell += PLACE;
        }
    }
}

}
