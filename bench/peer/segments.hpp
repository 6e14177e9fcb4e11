// Document 02's lists of segments: one found (refusals 10 to 12), and one packed (10, 11).
#pragma once

#include "layout.hpp"
#include "pws.h"

namespace {

constexpr size_t SEGMENT_LENGTH = 2, LONGEST_SEGMENT = 0xffff, MOST_SEGMENTS = 63;

// The whole list is judged in the pass that finds segment k.
pws_part find_segment(size_t first_length, const uint8_t *more, size_t more_length, size_t k) {
    pws_part found = {0, 0, 0, first_length};
    size_t count = 0;
    for (size_t at = 0; at != more_length;) {
        if (more_length - at < SEGMENT_LENGTH) {
            return {10, 0, 0, 0};
        }
        const size_t length = be16(more + at);
        at += SEGMENT_LENGTH;
        if (more_length - at < length) {
            return {10, 0, 0, 0};
        }
        if (++count == k) {
            found = {0, 1, at, length};
        }
        at += length;
    }
    if (count > MOST_SEGMENTS) {
        return {11, 0, 0, 0};
    }
    return k > count ? pws_part{12, 0, 0, 0} : found;
}

// 0, 10 or 11. "any" has each bit that is set in any length: the longest is a power of 2 less 1, so it needs no more. And
// where none is above it, a sum of 64 bits holds more lengths than a memory does.
uint32_t lengths_refusal(const uint64_t *lengths, size_t count, size_t bytes_length) {
    uint64_t any = 0, sum = 0;
    for (size_t k = 0; k < count; ++k) {
        any |= lengths[k];
        sum += lengths[k];
    }
    if (any > LONGEST_SEGMENT || sum != bytes_length) {
        return 10;
    }
    return count > MOST_SEGMENTS ? 11 : 0;
}

void put_segments(uint8_t *list, const uint8_t *bytes, const uint64_t *lengths, size_t count) {
    for (size_t k = 0; k < count; ++k) {
        const size_t length = lengths[k];
        put16(list, length);
        std::memcpy(list + SEGMENT_LENGTH, bytes, length);
        list += SEGMENT_LENGTH + length;
        bytes += length;
    }
}

}
