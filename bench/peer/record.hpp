// Records: refusals 3 to 7 of bytes, of a request and of its items; the fields read and written.
#pragma once

#include "layout.hpp"
#include "pws.h"

namespace {

// The one that is written. The old one is read under the old limit.
constexpr uint8_t OLD_RECORD_VERSION = 1, RECORD_VERSION = 2;

bool zero_fields_zero(const pws_request &r) {
    switch (r.kind) {
    case WRITE_REPLACE:
        return true;
    case CANCEL:
        return (r.content | r.period | r.sib) == 0 && ((r.flags & NOTIFICATION) || (r.identifier | r.serial) == 0);
    default:
        return (r.identifier | r.serial | r.content | r.period | r.requested | r.sib) == 0;
    }
}

// 0 or 5.
uint32_t field_refusal(const pws_request &r, size_t items) {
    static constexpr struct {
        uint8_t flags, last_area;
    } ALLOWED[] = {{0, NO_AREA}, {CONCURRENT, EMERGENCY_AREAS}, {CANCEL_ALL | NOTIFICATION, EMERGENCY_AREAS},
                   {0, CELLS},   {0, CELLS},                    {0, NO_AREA}};
    if (r.kind < WRITE_REPLACE || r.kind > SECOND) {
        return 5;
    }
    const auto &allowed = ALLOWED[r.kind];
    const bool fits = (r.flags & ~allowed.flags) == 0 && r.area <= allowed.last_area && (r.area == NO_AREA) == (items == 0);
    return fits && zero_fields_zero(r) ? 0 : 5;
}

// 0, 6 or 7. "any" has each bit that is set in any item: a limit that is a power of 2 needs no more.
uint32_t value_refusal(const pws_request &r, uint64_t any, uint32_t longest_period) {
    static constexpr int WIDTH[] = {0, 60, 48, 24};
    if (r.kind == WRITE_REPLACE && (r.period > longest_period || r.sib < ETWS_PRIMARY || r.sib > CMAS)) {
        return 6;
    }
    if (any >> WIDTH[r.area] != 0) {
        return 6;
    }
    return r.kind == CANCEL && (r.flags & (CANCEL_ALL | NOTIFICATION)) == 0 ? 7 : 0;
}

pws_request fields(const uint8_t *record) {
    return {record[5],          record[6],         record[7],          be16(record + 8), be16(record + 10), be32(record + 12),
            be32(record + 16), be16(record + 20), record[22]};
}

void put_fields(uint8_t *record, const pws_request &r, uint16_t items) {
    put_mark(record, 'R', RECORD_VERSION);
    record[5] = r.kind;
    record[6] = r.flags;
    record[7] = r.area;
    put16(record + 8, r.identifier);
    put16(record + 10, r.serial);
    put32(record + 12, r.content);
    put32(record + 16, r.period);
    put16(record + 20, r.requested);
    record[22] = r.sib;
    record[23] = 0;
    put16(record + 24, items);
}

// 0 or 3 to 7.
uint32_t record_refusal(const uint8_t *record, size_t length) {
    if (length < RECORD_HEADER) {
        return 3;
    }
    const uint8_t said = version(record, 'R');
    if (said != OLD_RECORD_VERSION && said != RECORD_VERSION) {
        return 3;
    }
    const size_t items = be16(record + 24);
    if (items > MOST_ITEMS || length != RECORD_HEADER + ITEM * items) {
        return 4;
    }
    const pws_request request = fields(record);
    if (record[23] != 0 || field_refusal(request, items) != 0) {
        return 5;
    }
    uint64_t any = 0;
    for (size_t k = 0; k < items; ++k) {
        any |= raw<uint64_t>(record + RECORD_HEADER + ITEM * k);
    }
    return value_refusal(request, __builtin_bswap64(any), said == OLD_RECORD_VERSION ? OLD_LONGEST_PERIOD : LONGEST_PERIOD);
}

}
