// Documents 01's and 02's layouts: offsets, numbers in bytes, marks and versions.
#pragma once

#include <cstddef>
#include <cstdint>
#include <cstring>

namespace {

constexpr size_t TABLE_HEADER = 16, HEAD = 24, PLACE = 24, PLACES = 4, CELL = HEAD + PLACES * PLACE, MOST_CELLS = 512;
constexpr size_t RECORD_HEADER = 26, ITEM = 8, MOST_ITEMS = 512;
constexpr size_t ANSWER_HEADER = 12, ROW = 14;
constexpr size_t CODE = 8, USED = 11, AREAS = 12, AREA = 3, MOST_AREAS = 4;
constexpr size_t CONTENT = 4, PERIOD = 8, REQUESTED = 12, SENT = 14, WAIT = 16, SIB = 20, LIVE = 21;
// Tables and records have two versions each. An answer has the first alone.
constexpr uint8_t ANSWER_VERSION = 1;
constexpr uint32_t OLD_LONGEST_PERIOD = 4095, LONGEST_PERIOD = 131'071;

enum Kind : uint8_t { WRITE_REPLACE = 1, CANCEL, RESTART, FAILURE, SECOND };
enum Flag : uint8_t { CONCURRENT = 1, CANCEL_ALL = 2, NOTIFICATION = 4 };
enum Area : uint8_t { NO_AREA, CELLS, TRACKING_AREAS, EMERGENCY_AREAS };
enum SibKind : uint8_t { ETWS_PRIMARY = 6, ETWS_SECONDARY, CMAS };

// Bytes as they lie, for what is only compared or moved: no need to turn them round.
template <class Number> Number raw(const uint8_t *from) {
    Number n;
    std::memcpy(&n, from, sizeof n);
    return n;
}

uint16_t be16(const uint8_t *from) { return __builtin_bswap16(raw<uint16_t>(from)); }
uint32_t be32(const uint8_t *from) { return __builtin_bswap32(raw<uint32_t>(from)); }
uint64_t be64(const uint8_t *from) { return __builtin_bswap64(raw<uint64_t>(from)); }

// Every 24-bit number stands behind another byte of its head, so that one load of 32 bits has it.
uint32_t be24(const uint8_t *from) { return be32(from - 1) & 0xffffff; }

template <class Number> void put_raw(uint8_t *to, Number n) { std::memcpy(to, &n, sizeof n); }
void put16(uint8_t *to, uint16_t n) { put_raw(to, __builtin_bswap16(n)); }
void put32(uint8_t *to, uint32_t n) { put_raw(to, __builtin_bswap32(n)); }
void put64(uint8_t *to, uint64_t n) { put_raw(to, __builtin_bswap64(n)); }

// 0 where the mark is wrong. A version of 256 or more is no version either.
uint8_t version(const uint8_t *bytes, char last) {
    const char mark[] = {'P', 'W', last, 0};
    return std::memcmp(bytes, mark, sizeof mark) == 0 ? bytes[4] : 0;
}

void put_mark(uint8_t *bytes, char last, uint8_t version) {
    const char mark[] = {'P', 'W', last, 0};
    std::memcpy(bytes, mark, sizeof mark);
    bytes[4] = version;
}

// Identifier and serial number as they lie in the record.
void put_answer_header(uint8_t *answer, uint8_t kind, uint32_t text, uint16_t rows) {
    put_mark(answer, 'A', ANSWER_VERSION);
    answer[5] = kind;
    put_raw(answer + 6, text);
    put16(answer + 10, rows);
}

}
