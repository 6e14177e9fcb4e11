// What the host's test programs share: counting what passed, document 01's numbers in bytes, and requests by their names.
#ifndef CHECK_HPP
#define CHECK_HPP

#include "pws.h"

#include <cstdint>
#include <cstdio>
#include <string>
#include <vector>

using Bytes = std::vector<uint8_t>;

inline int passed = 0;
inline int failed = 0;

inline void expect(bool ok, const std::string &what) {
    if (ok) {
        ++passed;
    } else {
        ++failed;
        std::printf("FAILED: %s\n", what.c_str());
    }
}

// Expects a claim of every length up to the last.
template <class Holds> void each_length(size_t last, Holds holds, const std::string &what) {
    bool ok = true;
    for (size_t length = 0; length <= last; ++length) {
        ok &= holds(length);
    }
    expect(ok, what);
}

// The last line of every test program; what it returns is the program's status.
inline int report() {
    std::printf("%d passed, %d failed\n", passed, failed);
    return failed == 0 ? 0 : 1;
}

inline void put(Bytes &to, uint64_t number, int width) {
    for (int shift = 8 * (width - 1); shift >= 0; shift -= 8) {
        to.push_back(static_cast<uint8_t>(number >> shift));
    }
}

inline uint64_t get(const Bytes &from, size_t at, size_t width) {
    uint64_t n = 0;
    for (size_t i = 0; i < width; ++i) {
        n = n * 256 + from[at + i];
    }
    return n;
}

// Document 01's example has these two cells.
inline constexpr uint64_t FIRST = 0x00f110000000010;
inline constexpr uint64_t SECOND = 0x00f110000000020;

inline Bytes head(uint64_t identity, uint32_t code, const std::vector<uint32_t> &areas = {}) {
    Bytes b;
    put(b, identity, 8);
    put(b, code, 3);
    put(b, areas.size(), 1);
    for (uint32_t area : areas) {
        put(b, area, 3);
    }
    b.resize(24);
    return b;
}

inline pws_request start(uint16_t identifier, uint32_t period, uint16_t requested, uint8_t flags = 0, uint8_t sib = 8) {
    return {1, flags, 0, identifier, 16, 7, period, requested, sib};
}

// A start of SIB kind 6.
inline pws_request primary(uint16_t identifier, uint32_t period, uint16_t requested, uint8_t flags = 0) {
    return start(identifier, period, requested, flags, 6);
}

inline pws_request cancel(uint8_t flags, uint16_t identifier, uint16_t serial, uint8_t area = 0) {
    return {2, flags, area, identifier, serial, 0, 0, 0, 0};
}

inline constexpr pws_request restart = {3, 0, 0, 0, 0, 0, 0, 0, 0};
inline constexpr pws_request failure = {4, 0, 0, 0, 0, 0, 0, 0, 0};
inline constexpr pws_request second = {5, 0, 0, 0, 0, 0, 0, 0, 0};

#endif
