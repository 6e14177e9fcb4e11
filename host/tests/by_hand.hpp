// Tables, records and lists written byte for byte as documents 01 and 02 say, without the library.
#ifndef BY_HAND_HPP
#define BY_HAND_HPP

#include "check.hpp"

// Bytes by their digits; spaces are for the eye.
inline Bytes hex(std::string digits) {
    std::erase(digits, ' ');
    Bytes b;
    for (size_t at = 0; at < digits.size(); at += 2) {
        b.push_back(static_cast<uint8_t>(std::stoi(digits.substr(at, 2), nullptr, 16)));
    }
    return b;
}

// What differs between the versions of a table: the bytes of a number of seconds, of a place and of a cell, and a period's limit.
struct Version {
    uint8_t number;
    int seconds;
    size_t place, cell;
    uint32_t longest;

    size_t table(size_t cells) const { return 16 + cell * cells; }
};

inline constexpr Version OLD = {1, 2, 20, 104, 4095}, NEW = {2, 4, 24, 120, 131071};

// A live place of text identifier/16, content 7.
inline Bytes place(uint16_t identifier, uint32_t period, uint16_t requested, uint16_t sent, uint32_t wait, uint8_t sib = 8,
                   const Version &version = NEW) {
    Bytes b;
    put(b, identifier, 2);
    put(b, 16, 2);
    put(b, 7, 4);
    put(b, period, version.seconds);
    put(b, requested, 2);
    put(b, sent, 2);
    put(b, wait, version.seconds);
    put(b, sib, 1);
    put(b, 1, 1);
    b.resize(version.place);
    return b;
}

inline Bytes joined(const std::vector<Bytes> &parts) {
    Bytes b;
    for (const Bytes &part : parts) {
        b.insert(b.end(), part.begin(), part.end());
    }
    return b;
}

inline Bytes cell(const Bytes &head, const std::vector<Bytes> &places, const Version &version = NEW) {
    Bytes b = joined({head, joined(places)});
    b.resize(version.cell);
    return b;
}

inline Bytes table_of(const std::vector<Bytes> &cells, const Version &version = NEW) {
    Bytes header = {'P', 'W', 'T'};
    put(header, version.number, 2);
    put(header, cells.size(), 2);
    put(header, 4, 1);
    header.resize(16);
    return joined({header, joined(cells)});
}

inline Bytes record_of(const pws_request &request, const std::vector<uint64_t> &items = {}, uint16_t version = 2) {
    Bytes b = {'P', 'W', 'R'};
    put(b, version, 2);
    put(b, request.kind, 1);
    put(b, request.flags, 1);
    put(b, request.area, 1);
    put(b, request.identifier, 2);
    put(b, request.serial, 2);
    put(b, request.content, 4);
    put(b, request.period, 4);
    put(b, request.requested, 2);
    put(b, request.sib, 1);
    put(b, 0, 1);
    put(b, items.size(), 2);
    for (uint64_t item : items) {
        put(b, item, 8);
    }
    return b;
}

// The additional segments of a text, each behind its length.
inline Bytes list_of(const std::vector<Bytes> &segments) {
    Bytes b;
    for (const Bytes &segment : segments) {
        put(b, segment.size(), 2);
        b.insert(b.end(), segment.begin(), segment.end());
    }
    return b;
}

// Two cells: the first is in two emergency areas and has two live places, the second is in none and has none.
inline const Bytes HEADS = joined({head(FIRST, 1, {5, 9}), head(SECOND, 2)});

inline Bytes two_cells(const Version &version) {
    const std::vector<Bytes> places = {place(4370, 2, 3, 1, 1, 8, version), place(4371, 0, 1, 0, 0, 8, version)};
    return table_of({cell(head(FIRST, 1, {5, 9}), places, version), cell(head(SECOND, 2), {}, version)}, version);
}

inline const Bytes TABLE = two_cells(NEW), OLD_TABLE = two_cells(OLD);

// The same request for another area.
inline pws_request in(uint8_t area, pws_request request) {
    request.area = area;
    return request;
}

// Bytes cut to a length, or filled up to it with zeros.
inline Bytes cut(Bytes bytes, size_t length) {
    bytes.resize(length);
    return bytes;
}

// An output buffer, filled so that a byte that is written shows.
inline Bytes room(size_t length) { return Bytes(length, 0xee); }

#endif
