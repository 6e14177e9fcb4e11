// Answers and responses written by hand, without the library.
#ifndef RESPONSES_HPP
#define RESPONSES_HPP

#include "messages.hpp"

inline constexpr uint8_t WARNING = 1, CANCELLING = 2;

struct Reported {
    uint64_t cell;
    uint16_t count = 0;
};

// What a response says: the kind of its answer, its cells with their counts, its transaction identifier.
struct Told {
    uint8_t kind = CANCELLING;
    std::vector<Reported> rows{};
    uint8_t transaction = 7;

    // What is read has no identifier and no serial number.
    Bytes answer(uint16_t identifier = 0, uint16_t serial = 0) const {
        Bytes b = {'P', 'W', 'A', 0, 1, kind};
        put(b, identifier, 2);
        put(b, serial, 2);
        put(b, rows.size(), 2);
        for (const Reported &row : rows) {
            put(b, row.cell, 8);
            put(b, row.count, 2);
            put(b, 0, 4);
        }
        return b;
    }
};

namespace wire {

inline Bytes response_frame(uint8_t kind) { return {0x40, static_cast<uint8_t>(19 + kind), REJECT}; }

inline Bytes reported(uint8_t kind, const Reported &row, const Elements &own = {}, const Elements &of_nr_cgi = {}) {
    return kind == WARNING ? element(ID_COMPLETED_ITEM, cell_of(row.cell, own, of_nr_cgi))
                           : element(ID_CANCELLED_ITEM, cell_of(row.cell, own, of_nr_cgi, number(row.count, 2)));
}

inline Bytes reports(uint8_t kind, const Elements &items) { return list(items, kind == WARNING ? ID_COMPLETED : ID_CANCELLED); }

inline Bytes response(uint8_t kind, const Elements &elements) { return message(elements, response_frame(kind)); }

// What is told in known elements alone.
inline Elements elements_of(const Told &told) {
    Elements elements = {transaction(told.transaction)}, items;
    for (const Reported &row : told.rows) {
        items.push_back(reported(told.kind, row));
    }
    if (!items.empty()) {
        elements.push_back(reports(told.kind, items));
    }
    return elements;
}

inline Bytes response(const Told &told) { return response(told.kind, elements_of(told)); }

} // namespace wire

#endif
