// F1AP messages written by hand, element by element, in the aligned variant of X.691 and without the library.
#ifndef MESSAGES_HPP
#define MESSAGES_HPP

#include "by_hand.hpp"

// What a message says. The flags are those of its record.
struct Said {
    uint8_t flags = 2;
    std::vector<uint64_t> cells{};
    uint16_t identifier = 0, serial = 0, requested = 0;
    uint8_t transaction = 7;

    Bytes record() const {
        const auto area = static_cast<uint8_t>(cells.empty() ? 0 : 1);
        return record_of({2, flags, area, identifier, serial, 0, 0, requested, 0}, cells);
    }
};

namespace wire {

// Criticality, as it stands in the first two bits of its byte.
inline constexpr uint8_t REJECT = 0x00, IGNORE = 0x40, NOTIFY = 0x80, NO_CRITICALITY = 0xc0;

inline constexpr uint16_t ID_DIAGNOSTICS = 7, ID_TRANSACTION = 78, ID_REQUESTED = 142, ID_COMPLETED = 146, ID_COMPLETED_ITEM = 147,
                          ID_LIST = 148, ID_ITEM = 149, ID_CANCELLED = 150, ID_CANCELLED_ITEM = 151, ID_ALL = 157, ID_DEDICATED = 189,
                          ID_DEDICATED_ITEM = 190, ID_NOTIFICATION = 220, ID_NID = 385;

inline Bytes number(uint64_t value, int width) {
    Bytes b;
    put(b, value, width);
    return b;
}

// A length in its shortest form, which has one byte up to 127 and two up to 16,383.
inline Bytes length(size_t value) { return value < 128 ? number(value, 1) : number(0x8000 | value, 2); }

inline Bytes open_type(const Bytes &contents) { return joined({length(contents.size()), contents}); }

// An element, an item or an extension.
inline Bytes element(uint16_t id, const Bytes &contents, uint8_t criticality = REJECT) {
    return joined({number(id, 2), {criticality}, open_type(contents)});
}

inline Bytes unknown(uint8_t criticality, uint16_t id = 999, const Bytes &contents = {1, 2}) { return element(id, contents, criticality); }

using Elements = std::vector<Bytes>;

inline Bytes value(const Elements &elements) { return joined({{0}, number(elements.size(), 2), joined(elements)}); }

// Behind its choice, procedure code and criticality; those of a PWS CANCEL REQUEST unless others are said.
inline Bytes message(const Elements &elements, const Bytes &frame = {0, 21, REJECT}) { return joined({frame, open_type(value(elements))}); }

inline Bytes container(const Elements &extensions) {
    return extensions.empty() ? Bytes{} : joined({number(extensions.size() - 1, 2), joined(extensions)});
}

inline Bytes transaction(uint8_t identifier) { return element(ID_TRANSACTION, {0, identifier}); }
inline Bytes requested(uint16_t broadcasts) { return element(ID_REQUESTED, number(broadcasts, 2)); }
inline Bytes all() { return element(ID_ALL, {0}); }

// Two bits before both numbers and six behind them.
inline Bytes notification(uint16_t identifier, uint16_t serial, const Elements &extensions = {}) {
    const uint64_t present = extensions.empty() ? 0 : 1;
    const uint64_t bits = present << 38 | uint64_t{identifier} << 22 | uint64_t{serial} << 6;
    return element(ID_NOTIFICATION, joined({number(bits, 5), container(extensions)}));
}

// What stands in an item's open type: NR CGI's extensions come before the item's own, and between them a count, if it has one.
inline Bytes cell_of(uint64_t nr_cgi, const Elements &own = {}, const Elements &of_nr_cgi = {}, const Bytes &count = {}) {
    const auto marks = static_cast<uint8_t>((own.empty() ? 0 : 0x40) | (of_nr_cgi.empty() ? 0 : 0x10));
    return joined({{marks}, number(nr_cgi << 4, 8), container(of_nr_cgi), count, container(own)});
}

inline Bytes item(uint64_t nr_cgi, const Elements &own = {}, const Elements &of_nr_cgi = {}) {
    return element(ID_ITEM, cell_of(nr_cgi, own, of_nr_cgi));
}

inline Bytes nid(uint64_t bits) { return element(ID_NID, number(bits << 4, 6)); }

inline Bytes list(const Elements &items, uint16_t id = ID_LIST) {
    return element(id, joined({number(items.size() - 1, 2), joined(items)}));
}

inline Bytes listed(const std::vector<uint64_t> &cells) {
    Elements items;
    for (uint64_t nr_cgi : cells) {
        items.push_back(item(nr_cgi));
    }
    return list(items);
}

// With the two mandatory elements of the samples before those that are said.
inline Bytes with(const Elements &rest) {
    Elements elements = {transaction(7), requested(0)};
    elements.insert(elements.end(), rest.begin(), rest.end());
    return message(elements);
}

// What is said in known elements alone.
inline Elements elements_of(const Said &said) {
    Elements elements = {transaction(said.transaction), requested(said.requested)};
    if (!said.cells.empty()) {
        elements.push_back(listed(said.cells));
    }
    if ((said.flags & 2) != 0) {
        elements.push_back(all());
    }
    if ((said.flags & 4) != 0) {
        elements.push_back(notification(said.identifier, said.serial));
    }
    return elements;
}

} // namespace wire

#endif
