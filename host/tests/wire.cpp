// Cancels from the wire that are accepted, at the guards of edges.cpp: samples that another encoder wrote, every field at its ends,
// lists up to the longest, rooms at, below and above, and what is skipped. responses.cpp has the same of responses, wire_encoding.cpp and
// wire_elements.cpp have what is refused.
#include "read_cancels.hpp"

using namespace wire;
using Sizes = std::vector<size_t>;

static const std::string BEGIN = "004e00020007 008e00020000", CELL_1 = "00950009 00 00f110 0000000100",
                         CELL_2 = "00950009 00 00f110 0000000200";

static Bytes times(size_t count, const Bytes &part) {
    Bytes b;
    for (size_t k = 0; k < count; ++k) {
        b.insert(b.end(), part.begin(), part.end());
    }
    return b;
}

// To the byte as an encoder made from TS 38.473's ASN.1 writes them. messages.hpp must write the same.
static void samples() {
    const Bytes all_alone = hex("00150014 000003" + BEGIN + "009d000100");
    expect(says({}, all_alone) && all_alone == with({ALL}), "cancel-all alone");
    const Bytes text_alone = hex("00150018 000003" + BEGIN + "00dc0005 0444800400");
    expect(says({4, {}, 4370, 16}, text_alone) && text_alone == with({TEXT}), "a notification alone");
    const Bytes one_cell = hex("00150027 000004" + BEGIN + "0094000f 0000" + CELL_1 + "009d000100");
    expect(says({2, {FIRST}}, one_cell) && one_cell == with({CELLS, ALL}), "one cell");
    const Bytes both = hex("0015003d 000005" + BEGIN + "0094001c 0001" + CELL_1 + CELL_2 + "009d000100 00dc0005 0444800400");
    expect(says({6, {FIRST, SECOND}, 4370, 16}, both) && both == with({listed({FIRST, SECOND}), ALL, TEXT}), "two cells, both indicators");
    const Bytes most = joined({hex("0015009a1b 000004" + BEGIN + "0094009a02 01ff"), times(512, hex(CELL_1)), hex("009d000100")});
    const std::vector<uint64_t> cells(512, FIRST);
    expect(most.size() == 6688 && says({2, cells}, most) && most == with({listed(cells), ALL}), "512 cells");
}

static void samples_of_unknown_elements() {
    const Bytes elements = hex("0015001f 000005 03e740020102" + BEGIN + "ffff800100 009d000100");
    expect(says({}, elements), "unknown elements marked ignore and notify");
    expect(elements == message({unknown(IGNORE), TRANSACTION, REQUESTED, unknown(NOTIFY, 65535, {0}), ALL}), "the same by hand");
    const Bytes in_item = hex("00950018 50 00f110 0000000100 0000 01f58002aabb 0000 01f4400155");
    const Bytes extensions =
        joined({hex("00150041 000004" + BEGIN + "0094001e 0000"), in_item, hex("00dc000c 4444800400 0000 01f44001ff")});
    expect(says({4, {FIRST}, 4370, 16}, extensions), "unknown extensions of an item, of NR CGI and of a notification");
    const Bytes item_by_hand = item(FIRST, {unknown(IGNORE, 500, {0x55})}, {unknown(NOTIFY, 501, {0xaa, 0xbb})});
    expect(extensions == with({list({item_by_hand}), notification(4370, 16, {unknown(IGNORE, 500, {0xff})})}), "the same by hand");
    const Bytes with_nid =
        hex("00150033 000004" + BEGIN + "0094001b 0000 00950015 40 00f110 0000000100 0000 01810006123456789ab0 009d000100");
    expect(refused(15, with_nid) && with_nid == with({list({item(FIRST, {nid(0x123456789ab)})}), ALL}), "a NID marked reject");
}

static void numbers() {
    bool ok = true;
    for (unsigned identifier = 0; identifier < 256; ++identifier) {
        const auto byte = static_cast<uint8_t>(identifier);
        ok &= says({.transaction = byte}, message({transaction(byte), REQUESTED, ALL}));
    }
    expect(ok, "every transaction identifier");
    ok = true;
    for (unsigned k : {0u, 1u, 2u, 127u, 128u, 255u, 256u, 4370u, 0x5555u, 0x7fffu, 0x8000u, 0xaaaau, 0xff00u, 0xfffeu, 0xffffu}) {
        const auto n = static_cast<uint16_t>(k), other = static_cast<uint16_t>(~k);
        ok &= says({.requested = n}, message({TRANSACTION, requested(n), ALL}));
        ok &= says({4, {}, n, other}, with({notification(n, other)})) && says({4, {}, n, n}, with({notification(n, n)}));
    }
    expect(ok, "counts, identifiers and serial numbers");
    ok = true;
    for (int bit = 0; bit < 16; ++bit) {
        const auto n = static_cast<uint16_t>(1u << bit);
        ok &= says({4, {}, n, 0}, with({notification(n, 0)})) && says({4, {}, 0, n}, with({notification(0, n)}));
    }
    expect(ok, "each bit of an identifier and of a serial number");
    ok = says({2, {0}}, with({listed({0}), ALL}));
    for (int bit = 0; bit < 60; ++bit) {
        const uint64_t cell = uint64_t{1} << bit;
        ok &= says({2, {cell, cell - 1}}, with({listed({cell, cell - 1}), ALL}));
    }
    const uint64_t last = (uint64_t{1} << 60) - 1;
    expect(ok && says({2, {last}}, with({listed({last}), ALL})), "each bit of a cell, and all of them");
}

// In message order, repeats kept. Lists of 9 cells are the last with a length of one byte.
static void lists() {
    bool ok = says({2, {SECOND, FIRST, SECOND}}, with({listed({SECOND, FIRST, SECOND}), ALL}));
    for (size_t count : Sizes{1, 2, 8, 9, 10, 16, 255, 256, 257, 511, 512}) {
        std::vector<uint64_t> cells;
        for (size_t k = 0; k < count; ++k) {
            cells.push_back(SECOND - 3 * k + (k << 40));
        }
        ok &= says({2, cells}, with({listed(cells), ALL})) && says({6, cells, 4370, 16}, with({listed(cells), ALL, TEXT}));
    }
    expect(ok, "lists up to the longest");
    expect(refused(13, with({listed(std::vector<uint64_t>(513, FIRST)), ALL})), "513 cells");
}

static void rooms() {
    const auto into = [](size_t length, size_t cells) {
        const Bytes message = cells == 0 ? with({ALL}) : with({listed(std::vector<uint64_t>(cells, FIRST)), ALL});
        const size_t need = 26 + 8 * cells;
        return length < need ? read_message_gives(pws_read_cancel, 8, 0, 0, message, room(length))
                             : read_message_gives(pws_read_cancel, 0, 7, need, message, room(length));
    };
    each_length(
        30, [&](size_t length) { return into(length, 0); }, "a record without cells into every length");
    each_length(
        50, [&](size_t length) { return into(length, 2); }, "a record of two cells into every length");
    expect(into(4121, 512) && into(4122, 512) && into(4123, 512), "a record of 512 cells");
}

// The same record, wherever unknown elements stand, how many there are, how long they are and whatever they hold.
static void skipped() {
    const Said said{6, {FIRST, SECOND}, 4370, 16};
    const Elements known = {TRANSACTION, REQUESTED, listed({FIRST, SECOND}), ALL, TEXT};
    bool ok = true;
    for (uint8_t criticality : {IGNORE, NOTIFY}) {
        for (size_t at = 0; at <= known.size(); ++at) {
            for (uint16_t id : std::vector<uint16_t>{0, 1, 77, 79, 147, 149, 151, 156, 158, 221, 385, 65535}) {
                Elements elements = known;
                elements.insert(elements.begin() + static_cast<ptrdiff_t>(at), 2, unknown(criticality, id, {0xff}));
                ok &= says(said, message(elements));
            }
        }
    }
    expect(ok, "an unknown element, twice, at every place");
    ok = true;
    for (size_t length : Sizes{1, 2, 126, 127, 128, 129, 255, 256, 8000}) {
        const Elements one = {unknown(IGNORE, 999, Bytes(length, 0xff))};
        ok &= says({}, with({one[0], ALL})) && says({4, {}, 4370, 16}, with({notification(4370, 16, one)})) &&
              says({2, {FIRST, SECOND}}, with({list({item(FIRST, one), item(SECOND, {}, one)}), ALL}));
    }
    expect(ok, "unknown elements and extensions of every kind of length");
    const Elements many(300, unknown(NOTIFY, 385, {0}));
    expect(says({2, {FIRST, SECOND}}, with({list({item(FIRST, many, many), item(SECOND)}), ALL})), "300 extensions");
    // 16,383 bytes are the longest value that is not fragmented.
    const size_t rest = value({TRANSACTION, REQUESTED, ALL}).size() + 5;
    const auto filled = [&](size_t length) { return with({unknown(IGNORE, 999, Bytes(length - rest, 1)), ALL}); };
    expect(says({}, filled(16383)) && says({}, filled(16382)), "the longest message");
    expect(refused(13, filled(16384)) && refused(13, filled(16385)), "one that is longer, as if two bytes could say so");
}

// "A known element's criticality is not read", not even where it is none.
static void known_criticality() {
    bool ok = true;
    for (uint8_t criticality : {REJECT, IGNORE, NOTIFY, NO_CRITICALITY}) {
        Elements known = {TRANSACTION, REQUESTED, list({element(ID_ITEM, cell_of(FIRST), criticality)}), ALL, TEXT};
        ok &= says({6, {FIRST}, 4370, 16}, message(known));
        for (Bytes &one : known) {
            one[2] = criticality;
            ok &= says({6, {FIRST}, 4370, 16}, message(known));
        }
    }
    expect(ok, "known elements of every criticality");
    ok = true;
    for (uint8_t criticality : {REJECT, IGNORE, NOTIFY}) {
        ok &= says({}, message({TRANSACTION, REQUESTED, ALL}, {0, 21, criticality}));
    }
    expect(ok, "and the message's own");
}

int main() {
    samples();
    samples_of_unknown_elements();
    numbers();
    lists();
    rooms();
    skipped();
    known_criticality();
    return report();
}
