// Texts in segments, read and packed, at the guards of edges.cpp: each refusal and their order, each limit at, below and above it,
// lists cut at every byte and damaged at random. Every text is read through pws.h and pws.hpp, for each k that it has and many beyond.
#include "at_guards.hpp"
#include "by_hand.hpp"
#include "pws.hpp"

#include <algorithm>
#include <random>

using Lengths = std::vector<uint64_t>;

// A first SIB message that would be a damaged list: its bytes are never judged.
static const Bytes FIRST_MESSAGE = {0xff, 0xff, 0, 1, 2};

// Its bytes depend on the seed, so that a neighbour's show.
static Bytes segment_of(size_t length, size_t seed = 1) {
    Bytes b(length);
    for (size_t at = 0; at < length; ++at) {
        b[at] = static_cast<uint8_t>(seed * 31 + at * 7);
    }
    return b;
}

static std::vector<Bytes> segments_of(const Lengths &lengths) {
    std::vector<Bytes> segments;
    for (uint64_t length : lengths) {
        segments.push_back(segment_of(length, segments.size() + 1));
    }
    return segments;
}

// Whether both surfaces give the part that is wanted, the C++ one as the caller's own bytes.
static bool asked(const Guarded &first, const Guarded &more, size_t k, const pws_part &wanted) {
    const pws_part part = pws_segment(first.data(), first.size(), more.data(), more.size(), k);
    const pws::Part lent = pws::segment({first.data(), first.size()}, {more.data(), more.size()}, k);
    const uint8_t *from = (wanted.buffer == 0 ? first : more).data() + wanted.start;
    const bool ok = part.number == wanted.number && part.buffer == wanted.buffer && part.start == wanted.start &&
                    part.length == wanted.length && lent.refusal == static_cast<pws::Refusal>(wanted.number) &&
                    bool(lent) == (wanted.number == 0) && lent.bytes.data() == from && lent.bytes.size() == wanted.length;
    if (!ok) {
        std::printf("  segment %zu: wanted %u, buffer %u, %zu bytes from %zu; gave %u, buffer %u, %zu bytes from %zu\n", k, wanted.number,
                    wanted.buffer, wanted.length, wanted.start, part.number, part.buffer, part.length, part.start);
    }
    return ok;
}

// Whether a text has these parts at both guards, and every k beyond them gives the number: near ones, and far ones that would
// come out as near ones if they were cut to 8, 16 or 32 bits or had 1 added.
static bool has_parts(const std::vector<pws_part> &parts, uint32_t number, const Bytes &first, const Bytes &more) {
    const pws_part beyond = {number, 0, 0, 0};
    bool ok = true;
    for (Flush flush : {Flush::end, Flush::front}) {
        const Guarded message(first, flush, Lent::for_reading), list(more, flush, Lent::for_reading);
        for (size_t k = 0; k < 70; ++k) {
            ok = ok && asked(message, list, k, k < parts.size() ? parts[k] : beyond);
        }
        for (size_t far : {size_t{1} << 8, size_t{1} << 16, size_t{1} << 32, SIZE_MAX / 2 + 1}) {
            ok = ok && asked(message, list, far, beyond) && asked(message, list, far + 1, beyond);
        }
        ok = ok && asked(message, list, SIZE_MAX, beyond) && message.alone() && list.alone();
    }
    return ok;
}

// A list that is refused is refused for every k, the first SIB message too.
static bool refused(uint32_t number, const Bytes &list, const Bytes &first = FIRST_MESSAGE) { return has_parts({}, number, first, list); }

static bool reads_as(const Lengths &lengths, const Bytes &list, const Bytes &first = FIRST_MESSAGE) {
    std::vector<pws_part> parts = {{0, 0, 0, first.size()}};
    size_t at = 0;
    for (uint64_t length : lengths) {
        parts.push_back({0, 1, at + 2, length});
        at += 2 + length;
    }
    return has_parts(parts, 12, first, list);
}

// What is packed, with room to spare and without, is what it is by hand, and reads back.
static bool round_trip(const Lengths &lengths) {
    const std::vector<Bytes> segments = segments_of(lengths);
    const Bytes bytes = joined(segments), list = list_of(segments), exact = room(list.size()), ample = room(list.size() + 3);
    return pack_gives(0, list.size(), bytes, lengths, exact) && pack_at(Flush::end, bytes, lengths, exact).buffers[0] == list &&
           pack_gives(0, list.size(), bytes, lengths, ample) &&
           pack_at(Flush::end, bytes, lengths, ample).buffers[0] == joined({list, room(3)}) && reads_as(lengths, list);
}

static void by_bytes() {
    expect(reads_as({2, 0, 1}, {0, 2, 'a', 'b', 0, 0, 0, 1, 'c'}), "a list written byte by byte");
    expect(reads_as({1, 1}, {0, 1, 0, 0, 1, 0}) && reads_as({0, 0}, {0, 0, 0, 0}), "segments that look like lengths");
    expect(refused(10, {0}) && refused(10, {1}) && refused(10, {0, 1}) && refused(10, {0, 2, 'a'}), "a part segment alone");
    expect(refused(10, {1, 0}) && refused(10, {1, 0, 'a'}) && refused(10, {0xff, 0xff, 'a'}), "lengths are big-endian");
    expect(pack_at(Flush::end, {'a', 'b', 'c'}, {2, 0, 1}, room(9)).buffers[0] == Bytes{0, 2, 'a', 'b', 0, 0, 0, 1, 'c'},
           "a list packed to its bytes");
}

static void first_messages() {
    for (size_t length : Lengths{0, 1, 2, 65535, 65536, 70000}) {
        const Bytes first = segment_of(length);
        expect(reads_as({}, {}, first) && reads_as({3, 0}, list_of(segments_of({3, 0})), first) && refused(10, {0, 1}, first),
               "a first SIB message of " + std::to_string(length) + " bytes");
    }
}

// Below, at and above 63, by segments without bytes and with some.
static void counts() {
    for (size_t count : Lengths{0, 1, 2, 62, 63}) {
        Lengths mixed(count);
        for (size_t k = 0; k < count; ++k) {
            mixed[k] = k * 5 % 4;
        }
        expect(round_trip(Lengths(count)) && round_trip(Lengths(count, 1)) && round_trip(mixed), std::to_string(count) + " segments");
    }
    for (size_t count : Lengths{64, 65, 66, 127, 128, 256, 257, 320, 65536 + 1}) {
        const Lengths none(count), one(count, 1);
        expect(refused(11, list_of(segments_of(none))) && refused(11, list_of(segments_of(one))), std::to_string(count) + " segments");
        expect(pack_gives(11, 0, {}, none, room(2 * count)) && pack_gives(11, 0, Bytes(count), one, room(3 * count)),
               std::to_string(count) + " segments not packed");
    }
}

static void lengths() {
    for (uint64_t length : Lengths{0, 1, 2, 127, 128, 255, 256, 257, 511, 512, 65534, 65535}) {
        expect(round_trip({length}) && round_trip({0, length, 0}) && round_trip({3, length, length, 1}),
               "segments of " + std::to_string(length) + " bytes");
    }
    const Lengths longest(63, 65535);
    expect(round_trip(longest), "63 segments of 65,535 bytes");
    expect(pack_gives(8, 0, Bytes(63 * 65535), longest, room(63 * 65537 - 1)), "and no room for one byte of them");
}

// Behind 0, 5, 7, 10 and 17 bytes a segment ends, and the list may; everywhere else it ends inside a length or a segment.
static void cuts() {
    const Bytes list = list_of(segments_of({3, 0, 1, 5}));
    const auto gives = [&](size_t length) {
        switch (length) {
        case 0: return reads_as({}, {});
        case 5: return reads_as({3}, cut(list, 5));
        case 7: return reads_as({3, 0}, cut(list, 7));
        case 10: return reads_as({3, 0, 1}, cut(list, 10));
        case 17: return reads_as({3, 0, 1, 5}, list);
        default: return refused(10, cut(list, length));
        }
    };
    each_length(list.size(), gives, "a list cut at every byte");
    const Bytes long_list = list_of(segments_of({300, 40}));
    const auto long_gives = [&](size_t length) {
        return length == 0 || length == 302 || length == 344 || refused(10, cut(long_list, length));
    };
    each_length(long_list.size(), long_gives, "a list of long segments cut at every byte");
}

// Everything from some number on is wrong at once, with the damage behind the last segment that a reader might stop at.
static void order_of_reading() {
    for (size_t count : Lengths{0, 1, 62, 63, 64, 65, 100}) {
        const Bytes whole = list_of(segments_of(Lengths(count, 2)));
        bool ok = true;
        for (const Bytes &part : {Bytes{0}, Bytes{0xff}, Bytes{0, 1}, Bytes{0, 3, 1, 2}, Bytes{0xff, 0xff, 1}}) {
            ok &= refused(10, joined({whole, part}));
        }
        expect(ok, "10 before 11 and 12, behind " + std::to_string(count) + " segments");
    }
    expect(refused(11, list_of(segments_of(Lengths(64)))), "11 before 12, at and beyond the last");
    expect(reads_as(Lengths(63), list_of(segments_of(Lengths(63)))) && reads_as({}, {}), "12 beyond the last, and without a list");
}

// The lengths must be those of the bytes: one by one, and not only as their sum comes out in 64 or in fewer bits.
static void lengths_to_pack() {
    const Bytes three = {1, 2, 3};
    const auto damaged = [](const Bytes &bytes, const Lengths &lengths) {
        return pack_gives(10, 0, bytes, lengths, room(200000)) && pack_gives(10, 0, bytes, lengths, room(0));
    };
    expect(damaged(three, {}) && damaged(three, {2}) && damaged(three, {1, 1}) && damaged(three, {0, 0}), "bytes without a length");
    expect(damaged({}, {1}) && damaged(three, {4}) && damaged(three, {1, 3}) && damaged(three, {3, 1}), "lengths without bytes");
    expect(damaged(Bytes(65536), {65536}) && damaged(Bytes(65537), {1, 65536}) && damaged(Bytes(131071), {65536, 65535}),
           "one above 65,535, and the sum right");
    Lengths to_32_bits(65537, 65535);
    to_32_bits.push_back(1);
    expect(damaged({}, {255, 1}) && damaged(three, {65535, 4}) && damaged({}, to_32_bits) && damaged(Bytes(65539), {3}),
           "a sum that comes out right in 8, 16 or 32 bits");
    const uint64_t top = uint64_t{1} << 63;
    expect(damaged({}, {UINT64_MAX, 1}) && damaged(three, {UINT64_MAX, 4}) && damaged(three, {4, UINT64_MAX}) && damaged({}, {top, top}) &&
               damaged(three, {top, 3, top}) && damaged(three, {top, top / 2, top / 2, 3}),
           "a sum that runs over and comes out right");
    for (int bits : {8, 16, 32, 48, 63}) {
        const uint64_t above = uint64_t{1} << bits;
        expect(damaged(three, {above + 3}) && damaged(three, {1, above + 2}) && damaged({}, {above}),
               "a length with bit " + std::to_string(bits) + " set");
    }
    expect(damaged({}, {UINT64_MAX}) && damaged(three, {UINT64_MAX, UINT64_MAX}), "the largest length");
}

static void order_of_packing() {
    const Lengths many(64, 1);
    expect(pack_gives(10, 0, Bytes(63), many, room(0)) && pack_gives(10, 0, Bytes(65), many, room(500)), "a sum that is wrong before 11");
    Lengths last_too_long(64);
    last_too_long[63] = 65536;
    expect(pack_gives(10, 0, Bytes(65536), last_too_long, room(0)) && pack_gives(10, 0, Bytes(65536), last_too_long, room(70000)),
           "a length that is too long before 11");
    expect(pack_gives(11, 0, Bytes(64), many, room(0)) && pack_gives(11, 0, Bytes(64), many, room(191)), "11 before 8");
    expect(pack_gives(8, 0, Bytes(63), Lengths(63, 1), room(188)) && pack_gives(0, 189, Bytes(63), Lengths(63, 1), room(189)), "8 alone");
    const auto into = [](size_t length) { return pack_gives(length < 9 ? 8 : 0, length < 9 ? 0 : 9, {1, 2, 3}, {2, 0, 1}, room(length)); };
    each_length(9 + 3, into, "a list packed into every length");
    expect(pack_gives(0, 0, {}, {}, room(0)) && pack_gives(0, 0, {}, {}, room(5)), "no segments");
    expect(pack_gives(0, 2, {}, {0}, room(2)) && pack_gives(8, 0, {}, {0}, room(1)), "a segment without bytes");
}

// Document 02's rule for a list, by hand: 10 or 11, or 0 and the segments' lengths.
static uint32_t judged(const Bytes &list, Lengths &lengths) {
    for (size_t at = 0; at < list.size(); at += 2 + lengths.back()) {
        if (list.size() - at < 2 || list.size() - at - 2 < get(list, at, 2)) {
            return 10;
        }
        lengths.push_back(get(list, at, 2));
    }
    return lengths.size() > 63 ? 11 : 0;
}

// Up to 70 short segments, a byte of their lengths or segments changed, the end cut off: each number must come up, and what is
// accepted has one packing.
static void seeded_damage() {
    std::mt19937 random(20240601);
    const auto below = [&](size_t end) { return random() % end; };
    size_t of[12] = {};
    bool ok = true;
    for (int run = 0; ok && run < 3000; ++run) {
        Lengths given(below(2) == 0 ? below(8) : 58 + below(12)), found;
        std::ranges::generate(given, [&] { return below(4); });
        Bytes list = list_of(segments_of(given));
        if (!list.empty() && below(2) == 0) {
            list[below(list.size())] = static_cast<uint8_t>(below(6));
        }
        list.resize(list.size() - std::min(list.size(), below(4) == 0 ? below(6) : 0));
        const uint32_t number = judged(list, found);
        ++of[number];
        ok &= number == 0 ? reads_as(found, list) : refused(number, list);
        Bytes bytes;
        for (size_t k = 1; number == 0 && k <= found.size(); ++k) {
            const pws::Part part = pws::segment(FIRST_MESSAGE, list, k);
            bytes.insert(bytes.end(), part.bytes.begin(), part.bytes.end());
        }
        ok &= number != 0 || pack_at(Flush::end, bytes, found, room(list.size())).buffers[0] == list;
    }
    expect(ok && of[0] > 300 && of[10] > 300 && of[11] > 300, "lists damaged at random");
}

int main() {
    by_bytes();
    first_messages();
    counts();
    lengths();
    cuts();
    order_of_reading();
    lengths_to_pack();
    order_of_packing();
    seeded_damage();
    return report();
}
