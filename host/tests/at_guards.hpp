// The entry points called at both guards, and what came of it compared: every buffer flush against the guard behind it, then
// flush against the one before it.
#ifndef AT_GUARDS_HPP
#define AT_GUARDS_HPP

#include "guarded.hpp"

// What a call gave and what it left in the buffers that it may write.
struct Left {
    uint32_t number;
    size_t length;
    std::vector<Bytes> buffers;
    bool alone;
    uint32_t transaction = 0; // of a message alone

    bool operator==(const Left &) const = default;
};

inline Left build_at(Flush flush, const Bytes &heads, const Bytes &table) {
    const Guarded from(heads, flush, Lent::for_reading), to(table, flush, Lent::for_writing);
    const pws_done done = pws_build(from.data(), from.size(), to.data(), to.size());
    return {done.number, done.length, {to.bytes()}, from.alone() && to.alone()};
}

inline Left convert_at(Flush flush, const Bytes &old, const Bytes &table) {
    const Guarded from(old, flush, Lent::for_reading), to(table, flush, Lent::for_writing);
    const pws_done done = pws_convert(from.data(), from.size(), to.data(), to.size());
    return {done.number, done.length, {to.bytes()}, from.alone() && to.alone()};
}

inline Left apply_at(Flush flush, const Bytes &table, const Bytes &record, const Bytes &answer) {
    const Guarded on(table, flush, Lent::for_writing), by(record, flush, Lent::for_reading), to(answer, flush, Lent::for_writing);
    const pws_done done = pws_apply(on.data(), on.size(), by.data(), by.size(), to.data(), to.size());
    return {done.number, done.length, {to.bytes(), on.bytes()}, on.alone() && by.alone() && to.alone()};
}

// Numbers as they lie in memory.
inline Bytes native(const std::vector<uint64_t> &numbers) {
    const auto *bytes = reinterpret_cast<const uint8_t *>(numbers.data());
    return Bytes(bytes, bytes + 8 * numbers.size());
}

inline Left write_at(Flush flush, const pws_request &request, const std::vector<uint64_t> &items, const Bytes &record) {
    const Guarded from(native(items), flush, Lent::for_reading), to(record, flush, Lent::for_writing);
    const pws_done done = pws_write(request, reinterpret_cast<const uint64_t *>(from.data()), items.size(), to.data(), to.size());
    return {done.number, done.length, {to.bytes()}, from.alone() && to.alone()};
}

inline Left pack_at(Flush flush, const Bytes &bytes, const std::vector<uint64_t> &lengths, const Bytes &list) {
    const Guarded from(bytes, flush, Lent::for_reading), by(native(lengths), flush, Lent::for_reading), to(list, flush, Lent::for_writing);
    const pws_done done =
        pws_pack(from.data(), from.size(), reinterpret_cast<const uint64_t *>(by.data()), lengths.size(), to.data(), to.size());
    return {done.number, done.length, {to.bytes()}, from.alone() && by.alone() && to.alone()};
}

// Messages have two readers.
using Reader = decltype(&pws_read_cancel);

inline Left read_message_at(Reader read_message, Flush flush, const Bytes &message, const Bytes &written) {
    const Guarded from(message, flush, Lent::for_reading), to(written, flush, Lent::for_writing);
    const pws_message read = read_message(from.data(), from.size(), to.data(), to.size());
    return {read.number, read.length, {to.bytes()}, from.alone() && to.alone(), read.transaction};
}

inline Left write_response_at(Flush flush, const Bytes &answer, uint8_t transaction, const Bytes &message) {
    const Guarded from(answer, flush, Lent::for_reading), to(message, flush, Lent::for_writing);
    const pws_done done = pws_write_response(from.data(), from.size(), transaction, to.data(), to.size());
    return {done.number, done.length, {to.bytes()}, from.alone() && to.alone()};
}

// Whether a call gave this number and length, the same at both guards, and left what it must: every byte if refused, those
// behind what was written if not. The first buffer is the one written from its start.
inline bool gave(uint32_t number, size_t length, const Left &at_end, const Left &at_front, const std::vector<Bytes> &before) {
    bool ok = at_end == at_front && at_end.alone && at_end.number == number && at_end.length == length;
    ok = ok && (number == 0 || (length == 0 && at_end.buffers == before));
    ok = ok && length <= before[0].size() &&
         std::equal(before[0].begin() + static_cast<ptrdiff_t>(length), before[0].end(),
                    at_end.buffers[0].begin() + static_cast<ptrdiff_t>(length));
    if (!ok) {
        std::printf("  wanted %u and %zu, gave %u and %zu, at the front %u and %zu\n", number, length, at_end.number, at_end.length,
                    at_front.number, at_front.length);
    }
    return ok;
}

inline bool build_gives(uint32_t number, size_t length, const Bytes &heads, const Bytes &table) {
    return gave(number, length, build_at(Flush::end, heads, table), build_at(Flush::front, heads, table), {table});
}

inline bool convert_gives(uint32_t number, size_t length, const Bytes &old, const Bytes &table) {
    return gave(number, length, convert_at(Flush::end, old, table), convert_at(Flush::front, old, table), {table});
}

inline bool apply_gives(uint32_t number, size_t length, const Bytes &table, const Bytes &record, const Bytes &answer) {
    return gave(number, length, apply_at(Flush::end, table, record, answer), apply_at(Flush::front, table, record, answer),
                {answer, table});
}

inline bool write_gives(uint32_t number, size_t length, const pws_request &request, const std::vector<uint64_t> &items,
                        const Bytes &record) {
    return gave(number, length, write_at(Flush::end, request, items, record), write_at(Flush::front, request, items, record), {record});
}

inline bool pack_gives(uint32_t number, size_t length, const Bytes &bytes, const std::vector<uint64_t> &lengths, const Bytes &list) {
    return gave(number, length, pack_at(Flush::end, bytes, lengths, list), pack_at(Flush::front, bytes, lengths, list), {list});
}

// A refusal gives no transaction identifier either.
inline bool read_message_gives(Reader read, uint32_t number, uint32_t transaction, size_t length, const Bytes &message,
                               const Bytes &written) {
    const Left at_end = read_message_at(read, Flush::end, message, written),
               at_front = read_message_at(read, Flush::front, message, written);
    return gave(number, length, at_end, at_front, {written}) && at_end.transaction == transaction && (number == 0 || transaction == 0);
}

inline bool write_response_gives(uint32_t number, size_t length, const Bytes &answer, uint8_t transaction, const Bytes &message) {
    return gave(number, length, write_response_at(Flush::end, answer, transaction, message),
                write_response_at(Flush::front, answer, transaction, message), {message});
}

// The fields are compared with the record's own bytes, at the places that document 01 gives them.
inline bool read_gives_at(Flush flush, uint32_t number, const Bytes &record) {
    const Guarded from(record, flush, Lent::for_reading);
    const pws_reading reading = pws_read(from.data(), from.size());
    const pws_request &q = reading.request;
    const Bytes fields = number == 0 ? record : Bytes(26);
    const auto field = [&](size_t at, size_t width) { return get(fields, at, width); };
    return from.alone() && reading.number == number && q.kind == field(5, 1) && q.flags == field(6, 1) && q.area == field(7, 1) &&
           q.identifier == field(8, 2) && q.serial == field(10, 2) && q.content == field(12, 4) && q.period == field(16, 4) &&
           q.requested == field(20, 2) && q.sib == field(22, 1) && reading.items == field(24, 2);
}

inline bool read_gives(uint32_t number, const Bytes &record) {
    return read_gives_at(Flush::end, number, record) && read_gives_at(Flush::front, number, record);
}

inline bool item_gives(uint64_t item, const Bytes &record, size_t k) {
    const Guarded at_end(record, Flush::end, Lent::for_reading), at_front(record, Flush::front, Lent::for_reading);
    return pws_item(at_end.data(), at_end.size(), k) == item && pws_item(at_front.data(), at_front.size(), k) == item;
}

#endif
