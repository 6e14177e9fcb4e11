// pws.hpp's own behaviour: its texts, sizes, empty spans, heads, rows and parts. What the library behind it does is tested elsewhere.
#include "by_hand.hpp"
#include "pws.hpp"

#include <algorithm>
#include <array>
#include <iterator>
#include <set>
#include <span>
#include <type_traits>

static_assert(std::forward_iterator<pws::Answer::Iterator>);
static_assert(!std::is_convertible_v<pws::Seconds, pws::Broadcasts> && !std::is_convertible_v<pws::Broadcasts, pws::Seconds>);
static_assert(!std::is_convertible_v<int, pws::Seconds> && !std::is_convertible_v<int, pws::Broadcasts>);
static_assert(noexcept(pws::build({}, {})) &&noexcept(pws::convert({}, {})) &&noexcept(pws::apply({}, {}, {})));
static_assert(noexcept(pws::read({})) &&noexcept(pws::write({}, {}, {})) &&noexcept(pws::item({}, 0)) &&noexcept(pws::text({})));
static_assert(noexcept(pws::segment({}, {}, 0)) &&noexcept(pws::pack({}, {}, {})) && !std::is_convertible_v<pws::Part, bool>);
static_assert(noexcept(pws::read_cancel({}, {})) && !std::is_convertible_v<pws::Message, bool>);
static_assert(noexcept(pws::write_response({}, 0, {})) &&noexcept(pws::read_response({}, {})));
static_assert(!std::is_convertible_v<pws::Response, bool>);

static constexpr pws::Request FLOOD{.kind = pws::Kind::write_replace,
                                    .flags = pws::Flags::concurrent,
                                    .area = pws::Area::cells,
                                    .identifier = 4370,
                                    .serial = 16,
                                    .content = 0x01020304,
                                    .period = pws::Seconds{pws::layout::LONGEST_PERIOD},
                                    .requested = pws::Broadcasts{3},
                                    .sib = 8};

static constexpr pws::Request SECOND_PASSES{.kind = pws::Kind::second};

static void texts() {
    std::set<std::string_view> distinct;
    for (uint32_t number = 0; number <= 18; ++number) {
        distinct.insert(pws::text(static_cast<pws::Refusal>(number)));
    }
    expect(distinct.size() == 19 && !distinct.contains(""), "0, each refusal and a number beyond them have texts of their own");
    expect(pws::text(static_cast<pws::Refusal>(UINT32_MAX)) == pws::text(static_cast<pws::Refusal>(18)), "numbers beyond share one text");
}

static void sizes() {
    expect(pws::table_size(1) == 136 && pws::table_size(pws::layout::MOST_CELLS) == 61456, "table sizes are 16 + 120 N");
    expect(pws::old_table_size(1) == 120 && pws::old_table_size(pws::layout::MOST_CELLS) == 53264, "16 + 104 N in version 1");
    expect(pws::record_size(0) == 26 && pws::record_size(pws::layout::MOST_ITEMS) == 4122, "record sizes are 26 + 8 n");
    const auto size = [](pws::Kind kind) { return pws::answer_size(pws::layout::MOST_CELLS, kind); };
    using enum pws::Kind;
    expect(size(write_replace) == 7180 && size(cancel) == 7180 && size(restart) == 7180 && size(failure) == 7180, "answers take 12 + 14 N");
    expect(size(second) == 28684, "a second's answer takes 12 + 56 N");
    using namespace pws::layout;
    expect(pws::list_size(0, 0) == 0 && pws::list_size(MOST_SEGMENTS, MOST_SEGMENTS * LONGEST_SEGMENT) == 63 * 65537,
           "lists take 2 bytes a segment, and its own");
    expect(pws::response_size(0) >= 13 && pws::response_size(1) >= 34 && pws::response_size(MOST_CELLS) == 7701,
           "no response has more than 21 + 15 n bytes, the longest has as many");
}

static void flags() {
    using enum pws::Flags;
    const pws::Flags both = cancel_all | notification;
    expect(static_cast<uint8_t>(both) == 6, "flags add up");
    expect(has(both, cancel_all) && has(both, notification) && has(both, both) && !has(both, concurrent) && !has(cancel_all, both),
           "a flag is found where it is set");
}

// pws.h forbids null; a span without elements has a null pointer here.
static void empty_spans() {
    Bytes table(pws::table_size(1)), record(pws::record_size(0)), answer(pws::answer_size(1, pws::Kind::second));
    const Bytes heads = head(FIRST, 1);
    expect(pws::build({}, table).refusal == pws::Refusal::bad_heads, "no heads");
    expect(pws::build(heads, {}).refusal == pws::Refusal::short_buffer, "no room for a table");
    expect(bool(pws::build(heads, table)), "a table");
    expect(pws::convert({}, table).refusal == pws::Refusal::table_mark, "no old table");
    expect(pws::convert({}, {}).refusal == pws::Refusal::table_mark, "no old table, and no room");
    expect(pws::convert(OLD_TABLE, {}).refusal == pws::Refusal::short_buffer, "no room for a converted table");
    expect(pws::write(SECOND_PASSES, {}, {}).refusal == pws::Refusal::short_buffer, "no room for a record");
    expect(bool(pws::write(SECOND_PASSES, {}, record)), "a record without items");
    expect(pws::apply({}, record, answer).refusal == pws::Refusal::table_mark, "no table");
    expect(pws::apply(table, {}, answer).refusal == pws::Refusal::record_mark, "no record to apply");
    expect(pws::apply(table, record, {}).refusal == pws::Refusal::short_buffer, "no room for an answer");
    expect(pws::apply({}, {}, {}).refusal == pws::Refusal::table_mark, "nothing at all");
    expect(pws::read({}).refusal == pws::Refusal::record_mark && pws::item({}, 0) == 0, "no record to read");
    expect(pws::Answer{{}}.empty() && pws::Answer{{}}.kind() == pws::Kind{}, "no answer has no rows");
}

static void heads() {
    std::array<uint8_t, pws::layout::HEAD> bytes;
    bytes.fill(0xee);
    expect(pws::put_head({.cell = FIRST, .code = 1 << 24}, bytes) == pws::Refusal::bad_heads, "a code wider than 3 bytes");
    expect(pws::put_head({.cell = FIRST, .used = 1, .areas = {1 << 24}}, bytes) == pws::Refusal::bad_heads, "an area wider than 3 bytes");
    expect(std::ranges::all_of(bytes, [](uint8_t byte) { return byte == 0xee; }), "a refused head is not written");
    const pws::Head most{.cell = FIRST, .code = 0xffffff, .used = 4, .areas = {0, 5, 9, 0xffffff}};
    expect(pws::put_head(most, bytes) == pws::Refusal::none, "a head with four areas");
    expect(std::ranges::equal(bytes, head(FIRST, 0xffffff, {0, 5, 9, 0xffffff})), "it has document 01's layout");
    Bytes table(pws::table_size(1));
    expect(bool(pws::build(bytes, table)), "it builds");
}

static void write_then_read() {
    const std::array<uint64_t, 2> items{SECOND, FIRST};
    Bytes buffer(pws::record_size(2) + 1, 0xee);
    const pws::Done done = pws::write(FLOOD, items, buffer);
    expect(bool(done) && done.written.data() == buffer.data() && done.written.size() == 42 && buffer[42] == 0xee, "a record is written");
    const pws::Reading reading = pws::read(done.written);
    expect(bool(reading) && reading.request == FLOOD && reading.items == 2, "its fields read back");
    expect(pws::item(done.written, 0) == SECOND && pws::item(done.written, 1) == FIRST, "its items read back");
    expect(pws::item(done.written, 2) == 0 && pws::item(done.written, SIZE_MAX) == 0, "an item past the end is 0");
    buffer[0] = 'p';
    const pws::Reading refused = pws::read(done.written);
    expect(!refused && refused.refusal == pws::Refusal::record_mark && refused.request == pws::Request{} && refused.items == 0,
           "a refused reading is all 0");
}

// Two cells with one text, a second later.
static void rows() {
    Bytes heads = head(FIRST, 1), table(pws::table_size(2)), record(pws::record_size(2)),
          buffer(pws::answer_size(2, pws::Kind::second) + 20);
    const Bytes other = head(SECOND, 2);
    heads.insert(heads.end(), other.begin(), other.end());
    const std::array<uint64_t, 2> cells{FIRST, SECOND};
    expect(bool(pws::build(heads, table)), "a table of two cells");
    const pws::Done started = pws::apply(table, pws::write(FLOOD, cells, record).written, buffer);
    const pws::Answer start{started.written};
    expect(start.size() == 2 && start.kind() == pws::Kind::write_replace && start.identifier() == 4370 && start.serial() == 16,
           "an answer says what it answers");
    expect((*start.begin() == pws::Row{FIRST, pws::Broadcasts{0}, 0}), "a start's row");
    const pws::Done passes = pws::apply(table, pws::write(SECOND_PASSES, {}, record).written, buffer);
    const std::array<pws::Row, 2> sent{{{FIRST, pws::Broadcasts{1}, 0x01020304}, {SECOND, pws::Broadcasts{1}, 0x01020304}}};
    expect(std::ranges::equal(pws::Answer{passes.written}, sent), "a second's rows, in order");
    expect(std::ranges::equal(pws::Answer{buffer}, sent), "the buffer behind an answer holds no rows");
    expect(pws::Answer{passes.written.first(12 + 27)}.size() == 1, "a row that is cut off is none");
    bool none = true;
    for (size_t length = 0; length < 12 + 14; ++length) {
        none &= pws::Answer{passes.written.first(length)}.empty();
    }
    expect(none, "an answer cut before its first row has none");
    expect(bool(pws::apply(table, pws::write(SECOND_PASSES, {}, record).written, buffer)) && pws::Answer{buffer}.empty(),
           "no broadcast, no row");
}

// A version 1 table is converted once, and what was written is the table from then on.
static void convert_then_apply() {
    Bytes buffer(pws::table_size(2) + 1, 0xee), record(pws::record_size(0)), answer(pws::answer_size(2, pws::Kind::second));
    const pws::Done second = pws::write(SECOND_PASSES, {}, record);
    Bytes old = OLD_TABLE;
    expect(old.size() == pws::old_table_size(2), "a version 1 table");
    expect(pws::apply(old, second.written, answer).refusal == pws::Refusal::table_mark && old == OLD_TABLE, "is not applied to");
    const pws::Done table = pws::convert(old, buffer);
    expect(bool(table) && table.written.data() == buffer.data() && table.written.size() == pws::table_size(2) && buffer.back() == 0xee,
           "a table is converted");
    expect(std::ranges::equal(table.written, TABLE), "it has document 02's layout");
    expect(pws::convert(table.written, answer).refusal == pws::Refusal::table_mark, "once");
    expect(pws::Answer{pws::apply(table.written, second.written, answer).written}.size() == 1, "and it runs on");
}

// Without a pointer there is no byte to hand back, and a part may have none.
static void empty_texts() {
    const Bytes first = {1, 2}, list = {0, 0};
    const std::array<uint64_t, 1> none{0}, one{1};
    Bytes buffer(4, 0xee);
    expect(bool(pws::segment({}, {}, 0)) && pws::segment({}, {}, 0).bytes.empty(), "an empty text has its first segment");
    expect(pws::segment({}, {}, 1).refusal == pws::Refusal::no_such_segment, "and no more");
    expect(pws::segment(first, {}, 0).bytes.data() == first.data() && pws::segment(first, {}, 0).bytes.size() == 2, "no list");
    expect(bool(pws::segment({}, list, 1)) && pws::segment({}, list, 1).bytes.data() == list.data() + 2, "no first SIB message");
    expect(bool(pws::pack({}, {}, {})) && bool(pws::pack({}, {}, buffer)) && pws::pack({}, {}, buffer).written.empty(), "nothing to pack");
    expect(bool(pws::pack({}, none, buffer)) && pws::pack({}, none, {}).refusal == pws::Refusal::short_buffer, "no bytes to pack");
    expect(pws::pack(first, {}, buffer).refusal == pws::Refusal::list_damaged, "no lengths");
    expect(pws::pack({}, one, buffer).refusal == pws::Refusal::list_damaged, "a length without bytes");
}

// A text is packed once and asked for segment by segment, until there is none.
static void pack_then_ask() {
    const Bytes first = {1, 2}, rest = {3, 4, 5};
    const std::array<uint64_t, 3> lengths{2, 0, 1};
    Bytes buffer(pws::list_size(3, 3) + 1, 0xee);
    const pws::Done list = pws::pack(rest, lengths, buffer);
    expect(bool(list) && list.written.data() == buffer.data() && list.written.size() == 9 && buffer[9] == 0xee, "a list is packed");
    std::vector<Bytes> asked;
    for (size_t k = 0; k < 4; ++k) {
        const pws::Part part = pws::segment(first, list.written, k);
        expect(bool(part), "segment " + std::to_string(k));
        asked.emplace_back(part.bytes.begin(), part.bytes.end());
    }
    expect(asked == std::vector<Bytes>{{1, 2}, {3, 4}, {}, {5}}, "its segments, in order");
    const pws::Part beyond = pws::segment(first, list.written, 4);
    expect(!beyond && beyond.refusal == pws::Refusal::no_such_segment && beyond.bytes.empty(), "until there is none");
    expect(pws::segment(first, list.written, 0).bytes.data() == first.data() &&
               pws::segment(first, list.written, 3).bytes.data() == buffer.data() + 8,
           "parts are the caller's own bytes");
    const pws::Part damaged = pws::segment(first, buffer, 0);
    expect(!damaged && damaged.refusal == pws::Refusal::list_damaged && damaged.bytes.empty(), "a refused part is empty");
}

// A message becomes a record, which applies as one that was written does.
static void read_then_apply() {
    Bytes table = table_of({cell(head(FIRST, 1), {place(4370, 2, 3, 2, 1)})});
    Bytes record(pws::record_size(1) + 1, 0xee), answer(pws::answer_size(1, pws::Kind::cancel));
    const Bytes message = hex("0015002b 000004 004e000200fe 008e00020003 0094000f0000 009500090000f1100000000100 00dc00050444800400");
    const pws::Message cancel = pws::read_cancel(message, record);
    expect(bool(cancel) && cancel.transaction == 254 && cancel.record.data() == record.data() && cancel.record.size() == 34 &&
               record[34] == 0xee,
           "a cancel is read from a message");
    const pws::Request wanted{.kind = pws::Kind::cancel,
                              .flags = pws::Flags::notification,
                              .area = pws::Area::cells,
                              .identifier = 4370,
                              .serial = 16,
                              .requested = pws::Broadcasts{3}};
    const pws::Reading reading = pws::read(cancel.record);
    expect(reading.request == wanted && reading.items == 1 && pws::item(cancel.record, 0) == FIRST, "its record reads as the message says");
    const std::array<pws::Row, 1> stopped{{{FIRST, pws::Broadcasts{2}, 0}}};
    expect(std::ranges::equal(pws::Answer{pws::apply(table, cancel.record, answer).written}, stopped), "and it cancels");
    expect(pws::read_cancel({}, record).refusal == pws::Refusal::badly_encoded, "no message");
    expect(pws::read_cancel({}, {}).refusal == pws::Refusal::badly_encoded, "no message, and no room");
    expect(pws::read_cancel(message, {}).refusal == pws::Refusal::short_buffer, "no room for a record of a message");
}

// An answer becomes a message and comes back, without the identifier and the serial number that no response has.
static void write_then_read_response() {
    Bytes answer = {'P', 'W', 'A', 0, 1, 2, 0x11, 0x12, 0, 16, 0, 1}, message(pws::response_size(1), 0xee), again(26 + 1, 0xee);
    put(answer, FIRST, 8);
    put(answer, 2, 2);
    put(answer, 0, 4);
    const pws::Done response = pws::write_response(answer, 254, message);
    const Bytes wanted = hex("4015001e 000002 004e000200fe 009600110000 0097000b0000f11000000001000002");
    expect(bool(response) && response.written.data() == message.data() && std::ranges::equal(response.written, wanted) &&
               message[wanted.size()] == 0xee,
           "a response is written");
    const pws::Response read = pws::read_response(response.written, again);
    expect(bool(read) && read.transaction == 254 && read.answer.data() == again.data() && read.answer.size() == 26 && again[26] == 0xee,
           "a response is read");
    const pws::Answer told{read.answer};
    const std::array<pws::Row, 1> stopped{{{FIRST, pws::Broadcasts{2}, 0}}};
    expect(told.kind() == pws::Kind::cancel && told.identifier() == 0 && told.serial() == 0 && std::ranges::equal(told, stopped),
           "as an answer that names no text");
    expect(pws::write_response({}, 0, message).refusal == pws::Refusal::wrong_answer, "no answer");
    expect(pws::write_response({}, 0, {}).refusal == pws::Refusal::wrong_answer, "no answer, and no room");
    expect(pws::write_response(answer, 0, {}).refusal == pws::Refusal::short_buffer, "no room for a response");
    expect(pws::read_response({}, again).refusal == pws::Refusal::badly_encoded, "no response");
    expect(pws::read_response({}, {}).refusal == pws::Refusal::badly_encoded, "no response, and no room");
    expect(pws::read_response(wanted, {}).refusal == pws::Refusal::short_buffer, "no room for the answer of a response");
}

static void refusals_leave_buffers() {
    Bytes table(pws::table_size(1)), record(pws::record_size(1), 0xee), answer(pws::answer_size(1, pws::Kind::second) - 1, 0xee);
    expect(bool(pws::build(head(FIRST, 1), table)), "a table of one cell");
    const Bytes table_before = table, record_before = record, answer_before = answer;
    pws::Request slow = FLOOD;
    slow.period = pws::Seconds{pws::layout::LONGEST_PERIOD + 1};
    const std::array<uint64_t, 1> cells{FIRST};
    const pws::Done unwritten = pws::write(slow, cells, record);
    expect(unwritten.refusal == pws::Refusal::record_limits && unwritten.written.empty() && record == record_before, "a refused record");
    const pws::Done unapplied = pws::apply(table, pws::write(SECOND_PASSES, {}, record).written, answer);
    expect(unapplied.refusal == pws::Refusal::short_buffer && unapplied.written.empty(), "a refused second");
    expect(table == table_before && answer == answer_before, "leaves table and answer");
    const pws::Done unbuilt = pws::build(head(uint64_t{1} << 60, 1), table);
    expect(unbuilt.refusal == pws::Refusal::bad_heads && unbuilt.written.empty() && table == table_before, "a refused table");
    const pws::Done unconverted = pws::convert(TABLE, table);
    expect(unconverted.refusal == pws::Refusal::table_mark && unconverted.written.empty() && table == table_before, "a refused conversion");
    const std::array<uint64_t, 64> many{};
    const pws::Done unpacked = pws::pack({}, many, table);
    expect(unpacked.refusal == pws::Refusal::too_many_segments && unpacked.written.empty() && table == table_before, "a refused list");
    const pws::Message unread = pws::read_cancel(hex("00150001 00"), table);
    expect(!unread && unread.refusal == pws::Refusal::badly_encoded && unread.transaction == 0 && unread.record.empty() &&
               table == table_before,
           "a refused message");
    const pws::Done unanswered = pws::write_response(hex("505741000103000000000000"), 7, table);
    expect(unanswered.refusal == pws::Refusal::wrong_answer && unanswered.written.empty() && table == table_before, "a refused answer");
    const pws::Response untold = pws::read_response(hex("00150009 000001 004e00020007"), table);
    expect(!untold && untold.refusal == pws::Refusal::other_message && untold.transaction == 0 && untold.answer.empty() &&
               table == table_before,
           "a refused response");
}

int main() {
    texts();
    sizes();
    flags();
    empty_spans();
    heads();
    write_then_read();
    rows();
    convert_then_apply();
    empty_texts();
    pack_then_ask();
    read_then_apply();
    write_then_read_response();
    refusals_leave_buffers();
    return report();
}
