// A unit that is told by the wire to cancel a warning, and answers on the wire. Its whole duty is one function, `answered`; around it
// stands a small story: two warnings run on three quays, one of them is cancelled on two of these, and a second message is damaged.
#include "pws.hpp"

#include <array>
#include <cstdint>
#include <cstdio>
#include <span>
#include <string_view>

namespace {

using Bytes = std::span<const std::uint8_t>;

// Each holds the longest that there is, so that no message is refused for want of room: 4122, 7180 and 7701 bytes.
using RecordRoom = std::array<std::uint8_t, pws::record_size(pws::layout::MOST_ITEMS)>;
using AnswerRoom = std::array<std::uint8_t, pws::answer_size(pws::layout::MOST_CELLS, pws::Kind::cancel)>;
using ResponseRoom = std::array<std::uint8_t, pws::response_size(pws::layout::MOST_CELLS)>;

// From a PWS CANCEL REQUEST to the response: what is written is to be sent. If refused, nothing is written and the table is as it was.
// Nothing can be refused any more once the table has changed: an answer that apply gives to a cancel can be written, and there is room.
pws::Done answered(Bytes message, std::span<std::uint8_t> table, ResponseRoom &response) {
    RecordRoom record;
    AnswerRoom answer;
    const pws::Message cancel = pws::read_cancel(message, record);
    if (!cancel) {
        return {cancel.refusal, {}};
    }
    const pws::Done applied = pws::apply(table, cancel.record, answer);
    if (!applied) {
        return applied;
    }
    return pws::write_response(applied.written, cancel.transaction, response);
}

constexpr std::array<std::uint64_t, 3> QUAYS{0x00f110000000010, 0x00f110000000020, 0x00f110000000030};

using Table = std::array<std::uint8_t, pws::table_size(QUAYS.size())>;

bool build(Table &table) {
    std::array<std::uint8_t, QUAYS.size() * pws::layout::HEAD> heads;
    for (std::size_t quay = 0; quay < QUAYS.size(); ++quay) {
        const std::span<std::uint8_t> rest = std::span{heads}.subspan(quay * pws::layout::HEAD);
        if (pws::put_head({.cell = QUAYS[quay], .code = 1}, rest.first<pws::layout::HEAD>()) != pws::Refusal::none) {
            return false;
        }
    }
    return bool(pws::build(heads, table));
}

// Every second, 60 times, beside what runs already.
constexpr pws::Request warning(std::uint16_t serial) {
    return {.kind = pws::Kind::write_replace,
            .flags = pws::Flags::concurrent,
            .identifier = 4370,
            .serial = serial,
            .content = serial,
            .period = pws::Seconds{1},
            .requested = pws::Broadcasts{60},
            .sib = 8};
}

// How many rows its answer has: cells that it starts in, or what goes out in a second.
std::size_t applied_rows(const pws::Request &request, Table &table) {
    std::array<std::uint8_t, pws::record_size(0)> record;
    std::array<std::uint8_t, pws::answer_size(QUAYS.size(), pws::Kind::second)> answer;
    return pws::Answer{pws::apply(table, pws::write(request, {}, record).written, answer).written}.size();
}

constexpr pws::Request SECOND{.kind = pws::Kind::second};

// Transaction 7 cancels text 4370/16 in the first two cells.
constexpr std::array<std::uint8_t, 60> CANCEL{
    0, 21,  0, 56, 0,    0,    4,                         // PWS cancel; 56 bytes, four elements
    0, 78,  0, 2,  0,    7,                               // transaction 7
    0, 142, 0, 2,  0,    0,                               // requested 0
    0, 148, 0, 28, 0,    1,                               // a list of two cells
    0, 149, 0, 9,  0,    0,    0xf1, 0x10, 0, 0, 0, 1, 0, // the first: its PLMN, and 36 bits
    0, 149, 0, 9,  0,    0,    0xf1, 0x10, 0, 0, 0, 2, 0, // the second
    0, 220, 0, 5,  0x04, 0x44, 0x80, 0x04, 0};            // identifier 4370, serial number 16, from the third bit on

void print(const char *what, Bytes bytes) {
    std::printf("%s", what);
    for (std::uint8_t byte : bytes) {
        std::printf(" %02x", unsigned{byte});
    }
    std::printf("\n");
}

// As whoever asked reads it.
bool print_response(Bytes message) {
    AnswerRoom answer;
    const pws::Response response = pws::read_response(message, answer);
    std::printf("transaction %u: cancelled in %zu cells\n", unsigned{response.transaction}, pws::Answer{response.answer}.size());
    for (const pws::Row row : pws::Answer{response.answer}) {
        std::printf("  %015llx, sent %u times\n", static_cast<unsigned long long>(row.cell), unsigned{row.count.number});
    }
    return bool(response);
}

} // namespace

int main() {
    Table table;
    if (!build(table)) {
        return 1;
    }
    for (std::uint16_t serial : {std::uint16_t{16}, std::uint16_t{17}}) {
        std::printf("warning 4370/%u: started in %zu cells\n", unsigned{serial}, applied_rows(warning(serial), table));
    }
    for (int second = 1; second <= 3; ++second) {
        std::printf("a second: %zu broadcasts\n", applied_rows(SECOND, table));
    }
    ResponseRoom room;
    print("comes:", CANCEL);
    const pws::Done response = answered(CANCEL, table, room);
    print("goes: ", response.written);
    if (!print_response(response.written)) {
        return 1;
    }
    std::printf("a second: %zu broadcasts\n", applied_rows(SECOND, table));

    const Table before = table;
    const Bytes damaged = Bytes{CANCEL}.first(CANCEL.size() - 1);
    print("comes:", damaged);
    const pws::Done refused = answered(damaged, table, room);
    const std::string_view why = pws::text(refused.refusal);
    std::printf("refused with %u: %.*s\n", static_cast<unsigned>(refused.refusal), static_cast<int>(why.size()), why.data());
    std::printf("the table is %s\n", table == before ? "as it was" : "another");
    return refused || table != before ? 1 : 0;
}
