// A unit that warns two harbour yards of a flood: the north yard's water falls first, so its warning is cancelled while the
// south yard goes on. Everything lies in arrays of fixed size; the texts themselves stay with the host, by content number.
#include "pws.hpp"

#include <array>
#include <cstdint>
#include <cstdio>
#include <span>
#include <string_view>

namespace {

constexpr std::uint64_t NORTH = 0x00f110000000010;
constexpr std::uint64_t SOUTH = 0x00f110000000020;
constexpr std::size_t YARDS = 2;

const char *yard(std::uint64_t cell) { return cell == NORTH ? "north" : "south"; }

const char *words(std::uint32_t content) { return content == 7 ? "Flood. Leave the quays." : ""; }

// Says why, if refused.
bool accepted(pws::Refusal refusal) {
    if (refusal != pws::Refusal::none) {
        const std::string_view why = pws::text(refusal);
        std::printf("  refused: %.*s\n", static_cast<int>(why.size()), why.data());
    }
    return refusal == pws::Refusal::none;
}

class Unit {
public:
    bool build() {
        const std::array<pws::Head, YARDS> yards{{{.cell = NORTH, .code = 1}, {.cell = SOUTH, .code = 2}}};
        std::array<std::uint8_t, YARDS * pws::layout::HEAD> heads{};
        std::span<std::uint8_t> rest = heads;
        for (const pws::Head &head : yards) {
            if (!accepted(pws::put_head(head, rest.first<pws::layout::HEAD>()))) {
                return false;
            }
            rest = rest.subspan(pws::layout::HEAD);
        }
        return accepted(pws::build(heads, table_).refusal);
    }

    // Applies a request and prints each row of the answer. A second's rows are what the yards send.
    bool apply(const char *what, const pws::Request &request, std::span<const std::uint64_t> cells = {}) {
        std::printf("%s\n", what);
        const pws::Done record = pws::write(request, cells, record_);
        if (!accepted(record.refusal)) {
            return false;
        }
        const pws::Done answer = pws::apply(table_, record.written, answer_);
        for (const pws::Row row : pws::Answer{answer.written}) {
            if (request.kind == pws::Kind::second) {
                std::printf("  %s sends \"%s\", number %u\n", yard(row.cell), words(row.content), unsigned{row.count.number});
            } else {
                std::printf("  %s, sent %u times\n", yard(row.cell), unsigned{row.count.number});
            }
        }
        return accepted(answer.refusal);
    }

private:
    std::array<std::uint8_t, pws::table_size(YARDS)> table_{};
    std::array<std::uint8_t, pws::record_size(YARDS)> record_{};
    std::array<std::uint8_t, pws::answer_size(YARDS, pws::Kind::second)> answer_{};
};

// Every 2 seconds, 3 times, in SIB 8.
constexpr pws::Request FLOOD{.kind = pws::Kind::write_replace,
                             .identifier = 4370,
                             .serial = 16,
                             .content = 7,
                             .period = pws::Seconds{2},
                             .requested = pws::Broadcasts{3},
                             .sib = 8};

constexpr pws::Request SECOND{.kind = pws::Kind::second};

constexpr pws::Request ALL_CLEAR{
    .kind = pws::Kind::cancel, .flags = pws::Flags::notification, .area = pws::Area::cells, .identifier = 4370, .serial = 16};

} // namespace

int main() {
    Unit unit;
    if (!unit.build() || !unit.apply("start the flood warning", FLOOD)) {
        return 1;
    }
    for (int second = 1; second <= 3; ++second) {
        unit.apply("a second passes", SECOND);
    }
    const std::array<std::uint64_t, 1> north{NORTH};
    unit.apply("cancel the north yard", ALL_CLEAR, north);
    for (int second = 4; second <= 6; ++second) {
        unit.apply("a second passes", SECOND);
    }
    pws::Request too_slow = FLOOD;
    too_slow.period = pws::Seconds{pws::layout::LONGEST_PERIOD + 1};
    return unit.apply("start it every 131072 seconds", too_slow) ? 1 : 0;
}
