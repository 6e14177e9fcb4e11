// Tables of version 1 (document 02, 3/13): refused by applying, and converted, at the guards of edges.cpp. What is converted has every
// field and runs on as it would have. Each rule of a version 1 table is broken once in rules.cpp.
#include "at_guards.hpp"
#include "unit.hpp"

#include <algorithm>
#include <random>

// "applying to a version 1 table gives 1"
static void applied_to() {
    for (const pws_request &request : {start(4372, 2, 3), cancel(4, 4370, 16), restart, failure, second}) {
        const std::string kind = "kind " + std::to_string(request.kind) + " on a version 1 table";
        expect(apply_gives(1, 0, OLD_TABLE, record_of(request), room(124)) &&
                   apply_gives(1, 0, OLD_TABLE, record_of(request, {}, 1), room(124)),
               kind);
        expect(apply_gives(1, 0, cut(OLD_TABLE, 20), record_of(request, {}, 3), {}), kind + ", 1 before 2 to 8");
    }
}

// Two cells, the first of them full: all SIB kinds, fields at both ends of what they may be, one text whose numbers are all zero.
static const Bytes SAMPLE = joined({hex("505754 0001 0002 04 0000000000000000"
                                        "000f110000000010 000001 02 000005 000009 000000 000000"
                                        "1112 0010 00000007 0ffe 0003 0002 0ffd 06 01 0000"
                                        "ffff ffff ffffffff 0fff 0000 ffff 0ffe 07 01 0000"
                                        "1112 0011 01020304 0102 ffff fffe 0101 08 01 0000"
                                        "0000 0000 00000000 0000 0001 0000 0000 08 01 0000"
                                        "000f110000000020 ffffff 04 000000 000001 000100 ffffff"
                                        "1112 0010 00000007 0001 0000 0100 0000 06 01 0000"),
                                    Bytes(60)});

static const Bytes CONVERTED = joined({hex("505754 0002 0002 04 0000000000000000"
                                           "000f110000000010 000001 02 000005 000009 000000 000000"
                                           "1112 0010 00000007 00000ffe 0003 0002 00000ffd 06 01 0000"
                                           "ffff ffff ffffffff 00000fff 0000 ffff 00000ffe 07 01 0000"
                                           "1112 0011 01020304 00000102 ffff fffe 00000101 08 01 0000"
                                           "0000 0000 00000000 00000000 0001 0000 00000000 08 01 0000"
                                           "000f110000000020 ffffff 04 000000 000001 000100 ffffff"
                                           "1112 0010 00000007 00000001 0000 0100 00000000 06 01 0000"),
                                       Bytes(72)});

static void sample() {
    expect(convert_gives(0, 256, SAMPLE, room(256)) && convert_at(Flush::end, SAMPLE, room(256)).buffers[0] == CONVERTED, "its bytes");
    expect(convert_gives(0, 256, SAMPLE, room(300)) &&
               convert_at(Flush::end, SAMPLE, room(300)).buffers[0] == joined({CONVERTED, room(44)}),
           "bytes behind it stay");
    expect(convert_at(Flush::end, OLD_TABLE, room(256)).buffers[0] == TABLE, "the table of the other tests");
    expect(apply_gives(0, 40, CONVERTED, record_of(restart), room(40)), "a converted table is accepted");
    expect(convert_gives(1, 0, CONVERTED, room(300)), "and not converted again");
}

static void lengths() {
    const auto into = [](size_t length) { return convert_gives(length < 256 ? 8 : 0, length < 256 ? 0 : 256, SAMPLE, room(length)); };
    each_length(256 + 3, into, "converted into every length");
    const auto of = [](size_t length) {
        const uint32_t number = length < 5 ? 1 : length == SAMPLE.size() ? 0 : 2;
        return convert_gives(number, number == 0 ? 256 : 0, cut(SAMPLE, length), room(256));
    };
    each_length(SAMPLE.size() + OLD.cell + 1, of, "version 1 tables cut at every length, and too long");
}

// Everything from some number on is wrong at once.
static void order() {
    Bytes wrong = SAMPLE, unmarked = CONVERTED;
    wrong.back() = unmarked.back() = 1;
    expect(convert_gives(1, 0, {}, {}) && convert_gives(1, 0, unmarked, {}) && convert_gives(1, 0, cut(unmarked, 30), {}),
           "1 before 2 and 8");
    expect(convert_gives(2, 0, wrong, {}) && convert_gives(2, 0, wrong, room(255)) && convert_gives(2, 0, cut(SAMPLE, 30), room(300)),
           "2 before 8");
    expect(convert_gives(8, 0, SAMPLE, {}) && convert_gives(8, 0, SAMPLE, room(224)), "8 alone, and the old length is no room");
}

static Bytes full_cell(uint16_t k, const Version &version) {
    const auto live = [&](uint16_t text) { return place(text, 4095, 0, k, k, 7, version); };
    return cell(head(k, k), {live(1), live(2), live(3), live(4)}, version);
}

static void largest() {
    std::vector<Bytes> old, cells;
    for (uint16_t k = 1; k <= 512; ++k) {
        old.push_back(full_cell(k, OLD));
        cells.push_back(full_cell(k, NEW));
    }
    const Bytes table = table_of(old, OLD);
    expect(convert_gives(0, 61456, table, room(61456)) && convert_gives(8, 0, table, room(61455)), "512 full cells");
    expect(convert_at(Flush::end, table, room(61456)).buffers[0] == table_of(cells), "their bytes");
    old.push_back(full_cell(513, OLD));
    expect(convert_gives(2, 0, table_of(old, OLD), room(NEW.table(513))), "513 cells");
}

// Two zero bytes before each period and each wait, and the version.
static Bytes widened(const Bytes &old) {
    Bytes table = cut(old, 16);
    table[4] = 2;
    const auto copy = [&](size_t from, size_t to) {
        table.insert(table.end(), old.begin() + static_cast<ptrdiff_t>(from), old.begin() + static_cast<ptrdiff_t>(to));
    };
    for (size_t at = 16; at < old.size(); at += 24) {
        copy(at, at + 24);
        for (int k = 0; k < 4; ++k, at += 20) {
            copy(at + 24, at + 32);
            put(table, 0, 2);
            copy(at + 32, at + 38);
            put(table, 0, 2);
            copy(at + 38, at + 44);
        }
    }
    return table;
}

// One byte anywhere, and any room: whatever the number, the promises are kept, and what is accepted is widened.
static void seeded_damage() {
    std::mt19937 random(20240601);
    size_t of[9] = {};
    bool ok = true;
    for (int run = 0; ok && run < 5000; ++run) {
        Bytes old = SAMPLE;
        old[random() % old.size()] = static_cast<uint8_t>(random());
        const Bytes table = room(random() % 4 == 0 ? random() % 256 : 256);
        const Left left = convert_at(Flush::end, old, table);
        ok &= left.number <= 8 && convert_gives(left.number, left.number == 0 ? 256 : 0, old, table);
        ok &= left.number != 0 || left.buffers[0] == widened(old);
        ++of[left.number % 9];
    }
    expect(ok && of[0] > 300 && of[1] > 30 && of[2] > 300 && of[8] > 30 && of[0] + of[1] + of[2] + of[8] == 5000, "damaged at random");
}

// What document 01 says that a version 1 place sends in the t-th second from now, without the engine: nothing, or its count.
struct Running {
    uint16_t identifier;
    uint32_t period;
    uint16_t requested, sent;
    uint32_t wait;

    Bytes old_place() const { return place(identifier, period, requested, sent, wait, 7, OLD); }

    uint32_t sends(uint32_t t) const {
        const uint32_t every = std::max(period, 1u);
        if (t <= wait || (t - 1 - wait) % every != 0) {
            return 0;
        }
        const uint32_t count = sent + (t - 1 - wait) / every + 1;
        return requested != 0 && count > requested ? 0 : std::min(count, 65535u);
    }
};

// "it then broadcasts what it would have under version 1, over any number of seconds"
static void runs_on() {
    const Running texts[] = {{1, 4095, 5, 2, 4094}, {2, 1, 0, 65000, 0}, {3, 0, 1, 0, 0}, {4, 300, 60000, 50000, 299}};
    std::vector<Bytes> old;
    for (const Running &text : texts) {
        old.push_back(text.old_place());
    }
    Unit unit = one();
    unit.table = convert_at(Flush::end, table_of({cell(head(FIRST, 1), old, OLD)}, OLD), room(NEW.table(1))).buffers[0];
    bool ok = true;
    for (uint32_t t = 1; ok && t <= 13000; ++t) {
        std::vector<uint16_t> counts;
        for (const Running &text : texts) {
            if (const uint32_t count = text.sends(t)) {
                counts.push_back(static_cast<uint16_t>(count));
            }
        }
        ok = reports(unit.apply(second), counts);
    }
    expect(ok, "13,000 seconds after the conversion");
    expect(unit.table == holding({place(2, 1, 0, 65535, 0, 7), place(4, 300, 60000, 50043, 199, 7)}), "and the table then");
}

int main() {
    applied_to();
    sample();
    lengths();
    order();
    largest();
    seeded_damage();
    runs_on();
    return report();
}
