// Every rule of heads, tables and records broken once, and each limit at and above it, at the guards of edges.cpp: the number
// that document 01 gives, and the lowest where several apply. Tables of version 2 are judged by applying, those of version 1 by
// converting, and but for lengths and limits by the same rules.
#include "at_guards.hpp"
#include "by_hand.hpp"

#include <utility>

// One byte to be changed, and the number that follows: 0 where the rules still hold.
struct Change {
    size_t at;
    uint8_t byte;
    uint32_t number;
};

using Gives = bool (*)(uint32_t number, const Bytes &changed);

// Expects each change alone to give its number.
static void changed(const std::string &what, const Bytes &sound, Gives gives, const std::vector<Change> &changes) {
    bool ok = true;
    for (const Change &change : changes) {
        Bytes bytes = sound;
        bytes[change.at] = change.byte;
        if (bytes == sound || !gives(change.number, bytes)) {
            std::printf("  with %u at %zu\n", change.byte, change.at);
            ok = false;
        }
    }
    expect(ok, what);
}

// The same byte put at each place of a run.
static std::vector<Change> at_each(size_t from, size_t to, uint8_t byte, uint32_t number) {
    std::vector<Change> changes;
    for (size_t at = from; at < to; ++at) {
        changes.push_back({at, byte, number});
    }
    return changes;
}

static bool heads_give(uint32_t number, const Bytes &heads) { return build_gives(number, number == 0 ? 256 : 0, heads, room(256)); }

static bool table_gives(uint32_t number, const Bytes &table) {
    return apply_gives(number, number == 0 ? 40 : 0, table, record_of(restart), room(40));
}

static bool old_table_gives(uint32_t number, const Bytes &table) { return convert_gives(number, number == 0 ? 256 : 0, table, room(256)); }

// A version's tables, by the two cells that are sound, and who judges them.
struct Judged {
    const Version &version;
    const Bytes &sound;
    Gives gives;

    std::string named(const std::string &what) const { return what + ", version " + std::to_string(version.number); }

    void changed(const std::string &what, const std::vector<Change> &changes) const { ::changed(named(what), sound, gives, changes); }
};

static const Judged TABLES[] = {{NEW, TABLE, table_gives}, {OLD, OLD_TABLE, old_table_gives}};

// The reader gives what applying gives on a sound table with room.
static bool record_gives(uint32_t number, const Bytes &record) {
    const Left left = apply_at(Flush::end, TABLE, record, room(124));
    const size_t length = number == 0 ? 12 + 14 * get(left.buffers[0], 10, 2) : 0;
    return apply_gives(number, length, TABLE, record, room(124)) && read_gives(number, record);
}

// Of the two heads, the second beginning at 24. In a table the same bytes stand further apart, and all is refusal 2.
static void head_rules() {
    const std::pair<const char *, std::vector<Change>> rules[] = {
        {"an NR CGI is below 2^60", {{24, 0x0f, 0}, {24, 0x10, 9}}},
        {"cells ascend strictly", {{31, 0x11, 0}, {31, 0x10, 9}, {31, 0x0f, 9}}},
        {"any tracking area code", {{8, 0xff, 0}, {10, 0, 0}}},
        {"used areas are at most four, the rest is zero", {{11, 0, 9}, {11, 1, 9}, {11, 5, 9}, {11, 0xff, 9}, {20, 1, 9}, {23, 1, 9}}},
        {"used areas ascend strictly", {{11, 3, 9}, {14, 0, 0}, {14, 8, 0}, {14, 9, 9}, {14, 10, 9}}},
    };
    for (const auto &[what, changes] : rules) {
        changed(what, HEADS, heads_give, changes);
        for (const Judged &tables : TABLES) {
            std::vector<Change> in_table = changes;
            for (Change &change : in_table) {
                change = {tables.version.table(change.at / 24) + change.at % 24, change.byte, change.number == 0 ? 0u : 2u};
            }
            tables.changed(what + std::string(", in a table"), in_table);
        }
    }
}

static void table_rules(const Judged &tables) {
    const Version &version = tables.version;
    std::vector<Change> other_versions = {{3, 1, 1}, {3, version.number, 1}};
    for (int number = 0; number < 256; ++number) {
        if (number != version.number) {
            other_versions.push_back({4, static_cast<uint8_t>(number), 1});
        }
    }
    expect(tables.gives(0, tables.sound), tables.named("a sound table"));
    tables.changed("a table's mark", {{0, 'p', 1}, {1, 'w', 1}, {2, 'R', 1}});
    tables.changed("a table's version", other_versions);
    tables.changed("the number of cells", {{5, 1, 2}, {6, 0, 2}, {6, 1, 2}, {6, 3, 2}});
    tables.changed("places per cell", {{7, 3, 2}, {7, 5, 2}});
    tables.changed("zero bytes of the header", at_each(8, 16, 1, 2));
    const size_t next = 16 + 24 + version.place, sib = next - 4, next_cell = version.table(1);
    tables.changed("a place's SIB kind", {{sib, 5, 2}, {sib, 6, 0}, {sib, 7, 0}, {sib, 9, 2}});
    tables.changed("live is 1", {{sib + 1, 0, 2}, {sib + 1, 2, 2}});
    tables.changed("a place's zero bytes", at_each(sib + 2, next, 1, 2));
    tables.changed("no text is live twice in a cell", {{next + 1, 0x12, 2}, {next + 1, 0x14, 0}});
    tables.changed("a free place is all zero", at_each(next + version.place, next_cell, 1, 2));
    tables.changed("in every cell", at_each(next_cell + 24, tables.sound.size(), 1, 2));
}

static bool with_places(uint32_t number, const std::vector<Bytes> &places, const Judged &tables) {
    const Version &version = tables.version;
    return tables.gives(number, table_of({cell(head(FIRST, 1), places, version), cell(head(SECOND, 2), {}, version)}, version));
}

// A live place's numbers, and whether they are legal.
struct Terms {
    uint32_t period;
    uint16_t requested, sent;
    uint32_t wait, number;
};

static void expect_of_places(const Judged &tables, const std::vector<Terms> &places) {
    for (const auto &[period, requested, sent, wait, number] : places) {
        for (uint8_t sib = 6; sib <= 8; ++sib) {
            expect(with_places(number, {place(1, period, requested, sent, wait, sib, tables.version)}, tables),
                   tables.named("a place of period " + std::to_string(period) + ", requested " + std::to_string(requested) + ", sent " +
                                std::to_string(sent) + ", wait " + std::to_string(wait) + ", SIB kind " + std::to_string(sib)));
        }
    }
}

static void place_rules(const Judged &tables) {
    const std::vector<Terms> places = {{4095, 2, 0, 4094, 0},   {4095, 2, 0, 4095, 2},  {0, 1, 0, 0, 0}, {0, 0, 0, 0, 2},
                                       {0, 2, 0, 0, 2},         {0, 1, 0, 1, 2},        {0, 1, 1, 0, 2}, {1, 0, 65535, 0, 0},
                                       {1, 0, 0, 1, 2},         {5, 3, 2, 4, 0},        {5, 3, 3, 0, 2}, {5, 3, 4, 0, 2},
                                       {5, 65535, 65534, 0, 0}, {5, 65535, 65535, 0, 2}};
    const uint32_t longest = tables.version.longest;
    expect_of_places(tables, places);
    expect_of_places(tables, {{longest, 2, 0, longest - 1, 0}, {longest, 2, 0, longest, 2}, {longest + 1, 2, 0, 0, 2}});
    expect(with_places(2, {Bytes(tables.version.place), place(1, 2, 3, 0, 0, 8, tables.version)}, tables),
           tables.named("live places come first"));
}

// Seconds above 65,535 are more than their last two bytes.
static void wide_seconds(const Judged &tables) {
    const std::vector<Terms> places = {{65536, 3, 0, 65535, 0},  {65536, 3, 0, 65536, 2}, {65537, 3, 0, 65536, 0}, {65536, 3, 0, 0, 0},
                                       {131071, 3, 0, 65536, 0}, {65540, 3, 0, 3, 0},     {5, 3, 0, 65536, 2},     {196608, 3, 0, 0, 2},
                                       {5, 3, 0, 0x80000000, 2}, {0x80000005, 3, 0, 3, 2}};
    expect_of_places(tables, places);
}

static void start_rules() {
    const Bytes sound = record_of(in(1, start(4370, 2, 3)), {FIRST, SECOND});
    expect(record_gives(0, sound), "a sound start");
    changed("a record's mark", sound, record_gives, {{0, 'p', 3}, {1, 'w', 3}, {2, 'T', 3}});
    changed("a record's version", sound, record_gives, {{3, 1, 3}, {3, 2, 3}, {4, 0, 3}, {4, 1, 0}, {4, 3, 3}, {4, 255, 3}});
    changed("n is that of the items", sound, record_gives, {{24, 2, 4}, {25, 0, 4}, {25, 1, 4}, {25, 3, 4}});
    changed("kinds are 1 to 5", sound, record_gives, {{5, 0, 5}, {5, 6, 5}, {5, 0xff, 5}});
    changed("a start's flags", sound, record_gives, {{6, 1, 0}, {6, 2, 5}, {6, 3, 5}, {6, 4, 5}, {6, 8, 5}, {6, 0x81, 5}});
    changed("an area with items", sound, record_gives, {{7, 0, 5}, {7, 2, 6}, {7, 3, 6}, {7, 4, 5}, {7, 0xff, 5}});
    changed("a start's zero byte", sound, record_gives, {{23, 1, 5}});
    changed("a start's period", sound, record_gives, {{16, 1, 6}, {17, 1, 0}, {17, 2, 6}, {18, 0xff, 0}});
    changed("a start's SIB kind", sound, record_gives, {{22, 0, 6}, {22, 5, 6}, {22, 6, 0}, {22, 7, 0}, {22, 9, 6}});
    for (uint8_t sib = 6; sib <= 8; ++sib) {
        for (const Version &version : {OLD, NEW}) {
            const auto lasting = [&](uint32_t period) { return record_of(start(4370, period, 2, 0, sib), {}, version.number); };
            expect(record_gives(0, lasting(version.longest)) && record_gives(6, lasting(version.longest + 1)),
                   "periods up to " + std::to_string(version.longest) + " with SIB kind " + std::to_string(sib));
        }
    }
    changed("every item below 2^60", sound, record_gives, {{26, 0x0f, 0}, {26, 0x10, 6}, {34, 0x0f, 0}, {34, 0x10, 6}});
    changed("an area without items", record_of(start(4370, 131071, 3)), record_gives, {{7, 1, 5}, {7, 2, 5}, {7, 3, 5}, {17, 2, 6}});
    for (const auto &[area, bits] : {std::pair<uint8_t, int>{1, 60}, {2, 48}, {3, 24}}) {
        const uint64_t end = uint64_t{1} << bits;
        expect(record_gives(0, record_of(in(area, start(1, 2, 3)), {1, end - 1})) &&
                   record_gives(6, record_of(in(area, start(1, 2, 3)), {1, end})),
               "items of area " + std::to_string(area) + " below 2^" + std::to_string(bits));
    }
}

static void cancel_rules() {
    const Bytes sound = record_of(cancel(4, 4370, 16));
    changed("a cancel's flags", sound, record_gives, {{6, 0, 5}, {6, 1, 5}, {6, 2, 5}, {6, 5, 5}, {6, 6, 0}, {6, 8, 5}});
    changed("a cancel's area", sound, record_gives, {{7, 1, 5}, {7, 4, 5}});
    changed("a cancel's content and period are zero", sound, record_gives, at_each(12, 20, 1, 5));
    changed("a cancel's requested is not used", sound, record_gives, at_each(20, 22, 1, 0));
    changed("a cancel's SIB kind and zero byte", sound, record_gives, {{22, 8, 5}, {23, 1, 5}});
    changed("a cancel of all names no text", record_of(cancel(2, 0, 0)), record_gives, at_each(8, 12, 1, 5));
    expect(record_gives(7, record_of(cancel(0, 0, 0))), "a cancel of nothing");
    changed("a cancel of nothing that names a text", record_of(cancel(0, 0, 0)), record_gives, at_each(8, 12, 1, 5));
}

static void other_kinds() {
    for (const pws_request &request : {restart, failure, second}) {
        const std::string kind = " of kind " + std::to_string(request.kind);
        const Bytes sound = record_of(request);
        expect(record_gives(0, sound), "a sound record" + kind);
        changed("no flags" + kind, sound, record_gives, {{6, 1, 5}, {6, 2, 5}, {6, 4, 5}, {6, 0x80, 5}});
        changed("zero fields" + kind, sound, record_gives, at_each(8, 24, 1, 5));
        expect(record_gives(request.kind == 5 ? 5 : 0, record_of(in(1, request), {FIRST})), "area 1" + kind);
        expect(record_gives(5, record_of(in(2, request), {1})) && record_gives(5, record_of(in(3, request), {1})), "areas 2 and 3" + kind);
    }
}

// Everything from some number on is wrong at once.
static void lowest_number() {
    const Bytes wrong_mark = cut({'P', 'W'}, 40), unmarked_record = cut({'P', 'W', 'T'}, 50), wrong_table = cut(TABLE, 100);
    pws_request wild = start(1, 200000, 3, 2);
    Bytes miscounted = record_of(wild);
    miscounted[25] = 1;
    const uint64_t too_large = uint64_t{1} << 60;
    expect(apply_gives(1, 0, wrong_mark, unmarked_record, {}), "1 before 2 to 8");
    expect(apply_gives(2, 0, wrong_table, unmarked_record, {}), "2 before 3 to 8");
    expect(apply_gives(3, 0, TABLE, unmarked_record, {}), "3 before 4 to 8");
    expect(apply_gives(4, 0, TABLE, miscounted, {}), "4 before 5, 6 and 8");
    expect(apply_gives(5, 0, TABLE, record_of(wild), {}), "5 before 6 and 8");
    expect(apply_gives(6, 0, TABLE, record_of(cancel(0, 0, 0, 1), {too_large}), {}), "6 before 7 and 8");
    expect(apply_gives(7, 0, TABLE, record_of(cancel(0, 0, 0)), {}), "7 before 8");
    const std::vector<uint64_t> too_many(513, too_large);
    expect(write_gives(4, 0, wild, too_many, {}) && write_gives(5, 0, wild, {}, {}), "the writer's 4 and 5 before others");
    expect(write_gives(6, 0, cancel(0, 0, 0, 1), {too_large}, {}) && write_gives(7, 0, cancel(0, 0, 0), {}, {}),
           "the writer's 6 and 7 before 8");
}

int main() {
    head_rules();
    for (const Judged &tables : TABLES) {
        table_rules(tables);
        place_rules(tables);
    }
    wide_seconds(TABLES[0]);
    start_rules();
    cancel_rules();
    other_kinds();
    lowest_number();
    return report();
}
