// Periods above an hour (document 02, 3/13): seconds that two bytes don't hold, in records and in tables, and records of version 1
// under their old limit. Tables of version 1 are in conversion.cpp.
#include "at_guards.hpp"
#include "unit.hpp"

static void long_periods() {
    for (uint32_t period : {4096u, 7200u, 65535u, 65536u, 65537u, 131070u, 131071u}) {
        Unit unit = one();
        expect(reports(unit.apply(start(4370, period, 2)), {0}) && unit.table == holding({place(4370, period, 2, 0, 0)}),
               "a start every " + std::to_string(period) + " seconds");
    }
    Unit longest = one();
    longest.apply(start(4370, 131071, 2));
    expect(longest.table == joined({hex("505754 0002 0001 04 0000000000000000 000f110000000010 000001 00"), Bytes(12),
                                    hex("1112 0010 00000007 0001ffff 0002 0000 00000000 08 01 0000"), Bytes(72)}),
           "its bytes");
    for (uint32_t period : {131072u, 196607u, 0x10000005u, UINT32_MAX}) {
        const pws_request request = start(4370, period, 2);
        expect(write_gives(6, 0, request, {}, room(26)) && apply_gives(6, 0, TABLE, record_of(request), room(124)) &&
                   read_gives(6, record_of(request)),
               "no start every " + std::to_string(period) + " seconds");
    }
}

// From 131,070 down, through 65,536, each second by one.
static void long_waits() {
    Unit unit = one();
    unit.apply(start(4370, 131071, 2));
    expect(reports(unit.apply(second), {1}) && unit.table == holding({place(4370, 131071, 2, 1, 131070)}), "the longest wait");
    bool ok = true;
    for (uint32_t wait = 131069; ok && wait != UINT32_MAX; --wait) {
        ok = reports(unit.apply(second), {}) && get(unit.table, Unit::FIRST_PLACE + 16, 4) == wait;
    }
    expect(ok && unit.table == holding({place(4370, 131071, 2, 1, 0)}), "goes down to 0");
    expect(reports(unit.apply(second), {2}) && unit.live() == 0, "and the text goes out again");
}

// Waits on both sides of 65,536 in one cell, with places that go on, end and close up.
static void waits_side_by_side() {
    Unit unit = with({place(1, 131071, 0, 5, 65536), place(2, 65536, 3, 2, 0), place(3, 65537, 0, 65535, 0), place(4, 65536, 9, 7, 1)});
    expect(reports(unit.apply(second), {3, 65535}) &&
               unit.table == holding({place(1, 131071, 0, 5, 65535), place(3, 65537, 0, 65535, 65536), place(4, 65536, 9, 7, 0)}),
           "one ends");
    expect(reports(unit.apply(second), {8}) &&
               unit.table == holding({place(1, 131071, 0, 5, 65534), place(3, 65537, 0, 65535, 65535), place(4, 65536, 9, 8, 65535)}),
           "one goes out");
    expect(reports(unit.apply(cancel(4, 3, 16)), {65535}) &&
               unit.table == holding({place(1, 131071, 0, 5, 65534), place(4, 65536, 9, 8, 65535)}),
           "one is cancelled");
    expect(reports(unit.apply(start(1, 5, 2, 1)), {0}) &&
               unit.table == holding({place(1, 131071, 0, 5, 65534), place(4, 65536, 9, 8, 65535)}),
           "a repeat changes nothing");
}

static void versions_of_records() {
    bool ok = true;
    for (uint32_t version = 0; version <= 65535; ++version) {
        const Bytes record = record_of(start(4370, 5, 2), {}, static_cast<uint16_t>(version));
        ok &= pws_read(record.data(), record.size()).number == (version == 1 || version == 2 ? 0 : 3);
    }
    expect(ok, "a record's version is 1 or 2");
    Unit old = one();
    expect(reports(old.apply(record_of(start(4370, 4095, 2), {}, 1)), {0}) && old.table == holding({place(4370, 4095, 2, 0, 0)}),
           "a version 1 record every 4095 seconds");
    for (uint32_t period : {4096u, 7200u, 65536u, 131071u}) {
        const Bytes record = record_of(start(4370, period, 2), {}, 1);
        expect(read_gives(6, record) && apply_gives(6, 0, TABLE, record, room(124)), "and of " + std::to_string(period) + " is refused");
    }
    for (uint16_t version : {uint16_t{0}, uint16_t{3}}) {
        const Bytes record = record_of(start(4370, 5, 2), {}, version);
        expect(read_gives(3, record) && apply_gives(3, 0, TABLE, record, {}), "version " + std::to_string(version));
    }
}

// "a version 1 record comes back as version 2 with the same fields", and does the same.
static void records_of_version_1() {
    const std::vector<uint64_t> items = {FIRST, SECOND};
    for (const pws_request &request : {in(1, start(4370, 4095, 65535, 1)), in(1, primary(4372, 0, 0)), cancel(4, 4370, 16, 1),
                                       cancel(2, 0, 0, 1), in(1, restart), in(1, failure)}) {
        const Bytes old = record_of(request, items, 1), record = record_of(request, items);
        const pws_reading reading = pws_read(old.data(), old.size());
        const std::string kind = ", kind " + std::to_string(request.kind);
        expect(read_gives(0, old) && write_at(Flush::end, reading.request, items, room(42)).buffers[0] == record,
               "read and written again" + kind);
        expect(apply_at(Flush::end, TABLE, old, room(124)) == apply_at(Flush::end, TABLE, record, room(124)), "applied" + kind);
    }
    const Bytes old = record_of(second, {}, 1);
    expect(apply_at(Flush::end, TABLE, old, room(124)) == apply_at(Flush::end, TABLE, record_of(second), room(124)), "applied, kind 5");
}

int main() {
    long_periods();
    long_waits();
    waits_side_by_side();
    versions_of_records();
    records_of_version_1();
    return report();
}
