// Document 01's samples through the C surface: P1 to P13 on a table of one cell, and the program's example whole. And document
// 02's earthquake primaries, starts of SIB kind 6, with the bytes that they leave in the table.
#include "unit.hpp"

// A unit with 4370/16 sent twice.
static Unit twice() {
    Unit unit = one();
    unit.apply(start(4370, 2, 3));
    for (int i = 0; i < 3; ++i) {
        unit.apply(second);
    }
    return unit;
}

static Unit four() {
    Unit unit = one();
    for (uint16_t i = 1; i <= 4; ++i) {
        unit.apply(start(i, 5, 3, 1));
    }
    return unit;
}

static void starts() {
    Unit p1 = one();
    expect(reports(p1.apply(start(4370, 4095, 2)), {0}) && p1.live() == 1, "P1");
    expect(one().apply(start(4370, 131072, 2)).number == 6, "P2");
    Unit p3 = one();
    expect(reports(p3.apply(start(4370, 5, 0)), {}) && p3.live() == 0, "P3");
    Unit p4 = one();
    expect(reports(p4.apply(start(4370, 1, 0, 1)), {0}), "P4 starts");
    for (int i = 0; i < 1000; ++i) {
        p4.apply(second);
    }
    expect(p4.live() == 1 && p4.sent() == 1000, "P4 has no end");
    Unit p5 = one();
    p5.apply(start(4370, 0, 1));
    expect(reports(p5.apply(second), {1}) && p5.live() == 0, "P5");
    Unit p6 = one();
    expect(reports(p6.apply(start(4370, 0, 2)), {}) && p6.live() == 0, "P6");
    Unit p7 = twice();
    expect(reports(p7.apply(start(4370, 9, 9)), {0}) && p7.sent() == 2, "P7");
    Unit p8 = four();
    expect(reports(p8.apply(start(4370, 2, 3, 1)), {}) && p8.live() == 4, "P8");
    Unit p9 = four();
    expect(reports(p9.apply(start(4370, 2, 3)), {0}) && p9.live() == 1, "P9");
}

static void cancels() {
    Unit p10 = twice();
    expect(reports(p10.apply(cancel(4, 4370, 16)), {2}) && p10.live() == 0, "P10");
    Unit p11 = twice();
    expect(reports(p11.apply(cancel(6, 4370, 16)), {0}) && p11.live() == 0, "P11");
    Unit p12 = twice();
    expect(reports(p12.apply(cancel(4, 4370, 16, 1), {FIRST, FIRST}), {2}) && p12.live() == 0, "P12");
    expect(twice().apply(cancel(0, 0, 0)).number == 7, "P13");
}

// What a primary is stored as, and what it is after its broadcasts.
static Bytes unending(uint16_t sent = 0) { return place(4370, 1, 0, sent, 0, 6); }

// "skips the zero rules and is stored with period 1 and requested 0"
static void primaries_start() {
    const uint32_t periods[] = {0, 1, 5, 4095, 65536, 131071};
    const uint16_t counts[] = {0, 1, 2, 65535};
    for (uint32_t period : periods) {
        for (uint16_t requested : counts) {
            for (uint8_t flags = 0; flags <= 1; ++flags) {
                Unit unit = one();
                expect(reports(unit.apply(primary(4370, period, requested, flags)), {0}) && unit.table == holding({unending()}),
                       "a primary of period " + std::to_string(period) + ", requested " + std::to_string(requested) + ", flags " +
                           std::to_string(flags));
            }
        }
    }
    expect(one().apply(primary(4370, 131072, 2)).number == 6, "a primary's period has its limit");
    for (const pws_request &idle : {start(4370, 5, 0, 0, 7), start(4370, 0, 2, 0, 7), start(4370, 0, 0, 1, 7)}) {
        Unit unit = one();
        expect(reports(unit.apply(idle), {}) && unit.live() == 0, "the zero rules hold for SIB kind 7");
    }
    Unit counted = one();
    expect(reports(counted.apply(start(4370, 5, 2, 0, 7)), {0}) && counted.table == holding({place(4370, 5, 2, 0, 0, 7)}),
           "SIB kind 7 keeps its period and count");
}

// "goes out every second until stopped"
static void primaries_go_on() {
    Unit unit = one();
    unit.apply(primary(4370, 5, 2));
    for (uint16_t sent = 1; sent <= 3; ++sent) {
        expect(reports(unit.apply(second), {sent}) && unit.table == holding({unending(sent)}),
               "a primary's second " + std::to_string(sent));
    }
    expect(reports(unit.apply(cancel(4, 4370, 16)), {3}) && unit.live() == 0, "a primary is stopped");
}

// Repeats, dropped places and full cells are as for any start.
static void primaries_among_others() {
    for (const Bytes &live : {place(4370, 5, 2, 1, 3, 6), place(4370, 5, 2, 1, 3, 8), unending(3)}) {
        for (const pws_request &again : {primary(4370, 5, 2), primary(4370, 5, 0), primary(4370, 0, 2, 1)}) {
            Unit repeated = with({live});
            expect(reports(repeated.apply(again), {0}) && repeated.table == holding({live}),
                   "a primary that repeats a text changes nothing");
        }
    }
    Unit alone = four();
    expect(reports(alone.apply(primary(4370, 5, 2)), {0}) && alone.table == holding({unending()}), "a primary drops what is live");
    const Bytes other = place(4371, 5, 2, 1, 3);
    Unit beside = with({other});
    expect(reports(beside.apply(primary(4370, 5, 2, 1)), {0}) && beside.table == holding({other, unending()}),
           "a concurrent primary takes the first free place");
    Unit full = four();
    const Bytes before = full.table;
    expect(reports(full.apply(primary(4370, 5, 2, 1)), {}) && full.table == before, "a concurrent primary needs a free place");
}

// "SIB 6 places already in a table run on as stored"
static void stored_primaries() {
    Unit counted = with({place(4370, 2, 2, 0, 0, 6)});
    expect(reports(counted.apply(second), {1}) && reports(counted.apply(second), {}) && reports(counted.apply(second), {2}) &&
               counted.live() == 0,
           "a stored primary of period 2, requested 2 ends");
    Unit once = with({place(4370, 0, 1, 0, 0, 6)});
    expect(reports(once.apply(second), {1}) && once.live() == 0, "a stored primary of period 0, requested 1 ends");
    Unit slow = with({place(4370, 3, 0, 65534, 1, 6)});
    expect(reports(slow.apply(second), {}) && reports(slow.apply(second), {65535}) &&
               slow.table == holding({place(4370, 3, 0, 65535, 2, 6)}),
           "a stored primary of period 3 keeps its period");
}

static std::string shown(const pws_request &request, const Outcome &outcome) {
    char line[64];
    std::snprintf(line, sizeof line, "ok %u %zu\n", request.kind, outcome.rows.size());
    std::string text = line;
    for (const Row &row : outcome.rows) {
        std::snprintf(line, sizeof line, "%015llx %u %u\n", static_cast<unsigned long long>(row.identity), row.count, row.content);
        text += line;
    }
    return text;
}

static void example() {
    Unit unit({head(FIRST, 1), head(SECOND, 2)});
    std::string text;
    auto run = [&](const pws_request &request, const std::vector<uint64_t> &items = {}) {
        text += shown(request, unit.apply(request, items));
    };
    run(start(4370, 2, 3));
    run(second);
    run(second);
    run(second);
    run(cancel(4, 4370, 16, 2), {0x00f110000002});
    run(cancel(2, 0, 0));
    run(cancel(4, 4370, 16));
    expect(text == "ok 1 2\n00f110000000010 0 0\n00f110000000020 0 0\nok 5 2\n00f110000000010 1 7\n00f110000000020 1 7\nok 5 0\n"
                   "ok 5 2\n00f110000000010 2 7\n00f110000000020 2 7\nok 2 1\n00f110000000020 2 0\nok 2 1\n00f110000000010 0 0\nok 2 0\n",
           "document 01's example");
}

// What is written reads back, items included.
static void round_trip() {
    const pws_request request = cancel(4, 4370, 16, 1);
    const uint64_t items[] = {FIRST, SECOND};
    Bytes record(26 + 16 + 3, 0xee);
    pws_done done = pws_write(request, items, 2, record.data(), record.size());
    pws_reading reading = pws_read(record.data(), done.length);
    expect(done.number == 0 && done.length == 42 && record[42] == 0xee, "a record is written, and the bytes behind it stay");
    expect(reading.number == 0 && reading.items == 2 && reading.request.kind == 2 && reading.request.identifier == 4370 &&
               reading.request.serial == 16 && reading.request.area == 1,
           "its fields read back");
    expect(pws_item(record.data(), done.length, 0) == FIRST && pws_item(record.data(), done.length, 1) == SECOND &&
               pws_item(record.data(), done.length, 2) == 0,
           "its items read back");
}

static void primaries_read_back() {
    for (const pws_request &request : {primary(4370, 5, 2), primary(4370, 0, 0), primary(4370, 131071, 65535, 1)}) {
        Bytes record = room(26);
        const uint64_t none = 0;
        pws_done done = pws_write(request, &none, 0, record.data(), record.size());
        pws_reading reading = pws_read(record.data(), record.size());
        expect(done.number == 0 && record == record_of(request) && reading.number == 0 && reading.request.period == request.period &&
                   reading.request.requested == request.requested && reading.request.sib == 6,
               "a primary's record keeps its own period and count");
    }
}

int main() {
    starts();
    cancels();
    primaries_start();
    primaries_go_on();
    primaries_among_others();
    stored_primaries();
    example();
    round_trip();
    primaries_read_back();
    return report();
}
