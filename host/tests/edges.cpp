// Every entry point with each of its buffers flush against a page that nobody may touch, once at the buffer's end and once at its
// front: buffers of every length around the right one, none at all, the largest, and bytes damaged at random. Buffers that a call
// only reads are mapped for reading only, so a write into one stops this program as a step past one does.
//
// libpws.a is not instrumented: the sanitizers see these files alone, and the guard pages are what watches the library.
#include "at_guards.hpp"
#include "by_hand.hpp"

#include <csignal>
#include <random>
#include <sys/wait.h>

// Whether touching a byte, outside of a buffer or read-only, ends a program.
template <class Touch> static bool stops(Touch touch) {
    const pid_t child = fork();
    if (child == 0) {
        std::signal(SIGSEGV, SIG_DFL);
        touch();
        _exit(0);
    }
    int status = 0;
    return waitpid(child, &status, 0) == child && WIFSIGNALED(status) && WTERMSIG(status) == SIGSEGV;
}

static void guards() {
    const Guarded at_end(room(100), Flush::end, Lent::for_reading), at_front(room(100), Flush::front, Lent::for_writing);
    const Guarded empty({}, Flush::front, Lent::for_writing);
    const auto reads = [](const volatile uint8_t *byte) { return stops([=] { static_cast<void>(*byte); }); };
    const auto writes = [](volatile uint8_t *byte) { return stops([=] { *byte = 1; }); };
    expect(reads(at_end.data() + 100) && reads(at_front.data() - 1) && reads(empty.data()) && reads(empty.data() - 1), "guards stop reads");
    expect(writes(at_front.data() - 1) && writes(at_end.data() + 100) && writes(at_end.data()), "guards and read-only bytes stop writes");
    expect(!reads(at_end.data()) && !reads(at_end.data() + 99) && !writes(at_front.data()), "a buffer's own bytes do not");
}

static void builds() {
    const auto heads_cut = [](size_t length) {
        const bool whole = length == 24 || length == 48;
        return build_gives(whole ? 0 : 9, whole ? NEW.table(length / 24) : 0, cut(HEADS, length), room(256));
    };
    each_length(HEADS.size(), heads_cut, "heads cut at every length");
    const auto into = [](size_t length) { return build_gives(length < 256 ? 8 : 0, length < 256 ? 0 : 256, HEADS, room(length)); };
    each_length(256 + 2, into, "a table built into every length");
    expect(build_at(Flush::end, HEADS, room(256)).buffers[0] == table_of({cell(head(FIRST, 1, {5, 9}), {}), cell(head(SECOND, 2), {})}),
           "an empty table");
    std::vector<Bytes> many;
    for (uint32_t k = 1; k <= 513; ++k) {
        many.push_back(head(k, k));
    }
    expect(build_gives(9, 0, joined(many), room(NEW.table(513))) && build_gives(9, 0, joined(many), room(0)), "513 heads, 9 before 8");
    many.pop_back();
    expect(build_gives(0, 61456, joined(many), room(61456)) && build_gives(8, 0, joined(many), room(61455)), "512 heads");
}

// Every kind with every area that it may have, and how many cells it reports.
static void kinds() {
    const struct {
        pws_request request;
        std::vector<uint64_t> items;
        size_t rows;
    } requests[] = {
        {start(4370, 2, 3), {}, 2},
        {start(4372, 2, 3, 1), {}, 2},
        {start(4372, 5, 0), {}, 0},
        {primary(4372, 5, 0), {}, 2},
        {in(1, start(4372, 2, 3)), {FIRST, SECOND}, 2},
        {in(2, start(4372, 2, 3)), {0x00f110000002}, 1},
        {in(3, start(4372, 2, 3)), {8, 9}, 1},
        {cancel(4, 4370, 16), {}, 1},
        {cancel(2, 0, 0), {}, 1},
        {cancel(6, 1, 1, 1), {SECOND, FIRST}, 1},
        {cancel(4, 4371, 16, 2), {0x00f110000001}, 1},
        {cancel(4, 4370, 16, 3), {5, 5}, 1},
        {cancel(4, 4370, 16, 3), {0}, 0},
        {restart, {}, 2},
        {in(1, restart), {SECOND}, 1},
        {failure, {}, 1},
        {in(1, failure), {SECOND}, 0},
        {second, {}, 1},
    };
    for (const auto &[request, items, rows] : requests) {
        const Bytes record = record_of(request, items);
        const size_t needed = 12 + (request.kind == 5 ? 56 : 14) * 2, length = 12 + 14 * rows;
        const bool ok = apply_gives(0, length, TABLE, record, room(needed)) && apply_gives(0, length, TABLE, record, room(needed + 1)) &&
                        apply_gives(8, 0, TABLE, record, room(needed - 1)) && apply_gives(8, 0, TABLE, record, room(0));
        expect(ok && read_gives(0, record), "kind " + std::to_string(request.kind) + " with area " + std::to_string(request.area));
    }
}

static void cut_tables() {
    const auto gives = [](size_t length) {
        const uint32_t number = length < 5 ? 1 : length == TABLE.size() ? 0 : 2;
        return apply_gives(number, number == 0 ? 26 : 0, cut(TABLE, length), record_of(second), room(124));
    };
    each_length(TABLE.size() + NEW.cell + 1, gives, "tables cut at every length, and too long");
}

static void cut_records() {
    const Bytes record = record_of(in(1, start(4370, 2, 3)), {FIRST, SECOND});
    const auto gives = [&](size_t length) {
        const uint32_t number = length < 26 ? 3 : length == record.size() ? 0 : 4;
        return apply_gives(number, number == 0 ? 40 : 0, TABLE, cut(record, length), room(40)) && read_gives(number, cut(record, length));
    };
    each_length(record.size() + 9, gives, "records cut at every length, and too long");
}

static void writes() {
    const pws_request request = in(1, start(4370, 131071, 65535, 1));
    const auto into = [&](size_t length) {
        return write_gives(length < 42 ? 8 : 0, length < 42 ? 0 : 42, request, {FIRST, SECOND}, room(length));
    };
    each_length(42 + 2, into, "a record written into every length");
    expect(write_at(Flush::end, request, {FIRST, SECOND}, room(42)).buffers[0] == record_of(request, {FIRST, SECOND}), "its bytes");
    expect(write_gives(0, 26, second, {}, room(26)) && write_gives(8, 0, second, {}, room(25)), "a record without items");
    const std::vector<uint64_t> most(512, FIRST);
    expect(write_gives(0, 4122, request, most, room(4122)) && write_gives(8, 0, request, most, room(4121)), "512 items written");
    expect(write_gives(4, 0, request, std::vector<uint64_t>(513, FIRST), room(5000)), "513 items not written");
}

static void items() {
    const std::vector<uint64_t> listed = {FIRST, SECOND, UINT64_MAX};
    const Bytes record = record_of(restart, listed);
    for (size_t k = 0; k < 5; ++k) {
        const auto gives = [&](size_t length) { return item_gives(26 + 8 * (k + 1) <= length ? listed[k] : 0, cut(record, length), k); };
        each_length(record.size(), gives, "item " + std::to_string(k) + " of a record cut at every length");
    }
    // Where 8 k + 26 would run over, and come out inside of the record.
    for (size_t k : {SIZE_MAX, SIZE_MAX - 2, SIZE_MAX / 2, SIZE_MAX / 8, SIZE_MAX / 8 - 2, SIZE_MAX / 8 + 1, SIZE_MAX / 8 + 2}) {
        expect(item_gives(0, record, k), "item " + std::to_string(k));
    }
}

// 512 full cells: the longest table, answer and record.
static void largest() {
    std::vector<Bytes> cells;
    std::vector<uint64_t> all;
    for (uint16_t k = 1; k <= 512; ++k) {
        cells.push_back(cell(head(k, k), {place(1, 1, 2, 0, 0), place(2, 1, 2, 0, 0), place(3, 1, 2, 0, 0), place(4, 1, 2, 0, 0)}));
        all.push_back(k);
    }
    const Bytes table = table_of(cells);
    expect(apply_gives(0, 28684, table, record_of(second), room(28684)) && apply_gives(8, 0, table, record_of(second), room(28683)),
           "2048 rows");
    expect(apply_gives(0, 7180, table, record_of(in(1, restart), all), room(7180)), "512 cells by 512 items");
    expect(apply_gives(0, 12, table, record_of(in(1, start(5, 2, 3, 1)), all), room(7180)), "512 full cells");
    all.push_back(513);
    expect(apply_gives(4, 0, table, record_of(in(1, restart), all), room(7180)), "513 items");
    cells.push_back(cell(head(513, 1), {}));
    expect(apply_gives(2, 0, table_of(cells), record_of(second), room(30000)), "513 cells");
}

// Three bytes anywhere in table and record, and any answer length: whatever the number, it comes back and keeps the promises.
static void seeded_damage() {
    std::mt19937 random(20240601);
    const auto below = [&](size_t end) { return random() % end; };
    bool ok = true;
    for (int run = 0; run < 5000; ++run) {
        Bytes table = TABLE, record = record_of(in(1, start(4372, 2, 3)), {FIRST, SECOND});
        for (int change = 0; change < 3; ++change) {
            Bytes &changed = below(4) == 0 ? table : record;
            changed[below(changed.size())] = static_cast<uint8_t>(random());
        }
        const Bytes answer = room(below(130));
        const Left left = apply_at(Flush::end, table, record, answer);
        ok &= left.number <= 8 &&
              apply_gives(left.number, left.number == 0 ? 12 + 14 * get(left.buffers[0], 10, 2) : 0, table, record, answer);
    }
    expect(ok, "tables and records damaged at random");
}

int main() {
    guards();
    builds();
    kinds();
    cut_tables();
    cut_records();
    writes();
    items();
    largest();
    seeded_damage();
    return report();
}
