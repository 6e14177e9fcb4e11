// What is not written as a response: bytes that no accepted Write-Replace or Cancel could have as its answer, each way to be so, at the
// guards of edges.cpp. Nothing of the message's buffer changes, and 17 comes before 8.
#include "told_responses.hpp"
#include "unit.hpp"

#include <random>

static const uint64_t BEYOND = uint64_t{1} << 60;
static const Told CANCELLED{CANCELLING, {{FIRST, 2}, {SECOND, 65535}, {BEYOND - 1, 0}}}, WARNED{WARNING, {{FIRST}, {SECOND}, {BEYOND - 1}}};

// At one place of a row: its cell, its count or its content.
static Bytes with_row(const Told &told, size_t row, size_t at, uint64_t number, size_t width) {
    Bytes answer = told.answer(4370, 16);
    for (size_t k = 0; k < width; ++k) {
        answer[12 + 14 * row + at + width - 1 - k] = static_cast<uint8_t>(number >> (8 * k));
    }
    return answer;
}

static Bytes with_byte(const Told &told, size_t at, uint8_t byte) {
    Bytes answer = told.answer(4370, 16);
    answer[at] = byte;
    return answer;
}

static bool written(const Bytes &answer) { return write_response_at(Flush::end, answer, 7, room(100)).number == 0; }

static void lengths(const Told &told) {
    const Bytes answer = told.answer(4370, 16);
    expect(written(answer), "an answer");
    each_length(
        answer.size() + 30, [&](size_t length) { return length == answer.size() || unwritten(cut(answer, length)); },
        "an answer of every other length");
    bool ok = true;
    for (uint8_t rows : Bytes{0, 1, 2, 4, 255}) {
        ok &= unwritten(with_byte(told, 11, rows));
    }
    expect(ok && unwritten(with_byte(told, 10, 1)), "a number of rows that is not theirs");
}

static void most_rows(uint8_t kind) {
    Told told{kind};
    for (uint64_t k = 0; k < 512; ++k) {
        told.rows.push_back({FIRST + k});
    }
    expect(write_response_at(Flush::end, told.answer(), 7, room(7800)).number == 0, "512 rows");
    told.rows.push_back({SECOND + 512});
    expect(unwritten(told.answer()), "513 rows");
}

static void heads(const Told &told) {
    bool ok = true;
    for (unsigned byte = 0; byte < 256; ++byte) {
        const auto other = static_cast<uint8_t>(byte);
        ok &= other == 'P' || unwritten(with_byte(told, 0, other));
        ok &= other == 'W' || unwritten(with_byte(told, 1, other));
        ok &= other == 'A' || unwritten(with_byte(told, 2, other));
        ok &= other == 0 || unwritten(with_byte(told, 3, other));
        ok &= other == 1 || unwritten(with_byte(told, 4, other));
        ok &= other == WARNING || other == CANCELLING || unwritten(with_byte(told, 5, other));
        for (size_t at = 6; at < 10; ++at) {
            ok &= written(with_byte(told, at, other));
        }
    }
    expect(ok, "another mark, version or kind; any identifier and serial number");
    expect(unwritten(with_byte(CANCELLED, 5, WARNING)) && written(with_byte(WARNED, 5, CANCELLING)), "counts of another kind");
}

static void rows(const Told &told) {
    const auto cell = [&](size_t row, uint64_t nr_cgi) { return with_row(told, row, 0, nr_cgi, 8); };
    expect(unwritten(cell(2, BEYOND)) && unwritten(cell(2, BEYOND + SECOND)) && unwritten(cell(2, ~uint64_t{0})) &&
               unwritten(cell(0, ~uint64_t{0})) && unwritten(cell(1, ~uint64_t{0})),
           "a cell of 60 bits and more");
    expect(unwritten(cell(1, FIRST)) && unwritten(cell(2, SECOND)) && unwritten(cell(0, SECOND)), "a cell twice");
    expect(unwritten(cell(0, SECOND + 1)) && unwritten(cell(1, FIRST - 1)) && unwritten(cell(2, 0)) && unwritten(cell(1, BEYOND - 1)),
           "cells that don't ascend");
    expect(written(cell(0, 0)) && written(cell(0, SECOND - 1)) && written(cell(1, FIRST + 1)) && written(cell(2, SECOND + 1)),
           "cells that do");
    bool ok = true;
    for (size_t row = 0; row < 3; ++row) {
        for (int bit = 0; bit < 32; ++bit) {
            ok &= unwritten(with_row(told, row, 10, uint64_t{1} << bit, 4));
        }
        for (int bit = 0; bit < 16; ++bit) {
            const Bytes counted = with_row(told, row, 8, uint64_t{1} << bit, 2);
            ok &= told.kind == WARNING ? unwritten(counted) : written(counted);
        }
    }
    expect(ok, "each bit of a content, and of a count");
}

// Answers as applying gives them: those of kinds 1 and 2 are written, those of other kinds are not.
static void applied() {
    Unit unit({head(FIRST, 1), head(SECOND, 2)});
    const auto answer_to = [&](const pws_request &request) {
        const Left left = apply_at(Flush::end, unit.table, record_of(request), room(12 + 56 * 2));
        unit.table = left.buffers[1];
        return cut(left.buffers[0], left.length);
    };
    const Bytes started = answer_to(start(4370, 2, 3)), passed = answer_to(second), stopped = answer_to(cancel(4, 4370, 16));
    expect(written_as(started, 9, wire::response({WARNING, {{FIRST}, {SECOND}}, 9})), "what a start answers");
    expect(written_as(stopped, 255, wire::response({CANCELLING, {{FIRST, 1}, {SECOND, 1}}, 255})), "what a cancel answers");
    expect(written_as(answer_to(cancel(2, 0, 0)), 0, wire::response({CANCELLING, {}, 0})), "what a cancel of nothing answers");
    expect(passed.size() == 12 + 28 && unwritten(passed) && unwritten(answer_to(second)), "a second's answer");
    expect(unwritten(answer_to(restart)) && unwritten(answer_to(failure)), "a restart's and a failure's");
}

// By the rule, said once more: what the writer takes, and nothing else.
static bool is_answer(const Bytes &answer) {
    if (answer.size() < 12 || cut(answer, 5) != Bytes{'P', 'W', 'A', 0, 1} || (answer[5] != WARNING && answer[5] != CANCELLING)) {
        return false;
    }
    const size_t rows = get(answer, 10, 2);
    bool ok = rows <= 512 && answer.size() == 12 + 14 * rows;
    for (size_t at = 12; ok && at < answer.size(); at += 14) {
        ok = get(answer, at, 8) < BEYOND && get(answer, at + 10, 4) == 0 && (answer[5] == CANCELLING || get(answer, at + 8, 2) == 0) &&
             (at == 12 || get(answer, at - 14, 8) < get(answer, at, 8));
    }
    return ok;
}

// One bit, then one byte anywhere.
static void seeded_damage(const Told &told) {
    std::mt19937 random(20240602);
    const Bytes answer = told.answer(4370, 16);
    size_t taken = 0, refused = 0;
    bool ok = true;
    const auto judged = [&](const Bytes &damaged) {
        const bool sound = is_answer(damaged);
        ++(sound ? taken : refused);
        ok &= sound ? written(damaged) : unwritten(damaged);
    };
    for (size_t bit = 0; bit < 8 * answer.size(); ++bit) {
        Bytes damaged = answer;
        damaged[bit / 8] ^= static_cast<uint8_t>(0x80 >> bit % 8);
        judged(damaged);
    }
    for (int run = 0; ok && run < 2000; ++run) {
        Bytes damaged = answer;
        damaged[random() % answer.size()] = static_cast<uint8_t>(random());
        judged(damaged);
    }
    expect(ok && taken > 200 && refused > 200, "damaged at random");
}

int main() {
    for (const Told &told : {CANCELLED, WARNED}) {
        lengths(told);
        most_rows(told.kind);
        heads(told);
        rows(told);
        seeded_damage(told);
    }
    applied();
    return report();
}
