// A table and the requests applied to it, through the C surface alone: what the samples are told in.
#ifndef UNIT_HPP
#define UNIT_HPP

#include "by_hand.hpp"

struct Row {
    uint64_t identity;
    uint16_t count;
    uint32_t content;
};

// What an apply leaves: its number and, if accepted, the rows of its answer.
struct Outcome {
    uint32_t number;
    std::vector<Row> rows;
};

// What an answer begins with: version 1, and what the record and the rows say.
inline Bytes answer_header(const Bytes &record, size_t rows) {
    Bytes b = {'P', 'W', 'A', 0, 1, record[5], record[8], record[9], record[10], record[11]};
    put(b, rows, 2);
    return b;
}

struct Unit {
    static constexpr size_t FIRST_PLACE = 16 + 24;

    Bytes table;

    explicit Unit(const std::vector<Bytes> &heads) {
        const Bytes all = joined(heads);
        table.resize(NEW.table(heads.size()));
        pws_done done = pws_build(all.data(), all.size(), table.data(), table.size());
        expect(done.number == 0 && done.length == table.size(), "build");
    }

    Outcome apply(const pws_request &request, const std::vector<uint64_t> &items = {}) {
        Bytes record(26 + 8 * items.size());
        static const uint64_t none = 0;
        pws_done written = pws_write(request, items.empty() ? &none : items.data(), items.size(), record.data(), record.size());
        return written.number != 0 ? Outcome{written.number, {}} : apply(record);
    }

    Outcome apply(const Bytes &record) {
        Bytes answer = room(12 + 56 * get(table, 5, 2));
        pws_done done = pws_apply(table.data(), table.size(), record.data(), record.size(), answer.data(), answer.size());
        Outcome outcome{done.number, {}};
        for (size_t at = 12; done.number == 0 && at < done.length; at += 14) {
            outcome.rows.push_back(
                {get(answer, at, 8), static_cast<uint16_t>(get(answer, at + 8, 2)), static_cast<uint32_t>(get(answer, at + 10, 4))});
        }
        const bool headed = done.number != 0 || cut(answer, 12) == answer_header(record, outcome.rows.size());
        if (!headed || Bytes(answer.begin() + static_cast<ptrdiff_t>(done.length), answer.end()) != room(answer.size() - done.length)) {
            expect(false, "an answer has its header, and the bytes behind it stay");
            return {UINT32_MAX, {}};
        }
        return outcome;
    }

    // Of the first cell: live places, and sent of its first place.
    int live() const {
        int n = 0;
        for (size_t at = FIRST_PLACE; at < NEW.table(1); at += NEW.place) {
            n += table[at + 21];
        }
        return n;
    }
    uint64_t sent() const { return get(table, FIRST_PLACE + 14, 2); }
};

inline Unit one() { return Unit({head(FIRST, 1)}); }

inline bool reports(const Outcome &outcome, std::vector<uint16_t> counts) {
    if (outcome.number != 0 || outcome.rows.size() != counts.size()) {
        return false;
    }
    for (size_t i = 0; i < counts.size(); ++i) {
        if (outcome.rows[i].count != counts[i]) {
            return false;
        }
    }
    return true;
}

// The table of one cell with these places.
inline Bytes holding(const std::vector<Bytes> &places) { return table_of({cell(head(FIRST, 1), places)}); }

inline Unit with(const std::vector<Bytes> &places) {
    Unit unit = one();
    unit.table = holding(places);
    return unit;
}

#endif
