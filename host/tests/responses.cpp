// Responses that are accepted, written and read at the guards of edges.cpp: samples that another encoder wrote, every field at its ends,
// lists up to the longest, rooms at, below and above, and what is skipped. wrong_answers.cpp has what is not written.
#include "told_responses.hpp"

using namespace wire;

static const Bytes TRANSACTION = transaction(7);
static const Reported TWICE{FIRST, 2}, OFTEN{SECOND, 65535};

// The answer is written as the sample, whatever its identifier and serial number, and the sample reads as the answer without them.
static bool both_ways(const Told &told, const Bytes &sample) {
    const auto from = [&](uint16_t identifier, uint16_t serial) {
        return written_as(told.answer(identifier, serial), told.transaction, sample);
    };
    return from(4370, 16) && from(0, 0) && from(0xffff, 0xffff) && tells(told, sample);
}

// To the byte as an encoder made from TS 38.473's ASN.1 writes them. responses.hpp must write the same.
static void samples() {
    const std::string begin = "004e00020007";
    const Bytes no_cell_cancelled = hex("40150009 000001" + begin);
    expect(both_ways({}, no_cell_cancelled) && no_cell_cancelled == response({}), "PWS CANCEL RESPONSE without a list");
    const Bytes two_cancelled =
        hex("4015002d 000002" + begin + "00960020 0001 0097000b 00 00f110 0000000100 0002 0097000b 00 00f110 0000000200 ffff");
    const Told twice_and_often{CANCELLING, {TWICE, OFTEN}};
    expect(both_ways(twice_and_often, two_cancelled) && two_cancelled == response(twice_and_often), "PWS CANCEL RESPONSE of two cells");
    const Bytes no_cell_warned = hex("40140009 000001" + begin);
    expect(both_ways({WARNING}, no_cell_warned) && no_cell_warned == response({WARNING}), "WRITE-REPLACE WARNING RESPONSE without a list");
    const Bytes one_warned = hex("4014001c 000002" + begin + "0092000f 0000 00930009 00 00f110 0000000100");
    const Told one{WARNING, {{FIRST}}};
    expect(both_ways(one, one_warned) && one_warned == response(one), "WRITE-REPLACE WARNING RESPONSE of one cell");
    const auto with_nid = [](uint8_t kind) {
        return response(kind, {TRANSACTION, reports(kind, {reported(kind, {FIRST, 772}, {nid(0x123456789ab)})})});
    };
    expect(refused_response(15, with_nid(CANCELLING)) && refused_response(15, with_nid(WARNING)), "a NID marked reject");
}

static void numbers(uint8_t kind) {
    bool ok = true;
    for (unsigned identifier = 0; identifier < 256; ++identifier) {
        const auto byte = static_cast<uint8_t>(identifier);
        const Told one{kind, {{FIRST}}, byte};
        ok &= tells(one, response(one));
    }
    expect(ok, "every transaction identifier");
    const uint64_t last = (uint64_t{1} << 60) - 1;
    const Told ends{kind, {{0}, {1}, {(uint64_t{1} << 36) - 1}, {uint64_t{1} << 36}, {last - 1}, {last}}};
    ok = both_ways(ends, response(ends));
    for (int bit = 1; bit < 60; ++bit) {
        const uint64_t cell = uint64_t{1} << bit;
        const Told pair{kind, {{cell - 1}, {cell}}};
        ok &= both_ways(pair, response(pair));
    }
    expect(ok, "each bit of a cell, and all of them");
}

static void counts() {
    bool ok = true;
    for (unsigned k : {0u, 1u, 2u, 127u, 128u, 255u, 256u, 772u, 0x7fffu, 0x8000u, 0xff00u, 0xfffeu, 0xffffu}) {
        const auto n = static_cast<uint16_t>(k), other = static_cast<uint16_t>(~k);
        const Told told{CANCELLING, {{FIRST, n}, {SECOND, other}}};
        ok &= both_ways(told, response(told));
    }
    expect(ok, "counts of broadcasts");
}

static Told told_of(uint8_t kind, size_t rows) {
    Told told{kind};
    for (size_t k = 0; k < rows; ++k) {
        told.rows.push_back({FIRST + 16 * k + (k << 40), static_cast<uint16_t>(kind == WARNING ? 0 : 257 * k)});
    }
    return told;
}

// Lists of 8 cells with counts, or of 9 without, are the last with a length of one byte; of messages those of 7 cells, or of 8.
static void lists(uint8_t kind, size_t longest) {
    bool ok = true;
    for (size_t rows : std::vector<size_t>{1, 2, 6, 7, 8, 9, 10, 16, 255, 256, 257, 511, 512}) {
        const Told told = told_of(kind, rows);
        ok &= both_ways(told, response(told));
    }
    expect(ok, "lists up to the longest");
    expect(response(told_of(kind, 512)).size() == longest, "and its length");
}

static void rooms(uint8_t kind) {
    for (size_t rows : std::vector<size_t>{0, 1, 2, 9, 512}) {
        const Bytes answer = told_of(kind, rows).answer(), message = response(told_of(kind, rows));
        const auto written = [&](size_t length) {
            const bool fits = length >= message.size();
            return write_response_gives(fits ? 0 : 8, fits ? message.size() : 0, answer, 7, room(length));
        };
        const auto read = [&](size_t length) {
            const bool fits = length >= answer.size();
            return read_message_gives(pws_read_response, fits ? 0 : 8, fits ? 7 : 0, fits ? answer.size() : 0, message, room(length));
        };
        each_length(160, written, "a response into every length");
        each_length(160, read, "an answer into every length");
        expect(written(message.size() - 1) && written(message.size()) && written(message.size() + 1), "at, below and above a message");
        expect(read(answer.size() - 1) && read(answer.size()) && read(answer.size() + 1), "at, below and above an answer");
    }
}

// Diagnostics, the dedicated delivery list, a cancel's elements and the other response's list are unknown, wherever they stand.
static void skipped(uint8_t kind) {
    const Told told{kind, kind == WARNING ? std::vector<Reported>{{FIRST}, {SECOND}} : std::vector<Reported>{TWICE, OFTEN}};
    const Elements known = elements_of(told);
    const uint16_t other_list = kind == WARNING ? ID_CANCELLED : ID_COMPLETED;
    bool ok = true;
    for (uint8_t criticality : {IGNORE, NOTIFY}) {
        for (size_t at = 0; at <= known.size(); ++at) {
            for (uint16_t id : std::vector<uint16_t>{0, 7, 77, 79, 142, 147, 148, 149, 151, 157, 189, 190, 220, 385, 65535, other_list}) {
                Elements elements = known;
                elements.insert(elements.begin() + static_cast<ptrdiff_t>(at), 2, unknown(criticality, id, {0xff}));
                ok &= tells(told, response(kind, elements));
            }
        }
    }
    expect(ok, "an unknown element, twice, at every place");
    ok = true;
    for (size_t length : std::vector<size_t>{1, 2, 127, 128, 255, 256, 4000}) {
        const Elements one = {unknown(IGNORE, 999, Bytes(length, 0xff))};
        const Bytes extended = reports(kind, {reported(kind, told.rows[0], one), reported(kind, told.rows[1], one, one)});
        ok &= tells(told, response(kind, {TRANSACTION, extended, one[0]}));
    }
    const Elements many(300, unknown(NOTIFY, 385, {0}));
    const Bytes with_many = reports(kind, {reported(kind, told.rows[0], {}, many), reported(kind, told.rows[1], many)});
    expect(ok && tells(told, response(kind, {TRANSACTION, with_many})), "extensions of items, of NR CGI and of both");
}

// "A known element's criticality is not read", not even where it is none.
static void known_criticality(uint8_t kind) {
    const Told told{kind, {{FIRST}}};
    bool ok = true;
    for (uint8_t criticality : {REJECT, IGNORE, NOTIFY, NO_CRITICALITY}) {
        Bytes item = reported(kind, told.rows[0]);
        item[2] = criticality;
        Elements known = {TRANSACTION, reports(kind, {item})};
        ok &= tells(told, response(kind, known));
        for (Bytes &one : known) {
            one[2] = criticality;
            ok &= tells(told, response(kind, known));
        }
    }
    expect(ok, "known elements of every criticality");
    ok = true;
    for (uint8_t criticality : {REJECT, IGNORE, NOTIFY}) {
        Bytes frame = response_frame(kind);
        frame[2] = criticality;
        ok &= tells(told, message(elements_of(told), frame));
    }
    expect(ok, "and the message's own");
}

int main() {
    samples();
    counts();
    lists(WARNING, 6677);
    lists(CANCELLING, 7701);
    for (uint8_t kind : {WARNING, CANCELLING}) {
        numbers(kind);
        rooms(kind);
        skipped(kind);
        known_criticality(kind);
    }
    return report();
}
