// The engine as a C++ team would write it by hand, to time the proved one against: in place on the bytes, with the same
// tests for the same refusals. The surface is pws.h's with peer_ in front; documents 01 and 02 are the law here as there.
#include "peer/cancel.hpp"
#include "peer/convert.hpp"
#include "peer/reach.hpp"
#include "peer/record.hpp"
#include "peer/response.hpp"
#include "peer/segments.hpp"
#include "peer/steps.hpp"
#include "peer/table.hpp"
#include "pws.h"

namespace {

void happen(uint8_t *table, const uint8_t *record, size_t length, Rows &rows) {
    const size_t cells = be16(table + 5);
    const auto item = [&](size_t at) { return reinterpret_cast<const Item *>(record + at); };
    const Reach reach = {record[7], item(RECORD_HEADER), item(length)};
    switch (record[5]) {
    case WRITE_REPLACE:
        if (const Start start(record); !start.nothing()) {
            each_reached(table, cells, reach, [&](uint8_t *cell) { start.in_cell(cell, rows); });
        }
        break;
    case CANCEL:
        if (record[6] & CANCEL_ALL) {
            each_reached(table, cells, reach, [&](uint8_t *cell) { cancel_all_in_cell(cell, rows); });
        } else {
            const uint32_t text = raw<uint32_t>(record + 8);
            each_reached(table, cells, reach, [&](uint8_t *cell) { cancel_in_cell(cell, text, rows); });
        }
        break;
    case RESTART:
        each_reached(table, cells, reach, [&](uint8_t *cell) {
            free_all(cell);
            rows.report(cell);
        });
        break;
    case FAILURE:
        each_reached(table, cells, reach, [&](uint8_t *cell) { cancel_all_in_cell(cell, rows); });
        break;
    case SECOND:
        // A second has no area.
        each_cell(table, cells, [&](uint8_t *cell) { second_in_cell(cell, rows); });
        break;
    }
}

}

extern "C" pws_done peer_apply(uint8_t *table, size_t table_length, const uint8_t *record, size_t record_length, uint8_t *answer,
                               size_t answer_length) {
    if (const uint32_t number = table_refusal<Version2>(table, table_length)) {
        return {number, 0};
    }
    if (const uint32_t number = record_refusal(record, record_length)) {
        return {number, 0};
    }
    const size_t rows_per_cell = record[5] == SECOND ? PLACES : 1;
    if (answer_length < ANSWER_HEADER + ROW * rows_per_cell * be16(table + 5)) {
        return {8, 0};
    }
    Rows rows = {answer + ANSWER_HEADER};
    happen(table, record, record_length, rows);
    put_answer_header(answer, record[5], raw<uint32_t>(record + 8), rows.count);
    return {0, static_cast<size_t>(rows.next - answer)};
}

extern "C" pws_done peer_build(const uint8_t *heads, size_t heads_length, uint8_t *table, size_t table_length) {
    const size_t cells = heads_length / HEAD;
    if (heads_length % HEAD != 0 || cells < 1 || cells > MOST_CELLS) {
        return {9, 0};
    }
    uint64_t next = 0;
    for (const uint8_t *head = heads; head != heads + heads_length; head += HEAD) {
        if (!head_legal(head, next)) {
            return {9, 0};
        }
    }
    const size_t length = TABLE_HEADER + CELL * cells;
    if (table_length < length) {
        return {8, 0};
    }
    put_table_header(table, cells);
    for (size_t k = 0; k < cells; ++k) {
        uint8_t *const cell = table + TABLE_HEADER + CELL * k;
        std::memcpy(cell, heads + HEAD * k, HEAD);
        free_all(cell);
    }
    return {0, length};
}

extern "C" pws_done peer_convert(const uint8_t *old, size_t old_length, uint8_t *table, size_t table_length) {
    if (const uint32_t number = table_refusal<Version1>(old, old_length)) {
        return {number, 0};
    }
    const size_t cells = be16(old + 5), length = TABLE_HEADER + CELL * cells;
    if (table_length < length) {
        return {8, 0};
    }
    put_table_header(table, cells);
    convert_cells(old + TABLE_HEADER, table + TABLE_HEADER, cells);
    return {0, length};
}

extern "C" pws_reading peer_read(const uint8_t *record, size_t record_length) {
    if (const uint32_t number = record_refusal(record, record_length)) {
        return {number, {}, 0};
    }
    return {0, fields(record), be16(record + 24)};
}

extern "C" pws_done peer_write(pws_request request, const uint64_t *items, size_t count, uint8_t *record, size_t record_length) {
    if (count > MOST_ITEMS) {
        return {4, 0};
    }
    if (const uint32_t number = field_refusal(request, count)) {
        return {number, 0};
    }
    uint64_t any = 0;
    for (size_t k = 0; k < count; ++k) {
        any |= items[k];
    }
    if (const uint32_t number = value_refusal(request, any, LONGEST_PERIOD)) {
        return {number, 0};
    }
    const size_t length = RECORD_HEADER + ITEM * count;
    if (record_length < length) {
        return {8, 0};
    }
    put_fields(record, request, count);
    for (size_t k = 0; k < count; ++k) {
        put64(record + RECORD_HEADER + ITEM * k, items[k]);
    }
    return {0, length};
}

extern "C" uint64_t peer_item(const uint8_t *record, size_t record_length, size_t k) {
    if (record_length < RECORD_HEADER || k >= (record_length - RECORD_HEADER) / ITEM) {
        return 0;
    }
    return be64(record + RECORD_HEADER + ITEM * k);
}

extern "C" pws_part peer_segment(const uint8_t *, size_t first_length, const uint8_t *more, size_t more_length, size_t k) {
    return find_segment(first_length, more, more_length, k);
}

extern "C" pws_done peer_pack(const uint8_t *bytes, size_t bytes_length, const uint64_t *lengths, size_t count, uint8_t *list,
                              size_t list_length) {
    if (const uint32_t number = lengths_refusal(lengths, count, bytes_length)) {
        return {number, 0};
    }
    const size_t length = SEGMENT_LENGTH * count + bytes_length;
    if (list_length < length) {
        return {8, 0};
    }
    put_segments(list, bytes, lengths, count);
    return {0, length};
}

extern "C" pws_message peer_read_cancel(const uint8_t *message, size_t message_length, uint8_t *record, size_t record_length) {
    Frame frame;
    if (!take_frame({message, message + message_length}, frame)) {
        return {13, 0, 0};
    }
    if (frame.choice != INITIATING_MESSAGE || frame.code != PWS_CANCEL) {
        return {14, 0, 0};
    }
    Cancel cancel;
    if (!judge_cancel(frame.value, cancel)) {
        return {13, 0, 0};
    }
    if (const uint32_t number = cancel.refusal()) {
        return {number, 0, 0};
    }
    const size_t length = RECORD_HEADER + ITEM * cancel.cells.count;
    if (record_length < length) {
        return {8, 0, 0};
    }
    put_fields(record, cancel.request(), cancel.cells.count);
    put_cells(record + RECORD_HEADER, cancel.cells);
    return {0, cancel.transaction, length};
}

extern "C" pws_done peer_write_response(const uint8_t *answer, size_t answer_length, uint8_t transaction, uint8_t *message,
                                        size_t message_length) {
    if (const uint32_t number = answer_refusal(answer, answer_length)) {
        return {number, 0};
    }
    return answer[5] == CANCEL ? put_response<CancelResponse>(answer, transaction, message, message_length)
                               : put_response<WarningResponse>(answer, transaction, message, message_length);
}

extern "C" pws_message peer_read_response(const uint8_t *message, size_t message_length, uint8_t *answer, size_t answer_length) {
    Frame frame;
    if (!take_frame({message, message + message_length}, frame)) {
        return {13, 0, 0};
    }
    if (frame.choice != SUCCESSFUL_OUTCOME) {
        return {14, 0, 0};
    }
    switch (frame.code) {
    case WarningResponse::CODE:
        return read_response<WarningResponse>(frame.value, answer, answer_length);
    case CancelResponse::CODE:
        return read_response<CancelResponse>(frame.value, answer, answer_length);
    default:
        return {14, 0, 0};
    }
}
