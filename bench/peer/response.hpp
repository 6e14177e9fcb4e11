// PWS CANCEL RESPONSE and WRITE-REPLACE WARNING RESPONSE: an answer judged (refusal 17) and written as one, and one judged (13 to 17)
// and put into an answer.
#pragma once

#include "cells.hpp"
#include "pws.h"

namespace {

// By the kind of the answer.
struct WarningResponse {
    static constexpr uint8_t KIND = WRITE_REPLACE, CODE = WRITE_REPLACE_WARNING;
    using List = Completed;
};

struct CancelResponse {
    static constexpr uint8_t KIND = CANCEL, CODE = PWS_CANCEL;
    using List = Cancelled;
};

constexpr size_t ROW_COUNT = 8, ROW_CONTENT = 10;
constexpr int CELL_WIDTH = 60;

// An item as it is written: id, criticality and a length of one byte, then what its open type holds.
constexpr size_t ITEM_HEAD = 4;
template <class List> constexpr size_t item_bytes = CELL_ITEM + List::COUNT;

// 0 or 17. Of the rows each bit that is set in any cell, count or content: none of the tests needs more, but for the order.
uint32_t answer_refusal(const uint8_t *answer, size_t length) {
    if (length < ANSWER_HEADER || version(answer, 'A') != ANSWER_VERSION) {
        return 17;
    }
    const uint8_t kind = answer[5];
    const size_t rows = be16(answer + 10);
    if ((kind != WRITE_REPLACE && kind != CANCEL) || rows > MOST_CELLS || length != ANSWER_HEADER + ROW * rows) {
        return 17;
    }
    Ascent ascent;
    uint64_t any_cell = 0;
    uint32_t any_content = 0;
    uint16_t any_count = 0;
    for (const uint8_t *row = answer + ANSWER_HEADER; row != answer + length; row += ROW) {
        const uint64_t cell = be64(row);
        ascent.go(cell);
        any_cell |= cell;
        any_count |= raw<uint16_t>(row + ROW_COUNT);
        any_content |= raw<uint32_t>(row + ROW_CONTENT);
    }
    const bool counted = kind == WRITE_REPLACE && any_count != 0;
    return ascent.kept && any_cell >> CELL_WIDTH == 0 && any_content == 0 && !counted ? 0 : 17;
}

constexpr size_t length_bytes(size_t length) { return length < 0x80 ? 1 : 2; }

uint8_t *put_length(uint8_t *to, size_t length) {
    if (length < 0x80) {
        *to = length;
        return to + 1;
    }
    put16(to, 0x8000 | length);
    return to + 2;
}

// The lengths of its open types, from the inside out, each without its length; and the length of the whole.
struct Lengths {
    size_t list = 0, value, message;

    // A transaction identifier is an element of 6 bytes; behind it the list, if there is one.
    Lengths(size_t rows, size_t item) : value(3 + 6) {
        if (rows != 0) {
            list = 2 + (ITEM_HEAD + item) * rows;
            value += 3 + length_bytes(list) + list;
        }
        message = 3 + length_bytes(value) + value;
    }
};

// Everything but the rows, all marked reject; what is behind it.
template <class Response> uint8_t *put_elements(uint8_t *to, uint8_t transaction, size_t rows, const Lengths &lengths) {
    const uint8_t frame[] = {SUCCESSFUL_OUTCOME, Response::CODE, 0};
    std::memcpy(to, frame, sizeof frame);
    to = put_length(to + sizeof frame, lengths.value);
    const uint8_t elements = rows == 0 ? 1 : 2;
    const uint8_t begin[] = {0, 0, elements, 0, TRANSACTION_ID, 0, 2, 0, transaction};
    std::memcpy(to, begin, sizeof begin);
    to += sizeof begin;
    if (rows == 0) {
        return to;
    }
    put16(to, Response::List::LIST);
    to[ID] = 0;
    to = put_length(to + ID + 1, lengths.list);
    put16(to, rows - 1);
    return to + 2;
}

// An item's head is put as a word whose last three bytes the PLMN goes over.
template <class List> void put_items(uint8_t *to, const uint8_t *row, size_t rows) {
    constexpr uint64_t START = uint64_t{List::ITEM} << 48 | uint64_t{item_bytes<List>} << 32;
    for (; rows != 0; --rows) {
        put64(to, START);
        put64(to + ITEM_HEAD + 1, be64(row) << CELL_PADDING);
        if constexpr (List::COUNT != 0) {
            put_raw(to + ITEM_HEAD + CELL_ITEM, raw<uint16_t>(row + ROW_COUNT));
        }
        to += ITEM_HEAD + item_bytes<List>;
        row += ROW;
    }
}

// Of an answer that was judged.
template <class Response> pws_done put_response(const uint8_t *answer, uint8_t transaction, uint8_t *message, size_t room) {
    using List = typename Response::List;
    const size_t rows = be16(answer + 10);
    const Lengths lengths(rows, item_bytes<List>);
    if (room < lengths.message) {
        return {8, 0};
    }
    uint8_t *const items = put_elements<Response>(message, transaction, rows, lengths);
    put_items<List>(items, answer + ANSWER_HEADER, rows);
    return {0, lengths.message};
}

struct ResponseRead {
    enum Order : uint8_t { TRANSACTION = 1, LIST = 2, MANDATORY = TRANSACTION };

    Findings findings;
    uint8_t transaction = 0;
    Cells cells;

    // 0, 15, 16 or 17.
    uint32_t refusal() const {
        if (const uint32_t number = findings.refusal(MANDATORY)) {
            return number;
        }
        return cells.ascending ? 0 : 17;
    }
};

template <class List> bool judge_element(const Element &element, ResponseRead &response) {
    switch (element.id) {
    case TRANSACTION_ID:
        response.findings.see(ResponseRead::TRANSACTION);
        return judge_transaction(element.contents, response.transaction);
    case List::LIST:
        response.findings.see(ResponseRead::LIST);
        return judge_list<List>(element.contents, response.cells, response.findings);
    default:
        return judge_unknown(element, response.findings);
    }
}

// The count that stands behind NR CGI's extensions, as it lies; 0 in a list without counts.
template <class List> uint16_t count_of(View item) {
    if constexpr (List::COUNT == 0) {
        return 0;
    }
    const uint8_t marks = item.at[0];
    item.at += CELL_ITEM;
    if (marks & CGI_EXTENSIONS) {
        Findings judged;
        take_extensions(item, judged);
    }
    return raw<uint16_t>(item.at);
}

template <class List> void put_rows(uint8_t *row, const Cells &cells) {
    each_item(cells, [&](View item) {
        put64(row, cell_of(item.at));
        put_raw(row + ROW_COUNT, count_of<List>(item));
        put_raw(row + ROW_CONTENT, uint32_t{0});
        row += ROW;
    });
}

template <class Response> pws_message read_response(View value, uint8_t *answer, size_t room) {
    using List = typename Response::List;
    ResponseRead response;
    if (!judge_elements(value, [&](const Element &element) { return judge_element<List>(element, response); })) {
        return {13, 0, 0};
    }
    if (const uint32_t number = response.refusal()) {
        return {number, 0, 0};
    }
    const size_t length = ANSWER_HEADER + ROW * response.cells.count;
    if (room < length) {
        return {8, 0, 0};
    }
    put_answer_header(answer, Response::KIND, 0, response.cells.count);
    put_rows<List>(answer + ANSWER_HEADER, response.cells);
    return {0, response.transaction, length};
}

}
