// A PWS CANCEL REQUEST: judged in one pass that remembers where the list lies (13, 15 and 16), then its cells put into a record.
#pragma once

#include "cells.hpp"
#include "pws.h"

namespace {

enum CancelId : uint16_t { NUMBER_OF_BROADCAST_REQUEST = 142, CANCEL_ALL_INDICATOR = 157, NOTIFICATION_INFORMATION = 220 };

constexpr size_t NOTIFICATION_BYTES = 5;

struct Cancel {
    enum Order : uint8_t { TRANSACTION = 1, REQUESTED = 2, LIST = 4, ALL = 8, TEXT = 16, MANDATORY = TRANSACTION | REQUESTED };

    Findings findings;
    uint8_t transaction = 0;
    uint16_t requested = 0, identifier = 0, serial = 0;
    Cells cells;

    // 0, 15, 16 or 7.
    uint32_t refusal() const {
        if (const uint32_t number = findings.refusal(MANDATORY)) {
            return number;
        }
        return findings.seen & (ALL | TEXT) ? 0 : 7;
    }

    pws_request request() const {
        const uint8_t flags = (findings.seen & ALL ? CANCEL_ALL : 0) | (findings.seen & TEXT ? NOTIFICATION : 0);
        const uint8_t area = findings.seen & LIST ? CELLS : NO_AREA;
        return {CANCEL, flags, area, identifier, serial, 0, 0, requested, 0};
    }
};

// An extension bit, the presence of extensions, identifier and serial number across the bytes, six bits of padding.
bool judge_notification(View contents, Cancel &cancel) {
    if (contents.left() < NOTIFICATION_BYTES) {
        return false;
    }
    const uint64_t bits = uint64_t{be32(contents.at)} << 8 | contents.at[4];
    if (bits >> 39 != 0 || (bits & SIX_BITS) != 0) {
        return false;
    }
    cancel.identifier = bits >> 22;
    cancel.serial = bits >> 6;
    contents.at += NOTIFICATION_BYTES;
    if ((bits >> 38 & 1) && !take_extensions(contents, cancel.findings)) {
        return false;
    }
    return contents.left() == 0;
}

bool judge_element(const Element &element, Cancel &cancel) {
    const View &contents = element.contents;
    switch (element.id) {
    case TRANSACTION_ID:
        cancel.findings.see(Cancel::TRANSACTION);
        return judge_transaction(contents, cancel.transaction);
    case NUMBER_OF_BROADCAST_REQUEST:
        cancel.findings.see(Cancel::REQUESTED);
        if (contents.left() != 2) {
            return false;
        }
        cancel.requested = be16(contents.at);
        return true;
    case ToBeCancelled::LIST:
        cancel.findings.see(Cancel::LIST);
        return judge_list<ToBeCancelled>(contents, cancel.cells, cancel.findings);
    case CANCEL_ALL_INDICATOR:
        cancel.findings.see(Cancel::ALL);
        return contents.left() == 1 && contents.at[0] == 0;
    case NOTIFICATION_INFORMATION:
        cancel.findings.see(Cancel::TEXT);
        return judge_notification(contents, cancel);
    default:
        return judge_unknown(element, cancel.findings);
    }
}

bool judge_cancel(View value, Cancel &cancel) {
    return judge_elements(value, [&](const Element &element) { return judge_element(element, cancel); });
}

void put_cells(uint8_t *to, const Cells &cells) {
    each_item(cells, [&](View item) {
        put64(to, cell_of(item.at));
        to += ITEM;
    });
}

}
