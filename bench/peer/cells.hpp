// Lists of cells in messages: judged in the pass over the message, which remembers where the items lie; then taken one by one.
#pragma once

#include "wire.hpp"

namespace {

// The three lists there are: their own id and their items', the bytes of the count behind a cell, and whether cells must ascend.
struct ToBeCancelled {
    static constexpr uint16_t LIST = 148, ITEM = 149;
    static constexpr size_t COUNT = 0;
    static constexpr bool ASCENDS = false;
};

struct Completed {
    static constexpr uint16_t LIST = 146, ITEM = 147;
    static constexpr size_t COUNT = 0;
    static constexpr bool ASCENDS = true;
};

struct Cancelled {
    static constexpr uint16_t LIST = 150, ITEM = 151;
    static constexpr size_t COUNT = 2;
    static constexpr bool ASCENDS = true;
};

// Four bits of marks and four of padding, PLMN, 36 bits of cell and four of padding.
constexpr size_t CELL_ITEM = 9;
constexpr uint8_t ITEM_EXTENSIONS = 0x40, CGI_EXTENSIONS = 0x10, FOUR_BITS = 0x0f;
constexpr int CELL_PADDING = 4;

// Cells that come one behind the other, each above the one before it. "next" is the lowest that may follow.
struct Ascent {
    uint64_t next = 0;
    bool kept = true;

    void go(uint64_t cell) {
        kept &= cell >= next;
        next = cell + 1;
    }
};

// A list that was judged. The items lie behind its count.
struct Cells {
    uint16_t count = 0;
    bool ascending = true;
    const uint8_t *items = nullptr;
};

// PLMN, cell and the padding behind them are one word.
uint64_t cell_of(const uint8_t *item) { return be64(item + 1) >> CELL_PADDING; }

// What stands behind a cell: NR CGI's extensions, the count, the item's own extensions.
template <size_t COUNT> bool judge_extensions(uint8_t marks, View rest, Findings &findings) {
    if ((marks & CGI_EXTENSIONS) && (!take_extensions(rest, findings) || rest.left() < COUNT)) {
        return false;
    }
    rest.at += COUNT;
    if ((marks & ITEM_EXTENSIONS) && !take_extensions(rest, findings)) {
        return false;
    }
    return rest.left() == 0;
}

// Inlined in its loop. Most items have no extensions, which is seen at once.
template <class Of> [[gnu::always_inline]] inline bool judge_item(View item, Findings &findings) {
    if (item.left() < CELL_ITEM + Of::COUNT) {
        return false;
    }
    const uint8_t marks = item.at[0];
    if ((marks & ~(ITEM_EXTENSIONS | CGI_EXTENSIONS)) != 0 || (item.at[CELL_ITEM - 1] & FOUR_BITS) != 0) {
        return false;
    }
    if (marks == 0) {
        return item.left() == CELL_ITEM + Of::COUNT;
    }
    return judge_extensions<Of::COUNT>(marks, {item.at + CELL_ITEM, item.end}, findings);
}

template <class Of> bool judge_list(View list, Cells &cells, Findings &findings) {
    if (list.left() < 2) {
        return false;
    }
    const size_t count = be16(list.at) + 1;
    if (count > MOST_ITEMS) {
        return false;
    }
    list.at += 2;
    const uint8_t *const items = list.at;
    Ascent ascent;
    for (size_t left = count; left != 0; --left) {
        Element item;
        if (!take_element(list, item)) {
            return false;
        }
        if (item.id == Of::ITEM) {
            if (!judge_item<Of>(item.contents, findings)) {
                return false;
            }
            if constexpr (Of::ASCENDS) {
                ascent.go(cell_of(item.contents.at));
            }
        } else {
            // Never skipped: a cancel whose list became empty would cancel everywhere.
            findings.misplaced = true;
            if (!judge_unknown(item, findings)) {
                return false;
            }
        }
    }
    cells = {static_cast<uint16_t>(count), ascent.kept, items};
    return list.left() == 0;
}

// Of a list that was judged.
template <class Take> void each_item(const Cells &cells, Take take) {
    const uint8_t *items = cells.items;
    for (size_t left = cells.count; left != 0; --left) {
        items += ID + 1;
        size_t length = *items++;
        if (length >= 0x80) {
            length = be16(items - 1) - 0x8000;
            ++items;
        }
        take(View{items, items + length});
        items += length;
    }
}

}
