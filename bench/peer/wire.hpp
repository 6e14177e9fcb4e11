// F1AP messages in the aligned variant of X.691: the frame, and elements with their open types. A function that judges is false for
// what is badly encoded, refusal 13, which comes before all others and so ends the reading.
#pragma once

#include "layout.hpp"

namespace {

enum Criticality : uint8_t { REJECT, IGNORE, NOTIFY, NO_CRITICALITY };
enum Choice : uint8_t { INITIATING_MESSAGE = 0x00, SUCCESSFUL_OUTCOME = 0x40, CHOICE_EXTENSION = 0xc0 };
enum ProcedureCode : uint8_t { WRITE_REPLACE_WARNING = 20, PWS_CANCEL = 21 };

// Every message begins with it.
constexpr uint16_t TRANSACTION_ID = 78;

// The bits of padding behind a choice or a criticality.
constexpr uint8_t SIX_BITS = 0x3f;
// Of an element: its id, its criticality, the shortest length and the first byte of its contents, which there always is.
constexpr size_t ID = 2, SHORTEST_ELEMENT = 5;

// Bytes that are still to be read.
struct View {
    const uint8_t *at, *end;

    size_t left() const { return end - at; }
};

// What is refused only if nothing in the whole message is badly encoded: 15 and 16. "seen" has a bit for each known element that there
// was, in the order that they must have.
struct Findings {
    bool rejected = false, misplaced = false;
    uint8_t seen = 0;

    void see(uint8_t element) {
        misplaced |= seen >= element;
        seen |= element;
    }

    // 0, 15 or 16.
    uint32_t refusal(uint8_t mandatory) const {
        if (rejected) {
            return 15;
        }
        return misplaced || (seen & mandatory) != mandatory ? 16 : 0;
    }
};

struct Element {
    uint16_t id;
    uint8_t criticality;
    View contents;
};

// Behind a length in its shortest form, not fragmented and not 0. Two bytes at least are left. Inlined, so that views stay in registers.
[[gnu::always_inline]] inline bool take_open_type(View &from, View &contents) {
    size_t length = from.at[0];
    if (length < 0x80) {
        from.at += 1;
    } else {
        length = be16(from.at) - 0x8000;
        from.at += 2;
        if (length < 0x80 || length >= 0x4000) {
            return false;
        }
    }
    if (length == 0 || from.left() < length) {
        return false;
    }
    contents = {from.at, from.at + length};
    from.at += length;
    return true;
}

// An element, a list's item or an extension. Inlined for the same reason.
[[gnu::always_inline]] inline bool take_element(View &from, Element &element) {
    if (from.left() < SHORTEST_ELEMENT) {
        return false;
    }
    element.id = be16(from.at);
    const uint8_t marks = from.at[ID];
    element.criticality = marks >> 6;
    from.at += ID + 1;
    return (marks & SIX_BITS) == 0 && take_open_type(from, element.contents);
}

// Its contents are not looked into.
bool judge_unknown(const Element &element, Findings &findings) {
    findings.rejected |= element.criticality == REJECT;
    return element.criticality != NO_CRITICALITY;
}

// A container of extensions, none of which is known. The count that is no value, ffff, finds no end in 16,383 bytes.
bool take_extensions(View &from, Findings &findings) {
    if (from.left() < 2) {
        return false;
    }
    size_t left = be16(from.at) + 1;
    from.at += 2;
    for (; left != 0; --left) {
        Element extension;
        if (!take_element(from, extension) || !judge_unknown(extension, findings)) {
            return false;
        }
    }
    return true;
}

struct Frame {
    uint8_t choice;
    uint16_t code;
    View value;
};

// A choice-extension has an id of two bytes where the others have a procedure code.
bool take_frame(View message, Frame &frame) {
    if (message.left() == 0) {
        return false;
    }
    frame.choice = message.at[0];
    const size_t header = frame.choice == CHOICE_EXTENSION ? 4 : 3;
    if (message.left() < header + 2) {
        return false;
    }
    const uint8_t marks = message.at[header - 1];
    frame.code = frame.choice == CHOICE_EXTENSION ? be16(message.at + 1) : message.at[1];
    message.at += header;
    const bool marked = (frame.choice & SIX_BITS) == 0 && (marks & SIX_BITS) == 0 && marks >> 6 != NO_CRITICALITY;
    return marked && take_open_type(message, frame.value) && message.left() == 0;
}

// An extension bit and seven of padding, the count of elements, the elements.
template <class Judge> bool judge_elements(View value, Judge judge) {
    if (value.left() < 3 || value.at[0] != 0) {
        return false;
    }
    size_t left = be16(value.at + 1);
    value.at += 3;
    for (; left != 0; --left) {
        Element element;
        if (!take_element(value, element) || !judge(element)) {
            return false;
        }
    }
    return value.left() == 0;
}

// An extension bit and seven of padding, the number.
bool judge_transaction(View contents, uint8_t &transaction) {
    transaction = contents.end[-1];
    return contents.left() == 2 && contents.at[0] == 0;
}

}
