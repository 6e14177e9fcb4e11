// Messages from the wire that are badly encoded, each way to be so, at the guards of edges.cpp; and other messages, of which the outer
// frame alone is judged.
#include "forms.hpp"

using namespace wire;
using Numbers = std::vector<uint64_t>;

static void cuts(const Form &form) {
    const Bytes full = form.message(form.full());
    expect(form.takes(full), form.of("a message with everything"));
    each_length(
        full.size() - 1, [&](size_t length) { return form.refuses(13, cut(full, length)); }, form.of("cut at every byte"));
    expect(form.refuses(13, cut(full, full.size() + 1)) && form.refuses(13, cut(full, full.size() + 200)), form.of("bytes behind its end"));
    // The frame's length follows, so that the cut is inside.
    const Bytes whole = value(form.full());
    const auto inside = [&](size_t length) { return form.refuses(13, joined({form.frame, wire::length(length), cut(whole, length)})); };
    each_length(whole.size() - 1, inside, form.of("a value cut at every byte"));
    expect(inside(whole.size() + 1), form.of("bytes behind the last element"));
}

// Contents cut or longer than what they hold, and the length says so. All else is there.
static void contents(const Form &form) {
    bool ok = true;
    const Elements full = form.full();
    for (size_t which = 0; which < full.size(); ++which) {
        const auto id = static_cast<uint16_t>(get(full[which], 0, 2));
        const Bytes own(full[which].begin() + 4, full[which].end());
        for (size_t length = 0; length <= own.size() + 2; ++length) {
            Elements elements = full;
            elements[which] = element(id, cut(own, length));
            ok &= length == own.size() || form.refuses(13, form.message(elements));
        }
    }
    expect(ok, form.of("contents of each element cut at every byte, and too long"));
    ok = true;
    for (const Bytes &own : {form.cell(SECOND), form.cell(SECOND, SOME, SOME), form.cell(SECOND, {}, SOME), form.cell(SECOND, SOME)}) {
        for (size_t length = 0; length <= own.size() + 2; ++length) {
            ok &= length == own.size() || form.refuses(13, form.listing({form.item(FIRST), element(form.item_id, cut(own, length))}));
        }
    }
    expect(ok, form.of("an item cut at every byte, and too long"));
}

// Set one by one, where the mask has them.
static bool each_set_bit_is_13(const Form &form, const Bytes &message, const Bytes &mask) {
    bool ok = message.size() == mask.size();
    for (size_t bit = 0; ok && bit < 8 * message.size(); ++bit) {
        const auto flag = static_cast<uint8_t>(0x80 >> bit % 8);
        Bytes damaged = message;
        damaged[bit / 8] |= flag;
        if ((mask[bit / 8] & flag) != 0) {
            ok = (message[bit / 8] & flag) == 0 && form.refuses(13, damaged);
        }
    }
    return ok;
}

// Every padding bit and every extension bit, by masks that lie beside the bytes.
static void padding_and_extension_bits() {
    const Bytes cancel = hex("00 15 00 5f 00 0006 03e7 40 02 0102 004e 00 02 0007 008e 00 02 0000"
                             "0094 00 2b 0001 0095 00 18 50 00f110 0000000100 0000 01f5 80 02 aabb 0000 01f4 40 01 55"
                             "0095 00 09 00 00f110 0000000200 009d 00 01 00 00dc 00 12 4444800400 0001 01f4 40 01 ff 01f5 80 02 ffff");
    const Bytes of_cancel = hex("3f 00 3f 00 ff 0000 0000 3f 00 0000 0000 3f 00 ff00 0000 3f 00 0000"
                                "0000 3f 00 0000 0000 3f 00 af 000000 000000000f 0000 0000 3f 00 0000 0000 0000 3f 00 00"
                                "0000 3f 00 af 000000 000000000f 0000 3f 00 ff 0000 3f 00 800000003f 0000 0000 3f 00 00 0000 3f 00 0000");
    const Bytes warning = hex("40 14 00 3e 00 0003 03e7 40 02 0102 004e 00 02 0007 0092 00 2b 0001 0093 00 18 50 00f110 0000000100"
                              "0000 01f5 80 02 aabb 0000 01f4 40 01 55 0093 00 09 00 00f110 0000000200");
    const Bytes of_warning = hex("3f 00 3f 00 ff 0000 0000 3f 00 0000 0000 3f 00 ff00 0000 3f 00 0000 0000 3f 00 af 000000 000000000f"
                                 "0000 0000 3f 00 0000 0000 0000 3f 00 00 0000 3f 00 af 000000 000000000f");
    const Bytes cancelled = hex("40 15 00 42 00 0003 03e7 40 02 0102 004e 00 02 0007 0096 00 2f 0001 0097 00 1a 50 00f110 0000000100"
                                "0000 01f5 80 02 aabb 0304 0000 01f4 40 01 55 0097 00 0b 00 00f110 0000000200 0304");
    const Bytes of_cancelled = hex("3f 00 3f 00 ff 0000 0000 3f 00 0000 0000 3f 00 ff00 0000 3f 00 0000 0000 3f 00 af 000000 000000000f"
                                   "0000 0000 3f 00 0000 0000 0000 0000 3f 00 00 0000 3f 00 af 000000 000000000f 0000");
    expect(CANCEL_REQUEST.takes(cancel) && each_set_bit_is_13(CANCEL_REQUEST, cancel, of_cancel),
           CANCEL_REQUEST.of("each set padding or extension bit"));
    expect(WARNING_RESPONSE.takes(warning) && each_set_bit_is_13(WARNING_RESPONSE, warning, of_warning),
           WARNING_RESPONSE.of("each set padding or extension bit"));
    expect(CANCEL_RESPONSE.takes(cancelled) && each_set_bit_is_13(CANCEL_RESPONSE, cancelled, of_cancelled),
           CANCEL_RESPONSE.of("each set padding or extension bit"));
}

// Of the frame, of an element known or not, of an item and of an extension.
static Elements messages_with_length(const Form &form, const Bytes &length, const Bytes &contents) {
    const auto of = [&](uint16_t id) { return joined({number(id, 2), {IGNORE}, length, contents}); };
    Elements all = form.messages_with(of(999));
    all.push_back(joined({form.frame, length, contents}));
    all.push_back(form.message(form.elements({of(form.list_id)})));
    all.push_back(form.listing({of(form.item_id)}));
    return all;
}

static void lengths(const Form &form) {
    const auto all_13 = [&](const Bytes &length, const Bytes &contents) {
        return form.refuses_all(13, messages_with_length(form, length, contents));
    };
    expect(all_13({0}, {}), form.of("a length 0"));
    expect(all_13({0x80, 0}, {}), form.of("and in two bytes"));
    expect(all_13({0x80}, {}) && all_13({0xbf}, {}), form.of("half a length"));
    bool ok = true;
    for (size_t length : {1u, 2u, 5u, 9u, 11u, 20u, 126u, 127u}) {
        ok &= all_13(number(0x8000 | length, 2), Bytes(length));
    }
    expect(ok, form.of("a length below 128 in two bytes"));
    ok = true;
    for (unsigned first = 0xc0; first <= 0xff; ++first) {
        ok &= all_13({static_cast<uint8_t>(first)}, {0}) && all_13({static_cast<uint8_t>(first)}, Bytes(200));
    }
    expect(ok, form.of("each first byte of a fragment"));
    const Bytes filled = value(form.elements({unknown(IGNORE, 9, Bytes(16000))}));
    expect(form.refuses(13, joined({form.frame, {0xc1}, cut(filled, 16384), {0}})), form.of("a whole fragment"));
    expect(all_13({0xbf, 0xff}, Bytes(100)) && all_13({0x7f}, Bytes(126)) && all_13({0x80, 0xff}, Bytes(254)),
           form.of("a length beyond what is there"));
}

// One more and one less than there are, and the most that two bytes can say.
static void counts(const Form &form) {
    bool ok = true;
    const Elements full = form.full();
    for (uint64_t count : Numbers{0, full.size() - 1, full.size() + 1, 256, 65535}) {
        Bytes all = value(full);
        std::ranges::copy(number(count, 2), all.begin() + 1);
        ok &= form.refuses(13, joined({form.frame, open_type(all)}));
    }
    expect(ok, form.of("a count of elements"));
    ok = true;
    const auto list_of = [&](const Bytes &contents) { return form.message(form.elements({element(form.list_id, contents)})); };
    for (uint64_t less_one : Numbers{0, 2, 511, 512, 513, 0x7fff, 0x8001, 65535}) {
        ok &= form.refuses(13, list_of(joined({number(less_one, 2), form.item(FIRST), form.item(SECOND)})));
        const Bytes pair = joined({number(less_one, 2), unknown(IGNORE), unknown(IGNORE)});
        ok &= form.refuses(13, form.listing({element(form.item_id, joined({hex("40 00f1100000000100"), form.count, pair}))}));
        ok &= form.refuses(13, form.listing({element(form.item_id, joined({hex("10 00f1100000000100"), pair, form.count}))}));
    }
    expect(ok, form.of("a count of items or of extensions"));
    const Bytes items = joined(Elements(513, form.item(FIRST)));
    expect(form.refuses(13, list_of(joined({number(512, 2), items}))) && form.refuses(13, list_of(joined({number(511, 2), items}))),
           form.of("513 items, said or not"));
}

static void counts_of_a_notification() {
    bool ok = true;
    for (uint64_t less_one : Numbers{0, 2, 511, 512, 513, 0x7fff, 0x8001, 65535}) {
        const Bytes pair = joined({number(less_one, 2), unknown(IGNORE), unknown(IGNORE)});
        ok &= refused(13, with({element(ID_NOTIFICATION, joined({hex("4444800400"), pair}))}));
    }
    expect(ok, "a count of a notification's extensions");
}

static void no_criticality(const Form &form) {
    const Bytes frame = {form.frame[0], form.frame[1], NO_CRITICALITY};
    expect(form.refuses(13, message(form.full(), frame)), form.of("no criticality of the message"));
    expect(form.refuses_all(13, form.messages_with(unknown(NO_CRITICALITY))), form.of("no criticality of an unknown element"));
}

// "in another message only the outer frame is judged"
static bool other_frame(const Form &form, const Bytes &frame) {
    const Bytes other = joined({frame, open_type(Bytes(130, 0xff))}), one = joined({frame, {1, 0xff}});
    bool ok = form.refuses(14, other) && form.refuses(14, one) && form.refuses(13, cut(other, other.size() + 1));
    ok &= form.refuses(13, joined({frame, {0}})) && form.refuses(13, joined({frame, {0x80, 1, 0xff}}));
    ok &= form.refuses(13, joined({frame, {0xc1}, Bytes(16384), {0}}));
    for (size_t length = 0; length < other.size(); ++length) {
        ok &= form.refuses(13, cut(other, length));
    }
    for (unsigned bit = 0x01; bit <= 0x20; bit <<= 1) {
        Bytes padded = one, marked = one;
        padded[0] |= static_cast<uint8_t>(bit);
        marked[frame.size() - 1] |= static_cast<uint8_t>(bit);
        ok &= form.refuses(13, padded) && form.refuses(13, marked);
    }
    return ok;
}

// Both responses have one reader.
static bool has_reader(const Form &form, uint8_t choice, uint8_t code) {
    const auto is = [&](const Form &other) { return other.read == form.read && other.frame[0] == choice && other.frame[1] == code; };
    return std::ranges::any_of(FORMS, is);
}

static void other_messages(const Form &form) {
    bool ok = true;
    const uint8_t criticalities[] = {REJECT, IGNORE, NOTIFY};
    for (unsigned code = 0; code < 256; ++code) {
        const auto byte = static_cast<uint8_t>(code);
        const uint8_t criticality = criticalities[code % 3];
        for (uint8_t choice : Bytes{0x00, 0x40, 0x80}) {
            ok &= has_reader(form, choice, byte) || (form.refuses(14, message(form.full(), {choice, byte, criticality})) &&
                                                     form.refuses(14, joined({{choice, byte, criticality}, open_type({0xff})})));
        }
        ok &= form.refuses(14, message(form.full(), {0xc0, 0, byte, criticality}));
        ok &=
            form.refuses(13, message(form.full(), {0x00, byte, NO_CRITICALITY})) && form.refuses(13, message(form.full(), {0x40, byte, 1}));
    }
    expect(ok, form.of("each choice and each procedure code"));
    ok = true;
    const Bytes own = form.frame, unsuccessful = {0x80, own[1], NOTIFY}, next = {own[0], 22, own[2]};
    for (const Bytes &frame : Elements{next, unsuccessful, {0xc0, 0, own[1], 0x80}, {0xc0, own[1], 0, 0}}) {
        ok &= other_frame(form, frame);
    }
    expect(ok, form.of("frames of other messages"));
}

int main() {
    for (const Form &form : FORMS) {
        cuts(form);
        contents(form);
        lengths(form);
        counts(form);
        no_criticality(form);
    }
    other_messages(CANCEL_REQUEST);
    other_messages(CANCEL_RESPONSE);
    padding_and_extension_bits();
    counts_of_a_notification();
    return report();
}
