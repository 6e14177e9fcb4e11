// Messages from the wire that are well encoded and refused, at the guards of edges.cpp: unknown elements marked reject, elements that
// are missing, repeated or out of order, a cancel without an indicator, responses whose cells don't ascend; and which number comes before
// which over the whole message.
#include "forms.hpp"

#include <random>

using namespace wire;

// Known are an element at its own place in its own message, and a list's own item.
static void unknown_reject(const Form &form) {
    bool ok = true;
    for (uint16_t id : std::vector<uint16_t>{0, 7, 77, 79, 189, 190, 221, 385, 65535}) {
        ok &= form.refuses_all(15, form.messages_with(unknown(REJECT, id)));
        ok &= form.refuses_all(15, form.messages_with(unknown(REJECT, id, Bytes(300))));
    }
    expect(ok, form.of("an unknown element marked reject, at every depth"));
    ok = true;
    for (const Form &other : FORMS) {
        for (const Bytes &element : other.full()) {
            ok &= form.refuses(15, form.listing({form.item(FIRST), element})) &&
                  form.refuses(15, form.listing({form.item(FIRST, {element})})) &&
                  form.refuses(15, form.listing({form.item(FIRST, {}, {element})}));
        }
        ok &= form.refuses(15, form.message(form.elements({other.item(FIRST)})));
        ok &= other.list_id == form.list_id || form.refuses(15, form.message(form.elements({list({form.item(FIRST)}, other.list_id)})));
        ok &= other.item_id == form.item_id || form.refuses(15, form.listing({form.item(FIRST), other.item(SECOND)}));
    }
    expect(ok, form.of("a known element at another's place"));
    expect(form.refuses(15, form.listing({form.item(FIRST, {nid(1)})})) && form.refuses(15, form.listing({form.item(FIRST, {}, {nid(1)})})),
           form.of("a NID"));
}

// Every element that is mandatory left out, and the list's own items.
static void missing_elements(const Form &form) {
    bool ok = form.refuses(16, form.message({})) && form.refuses(16, form.message({unknown(IGNORE)}));
    for (size_t which = 0; which < form.before_list.size(); ++which) {
        Elements elements = form.full();
        elements.erase(elements.begin() + static_cast<ptrdiff_t>(which));
        ok &= form.refuses(16, form.message(elements));
    }
    expect(ok, form.of("a mandatory element is missing"));
    const Bytes ignored = unknown(IGNORE), notified = unknown(NOTIFY);
    expect(form.refuses_all(16, {form.listing({form.item(FIRST), ignored}), form.listing({notified, form.item(FIRST)}),
                                 form.listing({notified}), form.listing({element(form.list_id, form.cell(FIRST), IGNORE)})}),
           form.of("an item with another id that is not marked reject"));
}

// Each element once more at each place; then all of them in every order.
static void repeated_and_out_of_order(const Form &form) {
    bool ok = true;
    const Elements full = form.full();
    for (const Bytes &again : full) {
        for (size_t k = 0; k <= full.size(); ++k) {
            Elements elements = full;
            elements.insert(elements.begin() + static_cast<ptrdiff_t>(k), again);
            ok &= form.refuses(16, form.message(elements));
        }
    }
    expect(ok, form.of("each element repeated, at each place"));
    ok = true;
    Elements order = full;
    std::ranges::sort(order);
    size_t sorted = 0;
    do {
        const bool right = order == full;
        sorted += right;
        ok &= right ? form.takes(form.message(order)) : form.refuses(16, form.message(order));
    } while (std::ranges::next_permutation(order).found);
    expect(ok && sorted == 1, form.of("every order but one"));
}

// Whatever comes first in the message, the lowest number of all is given.
static void order_over_the_message(const Form &form) {
    const Bytes padded = element(ID_TRANSACTION, {1, 7}), rejected = unknown(REJECT), again = list({form.item(FIRST)}, form.list_id);
    const auto said = [&](const Elements &middle) { return form.message(form.elements(middle)); };
    expect(form.refuses_all(13, {said({rejected, again, again, padded}), form.message({padded, rejected}),
                                 form.message({rejected, TRANSACTION, unknown(NO_CRITICALITY)})}),
           form.of("13 before 15 and 16"));
    const Bytes short_item = element(form.item_id, cut(form.cell(FIRST), 8));
    expect(form.refuses(13, said({again, list({form.item(FIRST), short_item}, form.list_id)})) &&
               form.refuses(15, said({again, list({form.item(FIRST, {rejected})}, form.list_id)})),
           form.of("a repeated element's contents are judged too"));
    const Bytes padded_item = element(form.item_id, joined({hex("0000f1100000000101"), form.count}));
    expect(form.refuses(13, form.listing({unknown(IGNORE), padded_item})) && form.refuses(15, form.listing({unknown(IGNORE), rejected})),
           form.of("and what stands behind an item with another id"));
    expect(form.refuses(14, message({rejected, padded}, {form.frame[0], 22, REJECT})), form.of("14 before what is inside"));
    expect(form.refuses(15, form.message({again, rejected})) && form.refuses(15, form.message({rejected})), form.of("15 before 16"));
}

static void no_indicator() {
    expect(refused(15, with({unknown(REJECT)})), "15 before 7");
    expect(refused(16, message({TRANSACTION})) && refused(16, with({REQUESTED})), "16 before 7");
    expect(refused(7, with({})) && refused(7, with({CELLS})) && refused(7, with({unknown(IGNORE), CELLS, unknown(NOTIFY)})),
           "7 without an indicator");
}

// 17, which stands behind 13, 15 and 16 and before 8.
static void cells_that_do_not_ascend(const Form &form) {
    const uint64_t last = (uint64_t{1} << 60) - 1;
    const auto listed = [&](const std::vector<uint64_t> &cells) {
        Elements items;
        std::ranges::transform(cells, std::back_inserter(items), [&](uint64_t cell) { return form.item(cell); });
        return form.listing(items);
    };
    expect(form.refuses_all(17, {listed({FIRST, FIRST}), listed({SECOND, FIRST}), listed({0, 0}), listed({last, last}), listed({last, 0}),
                                 listed({FIRST, SECOND, FIRST}), listed({FIRST, SECOND, SECOND}), listed({1, 0, 2})}),
           form.of("cells that don't ascend"));
    bool ok = true;
    std::vector<uint64_t> cells(512);
    for (size_t k = 0; k < cells.size(); ++k) {
        cells[k] = FIRST + 16 * k;
    }
    for (size_t k : {1u, 2u, 255u, 256u, 510u, 511u}) {
        std::vector<uint64_t> swapped = cells, same = cells;
        std::swap(swapped[k - 1], swapped[k]);
        same[k] = same[k - 1];
        ok &= form.refuses(17, listed(swapped)) && form.refuses(17, listed(same));
    }
    expect(ok, form.of("one pair of 512"));
    const Bytes skipped = form.listing({form.item(SECOND, SOME, SOME), form.item(FIRST, SOME)});
    expect(form.refuses(17, skipped), form.of("behind extensions"));
    const Bytes wrong = list({form.item(SECOND), form.item(FIRST)}, form.list_id), padded = element(ID_TRANSACTION, {1, 7});
    expect(form.refuses(13, form.message({TRANSACTION, wrong, padded})) &&
               form.refuses(15, form.message({TRANSACTION, wrong, unknown(REJECT)})) && form.refuses(16, form.message({wrong})) &&
               form.refuses(16, form.message({TRANSACTION, wrong, wrong})) &&
               form.refuses(16, form.listing({form.item(SECOND), form.item(FIRST), unknown(IGNORE)})),
           form.of("13, 15 and 16 before 17"));
}

// What is accepted reads as a record, or is written and read once more.
static bool is_sound(const Form &form, const Left &left) {
    const Bytes written = cut(left.buffers[0], left.length);
    if (form.read == pws_read_cancel) {
        return read_gives(0, written);
    }
    const auto transaction = static_cast<uint8_t>(left.transaction);
    const Left response = write_response_at(Flush::end, written, transaction, room(100));
    return response.number == 0 && becomes(pws_read_response, cut(response.buffers[0], response.length), transaction, written);
}

// One bit or one byte anywhere: whatever the number, the promises are kept. The known elements are marked ignore, so that one whose id is
// damaged is missing.
static void seeded_damage(const Form &form) {
    std::mt19937 random(20240601);
    Elements elements = form.full();
    std::ranges::for_each(elements, [](Bytes &one) { one[2] = IGNORE; });
    const Bytes full = form.message(elements);
    const size_t need = form.full_read.size();
    size_t of[19] = {};
    bool ok = true;
    const auto judged = [&](const Bytes &damaged, const Bytes &written) {
        const Left left = read_message_at(form.read, Flush::end, damaged, written);
        ++of[std::min(left.number, 18u)];
        ok &= read_message_gives(form.read, left.number, left.transaction, left.length, damaged, written);
        ok &= left.number != 0 || is_sound(form, left);
    };
    for (size_t bit = 0; bit < 8 * full.size(); ++bit) {
        Bytes damaged = full;
        damaged[bit / 8] ^= static_cast<uint8_t>(0x80 >> bit % 8);
        judged(damaged, room(need));
    }
    for (int run = 0; ok && run < 2000; ++run) {
        Bytes damaged = full;
        damaged[random() % full.size()] = static_cast<uint8_t>(random());
        judged(damaged, room(random() % 4 == 0 ? random() % need : need));
    }
    const size_t all = of[0] + of[8] + of[13] + of[14] + of[15] + of[16] + of[17];
    expect(ok && all == 8 * full.size() + 2000 && of[0] > 300 && of[8] > 100 && of[13] > 300 && of[14] > 10 && of[15] > 100 &&
               of[16] > 50 && (of[17] > 100) == (form.read == pws_read_response),
           form.of("damaged at random"));
}

int main() {
    for (const Form &form : FORMS) {
        unknown_reject(form);
        missing_elements(form);
        repeated_and_out_of_order(form);
        order_over_the_message(form);
        seeded_damage(form);
    }
    no_indicator();
    cells_that_do_not_ascend(WARNING_RESPONSE);
    cells_that_do_not_ascend(CANCEL_RESPONSE);
    return report();
}
