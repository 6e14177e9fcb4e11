// The messages that are read, each as a form, so that what is refused in one is tried in all of them.
#ifndef FORMS_HPP
#define FORMS_HPP

#include "read_cancels.hpp"
#include "told_responses.hpp"

using wire::Elements;

// Extensions that are skipped.
inline const Elements SOME = {wire::unknown(wire::IGNORE), wire::unknown(wire::NOTIFY, 500, {0xff})};

struct Form {
    std::string name;
    Reader read;
    Bytes frame;
    uint16_t list_id, item_id;
    // Behind each cell.
    Bytes count;
    Elements before_list;
    // With these extensions, where there can be any.
    Elements (*behind_list)(const Elements &extensions);
    // What a message with everything becomes.
    Bytes full_read;

    std::string of(const std::string &what) const { return name + ": " + what; }

    Bytes cell(uint64_t nr_cgi, const Elements &own = {}, const Elements &of_nr_cgi = {}) const {
        return wire::cell_of(nr_cgi, own, of_nr_cgi, count);
    }
    Bytes item(uint64_t nr_cgi, const Elements &own = {}, const Elements &of_nr_cgi = {}) const {
        return wire::element(item_id, cell(nr_cgi, own, of_nr_cgi));
    }
    Bytes message(const Elements &elements) const { return wire::message(elements, frame); }

    Elements elements(const Elements &middle, const Elements &extensions = {}) const {
        Elements all = before_list;
        const Elements behind = behind_list(extensions);
        all.insert(all.end(), middle.begin(), middle.end());
        all.insert(all.end(), behind.begin(), behind.end());
        return all;
    }
    Bytes listing(const Elements &items) const { return message(elements({wire::list(items, list_id)})); }

    // Everything that the message can have: its elements, two items, and extensions wherever there can be any.
    Elements full() const { return elements({wire::list({item(FIRST, SOME, SOME), item(SECOND)}, list_id)}, SOME); }

    // This element at each place where an unknown one can stand; an item with another id is one of them.
    Elements messages_with(const Bytes &other) const {
        Elements first = elements({}), last = elements({});
        first.insert(first.begin(), other);
        last.push_back(other);
        Elements all = {message(first),
                        message(elements({other})),
                        message(last),
                        listing({item(FIRST, {wire::unknown(wire::IGNORE), other})}),
                        listing({item(FIRST), item(SECOND, {}, {other})}),
                        listing({item(FIRST), other})};
        if (!behind_list({}).empty()) {
            all.push_back(message(elements({}, {other, wire::unknown(wire::NOTIFY)})));
        }
        return all;
    }

    bool takes(const Bytes &full) const { return becomes(read, full, 7, full_read); }
    bool refuses(uint32_t number, const Bytes &message) const { return refused_by(read, number, message); }
    bool refuses_all(uint32_t number, const Elements &messages) const {
        return std::ranges::all_of(messages, [&](const Bytes &message) { return refuses(number, message); });
    }
};

inline Elements behind_cancel_list(const Elements &extensions) { return {ALL, wire::notification(4370, 16, extensions)}; }
inline Elements behind_response_list(const Elements &) { return {}; }

inline Form response_form(const std::string &name, uint8_t kind, const Bytes &count) {
    const bool warning = kind == WARNING;
    const uint16_t counted = static_cast<uint16_t>(warning ? 0 : get(count, 0, 2));
    return {name,
            pws_read_response,
            wire::response_frame(kind),
            warning ? wire::ID_COMPLETED : wire::ID_CANCELLED,
            warning ? wire::ID_COMPLETED_ITEM : wire::ID_CANCELLED_ITEM,
            count,
            {TRANSACTION},
            behind_response_list,
            Told{kind, {{FIRST, counted}, {SECOND, counted}}}.answer()};
}

inline const Form CANCEL_REQUEST = {"PWS CANCEL REQUEST",
                                    pws_read_cancel,
                                    {0, 21, wire::REJECT},
                                    wire::ID_LIST,
                                    wire::ID_ITEM,
                                    {},
                                    {TRANSACTION, REQUESTED},
                                    behind_cancel_list,
                                    Said{6, {FIRST, SECOND}, 4370, 16}.record()};
inline const Form WARNING_RESPONSE = response_form("WRITE-REPLACE WARNING RESPONSE", WARNING, {});
inline const Form CANCEL_RESPONSE = response_form("PWS CANCEL RESPONSE", CANCELLING, {0x03, 0x04});

inline const Form FORMS[] = {CANCEL_REQUEST, WARNING_RESPONSE, CANCEL_RESPONSE};

#endif
