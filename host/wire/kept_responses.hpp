// The responses that are kept.
#ifndef KEPT_RESPONSES_HPP
#define KEPT_RESPONSES_HPP

#include "kept.hpp"
#include "responses.hpp"

#include <algorithm>

namespace responses {

using namespace wire;

inline std::string reading(const Told &told) {
    const bool warning = told.kind == WARNING;
    std::string lines = warning ? "WRITE-REPLACE WARNING RESPONSE\n" : "PWS CANCEL RESPONSE\n";
    lines += "transaction " + std::to_string(told.transaction) + "\n";
    lines += told.rows.empty() ? "no cells\n" : "";
    for (const Reported &row : told.rows) {
        lines += "cell " + digits(row.cell, 15) + (warning ? "" : " " + std::to_string(row.count)) + "\n";
    }
    return lines;
}

inline Kept told_in(const Elements &elements, const Told &told) { return {response(told.kind, elements), reading(told)}; }
inline Kept plain(const Told &told) { return told_in(elements_of(told), told); }

inline std::string named(uint8_t kind, const std::string &what) { return (kind == WARNING ? "warning-" : "cancel-") + what; }

// Counts are for cancels alone.
inline Told told_of(uint8_t kind, const std::vector<uint64_t> &cells, uint8_t transaction = 7) {
    Told told{kind, {}, transaction};
    for (uint64_t cell : cells) {
        told.rows.push_back({cell, static_cast<uint16_t>(kind == WARNING ? 0 : 3 + 127 * told.rows.size())});
    }
    return told;
}

inline std::vector<uint64_t> ascending_cells(size_t count) {
    std::vector<uint64_t> some = cells(count);
    std::ranges::sort(some);
    return some;
}

// In these two alone the counts are other ones: those of the samples, and the ends.
inline void put_fields(Messages &to) {
    to["cancel-two-cells"] = plain({CANCELLING, {{FIRST, 2}, {SECOND, 65535}}});
    to["cancel-counts"] = plain({CANCELLING, {{1, 0}, {2, 1}, {3, 127}, {4, 128}, {5, 255}, {6, 256}, {7, 32768}, {8, 65535}}});
    for (uint8_t kind : {WARNING, CANCELLING}) {
        to[named(kind, "no-cells")] = plain({kind});
        to[named(kind, "cell")] = plain(told_of(kind, {FIRST}));
        for (uint16_t n : std::vector<uint16_t>{0, 1, 127, 128, 255}) {
            to[named(kind, "transaction-" + std::to_string(n))] = plain(told_of(kind, {FIRST}, static_cast<uint8_t>(n)));
        }
    }
}

// Lists of 8 cells with counts, or of 9 without, are the last with a length of one byte; of messages those of 7 cells, or of 8.
inline void put_lists(Messages &to) {
    for (uint8_t kind : {WARNING, CANCELLING}) {
        to[named(kind, "cells-ends")] = plain(told_of(kind, {0, 1, (uint64_t{1} << 36) - 1, uint64_t{1} << 36, (uint64_t{1} << 60) - 1}));
        for (size_t count : std::vector<size_t>{2, 7, 8, 9, 10, 16, 512}) {
            to[named(kind, "cells-" + std::to_string(count))] = plain(told_of(kind, ascending_cells(count), 9));
        }
    }
}

// As a unit of another maker may send them: what triggered the diagnostics is said, and for whom the list is.
inline Bytes diagnostics(uint8_t criticality = IGNORE) { return element(ID_DIAGNOSTICS, {0x20, 0x80}, criticality); }

// Up to 65,536 items, so their number stands there as a length does, and not less one in two bytes.
inline Bytes dedicated(uint64_t cell, uint8_t criticality = IGNORE) {
    const Bytes item = element(ID_DEDICATED_ITEM, joined({hex("00 05 00"), number(cell << 4, 8)}), IGNORE);
    return element(ID_DEDICATED, joined({length(1), item}), criticality);
}

inline void put_unknown_elements(Messages &to, uint8_t kind) {
    const Told told = told_of(kind, {FIRST, SECOND});
    const Elements known = elements_of(told);
    const Bytes &transaction = known[0], &list = known[1];
    to[named(kind, "diagnostics")] = told_in({transaction, list, diagnostics()}, told);
    to[named(kind, "diagnostics-twice")] = told_in({diagnostics(), transaction, diagnostics(NOTIFY), list}, told);
    to[named(kind, "diagnostics-no-cells")] = told_in({transaction, diagnostics()}, {kind});
    to[named(kind, "dedicated")] = told_in({transaction, list, dedicated(SECOND)}, told);
    to[named(kind, "dedicated-twice")] = told_in({transaction, list, diagnostics(), dedicated(FIRST), dedicated(SECOND, NOTIFY)}, told);
    to[named(kind, "dedicated-no-cells")] = told_in({transaction, dedicated(FIRST)}, {kind});
    to[named(kind, "unknown")] = told_in({unknown(IGNORE), transaction, unknown(NOTIFY, 65535, {0}), list, unknown(IGNORE)}, told);
    to[named(kind, "unknown-long")] = told_in({transaction, unknown(IGNORE, 999, Bytes(200, 0xff)), list}, told);
    Elements marked = known;
    marked[0][2] = marked[1][2] = IGNORE;
    to[named(kind, "known-marked-ignore")] = told_in(marked, told);
    to[named(kind, "message-marked-notify")] = {message(known, {0x40, response_frame(kind)[1], NOTIFY}), reading(told)};
}

inline void put_extensions(Messages &to, uint8_t kind) {
    const Told told = told_of(kind, {FIRST, SECOND});
    const Bytes ignored = unknown(IGNORE), notified = unknown(NOTIFY, 65535, {0});
    const auto in_item = [&](const Elements &own, const Elements &of_nr_cgi) {
        const Elements items = {reported(kind, told.rows[0], own, of_nr_cgi), reported(kind, told.rows[1])};
        return told_in({transaction(7), reports(kind, items)}, told);
    };
    to[named(kind, "extensions-item")] = in_item({ignored}, {});
    to[named(kind, "extensions-nr-cgi")] = in_item({}, {notified});
    to[named(kind, "extensions-both")] = in_item({unknown(IGNORE, 500, {0x55})}, {unknown(NOTIFY, 501, {0xaa, 0xbb})});
    to[named(kind, "extensions-20")] = in_item(Elements(20, ignored), {ignored, notified});
    to[named(kind, "extensions-long")] = in_item({unknown(NOTIFY, 999, Bytes(130, 0xff))}, {});
}

inline void put_badly_encoded(Messages &to) {
    const Told told = told_of(CANCELLING, {FIRST, SECOND});
    const Bytes whole = response(told), frame = response_frame(CANCELLING);
    const auto with_item = [](const Bytes &contents) {
        return response(CANCELLING, {transaction(7), reports(CANCELLING, {element(ID_CANCELLED_ITEM, contents)})});
    };
    to["13-cut-short"] = refused(13, cut(whole, whole.size() - 1));
    to["13-byte-behind"] = refused(13, cut(whole, whole.size() + 1));
    to["13-padding"] = refused(13, response(CANCELLING, {element(ID_TRANSACTION, {0x01, 7})}));
    to["13-extension-bit"] = refused(13, response(CANCELLING, {element(ID_TRANSACTION, {0x80, 7})}));
    to["13-long-length"] = refused(13, joined({frame, hex("8009"), value({transaction(7)})}));
    to["13-half-a-count"] = refused(13, with_item(joined({cell_of(FIRST), {0}})));
    to["13-no-count"] = refused(13, with_item(cell_of(FIRST)));
    to["13-cells-513"] = refused(13, response(told_of(WARNING, ascending_cells(513))));
}

inline void put_refused(Messages &to) {
    const Told told = told_of(CANCELLING, {FIRST, SECOND});
    const Elements known = elements_of(told);
    const auto of_cancel = [](const Elements &elements) { return response(CANCELLING, elements); };
    const auto listing = [&](const Elements &items) { return of_cancel({transaction(7), reports(CANCELLING, items)}); };
    to["14-request"] = refused(14, with({listed({FIRST}), all()}));
    to["14-unsuccessful"] = refused(14, message({transaction(7)}, {0x80, 21, REJECT}));
    to["14-restart"] = refused(14, message({transaction(7)}, {0x40, 22, REJECT}));
    to["15-unknown"] = refused(15, of_cancel({unknown(REJECT), known[0], known[1]}));
    to["15-diagnostics"] = refused(15, of_cancel({known[0], known[1], diagnostics(REJECT)}));
    to["15-dedicated"] = refused(15, response(WARNING, {known[0], dedicated(FIRST, REJECT)}));
    to["15-list-of-the-other"] = refused(15, response(WARNING, known));
    to["15-nid"] = refused(15, listing({reported(CANCELLING, {FIRST, 772}, {nid(0x123456789ab)})}));
    to["15-nid-nr-cgi"] = refused(15, listing({reported(CANCELLING, {FIRST, 772}, {}, {nid(1)})}));
    to["16-no-transaction"] = refused(16, of_cancel({known[1]}));
    to["16-no-elements"] = refused(16, of_cancel({}));
    to["16-repeated"] = refused(16, of_cancel({known[0], known[1], known[1]}));
    to["16-out-of-order"] = refused(16, of_cancel({known[1], known[0]}));
    to["16-item-of-another-id"] = refused(16, listing({element(ID_COMPLETED_ITEM, cell_of(FIRST), IGNORE)}));
    to["17-cell-twice"] = refused(17, response(told_of(CANCELLING, {FIRST, FIRST})));
    to["17-descending"] = refused(17, response(told_of(WARNING, {FIRST, SECOND, FIRST})));
}

inline Messages kept() {
    Messages messages;
    put_fields(messages);
    put_lists(messages);
    for (uint8_t kind : {WARNING, CANCELLING}) {
        put_unknown_elements(messages, kind);
        put_extensions(messages, kind);
    }
    put_badly_encoded(messages);
    put_refused(messages);
    return messages;
}

} // namespace responses

#endif
