// The cancels that are kept.
#ifndef KEPT_CANCELS_HPP
#define KEPT_CANCELS_HPP

#include "kept.hpp"

namespace cancels {

using namespace wire;

inline std::string reading(const Said &said) {
    std::string lines = "transaction " + std::to_string(said.transaction) + "\nrequested " + std::to_string(said.requested) + "\n";
    lines += (said.flags & 2) != 0 ? "cancel-all\n" : "";
    lines += (said.flags & 4) != 0 ? "notification " + digits(said.identifier, 4) + " " + digits(said.serial, 4) + "\n" : "";
    lines += said.cells.empty() ? "everywhere\n" : "";
    for (uint64_t cell : said.cells) {
        lines += "cell " + digits(cell, 15) + "\n";
    }
    return lines;
}

inline Kept said_in(const Elements &elements, const Said &said) { return {message(elements), reading(said)}; }
inline Kept plain(const Said &said) { return said_in(elements_of(said), said); }

inline void put_fields(Messages &to) {
    to["all"] = plain({});
    to["notification"] = plain({4, {}, 4370, 16});
    to["both"] = plain({6, {}, 4370, 16});
    for (uint16_t n : std::vector<uint16_t>{0, 1, 127, 128, 255}) {
        to["transaction-" + std::to_string(n)] = plain({.transaction = static_cast<uint8_t>(n)});
    }
    for (uint16_t n : std::vector<uint16_t>{1, 255, 256, 65535}) {
        to["requested-" + std::to_string(n)] = plain({.requested = n});
    }
    const std::pair<uint16_t, uint16_t> texts[] = {{0, 0}, {0x1100, 0x3001}, {0x1113, 0x8000}, {0x5555, 0xaaaa}, {0xffff, 0xffff}};
    for (const auto &[identifier, serial] : texts) {
        to["notification-" + digits(identifier, 4) + "-" + digits(serial, 4)] = plain({4, {}, identifier, serial});
    }
}

// Lists of 9 cells are the last with a length of one byte.
inline void put_lists(Messages &to) {
    to["cell"] = plain({2, {FIRST}});
    to["two-cells-both"] = plain({6, {FIRST, SECOND}, 4370, 16});
    to["two-cells-notification"] = plain({4, {FIRST, SECOND}, 4370, 16});
    to["cells-repeated"] = plain({2, {SECOND, FIRST, SECOND, SECOND}});
    to["cells-ends"] = plain({2, {0, 1, (uint64_t{1} << 36) - 1, uint64_t{1} << 36, (uint64_t{1} << 60) - 1}});
    to["cells-512-same"] = plain({2, std::vector<uint64_t>(512, FIRST)});
    for (size_t count : std::vector<size_t>{2, 9, 10, 16, 512}) {
        to["cells-" + std::to_string(count)] = plain({6, cells(count), 4370, 16, 3, 9});
    }
}

inline void put_skipped(Messages &to) {
    const Bytes ignored = unknown(IGNORE), notified = unknown(NOTIFY, 65535, {0});
    const Elements known = {transaction(7), requested(0), all()}, many(20, ignored);
    to["unknown"] = said_in({ignored, known[0], known[1], notified, known[2]}, {});
    to["unknown-last"] = said_in({known[0], known[1], known[2], notified, ignored}, {});
    to["unknown-long"] = said_in({known[0], unknown(IGNORE, 999, Bytes(200, 0xff)), known[1], known[2]}, {});
    Elements after_many = many;
    after_many.insert(after_many.end(), known.begin(), known.end());
    to["unknown-20"] = said_in(after_many, {});
    const auto in_item = [&](const Elements &own, const Elements &of_nr_cgi) {
        return said_in({known[0], known[1], list({item(FIRST, own, of_nr_cgi), item(SECOND)}), known[2]}, {2, {FIRST, SECOND}});
    };
    to["extensions-item"] = in_item({ignored}, {});
    to["extensions-nr-cgi"] = in_item({}, {notified});
    to["extensions-both"] = in_item({unknown(IGNORE, 500, {0x55})}, {unknown(NOTIFY, 501, {0xaa, 0xbb})});
    to["extensions-20"] = in_item(many, {ignored, notified});
    to["extensions-long"] = in_item({unknown(NOTIFY, 999, Bytes(130, 0xff))}, {});
    to["extensions-notification"] = said_in({known[0], known[1], notification(4370, 16, {ignored, notified})}, {4, {}, 4370, 16});
    Elements marked = elements_of({6, {FIRST}, 4370, 16});
    for (Bytes &element : marked) {
        element[2] = IGNORE;
    }
    to["known-marked-ignore"] = said_in(marked, {6, {FIRST}, 4370, 16});
    to["message-marked-notify"] = {message(known, {0, 21, NOTIFY}), reading({})};
}

inline void put_refused(Messages &to) {
    const Bytes whole = with({listed({FIRST}), all()});
    to["13-cut-short"] = refused(13, cut(whole, whole.size() - 1));
    to["13-byte-behind"] = refused(13, cut(whole, whole.size() + 1));
    to["13-padding"] = refused(13, with({element(ID_ALL, {0x01})}));
    to["13-extension-bit"] = refused(13, with({element(ID_ALL, {0x80})}));
    to["13-long-length"] = refused(13, joined({{0, 21, 0}, hex("8014"), value({transaction(7), requested(0), all()})}));
    to["13-cells-513"] = refused(13, with({listed(cells(513)), all()}));
    to["14-response"] = refused(14, message({transaction(7)}, {0x40, 21, REJECT}));
    to["14-write-replace"] = refused(14, message({transaction(7)}, {0, 20, REJECT}));
    to["15-unknown"] = refused(15, with({unknown(REJECT), all()}));
    to["15-nid"] = refused(15, with({list({item(FIRST, {nid(0x123456789ab)})}), all()}));
    to["15-nid-second-cell"] = refused(15, with({list({item(FIRST), item(FIRST, {nid(0)})}), notification(4370, 16)}));
    to["15-nid-nr-cgi"] = refused(15, with({list({item(FIRST, {}, {nid(1)})}), all()}));
    to["16-no-transaction"] = refused(16, message({requested(0), all()}));
    to["16-no-count"] = refused(16, message({transaction(7), all()}));
    to["16-repeated"] = refused(16, with({all(), all()}));
    to["16-out-of-order"] = refused(16, with({notification(4370, 16), all()}));
    to["16-item-of-another-id"] = refused(16, with({list({element(147, cell_of(FIRST), IGNORE)}), all()}));
    to["7-no-indicator"] = refused(7, with({listed({FIRST, SECOND})}));
}

inline Messages kept() {
    Messages messages;
    put_fields(messages);
    put_lists(messages);
    put_skipped(messages);
    put_refused(messages);
    return messages;
}

} // namespace cancels

#endif
