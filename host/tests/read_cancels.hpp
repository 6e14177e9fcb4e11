// Cancels from the wire, and what the tests ask of them: the record that a message becomes, or the number that it is refused with.
#ifndef READ_CANCELS_HPP
#define READ_CANCELS_HPP

#include "messages.hpp"
#include "read_messages.hpp"

inline bool says(const Said &said, const Bytes &message) {
    const Bytes record = said.record();
    return becomes(pws_read_cancel, message, said.transaction, record) && read_gives(0, record);
}

inline bool refused(uint32_t number, const Bytes &message) { return refused_by(pws_read_cancel, number, message); }

// The elements of the samples.
inline const Bytes TRANSACTION = wire::transaction(7), REQUESTED = wire::requested(0), ALL = wire::all(), CELLS = wire::listed({FIRST}),
                   TEXT = wire::notification(4370, 16);

inline bool all_refused(uint32_t number, const std::vector<Bytes> &messages) {
    return std::ranges::all_of(messages, [=](const Bytes &message) { return refused(number, message); });
}

#endif
