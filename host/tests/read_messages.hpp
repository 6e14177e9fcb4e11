// What the tests of messages from the wire ask of a reader: what a message becomes, or the number that it is refused with.
#ifndef READ_MESSAGES_HPP
#define READ_MESSAGES_HPP

#include "at_guards.hpp"
#include "by_hand.hpp"

// Whether a message becomes these very bytes, with room to spare and without; with one byte less it is refused with 8.
inline bool becomes(Reader read, const Bytes &message, uint8_t transaction, const Bytes &written) {
    const Bytes exact = room(written.size()), ample = room(written.size() + 3);
    return read_message_gives(read, 0, transaction, written.size(), message, exact) &&
           read_message_at(read, Flush::end, message, exact).buffers[0] == written &&
           read_message_gives(read, 0, transaction, written.size(), message, ample) &&
           read_message_at(read, Flush::end, message, ample).buffers[0] == joined({written, room(3)}) &&
           read_message_gives(read, 8, 0, 0, message, room(written.size() - 1));
}

// Whatever the room: 8 comes last.
inline bool refused_by(Reader read, uint32_t number, const Bytes &message) {
    return read_message_gives(read, number, 0, 0, message, room(0)) && read_message_gives(read, number, 0, 0, message, room(26)) &&
           read_message_gives(read, number, 0, 0, message, room(7300));
}

#endif
