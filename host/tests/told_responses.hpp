// What the tests ask of answers and responses: that each becomes the other, or the number that it is refused with.
#ifndef TOLD_RESPONSES_HPP
#define TOLD_RESPONSES_HPP

#include "read_messages.hpp"
#include "responses.hpp"

// Whether an answer is written as this very message, with room to spare and without; with one byte less it is refused with 8.
inline bool written_as(const Bytes &answer, uint8_t transaction, const Bytes &message) {
    const Bytes exact = room(message.size()), ample = room(message.size() + 3);
    return write_response_gives(0, message.size(), answer, transaction, exact) &&
           write_response_at(Flush::end, answer, transaction, exact).buffers[0] == message &&
           write_response_gives(0, message.size(), answer, transaction, ample) &&
           write_response_at(Flush::end, answer, transaction, ample).buffers[0] == joined({message, room(3)}) &&
           write_response_gives(8, 0, answer, transaction, room(message.size() - 1));
}

// Whatever else stands in the message, its answer is written without that, and reads as the same.
inline bool tells(const Told &told, const Bytes &message) {
    const Bytes plain = wire::response(told);
    return becomes(pws_read_response, message, told.transaction, told.answer()) && written_as(told.answer(), told.transaction, plain) &&
           becomes(pws_read_response, plain, told.transaction, told.answer());
}

inline bool refused_response(uint32_t number, const Bytes &message) { return refused_by(pws_read_response, number, message); }

// Whatever the room: 8 comes last.
inline bool unwritten(const Bytes &answer) {
    return write_response_gives(17, 0, answer, 7, room(0)) && write_response_gives(17, 0, answer, 255, room(13)) &&
           write_response_gives(17, 0, answer, 0, room(7800));
}

#endif
