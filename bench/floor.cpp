// The floor under every judgement of a table: its bytes read once, and nothing found out about them.
#include <cstddef>
#include <cstdint>
#include <cstring>

extern "C" uint64_t floor_read(const uint8_t *bytes, size_t length) {
    uint64_t sum = 0;
    for (size_t k = 0; k + 8 <= length; k += 8) {
        uint64_t word;
        std::memcpy(&word, bytes + k, sizeof word);
        sum += word;
    }
    return sum;
}
