// Shows what a WRITE-REPLACE WARNING RESPONSE or a PWS CANCEL RESPONSE says, by the answer that the library reads it into:
// response_from_wire [DIGITS].
#include "from_wire.hpp"

#include <array>

namespace {

// A start's rows have no counts.
void print(const pws::Response &response) {
    const pws::Answer answer{response.answer};
    const bool counted = answer.kind() == pws::Kind::cancel;
    std::printf("%s\n", counted ? "PWS CANCEL RESPONSE" : "WRITE-REPLACE WARNING RESPONSE");
    std::printf("transaction %u\n", unsigned{response.transaction});
    if (answer.empty()) {
        std::printf("no cells\n");
    }
    for (const pws::Row row : answer) {
        std::printf("cell %015llx", static_cast<unsigned long long>(row.cell));
        if (counted) {
            std::printf(" %u", unsigned{row.count.number});
        }
        std::printf("\n");
    }
}

pws::Refusal show(std::span<const std::uint8_t> message) {
    std::array<std::uint8_t, pws::answer_size(pws::layout::MOST_CELLS, pws::Kind::cancel)> answer;
    const pws::Response response = pws::read_response(message, answer);
    if (response) {
        print(response);
    }
    return response.refusal;
}

} // namespace

int main(int count, char **arguments) { return shown(count, arguments, show); }
