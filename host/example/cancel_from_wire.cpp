// Shows what a PWS CANCEL REQUEST says, by the record that the library reads it into: cancel_from_wire [DIGITS].
#include "from_wire.hpp"

#include <array>

namespace {

void print(const pws::Message &cancel) {
    const pws::Reading reading = pws::read(cancel.record);
    const pws::Request &request = reading.request;
    std::printf("transaction %u\n", unsigned{cancel.transaction});
    std::printf("requested %u\n", unsigned{request.requested.number});
    if (pws::has(request.flags, pws::Flags::cancel_all)) {
        std::printf("cancel-all\n");
    }
    if (pws::has(request.flags, pws::Flags::notification)) {
        std::printf("notification %04x %04x\n", unsigned{request.identifier}, unsigned{request.serial});
    }
    if (request.area == pws::Area::none) {
        std::printf("everywhere\n");
    }
    for (std::size_t k = 0; k < reading.items; ++k) {
        std::printf("cell %015llx\n", static_cast<unsigned long long>(pws::item(cancel.record, k)));
    }
}

pws::Refusal show(std::span<const std::uint8_t> message) {
    std::array<std::uint8_t, pws::record_size(pws::layout::MOST_ITEMS)> record;
    const pws::Message cancel = pws::read_cancel(message, record);
    if (cancel) {
        print(cancel);
    }
    return cancel.refusal;
}

} // namespace

int main(int count, char **arguments) { return shown(count, arguments, show); }
