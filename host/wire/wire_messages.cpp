// Writes the kept messages and what each of them says: wire_messages FOLDER, which has the folders cancel and response. NAME.hex has a
// message in hexadecimal digits, NAME.reading what example/cancel_from_wire.cpp or example/response_from_wire.cpp must print of it. Both
// are made of the same values, and neither by the library: a reader that nobody here wrote is asked by `make wire-peer`.
#include "kept_cancels.hpp"
#include "kept_responses.hpp"

#include <fstream>

// Lines of 32 bytes.
static std::string lines(const Bytes &message) {
    std::string text;
    for (size_t at = 0; at < message.size(); ++at) {
        text += digits(message[at], 2) + (at % 32 == 31 || at + 1 == message.size() ? "\n" : "");
    }
    return text;
}

static bool written(const std::string &folder, const Messages &messages) {
    bool ok = true;
    for (const auto &[name, kept] : messages) {
        const std::string path = folder + "/" + name;
        ok &= bool(std::ofstream(path + ".hex") << lines(kept.message)) && bool(std::ofstream(path + ".reading") << kept.reading);
    }
    return ok;
}

int main(int count, char **arguments) {
    if (count != 2) {
        std::printf("wire_messages FOLDER\n");
        return 2;
    }
    const std::string folder = arguments[1];
    return written(folder + "/cancel", cancels::kept()) && written(folder + "/response", responses::kept()) ? 0 : 1;
}
