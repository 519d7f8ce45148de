// messages TEMPLATES STREAM PIECE: writes the messages of a stream as `fastcat show --json` does; PIECE is a number of bytes, or 0 for all. With
// --again as the first argument, and no PIECE, it writes the bytes of its messages, encoded again.
#include <fast_messages.hpp>

#include <cstdlib>
#include <cstring>
#include <fstream>
#include <iostream>
#include <iterator>

static std::string read_whole(const char *path) {
    std::ifstream file(path, std::ios::binary);
    return {std::istreambuf_iterator<char>(file), {}};
}

static void hex(std::uint8_t byte) { std::cout << "0123456789abcdef"[byte >> 4] << "0123456789abcdef"[byte & 15]; }

static void string(std::string_view text) {
    std::cout << '"';
    for (char c : text) {
        const auto byte = static_cast<std::uint8_t>(c);
        if (byte < 0x20 || byte == 0x7f) {
            std::cout << "\\u00";
            hex(byte);
        } else {
            if (c == '"' || c == '\\') std::cout << '\\';
            std::cout << c;
        }
    }
    std::cout << '"';
}

static void value(fast::item it);

// The items in a group, an element, a message or a sequence, by iteration.
static void all(fast::item of, char opens, char closes) {
    std::cout << opens;
    bool is_first = true;
    for (fast::item it : of) {
        if (!is_first) std::cout << ',';
        is_first = false;
        if (opens == '{') string(it.key()), std::cout << ':';
        value(it);
    }
    std::cout << closes;
}

static void value(fast::item it) {
    std::uint64_t unsigned_one = 0;
    std::int64_t signed_one = 0;
    fast::decimal decimal{};
    std::string_view text;
    fast::bytes bytes{};
    if (it.read(unsigned_one)) {
        std::cout << unsigned_one;
    } else if (it.read(signed_one)) {
        std::cout << signed_one;
    } else if (it.read(decimal)) {
        std::cout << '"' << decimal.mantissa << 'e' << decimal.exponent << '"';
    } else if (it.read(text)) {
        string(text);
    } else if (it.read(bytes)) {
        std::cout << '"';
        for (std::size_t i = 0; i < bytes.size; i++) hex(bytes.data[i]);
        std::cout << '"';
    } else {
        const bool is_sequence = it.kind() == FAST_SEQUENCE_START;
        all(it, is_sequence ? '[' : '{', is_sequence ? ']' : '}');
    }
}

static void show(const fast::message &of) {
    std::cout << "{\"template\":";
    string(of.name());
    std::cout << ",\"id\":" << of.id() << ",\"message\":";
    value(of.fields());
    std::cout << "}\n";
}

int main(int argc, char **argv) {
    const bool is_again = argc > 1 && !std::strcmp(argv[1], "--again");
    if (argc != 4) return 2;
    char **words = argv + is_again;
    const std::string stream = read_whole(words[2]);
    std::size_t piece = is_again ? 0 : std::strtoull(words[3], nullptr, 10);
    if (!piece) piece = stream.size() + 1;
    std::ios::sync_with_stdio(false);
    fast::set set{read_whole(words[1])};
    fast::message_decoder decoder{set};
    fast::encoder encoder{set};
    std::vector<std::uint8_t> again;
    for (std::size_t at = 0; at < stream.size(); at += piece) {
        const auto *bytes = reinterpret_cast<const std::uint8_t *>(stream.data()) + at;
        const std::uint32_t status = decoder.decode(bytes, std::min(piece, stream.size() - at), [&](const fast::message &it) {
            if (is_again)
                fast::encode(encoder, it, again);
            else
                show(it);
        });
        if (status != FAST_DONE) return 1;
    }
    std::cout.write(reinterpret_cast<const char *>(again.data()), static_cast<std::streamsize>(again.size()));
    return decoder.between() ? 0 : 1;
}
