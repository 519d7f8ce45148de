// again TEMPLATES STREAM [TIMES]: decodes a stream to messages, encodes them TIMES times, and writes their bytes.
#include <fast.hpp>

#include <cstdlib>
#include <cstring>
#include <fstream>
#include <iostream>
#include <iterator>

// The records of all messages, with their strings.
struct messages : fast::visitor {
    struct message {
        std::vector<fast_record> records;
        std::vector<std::uint8_t> texts;
    };
    std::vector<message> whole;
    message open;

    void mark(std::uint32_t kind, std::uint32_t node = 0, std::uint64_t value = 0, std::int32_t exponent = 0) {
        open.records.push_back({kind, node, value, 0, exponent});
    }
    void text(std::uint32_t kind, std::uint32_t node, const void *data, std::size_t size) {
        std::uint64_t place = open.texts.size();
        const auto *first = static_cast<const std::uint8_t *>(data);
        open.texts.insert(open.texts.end(), first, first + size);
        open.records.push_back({kind, node, place, static_cast<std::uint32_t>(size), 0});
    }

    void message_start(std::uint32_t number) { mark(FAST_MESSAGE_START, number); }
    void field(std::uint32_t node, std::uint64_t value) { mark(FAST_UNSIGNED, node, value); }
    void field(std::uint32_t node, std::int64_t value) { mark(FAST_SIGNED, node, static_cast<std::uint64_t>(value)); }
    void field(std::uint32_t node, fast::decimal value) {
        mark(FAST_DECIMAL, node, static_cast<std::uint64_t>(value.mantissa), value.exponent);
    }
    void field(std::uint32_t node, fast::ascii value) { text(FAST_ASCII, node, value.text.data(), value.text.size()); }
    void field(std::uint32_t node, fast::unicode value) { text(FAST_UNICODE, node, value.text.data(), value.text.size()); }
    void field(std::uint32_t node, fast::bytes value) { text(FAST_BYTES, node, value.data, value.size); }
    void group_start(std::uint32_t node) { mark(FAST_GROUP_START, node); }
    void group_end() { mark(FAST_GROUP_END); }
    void sequence_start(std::uint32_t node, std::uint32_t count) { mark(FAST_SEQUENCE_START, node, count); }
    void element_start() { mark(FAST_ELEMENT_START); }
    void element_end() { mark(FAST_ELEMENT_END); }
    void sequence_end() { mark(FAST_SEQUENCE_END); }
    void message_end() {
        mark(FAST_MESSAGE_END);
        whole.push_back(std::move(open));
        open = {};
    }
};

static std::string read_whole(const char *path) {
    std::ifstream file(path, std::ios::binary);
    return {std::istreambuf_iterator<char>(file), {}};
}

int main(int argc, char **argv) {
    if (argc < 3) {
        std::cerr << "again TEMPLATES STREAM [TIMES]\n";
        return 2;
    }
    try {
        fast::set set{read_whole(argv[1])};
        std::string stream = read_whole(argv[2]);
        fast::decoder decoder{set};
        messages seen;
        fast::decode(decoder, reinterpret_cast<const std::uint8_t *>(stream.data()), stream.size(), seen);
        fast::encoder encoder{set};
        std::vector<std::uint8_t> out;
        for (long times = argc > 3 ? std::atol(argv[3]) : 1; times > 0; times--) {
            for (const auto &it : seen.whole) {
                encoder.encode(it.records.data(), it.records.size(), it.texts.data(), it.texts.size(), out);
            }
        }
        std::cout.write(reinterpret_cast<const char *>(out.data()), static_cast<std::streamsize>(out.size()));
    } catch (const fast::error &refused) {
        std::cerr << refused.what() << " at " << refused.place << '\n';
        return 1;
    }
}
