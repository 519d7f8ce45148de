// rows: prints the results of each stream of the rows on standard input, by fast.hpp: a line `STATUS CONSUMED EVENTS SUM WORDS` a row, for
// tools/calls/faces/table. A row is `TEMPLATES STRICT MAX_TEXT MAX_ELEMENTS MAX_TOTAL PIECE STREAM`. Compiled with and without exceptions.
#include <fast.hpp>

#include <algorithm>
#include <cinttypes>
#include <cstdio>
#include <cstring>
#include <fstream>
#include <iostream>
#include <iterator>

// The checksum that docs/PERFORMANCE.md defines.
struct sums : fast::visitor {
    std::uint64_t events = 0, sum = 0xcbf29ce484222325, abandoned_at = UINT64_MAX, end = UINT64_MAX;

    void add(std::uint64_t word) { sum = (sum ^ word) * 0x100000001b3; }
    void mark(std::uint32_t kind, std::uint32_t node = 0, std::uint64_t value = 0) {
        events++;
        add((node * std::uint64_t{16} + kind) * 0x9e3779b97f4a7c15 + value);
    }
    void text(std::uint32_t kind, std::uint32_t node, const void *data, std::size_t size) {
        mark(kind, node, size);
        for (std::size_t at = 0; at < size; at += 8) {
            std::uint64_t word = 0;
            std::memcpy(&word, static_cast<const char *>(data) + at, std::min<std::size_t>(size - at, 8));
            add(word);
        }
    }
    void message_start(std::uint32_t number) { mark(FAST_MESSAGE_START, number); }
    void field(std::uint32_t node, std::uint64_t value) { mark(FAST_UNSIGNED, node, value); }
    void field(std::uint32_t node, std::int64_t value) { mark(FAST_SIGNED, node, static_cast<std::uint64_t>(value)); }
    void field(std::uint32_t node, fast::decimal value) {
        mark(FAST_DECIMAL, node, static_cast<std::uint64_t>(value.mantissa));
        add(static_cast<std::uint64_t>(std::int64_t{value.exponent}));
    }
    void field(std::uint32_t node, fast::ascii value) { text(FAST_ASCII, node, value.text.data(), value.text.size()); }
    void field(std::uint32_t node, fast::unicode value) { text(FAST_UNICODE, node, value.text.data(), value.text.size()); }
    void field(std::uint32_t node, fast::bytes value) { text(FAST_BYTES, node, value.data, value.size); }
    void group_start(std::uint32_t node) { mark(FAST_GROUP_START, node); }
    void group_end() { mark(FAST_GROUP_END); }
    void sequence_start(std::uint32_t node, std::uint32_t count) { mark(FAST_SEQUENCE_START, node, count); }
    void element_start() { mark(FAST_ELEMENT_START); }
    void element_end() { mark(FAST_ELEMENT_END); }
    void sequence_end() { mark(FAST_SEQUENCE_END); }
    void message_end(std::uint64_t consumed) {
        mark(FAST_MESSAGE_END);
        end = consumed;
    }
    void abandoned(fast::fault why) { abandoned_at = abandoned_at == UINT64_MAX ? why.place : 0; }
};

static std::uint32_t decode(fast::decoder &by, const std::vector<std::uint8_t> &bytes, std::size_t at, std::size_t count, sums &to) {
#ifdef __cpp_exceptions
    try {
        return by.decode(bytes.data() + at, count, to);
    } catch (const fast::error &fault) {
        return fault.place == by.consumed() && fault.what() == fast::words_of(fault.status) ? fault.status : 1;
    }
#else
    return by.decode(bytes.data() + at, count, to);
#endif
}

static void run(fast::decoder &decoder, const std::vector<std::uint8_t> &bytes, std::size_t piece) {
    sums to;
    std::uint32_t status = FAST_DONE;
    for (std::size_t at = 0; at < bytes.size() && status == FAST_DONE; at += piece) {
        status = decode(decoder, bytes, at, std::min(piece, bytes.size() - at), to);
        // A message ends at its last byte.
        if (piece == 1 && to.end != UINT64_MAX && to.end != decoder.consumed()) status = 1;
        to.end = UINT64_MAX;
    }
    if (status != FAST_DONE && (decode(decoder, bytes, 0, 0, to) != status || to.abandoned_at != decoder.consumed())) status = 1;
    std::printf("%u %d %" PRIu64 " %" PRIu64 " %016" PRIx64 " %s\n", status, decoder.between(), decoder.consumed(), to.events, to.sum,
                status ? fast::words_of(status).c_str() : "-");
}

int main() {
    std::string path, hex;
    fast_limits limits = fast_default_limits;
    std::size_t piece = 0;
    auto room = std::make_shared<fast::buffers>(16, 0);
    while (std::cin >> path >> limits.strict >> limits.max_text >> limits.max_elements >> limits.max_total >> piece >> hex) {
        std::ifstream file(path, std::ios::binary);
        fast::set set{std::string(std::istreambuf_iterator<char>(file), {})};
        fast::decoder decoder{set, limits, room};
        std::vector<std::uint8_t> bytes;
        for (std::size_t at = 0; hex != "-" && at < hex.size(); at += 2) {
            bytes.push_back(static_cast<std::uint8_t>(std::stoul(hex.substr(at, 2), nullptr, 16)));
        }
        run(decoder, bytes, piece ? piece : bytes.size() + 1);
        decoder.reset();
        run(decoder, bytes, 3);
    }
}
