// threads: a decoder and an encoder that move into a std::thread and back, and threads that share a set. Says what is wrong.
#include <fast.hpp>

#include <cstdio>
#include <cstdlib>
#include <thread>

static const char set_text[] = R"(
[[template]]
name = "T"
id = 1
fields = [{ kind = "uInt32", name = "n", op = "increment" }]
)";
// T with 5; then, by increment, with one more each time.
static const std::uint8_t first[] = {0xe0, 0x81, 0x85}, next[] = {0x80};
static constexpr std::uint32_t count = 8;

static void check(bool is, const char *words) {
    if (is) return;
    std::fprintf(stderr, "calls: threads.cpp: %s\n", words);
    std::exit(1);
}

struct seen : fast::visitor {
    std::uint64_t last = 0;
    void field(std::uint32_t, std::uint64_t value) { last = value; }
};

// A decoder is passed on from thread to thread.
static void check_decoder(const fast::set &set) {
    fast::decoder decoder{set};
    seen it;
    decoder.decode(first, sizeof first, it);
    for (std::uint64_t number = 6; number < 6 + count; number++) {
        std::thread([&it, &decoder, moved = std::move(decoder)]() mutable {
            moved.decode(next, sizeof next, it);
            decoder = std::move(moved);
        }).join();
        check(it.last == number, "a decoder that moves between threads");
    }
}

// Threads make decoders and encoders of one set at the same time, and each takes its encoder with it.
static void check_set(const fast::set &set) {
    std::vector<std::thread> threads;
    std::vector<std::vector<std::uint8_t>> outs(count);
    for (auto &out : outs) {
        threads.emplace_back([&out, set, encoder = fast::encoder{set}]() mutable {
            const fast_record records[] = {{FAST_MESSAGE_START, 0, 0, 0, 0}, {FAST_UNSIGNED, 0, 5, 0, 0}, {FAST_MESSAGE_END, 0, 0, 0, 0}};
            seen it;
            if (set.node_name(0) != "n" || fast::decoder{set}.decode(first, sizeof first, it) != FAST_DONE || it.last != 5) return;
            encoder.encode(records, 3, nullptr, 0, out);
        });
    }
    for (auto &thread : threads) thread.join();
    for (const auto &out : outs) check(out == std::vector<std::uint8_t>(first, first + sizeof first), "threads that share a set");
}

int main() {
    fast::set set{set_text};
    check_decoder(set);
    check_set(set);
}
