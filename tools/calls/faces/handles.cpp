// handles: tests fast.hpp with packets, faults, limits and moved handles. Compiled with and without exceptions; prints what is wrong.
#include <fast.hpp>

#include <cstdio>
#include <cstdlib>

static const char set_text[] = R"(
[[template]]
name = "T"
id = 1
fields = [
  { kind = "uInt32", name = "n", op = "increment" },
  { kind = "bytes", name = "b" },
]
[[template]]
name = "S"
id = 2
fields = [{ kind = "sequence", name = "s", fields = [{ kind = "uInt32", name = "e" }] }]
)";

static void check(bool is, const char *words) {
    if (is) return;
    std::fprintf(stderr, "calls: handles.cpp: %s\n", words);
    std::exit(1);
}

// Returns the status of a call: that of the error that it throws, or the one that it returns.
template <class F> static std::uint32_t status_of(F call, std::uint64_t *place = nullptr) {
#ifdef __cpp_exceptions
    try {
        return call();
    } catch (const fast::error &fault) {
        if (place) *place = fault.place;
        check(fault.what() == fast::words_of(fault.status), "the words of an error");
        return fault.status;
    }
#else
    static_cast<void>(place);
    return call();
#endif
}

struct seen : fast::visitor {
    std::uint64_t messages = 0, bytes = 0, last = 0, cut = 0;
    fast::fault why = {0, 0};
    void field(std::uint32_t, std::uint64_t value) { last = value; }
    void field(std::uint32_t, fast::bytes value) { bytes += value.size; }
    void message_end() { messages++; }
    void abandoned(fast::fault it) { cut++, why = it; }
};

// A message of T with 5 and the bytes "abc"; then one with 6, by increment, and no bytes.
static const std::uint8_t first[] = {0xe0, 0x81, 0x85, 0x83, 'a', 'b', 'c'}, second[] = {0x80, 0x80};

static void check_packets() {
    // With room for one record, the least, so that a packet takes several calls of the library.
    fast::decoder decoder{fast::set{set_text}, fast_default_limits, 0};
    seen it;
    std::uint64_t place = 0;
    check(status_of([&] { return decoder.packet(first, sizeof first, it); }) == FAST_DONE && it.messages == 1 && it.last == 5, "a packet");
    check(status_of([&] { return decoder.packet(second, sizeof second, it, FAST_CONTINUE); }) == FAST_DONE && it.last == 6, "a packet that goes on");
    check(decoder.consumed() == 9 && decoder.between() && !it.cut, "two packets");
    check(status_of([&] { return decoder.packet(second, sizeof second, it); }, &place) == FAST_D5 && it.why.place == 1, "a packet from a new dictionary");
    check(status_of([&] { return decoder.packet(first, 5, it); }, &place) == FAST_TRUNCATED && !decoder.between(), "a packet that is cut");
    check(it.cut == 2 && it.why.status == FAST_TRUNCATED && it.why.place == 5, "what is said of a packet that is cut");
    check(status_of([&] { return decoder.packet(second, sizeof second, it, FAST_CONTINUE); }) == FAST_TRUNCATED && it.cut == 2, "after a packet that is cut");
    check(status_of([&] { return decoder.decode(second, sizeof second, it); }) == FAST_TRUNCATED && it.messages == 2, "a feed after it");
    decoder.reset();
    check(decoder.consumed() == 0 && decoder.between(), "a reset");
    check(status_of([&] { return decoder.decode(first, 3, it); }) == FAST_DONE && !decoder.between() && decoder.consumed() == 3, "a piece");
    check(status_of([&] { return decoder.decode(first + 3, 4, it); }) == FAST_DONE && it.messages == 3 && it.bytes == 6, "the rest of it");
#ifdef __cpp_exceptions
    check(place == 5, "the place of an error");
#endif
}

static void check_limits() {
    const fast::set set{set_text};
    auto room = std::make_shared<fast::buffers>(1, 0);
    const std::vector<std::uint8_t> elements = {0xc0, 0x82, 0x82, 0x81, 0x81};
    for (std::uint32_t which = 0; which < 2; which++) {
        fast::decoder by{set, {0, 16, which ? 9u : 1u, which ? 1u : 9u}, room};
        seen it;
        check(status_of([&] { return by.decode(elements.data(), elements.size(), it); }) == (which ? FAST_L5 : FAST_L2), "the limits on elements");
    }
    const std::uint32_t most = 1048576;
    fast::encoder encoder{set, {0, most, 1, 1}};
    std::vector<std::uint8_t> text(most, 'x'), out;
    const fast_record records[] = {{FAST_MESSAGE_START, 0, 0, 0, 0}, {FAST_UNSIGNED, 0, 5, 0, 0}, {FAST_BYTES, 1, 0, most, 0}, {FAST_MESSAGE_END, 0, 0, 0, 0}};
    check(encoder.encode(records, 4, text.data(), text.size(), out) == FAST_DONE && out.size() > most, "a text of the greatest length, encoded");
    fast::decoder decoder{set, {0, most, 1, 1}, room};
    seen it;
    check(decoder.decode(out.data(), out.size(), it) == FAST_DONE && it.bytes == most, "a text of the greatest length");
    fast::decoder less{set, {0, most - 1, 1, 1}, room};
    check(status_of([&] { return less.decode(out.data(), out.size(), it); }) == FAST_L1, "a text that is longer than the limit");
    std::uint64_t place = 9;
    const std::size_t before = out.size();
    check(status_of([&] { return encoder.encode(records, 3, text.data(), text.size(), out); }, &place) == FAST_MISPLACED, "records that are no message");
    check(out.size() == before, "what is refused changes nothing");
    const fast_record few[] = {{FAST_MESSAGE_START, 0, 0, 0, 0}, {FAST_UNSIGNED, 0, 5, 0, 0}, {FAST_BYTES, 1, 0, 3, 0}, {FAST_MESSAGE_END, 0, 0, 0, 0}};
    out.clear();
    encoder.reset();
    const std::uint8_t abc[] = {'a', 'b', 'c'};
    check(encoder.encode(few, 4, abc, 3, out) == FAST_DONE && out == std::vector<std::uint8_t>(first, first + sizeof first), "the bytes of a message");
    encoder.reset();
    check(encoder.encode(few, 4, abc, 3, out) == FAST_DONE && out.size() == 2 * sizeof first && out[sizeof first] == first[0], "bytes are appended");
#ifdef __cpp_exceptions
    check(place == 3, "the record that is missing");
#endif
}

static void check_handles() {
    seen it;
    fast::decoder gone{fast::set{set_text}}, kept{std::move(gone)};
    check(status_of([&] { return gone.decode(first, sizeof first, it); }) == FAST_CLOSED, "a decoder that was moved from");
    check(status_of([&] { return kept.decode(first, sizeof first, it); }) == FAST_DONE, "a decoder that was moved");
    fast::encoder from{kept.templates()}, to{std::move(from)};
    std::vector<std::uint8_t> out;
    check(status_of([&] { return from.encode(nullptr, 0, nullptr, 0, out); }) == FAST_CLOSED, "an encoder that was moved from");
    check(status_of([&] { return to.encode(nullptr, 0, nullptr, 0, out); }) == FAST_MISPLACED, "an encoder that was moved");
    check(status_of([] { return fast::set{"x"}.status(); }) == FAST_S1, "a set that is refused");
    check(status_of([&] { return fast::decoder(kept.templates(), {0, 15, 1, 1}).status(); }) == FAST_BAD_LIMITS, "limits that are refused");
    check(status_of([&] { return fast::encoder(kept.templates(), {0, 15, 1, 1}).status(); }) == FAST_BAD_LIMITS, "limits of an encoder");
    check(kept.status() == FAST_DONE && to.status() == FAST_DONE && kept.templates().status() == FAST_DONE, "what was made");
    check(kept.templates().templates() == 2 && kept.templates().nodes() == 4 && kept.templates().template_name(1) == "S", "a set");
    check(kept.templates().node_name(1) == "b" && kept.templates().node_name(9).empty(), "names");
}

int main() {
    check_packets();
    check_limits();
    check_handles();
}
