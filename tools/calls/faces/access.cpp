// access TEMPLATES STREAM: tests fast_messages.hpp over tools/calls/sets/names.toml and its stream: access by name, what is missing or of another
// type, pieces, faults and packets, with exceptions and without. Prints what is wrong, and then ends with status 1.
#include <fast_messages.hpp>

#include <fstream>
#include <iostream>
#include <iterator>

static int wrong = 0;

static void check(bool is, const char *words) {
    if (is) return;
    std::cerr << "access.cpp: " << words << '\n';
    wrong++;
}
#define CHECK(is) check(is, #is)

#ifdef __cpp_exceptions
// Whether a call throws an access_error with this path and this sentence.
template <class F> bool throws(F call, const std::string &path, const std::string &words) {
    try {
        call();
    } catch (const fast::access_error &it) {
        if (it.path == path && it.what() == words) return true;
        std::cerr << it.path << ": " << it.what() << '\n';
    }
    return false;
}
#endif

static std::string read_whole(const char *path) {
    std::ifstream file(path, std::ios::binary);
    return {std::istreambuf_iterator<char>(file), {}};
}

static const std::uint8_t *bytes_of(const std::string &it) { return reinterpret_cast<const std::uint8_t *>(it.data()); }

// Decodes a piece, and returns the status, thrown or not.
template <class F> std::uint32_t status_of(F call) {
#ifdef __cpp_exceptions
    try {
        return call();
    } catch (const fast::error &it) { return it.status; }
#else
    return call();
#endif
}

static std::vector<fast::message> all(fast::message_decoder &by, const std::string &piece) {
    std::vector<fast::message> found;
    by.decode(bytes_of(piece), piece.size(), [&](const fast::message &it) { found.push_back(it); });
    return found;
}

template <class T> T read(fast::item it) {
    T value{};
    if (!it.read(value)) check(false, "a value is of another type");
    return value;
}

static void check_values(const std::vector<fast::message> &of) {
    CHECK(of.size() == 6 && of[0].name() == "Same" && of[0].id() == 4294967295u && of[4].id() == 0 && of[0].template_number() == 1);
    const fast::message &same = of[2], &values = of[4];
    CHECK(same.whole() && same.begun() && same.size() == 7 && of[0].size() == 1 && same["F#5"].size() == 2);
    CHECK(read<std::uint64_t>(same["F"]) == 4294967295u && read<std::int64_t>(same["F#2"]) == INT64_MIN);
    CHECK(read<std::string_view>(same["F#3"]) == "x" && read<std::uint64_t>(same["n#2"]) == 9);
    CHECK(read<fast::decimal>(same["F#4"]["F"]).mantissa == INT64_MIN && read<fast::decimal>(same["F#4"]["F"]).exponent == -63);
    const fast::bytes bytes = read<fast::bytes>(same["F#4"]["F#2"]);
    CHECK(bytes.size == 4 && bytes.data[0] == 0 && bytes.data[1] == 0xff);
    CHECK(read<std::uint64_t>(same["F#5"][1]["F#2"][0]["F"]) == UINT64_MAX && same["F#5"][0]["F#2"].size() == 0);
    CHECK(same["F#5"][1]["F#2"][1].size() == 3 && read<std::string_view>(same["F#5"][1]["F#2"][1]["F#2"]).empty());
    CHECK(same["F#5"][1]["F#2"][1]["n"].path() == "F#5[1].F#2[1].n" && same["F#4"].path() == "F#4" && same.fields().path().empty());
    CHECK(same.has("n") && !of[0].has("n") && !same.has("F#9") && !same["F"].has("F") && !same.find("F#9"));
    CHECK(values["g"].size() == 0 && values["g"].kind() == FAST_GROUP_START && values["q"][0].size() == 0 && values["q"].size() == 3);
    CHECK(values["a"].kind() == FAST_ASCII && values["s"].kind() == FAST_UNICODE && values["k"].key() == "k" &&
          values["q"][0].key().empty());
    CHECK(read<fast::decimal>(values["e"]).mantissa == -5 && read<fast::decimal>(values["d"]).exponent == -2);
    std::string keys;
    for (fast::item it : same) keys += std::string(it.key()) + ' ';
    CHECK(keys == "F F#2 n F#3 F#4 F#5 n#2 ");
    // Nothing is converted.
    std::uint64_t number = 7;
    std::int64_t signed_one = 7;
    std::string_view text = "7";
    CHECK(!same["F#2"].read(number) && !same["F#4"].read(number) && !fast::item().read(number) && number == 7);
    CHECK(!same["F"].read(signed_one) && signed_one == 7 && !same["F#4"]["F#2"].read(text) && text == "7");
    CHECK(fast::item().size() == 0 && !fast::item().has("F") && fast::item().key().empty() && fast::item().kind() == 0);
}

static void check_missing(const std::vector<fast::message> &of) {
    const fast::message &same = of[2];
#ifdef __cpp_exceptions
    CHECK(same["F"].as_u64() == 4294967295u && same["F#2"].as_i64() == INT64_MIN && same["F#3"].as_text() == "x");
    CHECK(same["F#4"]["F"].as_decimal().exponent == -63 && same["F#4"]["F#2"].as_bytes().size == 4);
    CHECK(throws([&] { same["F#2"].as_u64(); }, "F#2", "F#2 of Same is a signed integer, and not an unsigned integer"));
    CHECK(throws([&] { same["F"].as_i64(); }, "F", "F of Same is an unsigned integer, and not a signed integer"));
    CHECK(throws([&] { same["F#5"][1]["F"].as_text(); }, "F#5[1].F", "F#5[1].F of Same is a signed integer, and not a string"));
    CHECK(throws([&] { same["F#4"].as_decimal(); }, "F#4", "F#4 of Same is a group, and not a decimal"));
    CHECK(throws([&] { same["F#4"]["n"].as_bytes(); }, "F#4.n", "F#4.n of Same is a string, and not a byte vector"));
    CHECK(throws([&] { of[0]["n"].as_u64(); }, "n", "n of Same is absent"));
    CHECK(throws([&] { same["F#5"][1]["F#2"][0]["n"]; }, "F#5[1].F#2[0].n", "F#5[1].F#2[0].n of Same is absent"));
    CHECK(throws([&] { same["F#4"]["x"]; }, "F#4.x", "F#4.x of Same is not in the template"));
    CHECK(throws([&] { same["f"]; }, "f", "f of Same is not in the template"));
    CHECK(throws([&] { same["F"]["x"]; }, "F.x", "F.x of Same is asked of an unsigned integer"));
    CHECK(throws([&] { same["F#5"]["F"]; }, "F#5.F", "F#5.F of Same is asked of a sequence"));
    CHECK(throws([&] { same["F#5"][2]; }, "F#5[2]", "F#5[2] of Same is asked of a sequence of 2"));
    CHECK(throws([&] { same["F#4"][0]; }, "F#4[0]", "F#4[0] of Same is asked of a group"));
    CHECK(throws([&] { same.find("x").as_u64(); }, "", "it is nothing, and not an unsigned integer"));
#else
    std::uint64_t number = 7;
    CHECK(!same["x"] && !same["F#5"][2] && !same["F#5"][2]["F"] && !same["F"][0] && !same["x"]["y"][3].read(number) && number == 7);
#endif
}

// Each split of the stream in two, and single bytes with room for one record.
static void check_pieces(const fast::set &set, const std::string &stream) {
    fast::message_decoder decoder{set}, small{set, fast_default_limits, std::make_shared<fast::buffers>(1, 1)};
    for (std::size_t at = 0; at <= stream.size(); at++) {
        std::vector<fast::message> found = all(decoder, stream.substr(0, at));
        CHECK(decoder.between() || !decoder.partial().whole());
        CHECK(!decoder.partial().begun() || decoder.partial().name() == (found.size() < 4 ? "Same" : "Values"));
        for (const fast::message &it : all(decoder, stream.substr(at))) found.push_back(it);
        CHECK(found.size() == 6 && decoder.between() && !decoder.partial().begun());
        if (found.size() == 6) check_values(found);
        decoder.reset();
    }
    std::vector<fast::message> found;
    for (char byte : stream) {
        for (const fast::message &it : all(small, std::string(1, byte))) found.push_back(it);
    }
    check_values(found);
}

static void check_faults(const fast::set &set, const std::vector<fast::message> &of) {
    fast::encoder encoder{set};
    std::vector<std::uint8_t> bytes;
    CHECK(fast::encode(encoder, of[0], bytes) == FAST_DONE);
    const std::size_t first = bytes.size();
    fast::encode(encoder, of[2], bytes);
    fast_limits few = fast_default_limits;
    few.max_elements = 1;
    fast::message_decoder decoder{set, few};
    unsigned seen = 0;
    const auto take = [&](const fast::message &it) { seen += it.whole(); };
    for (unsigned round = 1; round < 3; round++) {
        CHECK(status_of([&] { return decoder.decode(bytes.data(), bytes.size(), take); }) == FAST_L2 && seen == round);
        const fast::message part = decoder.partial();
        CHECK(part.begun() && !part.whole() && part.size() == 5 && part["F#4"].size() == 3 && part.name() == "Same");
        CHECK(status_of([&] { return decoder.decode(bytes.data(), first, take); }) == FAST_L2 && seen == round);
        decoder.reset();
        CHECK(!decoder.partial().begun());
    }
    seen = 0;
    CHECK(decoder.packet(bytes.data(), first, take) == FAST_DONE && seen == 1);
    CHECK(status_of([&] { return decoder.packet(bytes.data(), first - 1, take); }) == FAST_TRUNCATED && seen == 1);
    CHECK(status_of([&] { return decoder.packet(bytes.data(), first, take, FAST_CONTINUE); }) == FAST_TRUNCATED && seen == 1);
    CHECK(decoder.partial().begun());
    CHECK(status_of([&] { return decoder.packet(bytes.data(), 1, take); }) == FAST_TRUNCATED && !decoder.partial().begun());
    CHECK(decoder.packet(bytes.data(), first, take) == FAST_DONE && seen == 2 && !decoder.partial().begun());
#ifdef __cpp_exceptions
    // After a call that has thrown at the end of a piece, the next message is whole.
    fast::message_decoder other{set};
    bool is_thrown = false;
    try {
        other.decode(bytes.data(), first, [](const fast::message &) { throw 1; });
    } catch (int) { is_thrown = true; }
    other.decode(bytes.data() + first, bytes.size() - first, [&](const fast::message &it) { is_thrown = is_thrown && it.size() == 7; });
    CHECK(is_thrown);
#endif
    // A message that is open ends where it is.
    fast::message_decoder whole{set};
    for (std::size_t at = first; at < bytes.size(); at++) {
        whole.decode(bytes.data(), at, take);
        const fast::message part = whole.partial();
        std::size_t count = 0;
        for (fast::item it : part.fields()) count += 1 + 0 * it.size();
        CHECK(count == part.size() && count <= 7 && (!part.has("F#5") || part["F#5"].size() <= 2));
        whole.reset();
    }
}

int main(int argc, char **argv) {
    if (argc != 3) return 2;
    const std::string stream = read_whole(argv[2]);
    fast::set set{read_whole(argv[1])};
    fast::message_decoder decoder{set};
    const std::vector<fast::message> found = all(decoder, stream);
    check_values(found);
    check_missing(found);
    check_pieces(set, stream);
    check_faults(set, found);
    return wrong ? 1 : 0;
}
