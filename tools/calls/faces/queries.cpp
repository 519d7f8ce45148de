// queries FILE: writes what a template set answers to each query of fast.hpp, as queries.c does.
#include <fast.hpp>

#include <cstdio>
#include <fstream>
#include <sstream>

static void number(const char *name, std::optional<std::uint32_t> it) {
    if (it) std::printf(" %s %u", name, *it);
    else std::printf(" %s -", name);
}

static std::optional<std::uint32_t> some(std::uint32_t it) {
    return it == FAST_NONE ? std::nullopt : std::optional<std::uint32_t>(it);
}

static void body(const std::vector<std::uint32_t> &nodes) {
    std::printf(" body");
    for (std::uint32_t it : nodes) std::printf(" %u", it);
    std::puts("");
}

static void templates(const fast::set &set) {
    for (std::uint32_t at = 0; at <= set.templates(); at++) {
        const auto found = set.template_info(at);
        const fast_template_info it = found.value_or(fast_template_info{9, 9, 9});
        std::printf("template %u: %d id %u %u reset %u", at, found.has_value(), it.has_id, it.id, it.reset);
        body(set.body_of_template(at));
    }
}

static void nodes(const fast::set &set) {
    for (std::uint32_t at = 0; at <= set.nodes(); at++) {
        const auto found = set.node_info(at);
        const fast_node_info it = found.value_or(fast_node_info{9, 9, 9, 9, 9, 9});
        std::printf("node %u: %d type %u optional %u op %u", at, found.has_value(), it.type, it.optional, it.op);
        number("entry", some(it.entry));
        std::printf(" mantissa %u", it.mantissa_op);
        number("entry", some(it.mantissa_entry));
        number("parent", set.parent_of_node(at));
        number("template", set.template_of_node(at));
        body(set.body_of_node(at));
    }
}

static void find(const fast::set &set) {
    for (const char *name : {"All", "Nested.One", "Part", "", "al", "All.a", "\xff"}) number(*name == '\xff' ? "?" : name, set.find_template(name));
    for (std::uint32_t id : {0u, 7u, 1u}) number("id", set.find_template(id));
    std::puts("");
    for (std::uint32_t at = 0; at < 4; at++) {
        std::printf("in %u:", at);
        for (const char *path : {"a", "e", "i", "", ".", "x", "x.s", "x.s.t", "x.y.z", "x.s.y", "x.s.y.z", "x.s.y.z.z", "x.", ".x", "x..s", "n", "x-y.z"})
            number(path, set.find_node(at, path));
        std::puts("");
    }
}

static void due(const fast::set &set) {
    static const std::uint8_t stream[] = {0xe0, 0x80, 0xc0, 0x81, 0x82, 0xc0, 0x81, 0x81, 0x80, 0x80, 0x80, 0xc0, 0x87, 0x80};
    fast::decoder decoder{set};
    for (std::size_t i = 0; i <= sizeof stream; i++) {
        const fast_due it = decoder.in_hand();
        std::printf("after %zu: %u %u\n", i, it.what, it.node);
        try {
            if (i < sizeof stream) decoder.decode(stream + i, 1, fast::visitor{});
        } catch (const fast::error &) {
        }
    }
}

int main(int, char **words) {
    std::ostringstream text;
    text << std::ifstream(words[1]).rdbuf();
    const fast::set set{text.str()};
    const fast_limits limits = {0, 1024, 10, 30};
    std::printf("%u templates %u nodes %u entries %u deep %llu events\n", set.templates(), set.nodes(), set.entries(), set.depth(),
                static_cast<unsigned long long>(set.message_cap(limits)));
    templates(set);
    nodes(set);
    find(set);
    // a zero ends no name and no path
    if (set.find_template(std::string("All", 4)) || set.find_node(0, std::string("a", 2))) return 1;
    due(set);
}
