// A visitor defines only the calls that it needs: one `field`, none, or a template for all others.
#include <fast.hpp>

#include <cstdio>

struct prices : fast::visitor {
    void field(std::uint32_t node, fast::decimal it) { std::printf("price %u %lld\n", node, static_cast<long long>(it.mantissa)); }
};
struct unsigned_alone : fast::visitor {
    void field(std::uint32_t node, std::uint64_t it) { std::printf("unsigned %u %llu\n", node, static_cast<unsigned long long>(it)); }
};
struct signed_by_reference : fast::visitor {
    void field(std::uint32_t node, const std::int64_t &it) { std::printf("signed %u %lld\n", node, static_cast<long long>(it)); }
};
struct all_by_a_template : fast::visitor {
    template <class T> void field(std::uint32_t node, T it) { std::printf("some %u %zu\n", node, sizeof it); }
    void field(std::uint32_t node, std::int64_t it) { std::printf("other %u %lld\n", node, static_cast<long long>(it)); }
    template <class T> void message_end(T it) { std::printf("some end at %llu\n", static_cast<unsigned long long>(it)); }
};
struct ends_alone : fast::visitor {
    void message_end(std::uint64_t consumed) { std::printf("end at %llu\n", static_cast<unsigned long long>(consumed)); }
};
struct not_derived {
    void message_start(std::uint32_t number) { std::printf("message %u\n", number); }
    void group_start(std::uint32_t) {}
    void group_end() {}
    void sequence_start(std::uint32_t, std::uint32_t) {}
    void element_start() {}
    void element_end() {}
    void sequence_end() {}
    void message_end() { std::printf("end\n"); }
};

template <class V> static void show(V sees) {
    const std::uint64_t minus_five = static_cast<std::uint64_t>(-5);
    const fast_record records[] = {{FAST_MESSAGE_START, 2, 0, 0, 0}, {FAST_SIGNED, 3, minus_five, 0, 0}, {FAST_UNSIGNED, 4, 7, 0, 0},
                                   {FAST_DECIMAL, 5, minus_five, 0, -2}, {FAST_MESSAGE_END, 0, UINT64_C(1) << 32, 0, 0}};
    for (const auto &it : records) fast::visit(it, nullptr, sees);
}

int main() {
    show(fast::visitor{});
    show(prices{});
    show(unsigned_alone{});
    show(signed_by_reference{});
    show(all_by_a_template{});
    show(ends_alone{});
    show(not_derived{});
}
