// Calls each caller of crates/fast_callers on two trades, on their prefixes, and on a fault after them.
#include "rows.h"

struct called {
    uint64_t messages, has_price;
    int64_t exponent, mantissa;
    uint64_t whole, bytes, status, place;
};

// crates/fast_bench/src/lib.rt
void fast_bench_call(const uint8_t *templates, size_t templates_len, const uint8_t *stream, size_t stream_len, size_t cut,
                     const uint8_t *symbol, size_t symbol_len, struct called *out);

static const char set[] = "[[template]]\n"
                          "name = 'Trade'\n"
                          "id = 7\n"
                          "fields = [\n"
                          "    { kind = 'ascii', name = 'symbol', op = 'copy' },\n"
                          "    { kind = 'decimal', name = 'price', exponent = { op = 'default', value = '-2' }, mantissa = { op = 'delta' } },\n"
                          "    { kind = 'uInt32', name = 'size', optional = true, op = 'default', value = '100' },\n"
                          "]\n";

// A trade of ABC at 265.06, one at 265.01, and then an identifier of no template.
static const uint8_t stream[] = {0xe0, 0x87, 0x41, 0x42, 0xc3, 0x01, 0x4f, 0x8a, 0x80, 0xfb, 0xc0, 0x88};

// The expected results for a number of bytes and a symbol. A fault is D9, which has status 7.
static const struct {
    size_t len;
    const char *symbol;
    struct called due;
} rows[] = {
    {10, "ABC", {2, 1, -2, 26501, 2, 10, 0, 0}},
    {10, "XYZ", {2, 0, 0, 0, 2, 10, 0, 0}},
    {9, "ABC", {1, 1, -2, 26506, 1, 9, 1, 0}},
    {12, "ABC", {UINT64_MAX, UINT64_MAX, 0, 0, 2, 12, 7, 12}},
};

int main(void) {
    int failures = 0, calls = 0;
    for (size_t i = 0; i < sizeof rows / sizeof *rows; i++) {
        for (size_t cut = 0; cut <= rows[i].len; cut++, calls++) {
            struct called is;
            begin_run(none, none);
            fast_bench_call((const uint8_t *)set, sizeof set - 1, stream, rows[i].len, cut, (const uint8_t *)rows[i].symbol,
                            strlen(rows[i].symbol), &is);
            if (memcmp(&is, &rows[i].due, sizeof is) || blocks) {
                failures++;
                fprintf(stderr,
                        "callers: %zu bytes, %s, cut behind %zu: %" PRIu64 " messages, price %" PRIu64 " %" PRId64 " %" PRId64 ", up to a fault %" PRIu64
                        " messages, %" PRIu64 " bytes, status %" PRIu64 " at %" PRIu64 ", %" PRIu64 " blocks left\n",
                        rows[i].len, rows[i].symbol, cut, is.messages, is.has_price, is.exponent, is.mantissa, is.whole, is.bytes,
                        is.status, is.place, blocks);
            }
        }
    }
    printf("callers: %d calls, %d failures\n", calls, failures);
    return failures > 0;
}
