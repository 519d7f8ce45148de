// One run of the decoder or the encoder over a stream in a file, for counts of instructions (tools/counts/run).
//
//     counts SINK NUMBER STRICT TEMPLATES STREAM
//
// SINK is 0 to count events, 1 for the checksum, 2 for records, 3 to encode. NUMBER is the bytes of a piece (0: all of them), or the rounds
// of the encoder. It prints status, bytes consumed, events and sum; of the encoder status, messages, bytes and sum.
#include "content.h"
#include <inttypes.h>

// crates/fast_bench/src/lib.rt. A slice is a pointer and a length; numbers have the least byte first, as on x86-64.
void fast_bench_run(const uint8_t *templates, size_t templates_len, const uint8_t *stream, size_t stream_len, size_t piece,
                    uint32_t sink, uint32_t strict, uint32_t max_text, uint32_t max_elements, uint32_t max_total, uint64_t out[4]);
void fast_bench_encode(const uint8_t *templates, size_t templates_len, const uint8_t *stream, size_t stream_len, uint32_t rounds,
                       uint32_t max_text, uint32_t max_elements, uint32_t max_total, uint64_t out[4]);

enum { MAX_TEXT = 1024, MAX_ELEMENTS = 1000 };

int main(int count, char **words) {
    if (count != 6) return 2;
    uint32_t sink = (uint32_t)strtoul(words[1], NULL, 10), strict = (uint32_t)strtoul(words[3], NULL, 10);
    size_t number = strtoul(words[2], NULL, 10);
    struct content set = content(words[4]), stream = content(words[5]);
    uint64_t out[4] = {0};
    if (sink == 3)
        fast_bench_encode(set.bytes, set.len, stream.bytes, stream.len, (uint32_t)number, MAX_TEXT, MAX_ELEMENTS, UINT32_MAX, out);
    else
        fast_bench_run(set.bytes, set.len, stream.bytes, stream.len, number, sink, strict, MAX_TEXT, MAX_ELEMENTS, UINT32_MAX, out);
    printf("%" PRIu64 " %" PRIu64 " %" PRIu64 " %" PRIx64 "\n", out[0], out[1], out[2], out[3]);
    return 0;
}
