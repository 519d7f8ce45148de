// Shared by lines.c and tools/fuzz/lines.c: the functions of crates/fast_bench over lines, called for a row.
#include "rows.h"

struct lines_answer {
    uint64_t status, place, len;
};

// crates/fast_bench/src/lib.rt
void fast_bench_show(const uint8_t *templates, size_t templates_len, const uint8_t *stream, size_t stream_len, uint32_t strict,
                     uint32_t max_text, uint32_t max_elements, uint32_t max_total, uint8_t *out, size_t out_len,
                     struct lines_answer *answer);
void fast_bench_convert(const uint8_t *templates, size_t templates_len, const uint8_t *lines, size_t lines_len, uint32_t max_text,
                        uint32_t max_elements, uint32_t max_total, uint8_t *out, size_t out_len, struct lines_answer *answer);
void fast_bench_read_lines(const uint8_t *templates, size_t templates_len, const uint8_t *lines, size_t lines_len,
                           struct lines_answer *answer);

static const uint64_t not_read = 256, bad_write = 301, bad_line = 400, unsent = 515, unspelled = 517, no_memory = 518;

// The bytes that a run reads or has written.
struct text {
    uint8_t cells[1 << 22];
    size_t len;
};

static struct lines_answer show(const struct row *r, const uint8_t *stream, size_t stream_len, uint32_t strict, struct text *lines,
                                uint64_t alone) {
    struct lines_answer is;
    begin_run(none, alone);
    fast_bench_show(r->templates, r->templates_len, stream, stream_len, strict, r->max_text, r->max_elements, r->max_total,
                    lines->cells, sizeof lines->cells, &is);
    lines->len = is.len;
    return is;
}

static struct lines_answer convert(const struct row *r, const struct text *lines, struct text *stream, uint64_t most, uint64_t alone) {
    struct lines_answer is;
    begin_run(most, alone);
    fast_bench_convert(r->templates, r->templates_len, lines->cells, lines->len, r->max_text, r->max_elements, r->max_total,
                       stream->cells, sizeof stream->cells, &is);
    stream->len = is.len;
    return is;
}

static inline struct lines_answer read_lines(const struct row *r, const uint8_t *lines, size_t lines_len, uint64_t alone) {
    struct lines_answer is;
    begin_run(none, alone);
    fast_bench_read_lines(r->templates, r->templates_len, lines, lines_len, &is);
    return is;
}

static inline bool is_bad_line(uint64_t status) { return status > bad_line && status <= bad_line + 7; }

static bool is_same(const struct text *a, const struct text *b) { return a->len == b->len && !memcmp(a->cells, b->cells, a->len); }
