// Shared by growths.c and tools/fuzz: the functions of crates/fast_bench, a heap that can refuse allocations, and the rows of rows.txt.
#include <inttypes.h>
#include <stdbool.h>
#include <stdio.h>
#include <stdlib.h>
#include <string.h>

struct answer {
    uint64_t status, consumed, events, sum;
};

struct encoded {
    uint64_t status, messages, bytes, sum;
};

struct cut_counts {
    uint64_t fronts, wrong;
};

// crates/fast_bench/src. A slice is a pointer and a length; numbers have the least significant byte first, as on x86-64.
void fast_bench_run(const uint8_t *templates, size_t templates_len, const uint8_t *stream, size_t stream_len, size_t piece,
                    uint32_t sink, uint32_t strict, uint32_t max_text, uint32_t max_elements, uint32_t max_total,
                    struct answer *out);
void fast_bench_stop(const uint8_t *templates, size_t templates_len, const uint8_t *stream, size_t stream_len, size_t piece,
                     uint32_t strict, uint32_t max_text, uint32_t max_elements, uint32_t max_total, uint64_t most,
                     struct answer *stopped, struct answer *again);
void fast_bench_cut(const uint8_t *templates, size_t templates_len, const uint8_t *stream, size_t stream_len, uint32_t strict,
                    uint32_t max_text, uint32_t max_elements, uint32_t max_total, struct answer *whole, struct cut_counts *counts);
void fast_bench_all_ways(const uint8_t *templates, size_t templates_len, const uint8_t *stream, size_t stream_len, size_t piece,
                         uint32_t strict, uint32_t max_text, uint32_t max_elements, uint32_t max_total, struct answer *whole,
                         struct answer *pieces, struct answer *again, struct answer *general, struct answer *general_pieces);
void fast_bench_encode_patiently(const uint8_t *templates, size_t templates_len, const uint8_t *stream, size_t stream_len,
                                 uint32_t max_text, uint32_t max_elements, uint32_t max_total, struct encoded *out);

// The heap, which the library leaves to the program. It refuses allocations past a number, and a single one.
static uint64_t allowed, refused, requests, blocks;

static bool is_refused(void) {
    uint64_t number = requests++;
    return number >= allowed || number == refused;
}

static const uint64_t none = UINT64_MAX;

static void begin_run(uint64_t most, uint64_t alone) {
    allowed = most;
    refused = alone;
    requests = blocks = 0;
}

struct tried {
    bool is_given;
    void *block;
};

static struct tried give(void *block) {
    if (!block) {
        fputs("growths: no memory\n", stderr);
        exit(2);
    }
    return (struct tried){true, block};
}

// No alignment is greater than malloc's.
struct tried rattle_alloc(size_t size, size_t alignment) {
    if (is_refused()) return (struct tried){false, NULL};
    blocks++;
    return give(malloc(size ? size : alignment));
}

struct tried rattle_realloc(void *block, size_t kept, size_t size, size_t alignment) {
    (void)kept;
    if (is_refused()) return (struct tried){false, NULL};
    return give(realloc(block, size ? size : alignment));
}

void rattle_dealloc(void *block) {
    blocks--;
    free(block);
}

struct row {
    int line;
    char set[64], name[128];
    uint8_t templates[1 << 15], stream[512];
    size_t templates_len, stream_len;
    uint32_t strict, max_text, max_elements, max_total;
    struct answer due;
};

static bool read_stream(struct row *r, const char *hex) {
    if (!strcmp(hex, "-")) return true;
    for (; *hex; hex += 2) {
        if (sscanf(hex, "%2" SCNx8, &r->stream[r->stream_len++]) != 1 || !hex[1]) return false;
    }
    return true;
}

// Keeps the raw string of a source that has one, without the line break at its start.
static bool keep_raw_text(struct row *r) {
    static const char front[] = "r#\"\n";
    char *all = (char *)r->templates, *text = strstr(all, front), *end = text ? strstr(text, "\"#") : NULL;
    if (!end) return false;
    text += sizeof front - 1;
    r->templates_len = end - text;
    memmove(all, text, r->templates_len);
    return true;
}

static bool read_set(struct row *r) {
    bool is_built_in = !strcmp(r->set, "vectors");
    char path[80];
    snprintf(path, sizeof path, is_built_in ? "../../crates/fast_template/src/%s.rt" : "sets/%s.toml", r->set);
    FILE *file = fopen(path, "rb");
    if (!file) return false;
    r->templates_len = fread(r->templates, 1, sizeof r->templates - 1, file);
    fclose(file);
    return r->templates_len > 0 && r->templates_len < sizeof r->templates - 1 && (!is_built_in || keep_raw_text(r));
}

static bool read_row(struct row *r, const char *line) {
    char hex[2 * sizeof r->stream + 1];
    int count = sscanf(line,
                       "%63s %" SCNu32 " %" SCNu32 " %" SCNu32 " %" SCNu32 " %" SCNu64 " %" SCNu64 " %" SCNu64 " %" SCNx64
                       " %1024s %127[^\n]",
                       r->set, &r->strict, &r->max_text, &r->max_elements, &r->max_total, &r->due.status, &r->due.consumed,
                       &r->due.events, &r->due.sum, hex, r->name);
    return count == 11 && read_stream(r, hex) && read_set(r);
}

// Reads the next row of a file, with its number.
static inline bool next_row(FILE *file, int *number, struct row *r) {
    char line[2048];
    while (fgets(line, sizeof line, file)) {
        *r = (struct row){.line = ++*number};
        if (*line == '#' || *line == '\n') continue;
        if (read_row(r, line)) return true;
        fprintf(stderr, "rows.txt:%d: no row\n", *number);
        exit(2);
    }
    return false;
}
