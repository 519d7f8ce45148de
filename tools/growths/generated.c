// Makes random messages of the built-in set, as lines, and converts them to streams.
//
// Each stream is shown, in strict mode, by the lines that it was made from. It is truncated after each of its bytes, and each of its
// prefixes is decoded whole and in pieces of one, two and three bytes, which have the same result and none that contradicts that of the
// whole stream.
#include "lines.h"

#include <stdarg.h>

enum { stream_count = 1000, most_messages = 6, most_elements = 3, most_characters = 12 };

static const uint64_t greatest_u32 = UINT32_MAX, greatest_i32 = INT32_MAX, greatest_i64 = INT64_MAX;

static struct text lines, stream, shown;
static uint64_t messages, bytes, failures;

// The length of the last string under tail; the next one must not be shorter.
static size_t tail_len;

static uint64_t next_random(void) {
    static uint64_t state = 0x9e3779b97f4a7c15;
    state ^= state << 13;
    state ^= state >> 7;
    return state ^= state << 17;
}

static size_t below(size_t limit) { return next_random() % limit; }

static void put(const char *format, ...) {
    va_list words;
    va_start(words, format);
    lines.len += (size_t)vsnprintf((char *)lines.cells + lines.len, sizeof lines.cells - lines.len, format, words);
    va_end(words);
}

// Returns a number that is small, near a power of two, near the greatest, or any.
static uint64_t any_number(uint64_t greatest) {
    uint64_t number = next_random() >> below(64);
    switch (below(4)) {
    case 0: return below(3);
    case 1: number = (UINT64_C(1) << below(64)) - below(2); break;
    case 2: return greatest - below(3);
    }
    return number > greatest ? number % (greatest + 1) : number;
}

// Returns a signed number; one below zero is as likely, down to the least number of the type.
static int64_t any_signed(uint64_t greatest) {
    int64_t number = (int64_t)any_number(greatest);
    return below(2) ? number : -1 - number;
}

// Puts a string of few letters, so that strings have prefixes and suffixes in common, and of characters that are escaped or have several
// bytes.
static void put_text(size_t len, bool is_ascii) {
    static const char *const characters[] = {"A", "B", "C", "\\\"", "\\\\", "\\x01", "\\x7f", " ", "\u00e9", "\u20ac", "\U0001f600"};
    put("\"");
    for (; len; len--) put("%s", characters[below(below(4) ? 3 : is_ascii ? 8 : 11)]);
    put("\"\n");
}

static void put_bytes(void) {
    for (size_t len = below(most_characters); len; len--) put("%02x", (unsigned)below(256));
    put("\n");
}

static size_t tail(void) { return tail_len += below(4); }

// A field of the built-in set: its node, its name and its type. Optional fields are omitted now and then.
struct field {
    uint32_t node;
    const char *name;
    enum { u32, i32, i64, decimal, ascii, ascii_tail, unicode, vector } kind;
    bool is_optional;
};

static void put_field(struct field f) {
    static const char letters[] = {'u', 'i', 'i', 'd', 'a', 'a', 's', 'b'};
    if (f.is_optional && !below(3)) return;
    put("field %" PRIu32 " %s %c ", f.node, f.name, letters[f.kind]);
    switch (f.kind) {
    case u32: put("%" PRIu64 "\n", any_number(greatest_u32)); break;
    case i32: put("%" PRId64 "\n", any_signed(greatest_i32)); break;
    case i64: put("%" PRId64 "\n", any_signed(greatest_i64)); break;
    case decimal: put("%" PRId64 "e%d\n", any_signed(greatest_i64), (int)below(127) - 63); break;
    case ascii: put_text(below(most_characters), true); break;
    case ascii_tail: put_text(tail(), true); break;
    case unicode: put_text(below(most_characters), false); break;
    case vector: put_bytes();
    }
}

// The fields of each template, in order; none for a template whose fields are in groups or sequences.
static const struct {
    uint32_t template;
    struct field field;
} fields[] = {
    {1, {0, "x", u32, false}},         {3, {3, "t", ascii_tail, false}}, {4, {4, "d", ascii, false}},     {5, {5, "n", u32, false}},
    {6, {6, "x", u32, true}},          {7, {7, "p", decimal, true}},     {7, {8, "y", u32, false}},       {8, {9, "u", unicode, false}},
    {10, {10, "z", u32, false}},       {11, {11, "w", ascii, false}},    {12, {12, "i", i64, false}},     {13, {13, "o", u32, true}},
    {14, {14, "q", i64, true}},        {15, {15, "x", u32, false}},      {16, {21, "v", i32, true}},      {17, {22, "e", unicode, false}},
    {18, {23, "a", decimal, false}},   {18, {24, "b", decimal, true}},   {19, {25, "r", ascii, true}},
};

static void put_constants(void) {
    size_t count = below(most_elements);
    put("sequence 1 s %zu\n", count);
    for (; count; count--) put("element\nfield 2 c u 7\nend element\n");
    put("end sequence\n");
}

static void put_legs(void) {
    if (below(3)) {
        put("group 16 g\n");
        put_field((struct field){17, "b", vector, false});
        put("end group\n");
    }
    if (!below(3)) return;
    size_t count = below(most_elements);
    put("sequence 18 legs %zu\n", count);
    for (; count; count--) {
        put("element\n");
        put_field((struct field){19, "sym", ascii, false});
        put_field((struct field){20, "px", i32, false});
        put("end element\n");
    }
    put("end sequence\n");
}

static void put_message(void) {
    uint32_t template = 1 + (uint32_t)below(19);
    put("message T%" PRIu32 "\n", template);
    for (size_t i = 0; i < sizeof fields / sizeof *fields; i++) {
        if (fields[i].template == template) put_field(fields[i].field);
    }
    if (template == 2) put_constants();
    if (template == 9) tail_len = 0;
    if (template == 15) put_legs();
    put("end message\n");
    messages++;
}

static void fail(const char *why) {
    failures++;
    fprintf(stderr, "generated: %s, stream ", why);
    for (size_t i = 0; i < stream.len; i++) fprintf(stderr, "%02x", stream.cells[i]);
    fprintf(stderr, ", lines:\n%.*s", (int)lines.len, (const char *)lines.cells);
}

static void cut(const struct row *r) {
    struct answer whole;
    struct cut_counts counts;
    begin_run(none, none);
    fast_bench_cut(r->templates, r->templates_len, stream.cells, stream.len, 1, r->max_text, r->max_elements, r->max_total, &whole,
                   &counts);
    if (whole.status || whole.consumed != stream.len || blocks) fail("not decoded");
    if (counts.fronts != stream.len || counts.wrong) fail("not the same in pieces");
}

static void run_stream(const struct row *r) {
    lines.len = tail_len = 0;
    for (size_t left = 1 + below(most_messages); left; left--) put_message();
    struct lines_answer is = convert(r, &lines, &stream, none, none);
    if (is.status || blocks) fail("not turned into a stream");
    is = show(r, stream.cells, stream.len, 1, &shown, none);
    if (is.status || blocks || !is_same(&shown, &lines)) fail("not shown as it was");
    cut(r);
    bytes += stream.len;
}

int main(void) {
    static struct row row = {.set = "vectors", .max_text = 1024, .max_elements = 1000, .max_total = 1000};
    if (!read_set(&row)) return 2;
    for (int i = 0; i < stream_count && failures < 10; i++) run_stream(&row);
    printf("generated: %d streams of %" PRIu64 " messages, cut behind each of %" PRIu64 " bytes, %" PRIu64 " failures\n", stream_count,
           messages, bytes, failures);
    return !bytes || failures > 0;
}
