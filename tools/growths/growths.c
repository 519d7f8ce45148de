// Decodes the rows of rows.txt over a heap that counts allocations and refuses those past a number.
//
// An empty stream gives the number of allocations for reading a template set and making a decoder. With exactly these allowed, a row has
// its expected result, and no further allocation is made. With one less, no decoder is made: a refusal is never ignored.
//
// Then each allocation is refused in turn, and all others succeed. While a set is read, or a decoder or an encoder is made, the call fails.
// While a message is encoded, a second call returns the same bytes. In all cases, all blocks are freed.
//
// Each row is also decoded with a sink that stops at each of its events in turn, and again after a reset; it is damaged at random; and both
// the original and the damaged stream are truncated at each byte. Pieces always have the result of the whole.
#include "rows.h"

static const uint32_t summing_sink = 1;
static const struct answer no_event = {0, 0, 0, 0xcbf29ce484222325};
static const struct answer not_made = {518, 0, 0, 0};
static const struct encoded not_encoded = {518, 0, 0, 0}, stopped = {19, 0, 0, 0};

static uint64_t runs, all_requests, stops, cuts, damages, failures;
static struct {
    uint64_t making, encoding;
} refusals;

static struct answer decode(const struct row *r, size_t stream_len, size_t piece, uint64_t most, uint64_t alone) {
    struct answer is;
    begin_run(most, alone);
    fast_bench_run(r->templates, r->templates_len, r->stream, stream_len, piece, summing_sink, r->strict, r->max_text,
                   r->max_elements, r->max_total, &is);
    runs++;
    all_requests += requests;
    return is;
}

static void fail(const struct row *r, size_t piece, struct answer is) {
    failures++;
    fprintf(stderr,
            "rows.txt:%d: %s, in pieces of %zu, with %" PRIu64 " requests allowed: status %" PRIu64 ", consumed %" PRIu64
            ", events %" PRIu64 ", sum %016" PRIx64 ", requests %" PRIu64 ", blocks left %" PRIu64 "\n",
            r->line, r->name, piece, allowed, is.status, is.consumed, is.events, is.sum, requests, blocks);
}

// Compares the result of the last run with the expected one. All blocks must be freed.
static void expect(const struct row *r, size_t piece, struct answer is, struct answer due, uint64_t due_requests) {
    if (memcmp(&is, &due, sizeof is) || requests != due_requests || blocks) fail(r, piece, is);
}

static void run_row(const struct row *r) {
    static const size_t pieces[] = {0, 1, 2, 3, 16, 17};  // 0: the whole stream
    for (size_t i = 0; i < sizeof pieces / sizeof *pieces; i++) {
        struct answer is = decode(r, 0, pieces[i], none, none);
        uint64_t to_make = requests;
        expect(r, pieces[i], is, no_event, to_make);
        expect(r, pieces[i], decode(r, r->stream_len, pieces[i], to_make, none), r->due, to_make);
        expect(r, pieces[i], decode(r, r->stream_len, pieces[i], to_make - 1, none), not_made, to_make);
    }
}

static struct encoded encode(const struct row *r, size_t stream_len, uint64_t alone) {
    struct encoded is;
    begin_run(none, alone);
    fast_bench_encode_patiently(r->templates, r->templates_len, r->stream, stream_len, r->max_text, r->max_elements,
                                r->max_total, &is);
    runs++;
    all_requests += requests;
    return is;
}

static void expect_encoded(const struct row *r, struct encoded is, struct encoded due) {
    if (!memcmp(&is, &due, sizeof is) && !blocks) return;
    failures++;
    fprintf(stderr,
            "rows.txt:%d: %s, encoded with request %" PRIu64 " refused: status %" PRIu64 ", bytes %" PRIu64
            ", blocks left %" PRIu64 "\n",
            r->line, r->name, refused, is.status, is.bytes, blocks);
}

// Reads the row's set and makes a decoder and an encoder, with each allocation refused in turn.
static void refuse_in_making(const struct row *r) {
    encode(r, 0, none);
    for (uint64_t i = 0, all = requests; i < all; i++) {
        expect_encoded(r, encode(r, 0, i), not_encoded);
        refusals.making++;
    }
}

// Encodes the row's messages, with each allocation refused in turn. The first ones are of the sink that keeps them, which stops.
static void refuse_in_encoding(const struct row *r) {
    encode(r, 0, none);
    uint64_t made = requests;
    struct encoded due = encode(r, r->stream_len, none);
    bool is_encoding = false;
    for (uint64_t i = made, all = requests; i < all; i++) {
        struct encoded is = encode(r, r->stream_len, i);
        is_encoding = is_encoding || is.status != stopped.status;
        expect_encoded(r, is, is_encoding ? due : stopped);
        refusals.encoding += is_encoding;
    }
}

// Decodes the row with a sink that stops at each event in turn, and then, after a reset, with its expected result.
static void stop_in_turn(const struct row *r, size_t piece) {
    for (uint64_t most = 0; most < r->due.events; most++) {
        struct answer stopped, again;
        begin_run(none, none);
        fast_bench_stop(r->templates, r->templates_len, r->stream, r->stream_len, piece, r->strict, r->max_text, r->max_elements,
                        r->max_total, most, &stopped, &again);
        runs++;
        stops++;
        if (stopped.status != 19 || stopped.events != most || stopped.consumed > r->due.consumed) fail(r, piece, stopped);
        expect(r, piece, again, r->due, requests);
    }
}

// Decodes the row's stream, and each of its prefixes whole and in pieces. Before the offset of a fault there is none.
static struct answer cut_in_turn(const struct row *r) {
    struct answer is;
    struct cut_counts counts;
    begin_run(none, none);
    fast_bench_cut(r->templates, r->templates_len, r->stream, r->stream_len, r->strict, r->max_text, r->max_elements, r->max_total,
                   &is, &counts);
    runs++;
    cuts += counts.fronts;
    if (counts.fronts != r->stream_len || counts.wrong || blocks) fail(r, 0, is);
    return is;
}

static uint64_t next_random(void) {
    static uint64_t state = 0x9e3779b97f4a7c15;
    state ^= state << 13;
    state ^= state >> 7;
    return state ^= state << 17;
}

// Replaces bytes at some offsets of the row's stream, many times if the set is the built-in one, and truncates the result.
static void damage(const struct row *r) {
    for (int i = strcmp(r->set, "vectors") ? 8 : 20; i > 0 && r->stream_len; i--) {
        static struct row damaged;
        damaged = *r;
        for (uint64_t left = 1 + next_random() % 3; left; left--) {
            damaged.stream[next_random() % r->stream_len] = (uint8_t)next_random();
        }
        cut_in_turn(&damaged);
        damages++;
    }
}

int main(void) {
    FILE *file = fopen("rows.txt", "r");
    static struct row row;
    char last_set[sizeof row.set] = "";
    int number = 0, rows = 0;
    for (; file && next_row(file, &number, &row); rows++) {
        run_row(&row);
        if (strcmp(last_set, row.set)) refuse_in_making(&row);
        if (!row.due.status) refuse_in_encoding(&row);
        stop_in_turn(&row, 0);
        stop_in_turn(&row, 1);
        struct answer whole = cut_in_turn(&row);
        if (memcmp(&whole, &row.due, sizeof whole)) fail(&row, 0, whole);
        damage(&row);
        strcpy(last_set, row.set);
    }
    printf("growths: %d rows, %" PRIu64 " runs, %" PRIu64 " requests, refused one by one %" PRIu64 " in making and %" PRIu64
           " in encoding, %" PRIu64 " stops, %" PRIu64 " cuts, %" PRIu64 " damaged streams, %" PRIu64 " failures\n",
           rows, runs, all_requests, refusals.making, refusals.encoding, stops, cuts, damages, failures);
    return !refusals.making || !refusals.encoding || !stops || !cuts || !damages || failures > 0;
}
