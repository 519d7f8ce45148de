// Damages the rows of tools/growths/rows.txt, streams and template sets, for a number of seconds, and decodes the result.
//
// A stream has the same result whole and in pieces, and also under the same set without specialized opcodes, with which each field is read
// on the general path. If it is whole in lenient mode, it is encoded, unless the encoder refuses it, and decoded again in strict mode, which
// emits the same events. Now and then an allocation is refused: then a result that differs must be the status of a failed allocation. All
// blocks are freed. Nothing crashes, and nothing takes long.
#define _POSIX_C_SOURCE 200809L
#include "rows.h"

#include "damage.h"

static size_t piece;
static uint64_t sets, read_sets, encoded, refusals, growths;

// The results of the ways to decode a stream: whole, in pieces, after re-encoding, and whole and in pieces without specialized opcodes.
struct ways {
    struct answer whole, pieces, again, general, general_pieces;
};

static void damage_set(void) {
    const struct row *other = any_row();
    struct bytes b = {input.templates, &input.templates_len, sizeof input.templates - 1};
    damage_text(b, other->templates, other->templates_len);
}

static void choose_limits(void) {
    static const uint32_t texts[] = {16, 17, 64, 1024}, counts[] = {0, 1, 2, 1000};
    if (next_random() % 2) return;
    input.max_text = texts[below(4)];
    input.max_elements = counts[below(4)];
    input.max_total = counts[below(4)];
    input.strict = next_random() % 2;
}

static void choose_input(void) {
    input = *any_row();
    if (next_random() % 4 == 0) {
        for (size_t left = 1 + below(2); left; left--) damage_set();
        sets++;
    }
    for (size_t left = below(4); left; left--) damage_stream();
    choose_limits();
    piece = 1 + below(next_random() % 4 ? 3 : 64);
}

static void show_input(const char *why) {
    fprintf(stderr, "fuzz: %s, in pieces of %zu, strict %" PRIu32 ", limits %" PRIu32 " %" PRIu32 " %" PRIu32 ", of row %d, stream ",
            why, piece, input.strict, input.max_text, input.max_elements, input.max_total, input.line);
    for (size_t i = 0; i < input.stream_len; i++) fprintf(stderr, "%02x", input.stream[i]);
    fprintf(stderr, ", set:\n%.*s\n", (int)input.templates_len, (const char *)input.templates);
}

static struct ways decode(uint64_t alone) {
    struct ways are;
    begin_run(none, alone);
    fast_bench_all_ways(input.templates, input.templates_len, input.stream, input.stream_len, piece, input.strict, input.max_text,
                        input.max_elements, input.max_total, &are.whole, &are.pieces, &are.again, &are.general, &are.general_pieces);
    if (blocks) fail("leaves blocks behind");
    return are;
}

// Returns whether the result is the previous one, or that of a failed allocation; a sink that keeps messages then stops.
static bool is_refused_or(struct answer is, struct answer was) { return is.status == 518 || is.status == 19 || !memcmp(&is, &was, sizeof is); }

// Refuses one of `all` allocations.
static void refuse_one(struct ways was, uint64_t all) {
    struct ways are = decode(below(all));
    growths++;
    if (!is_refused_or(are.whole, was.whole) || !is_refused_or(are.pieces, was.pieces) || !is_refused_or(are.again, was.again) ||
        !is_refused_or(are.general, was.general) || !is_refused_or(are.general_pieces, was.general_pieces)) {
        fail("neither as it was nor without memory");
    }
}

static void run_input(void) {
    choose_input();
    struct ways are = decode(none);
    struct answer whole = are.whole, again = are.again;
    uint64_t all = requests;
    read_sets += whole.status != 256;
    if (memcmp(&whole, &are.pieces, sizeof whole)) fail("not the same in pieces");
    if (memcmp(&whole, &are.general, sizeof whole)) fail("not the same on the general path");
    if (memcmp(&whole, &are.general_pieces, sizeof whole)) fail("not the same in pieces on the general path");
    // From 513: E1, E2, E3, E4, R9. The encoder refuses messages of a stream only by E3 and R9.
    if (again.status == 515 || again.status == 517) {
        refusals++;
    } else if (again.status >= 513) {
        fail("refused by the encoder");
    } else if (!input.strict && again.status != whole.status) {
        fail("not the same status again");
    } else if (whole.status == 0) {
        encoded++;
        if (again.status || again.events != whole.events || again.sum != whole.sum) fail("not the same events again");
    }
    if (all && next_random() % 8 == 0) refuse_one(are, all);
}

int main(int count, char **words) {
    if (!run_inputs(count, words, run_input)) return 2;
    printf("fuzz: %" PRIu64 " inputs, of %" PRIu64 " a set was damaged, of %" PRIu64 " the set was read, %" PRIu64
           " encoded and decoded again, %" PRIu64 " refused by the encoder, with a request refused %" PRIu64 ", %" PRIu64 " failures\n",
           inputs, sets, read_sets, encoded, refusals, growths, failures);
    return !encoded || !growths || failures > 0;
}
