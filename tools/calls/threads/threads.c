// threads TEMPLATES STREAM [BYTES]: decoders and encoders that move between threads, over one set which the threads share.
//
// Each of 24 jobs decodes the stream, or its first BYTES, and encodes the messages again. Eight threads run them: a thread takes a job that another
// one had last, feeds it one piece, and puts it back under a lock. So no two pieces of a job meet the same thread. Each job has to end as one
// that the main thread runs by itself, with the same checksum of its records, and has to write the bytes of the stream.
#include <fast.h>

#include <inttypes.h>
#include <pthread.h>
#include <stdbool.h>
#include <stdio.h>
#include <stdlib.h>
#include <string.h>

enum { THREADS = 8, JOBS = 24, RECORDS = 256, TEXTS = 65536, MESSAGE = 65536, BYTES = 4096 };

struct job {
    fast_decoder *decoder;
    fast_encoder *encoder;
    size_t piece, at, encoded;  // the length of its pieces, the bytes that are decoded, and those that are encoded again
    fast_fed fed;               // what came of the last piece
    uint64_t sum;
    bool is_wrong, is_taken, is_done;
    int last;             // the thread that had it last
    fast_record *records;  // of the message that is open, and their texts
    uint8_t *texts;
    size_t len, texts_len;
};

// The buffers of a thread.
struct room {
    fast_record records[RECORDS];
    uint8_t texts[TEXTS], bytes[BYTES];
};

static const uint8_t *stream;
static size_t stream_len;
static fast_set *set;
static struct job jobs[JOBS];
static pthread_mutex_t lock = PTHREAD_MUTEX_INITIALIZER;
static pthread_cond_t changed = PTHREAD_COND_INITIALIZER;

static void stop(const char *words) {
    fprintf(stderr, "calls: threads.c: %s\n", words);
    exit(1);
}

static void *block(size_t count, size_t size) {
    void *it = calloc(count, size);
    if (!it) stop("no memory");
    return it;
}

static void add(uint64_t *sum, const void *bytes, size_t len) {
    for (size_t i = 0; i < len; i++) *sum = (*sum ^ ((const uint8_t *)bytes)[i]) * 0x100000001b3;
}

static bool has_text(const fast_record *it) {
    return it->kind >= FAST_ASCII && it->kind <= FAST_BYTES;
}

// Adds a record, its text, and the name of its node, which the set is asked for.
static void add_record(uint64_t *sum, const fast_record *it, const uint8_t *texts) {
    char name[64];
    size_t length = fast_name_of_node(set, it->node, name, sizeof name);
    add(sum, name, length < sizeof name ? length : sizeof name);
    fast_record bare = *it;
    if (has_text(it)) bare.value = 0;
    add(sum, &bare, sizeof bare);
    if (has_text(it)) add(sum, texts + it->value, it->length);
}

// Keeps a record of the message that is open.
static void keep(struct job *its, const fast_record *it, const uint8_t *texts) {
    if (its->len == MESSAGE || its->texts_len + it->length > MESSAGE) stop("a message is too long for this test");
    fast_record *kept = &its->records[its->len++];
    *kept = *it;
    if (!has_text(it)) return;
    memcpy(its->texts + its->texts_len, texts + it->value, it->length);
    kept->value = its->texts_len;
    its->texts_len += it->length;
}

// Encodes the message that is whole, and compares its bytes with the stream.
static void encode(struct job *its, struct room *room) {
    fast_put put = fast_put_message(its->encoder, its->records, its->len, its->texts, its->texts_len);
    its->is_wrong |= put.status != FAST_DONE;
    for (size_t taken; (taken = fast_take_bytes(its->encoder, room->bytes, BYTES)) > 0; its->encoded += taken) {
        its->is_wrong |= taken > stream_len - its->encoded || memcmp(room->bytes, stream + its->encoded, taken) != 0;
    }
    its->len = its->texts_len = 0;
}

// Feeds a job its next piece.
static void feed(struct job *its, struct room *room) {
    size_t end = stream_len - its->at < its->piece ? stream_len : its->at + its->piece;
    do {
        its->fed = fast_feed(its->decoder, stream + its->at, end - its->at, room->records, RECORDS, room->texts, TEXTS);
        for (uint64_t i = 0; i < its->fed.records; i++) {
            add_record(&its->sum, &room->records[i], room->texts);
            keep(its, &room->records[i], room->texts);
            if (room->records[i].kind == FAST_MESSAGE_END) encode(its, room);
        }
        its->at += its->fed.taken;
    } while (its->fed.status == FAST_MORE);
    its->is_done = its->at == stream_len || its->fed.status != FAST_DONE || its->is_wrong;
}

// A job that another thread had last; null once all are done.
static struct job *take(int thread) {
    struct job *found = NULL;
    pthread_mutex_lock(&lock);
    for (bool are_done = false; !found && !are_done;) {
        are_done = true;
        for (int i = 0; i < JOBS && !found; i++) {
            struct job *it = &jobs[(thread * JOBS / THREADS + i) % JOBS];
            if (it->is_taken || !it->is_done) are_done = false;
            if (!it->is_taken && !it->is_done && it->last != thread) found = it;
        }
        if (!found && !are_done) pthread_cond_wait(&changed, &lock);
    }
    if (found) found->is_taken = true;
    pthread_mutex_unlock(&lock);
    return found;
}

static void put_back(struct job *its, int thread) {
    pthread_mutex_lock(&lock);
    its->is_taken = false;
    its->last = thread;
    pthread_cond_broadcast(&changed);
    pthread_mutex_unlock(&lock);
}

static void open_job(struct job *its, size_t piece) {
    *its = (struct job){.piece = piece, .fed = {.between = 1}, .last = -1};
    its->records = block(MESSAGE, sizeof *its->records);
    its->texts = block(MESSAGE, 1);
    if (fast_open_decoder(set, fast_default_limits, &its->decoder) != FAST_DONE) stop("no decoder");
    if (fast_open_encoder(set, fast_default_limits, &its->encoder) != FAST_DONE) stop("no encoder");
}

static void close_job(struct job *its) {
    fast_close_decoder(&its->decoder);
    fast_close_encoder(&its->encoder);
    free(its->records), free(its->texts);
}

static void *run(void *number) {
    int thread = *(const int *)number;
    struct room *room = block(1, sizeof *room);
    struct job own;  // opened and closed while other threads use the set
    open_job(&own, SIZE_MAX);
    for (struct job *it; (it = take(thread)) != NULL; put_back(it, thread)) feed(it, room);
    close_job(&own);
    free(room);
    return NULL;
}

static uint8_t *read_whole(const char *path, size_t *len) {
    FILE *file = fopen(path, "rb");
    if (!file) stop(path);
    fseek(file, 0, SEEK_END);
    size_t size = (size_t)ftell(file);
    rewind(file);
    uint8_t *bytes = block(size + 1, 1);
    *len = fread(bytes, 1, size, file);
    fclose(file);
    return bytes;
}

static bool is_same(const struct job *a, const struct job *b) {
    return !a->is_wrong && !b->is_wrong && a->sum == b->sum && a->at == b->at && a->encoded == b->encoded && a->fed.status == b->fed.status &&
           a->fed.consumed == b->fed.consumed && a->fed.between == b->fed.between;
}

int main(int argc, char **argv) {
    if (argc < 3) stop("threads TEMPLATES STREAM [BYTES]");
    size_t text_len, most = argc > 3 ? strtoull(argv[3], NULL, 10) : SIZE_MAX;
    uint8_t *text = read_whole(argv[1], &text_len), *bytes = read_whole(argv[2], &stream_len);
    stream = bytes;
    if (stream_len > most) stream_len = most;
    if (fast_read_set(text, text_len, &set) != FAST_DONE) stop("no set");
    struct job alone;
    struct room *room = block(1, sizeof *room);
    open_job(&alone, SIZE_MAX);
    feed(&alone, room);
    if (alone.fed.between && alone.encoded != stream_len) stop("the main thread does not write the stream again");

    pthread_t threads[THREADS];
    int numbers[THREADS], wrong = 0;
    for (int i = 0; i < JOBS; i++) open_job(&jobs[i], 61 + 17 * (size_t)i);
    for (int i = 0; i < THREADS; i++) {
        numbers[i] = i;
        if (pthread_create(&threads[i], NULL, run, &numbers[i]) != 0) stop("no thread");
    }
    for (int i = 0; i < THREADS; i++) pthread_join(threads[i], NULL);
    for (int i = 0; i < JOBS; i++) {
        wrong += !is_same(&jobs[i], &alone);
        close_job(&jobs[i]);
    }
    close_job(&alone);
    fast_close_set(&set);
    free(room), free(text), free(bytes);
    if (wrong) fprintf(stderr, "calls: threads.c: %d of %d jobs end otherwise than one on the main thread\n", wrong, JOBS);
    return wrong != 0;
}
