// again TEMPLATES STREAM: decodes a stream, encodes its messages in order, and writes their bytes.
#include <fast.h>

#include <stdio.h>
#include <stdlib.h>
#include <string.h>

enum { RECORDS = 4096, TEXTS = 65536, BYTES = 4096 };

// The records of the open message, with their strings.
struct message {
    fast_record *records;
    uint8_t *texts;
    size_t len, room, texts_len, texts_room;
};

static void *no_memory(void) {
    fputs("no memory\n", stderr);
    exit(3);
}

// Returns a block with room for `wanted` items.
static void *with_room(void *block, size_t *room, size_t wanted, size_t size) {
    if (wanted <= *room) return block;
    *room = 2 * wanted;
    void *larger = realloc(block, *room * size);
    return larger ? larger : no_memory();
}

static uint8_t *read_whole(const char *path, size_t *len) {
    FILE *file = fopen(path, "rb");
    if (!file) {
        perror(path);
        exit(3);
    }
    uint8_t *bytes = NULL;
    size_t room = 0, got;
    *len = 0;
    do {
        bytes = with_room(bytes, &room, *len + 65536, 1);
        got = fread(bytes + *len, 1, room - *len, file);
        *len += got;
    } while (got);
    fclose(file);
    return bytes;
}

// Keeps a record. The offset of its string is valid only in the decoder's buffer, so the string is copied.
static void keep(struct message *open, const fast_record *it, const uint8_t *texts) {
    open->records = with_room(open->records, &open->room, open->len + 1, sizeof *it);
    fast_record *kept = &open->records[open->len++];
    *kept = *it;
    if (it->kind < FAST_ASCII || it->kind > FAST_BYTES) return;
    open->texts = with_room(open->texts, &open->texts_room, open->texts_len + it->length + 1, 1);
    memcpy(open->texts + open->texts_len, texts + it->value, it->length);
    kept->value = open->texts_len;
    open->texts_len += it->length;
}

static int refuse(const char *what, uint32_t status) {
    uint8_t words[256];
    size_t length = fast_status_words(status, words, sizeof words);
    fprintf(stderr, "%s: %.*s\n", what, (int)length, (const char *)words);
    return 2;
}

// Encodes the complete message, and writes its bytes.
static uint32_t put(fast_encoder *encoder, struct message *whole) {
    fast_put put = fast_put_message(encoder, whole->records, whole->len, whole->texts, whole->texts_len);
    uint8_t bytes[BYTES];
    for (size_t taken; (taken = fast_take_bytes(encoder, bytes, sizeof bytes)) > 0;) fwrite(bytes, 1, taken, stdout);
    whole->len = whole->texts_len = 0;
    return put.status;
}

int main(int argc, char **argv) {
    if (argc < 3) {
        fputs("again TEMPLATES STREAM\n", stderr);
        return 2;
    }
    size_t text_len, len;
    uint8_t *text = read_whole(argv[1], &text_len), *stream = read_whole(argv[2], &len);
    fast_set *set = NULL;
    fast_decoder *decoder = NULL;
    fast_encoder *encoder = NULL;
    uint32_t status = fast_read_set(text, text_len, &set);
    if (status != FAST_DONE) return refuse("templates", status);
    if ((status = fast_open_decoder(set, fast_default_limits, &decoder)) != FAST_DONE) return refuse("limits", status);
    if ((status = fast_open_encoder(set, fast_default_limits, &encoder)) != FAST_DONE) return refuse("limits", status);

    static fast_record records[RECORDS];
    static uint8_t texts[TEXTS];
    struct message open = {0};
    fast_fed fed;
    size_t at = 0;
    do {
        fed = fast_feed(decoder, stream + at, len - at, records, RECORDS, texts, TEXTS);
        for (uint64_t i = 0; i < fed.records && status == FAST_DONE; i++) {
            keep(&open, &records[i], texts);
            if (records[i].kind == FAST_MESSAGE_END) status = put(encoder, &open);
        }
        at += fed.taken;
    } while (fed.status == FAST_MORE && status == FAST_DONE);
    if (status == FAST_DONE) status = fed.status;
    fast_close_encoder(&encoder);
    fast_close_decoder(&decoder);
    fast_close_set(&set);
    free(open.records), free(open.texts), free(text), free(stream);
    return status == FAST_DONE ? 0 : refuse("stream", status);
}
