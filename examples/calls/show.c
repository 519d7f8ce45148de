// show TEMPLATES STREAM [PIECE [RECORDS]]: prints the lines of a stream, as `fastcat show` does. The stream is fed in pieces of PIECE bytes
// (0: whole), with room for RECORDS records at a time.
#include <fast.h>

#include <inttypes.h>
#include <stdio.h>
#include <stdlib.h>
#include <string.h>

static uint8_t *read_whole(const char *path, size_t *len) {
    FILE *file = fopen(path, "rb");
    if (!file) {
        perror(path);
        exit(3);
    }
    fseek(file, 0, SEEK_END);
    size_t size = (size_t)ftell(file);
    rewind(file);
    uint8_t *bytes = malloc(size + 1);
    *len = bytes ? fread(bytes, 1, size, file) : 0;
    fclose(file);
    return bytes;
}

static const char *node_name(fast_set *set, uint32_t node) {
    static char name[256];
    size_t length = fast_name_of_node(set, node, name, sizeof name - 1);
    name[length < sizeof name ? length : sizeof name - 1] = 0;
    return name;
}

static const char *template_name(fast_set *set, uint32_t number) {
    static char name[256];
    size_t length = fast_name_of_template(set, number, name, sizeof name - 1);
    name[length < sizeof name ? length : sizeof name - 1] = 0;
    return name;
}

static void show_quoted(const uint8_t *text, uint32_t length) {
    putchar('"');
    for (uint32_t i = 0; i < length; i++) {
        if (text[i] < 0x20 || text[i] == 0x7f) {
            printf("\\x%02x", text[i]);
            continue;
        }
        if (text[i] == '"' || text[i] == '\\') putchar('\\');
        putchar(text[i]);
    }
    puts("\"");
}

static void show_bytes(const uint8_t *text, uint32_t length) {
    for (uint32_t i = 0; i < length; i++) printf("%02x", text[i]);
    putchar('\n');
}

static void show_field(fast_set *set, const fast_record *it, const uint8_t *texts) {
    printf("field %" PRIu32 " %s ", it->node, node_name(set, it->node));
    switch (it->kind) {
    case FAST_UNSIGNED: printf("u %" PRIu64 "\n", it->value); break;
    case FAST_SIGNED: printf("i %" PRId64 "\n", (int64_t)it->value); break;
    case FAST_DECIMAL: printf("d %" PRId64 "e%" PRId32 "\n", (int64_t)it->value, it->exponent); break;
    case FAST_ASCII: fputs("a ", stdout), show_quoted(texts + it->value, it->length); break;
    case FAST_UNICODE: fputs("s ", stdout), show_quoted(texts + it->value, it->length); break;
    case FAST_BYTES: fputs("b ", stdout), show_bytes(texts + it->value, it->length); break;
    }
}

static void show(fast_set *set, const fast_record *it, const uint8_t *texts) {
    switch (it->kind) {
    case FAST_MESSAGE_START: printf("message %s\n", template_name(set, it->node)); break;
    case FAST_GROUP_START: printf("group %" PRIu32 " %s\n", it->node, node_name(set, it->node)); break;
    case FAST_GROUP_END: puts("end group"); break;
    case FAST_SEQUENCE_START:
        printf("sequence %" PRIu32 " %s %" PRIu64 "\n", it->node, node_name(set, it->node), it->value);
        break;
    case FAST_ELEMENT_START: puts("element"); break;
    case FAST_ELEMENT_END: puts("end element"); break;
    case FAST_SEQUENCE_END: puts("end sequence"); break;
    case FAST_MESSAGE_END: puts("end message"); break;
    default: show_field(set, it, texts);
    }
}

static int refuse(const char *what, uint32_t status) {
    uint8_t words[256];
    size_t length = fast_status_words(status, words, sizeof words);
    fprintf(stderr, "%s: %.*s\n", what, (int)length, (const char *)words);
    return 2;
}

int main(int argc, char **argv) {
    if (argc < 3) {
        fputs("show TEMPLATES STREAM [PIECE [RECORDS]]\n", stderr);
        return 2;
    }
    size_t text_len, len;
    uint8_t *text = read_whole(argv[1], &text_len), *stream = read_whole(argv[2], &len);
    size_t piece = argc > 3 ? strtoull(argv[3], NULL, 10) : 0, room = argc > 4 ? strtoull(argv[4], NULL, 10) : 4096;
    if (!piece) piece = len ? len : 1;
    fast_set *set = NULL;
    fast_decoder *decoder = NULL;
    uint32_t status = fast_read_set(text, text_len, &set);
    if (status != FAST_DONE) return refuse("templates", status);
    status = fast_open_decoder(set, fast_default_limits, &decoder);
    if (status != FAST_DONE) return refuse("limits", status);

    size_t texts_len = fast_default_limits.max_text;
    fast_record *records = calloc(room, sizeof *records);
    uint8_t *texts = malloc(texts_len);
    fast_fed fed = {.between = 1};
    size_t at = 0, ahead;
    do {
        ahead = len - at < piece ? len - at : piece;
        fed = fast_feed(decoder, stream + at, ahead, records, room, texts, texts_len);
        for (uint64_t i = 0; i < fed.records; i++) show(set, &records[i], texts);
        at += fed.taken;
    } while (fed.status == FAST_MORE || (fed.status == FAST_DONE && at < len));
    if (fed.status != FAST_DONE) {
        uint8_t words[256];
        size_t length = fast_status_words(fed.status, words, sizeof words);
        const uint8_t *colon = memchr(words, ':', length);
        printf("fault %.*s at %" PRIu64 "\n", (int)(colon ? (size_t)(colon - words) : length), (const char *)words, fed.consumed);
    } else if (!fed.between) {
        printf("truncated at %" PRIu64 "\n", fed.consumed);
    }
    int is_wrong = fed.status != FAST_DONE || !fed.between;
    fast_close_decoder(&decoder);
    fast_close_set(&set);
    free(records), free(texts), free(text), free(stream);
    return is_wrong;
}
