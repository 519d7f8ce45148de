// Decodes the packets of a capture into records, which it counts, for `speed`: the least processor time of several rounds.
//
//     speed TEMPLATES CAPTURE FRESH SKIP ROUNDS        FRESH 1: each packet begins with a new dictionary; it prints nanoseconds and records
#include "rows.c"
#include <stdio.h>
#include <time.h>

static fast_record records[4096];
static uint8_t texts[65536];

static uint8_t *content(const char *path, size_t *len) {
    FILE *file = fopen(path, "rb");
    if (!file || fseek(file, 0, SEEK_END)) exit(3);
    *len = (size_t)ftell(file);
    rewind(file);
    uint8_t *all = malloc(*len + 1);
    if (!all || fread(all, 1, *len, file) != *len) exit(3);
    fclose(file);
    return all;
}

// Returns the number of records of a packet.
static uint64_t count(fast_decoder *decoder, const uint8_t *at, size_t left, uint32_t start) {
    uint64_t found = 0;
    fast_fed fed;
    do {
        fed = fast_decode_packet(decoder, start, at, left, records, 4096, texts, sizeof texts);
        found += fed.records, at += fed.taken, left -= fed.taken, start = FAST_CONTINUE;
    } while (fed.status == FAST_MORE);
    return found;
}

int main(int argc, char **argv) {
    if (argc != 6) return 2;
    size_t text_len, len;
    const uint8_t *text = content(argv[1], &text_len), *file = content(argv[2], &len);
    form of = {.skip = (uint32_t)atoi(argv[4])};
    packet *packets = calloc(len / 16, sizeof *packets);
    cutting cut;
    cut_packets(file, len, &of, packets, len / 16, &cut);
    uint64_t best = UINT64_MAX, found = 0;
    fast_set *set = NULL;
    fast_decoder *decoder = NULL;
    if (!packets || fast_read_set(text, text_len, &set) || fast_open_decoder(set, fast_default_limits, &decoder)) return 1;
    for (int round = 0; round < atoi(argv[5]); round++) {
        struct timespec from, to;
        clock_gettime(CLOCK_PROCESS_CPUTIME_ID, &from);
        fast_reset_decoder(decoder);
        found = 0;
        for (uint64_t i = 0; i < cut.packets; i++) found += count(decoder, file + packets[i].at, packets[i].len, argv[3][0] == '1');
        clock_gettime(CLOCK_PROCESS_CPUTIME_ID, &to);
        uint64_t took = (uint64_t)(to.tv_sec - from.tv_sec) * 1000000000 + (uint64_t)(to.tv_nsec - from.tv_nsec);
        best = took < best ? took : best;
    }
    printf("%llu %llu\n", (unsigned long long)best, (unsigned long long)found);
    return 0;
}
