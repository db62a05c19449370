/* Prints what `capt list FILE` prints, packet by packet, or what other commands print or write: list, report, info, merge,
 * join, blocks, convert, convert-pcap, digest, check. */
#define _GNU_SOURCE
#include "../include/capt.h"
#include <fcntl.h>
#include <inttypes.h>
#include <stdio.h>
#include <stdlib.h>
#include <string.h>
#include <sys/mman.h>
#include <sys/stat.h>
#include <unistd.h>

static capt_bytes map(const char *name) {
    int fd = open(name, O_RDONLY);
    struct stat st;
    if (fd < 0 || fstat(fd, &st) < 0) { perror(name); exit(1); }
    capt_bytes b = {(const uint8_t *)"", 0};
    if (st.st_size > 0) {
        /* malloc, so that ASan and valgrind see each byte past the end */
        uint8_t *p = malloc((size_t)st.st_size);
        size_t n = 0; ssize_t k = 1;
        while (p && n < (size_t)st.st_size && (k = read(fd, p + n, (size_t)st.st_size - n)) > 0) n += (size_t)k;
        if (!p || k < 0) { perror(name); exit(1); }
        b.at = p; b.len = n;
    }
    close(fd);
    return b;
}

static int told(uint32_t status, capt_place place) {
    switch (status) {
    case CAPT_DONE: return 0;
    case CAPT_REFUSED: { uint8_t name[32]; size_t k = capt_rule_name(place.rule, name, sizeof name);
        fprintf(stderr, "refused: file %u offset %" PRIu64 " rule %u %.*s\n", place.file, place.offset, place.rule, (int)k, (char *)name); return 1; }
    case CAPT_READ: fprintf(stderr, "fault: read file %u offset %" PRIu64 "\n", place.file, place.offset); return 1;
    case CAPT_MEMORY: fprintf(stderr, "fault: memory\n"); return 1;
    default: fprintf(stderr, "status %u\n", status); return 2;
    }
}

static bool many;
static capt_packet some[7];
static size_t at, got;
static uint32_t fetch(capt_reader *r, capt_packet *p, capt_place *place) {
    if (!many) return capt_next(r, p, place);
    if (at == got) { at = 0; uint32_t s = capt_next_many(r, some, 7, &got, place); if (s != CAPT_PACKET) { if (got) abort(); return s; } if (!got) abort(); }
    *p = some[at++];
    return CAPT_PACKET;
}

static int packets(capt_reader *r) {
    capt_packet p; capt_place place; uint32_t s; uint64_t n = 0;
    while ((s = fetch(r, &p, &place)) == CAPT_PACKET) {
        printf("packet %" PRIu64 " offset %" PRIu64 " time ", ++n, p.offset);
        if (p.denominator == 0) printf("-");
        else {
            __int128 t = (__int128)p.seconds + ((__int128)p.carry << 64);
            if (t > INT64_MAX) { unsigned __int128 u = (unsigned __int128)t; printf("%" PRIu64, (uint64_t)(u / 10000000000000000000ull)); printf("%019" PRIu64, (uint64_t)(u % 10000000000000000000ull)); }
            else printf("%" PRId64, p.seconds);
            printf("+%" PRIu64 "/%" PRIu64, p.numerator, p.denominator);
        }
        printf(" captured %u original %u link %u data ", p.captured, p.original, p.link);
        if (p.captured == 0) printf("-");
        for (uint32_t i = 0; i < p.captured && i < 16; i++) printf("%02x", p.frame[i]);
        /* all of the frame can be read */
        volatile uint8_t x = 0; for (uint32_t i = 0; i < p.captured; i++) x ^= p.frame[i];
        printf("\n");
    }
    int code = told(s, place);
    capt_place again; /* the same answer again */
    if (fetch(r, &p, &again) != s || memcmp(&again, &place, sizeof place) != 0) { fprintf(stderr, "another answer\n"); code = 9; }
    return code;
}

int main(int argc, char **argv) {
    if (argc < 3) return 2;
    const char *what = argv[1];
    uint32_t flags = 0; int first = 2;
    if (strcmp(argv[2], "--allow-cut") == 0) { flags = CAPT_ALLOW_CUT; first = 3; }
    if (strcmp(argv[2], "--ipv6") == 0) { flags = CAPT_IPV6; first = 3; }
    if (first == argc) return 2;
    capt_place place = {0}; uint32_t s;
    if (strcmp(what, "many") == 0) { many = true; what = "packets"; }
    if (strcmp(what, "packets") == 0) {
        capt_reader r = {0};
        capt_bytes b = map(argv[first]);
        if (capt_open(&r, b.at, b.len, flags) != CAPT_DONE) return 1;
        int code = packets(&r);
        capt_close(&r); capt_close(&r);
        capt_packet p;
        if (capt_next(&r, &p, &place) != CAPT_MISUSE) return 8;
        if (b.len) free((void *)b.at);
        return code;
    }
    if (strcmp(what, "stdin") == 0) {
        capt_reader r = {0};
        int fd = open(argv[first], O_RDONLY);
        dup2(fd, 0);
        if (capt_open_stdin(&r, flags) != CAPT_DONE) return 1;
        int code = packets(&r);
        capt_close(&r);
        return code;
    }
    size_t count = (size_t)(argc - first);
    capt_bytes *files = malloc(count * sizeof *files);
    for (size_t i = 0; i < count; i++) files[i] = map(argv[first + (int)i]);
    static const struct { const char *word; uint32_t command, flags; } words[] = {
        {"list", CAPT_LIST, 0}, {"report", CAPT_REPORT, 0}, {"info", CAPT_INFO, 0}, {"merge", CAPT_MERGE, 0}, {"join", CAPT_JOIN, 0},
        {"blocks", CAPT_BLOCKS, 0}, {"convert", CAPT_CONVERT, 0}, {"convert-pcap", CAPT_CONVERT, CAPT_TO_PCAP},
        {"digest", CAPT_DIGEST, 0}, {"check", CAPT_CHECK, 0}};
    size_t word = 0;
    while (word < sizeof words / sizeof *words && strcmp(what, words[word].word)) word++;
    if (word == sizeof words / sizeof *words) return 2;
    capt_job job = {0};
    capt_options options = {.flags = flags | words[word].flags};
    static uint8_t buffer[65536];
    size_t len;
    s = capt_job_open(&job, words[word].command, files, count, &options);
    if (s == CAPT_DONE)
        while ((s = capt_job_read(&job, buffer, sizeof buffer, &len, &place)) == CAPT_PIECE) fwrite(buffer, 1, len, stdout);
    int code = told(s, place);
    capt_close(&job);
    for (size_t i = 0; i < count; i++) if (files[i].len) free((void *)files[i].at);
    free(files);
    return code;
}
