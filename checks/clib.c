/* A C program over libcapt, for clib.py. It prints what `capt list` prints of a file, by capt_next (`next`), by
 * capt_next_many (`many`), of standard input (`stdin`), or of bytes that are fed, N at a time (`fed N`), what `capt
 * report` prints, step by step (`table`, also with `--ipv6`), which it makes of the table's numbers too and compares,
 * prints the interface of each packet (`interfaces`), copies a file packet by packet (`copy FORM`, where FORM is a
 * number of flags), writes packets of its own (`written`), misuses the library in each way that the header names
 * (`misuse`, and `flags` for the flags), compares the version's forms (`version`), and measures what a reader that is
 * fed holds (`memory`), and how much stack the calls take (`stack`). */
#define _GNU_SOURCE
#include <capt.h>
#include <inttypes.h>
#include <malloc.h>
#include <pthread.h>
#include <stdio.h>
#include <stdlib.h>
#include <string.h>

/* The bytes of a file, in a block of just their size, so that a read past them is seen by valgrind. */
static capt_bytes bytes_of(const char *name) {
    FILE *file = fopen(name, "rb");
    if (!file || fseek(file, 0, SEEK_END)) exit(3);
    capt_bytes bytes = {NULL, (size_t)ftell(file)};
    uint8_t *at = malloc(bytes.len ? bytes.len : 1);
    rewind(file);
    if (!at || fread(at, 1, bytes.len, file) != bytes.len) exit(3);
    fclose(file);
    bytes.at = at;
    return bytes;
}

static int told(uint32_t status, capt_place place) {
    char line[128];
    size_t len = capt_error_text(status, &place, (uint8_t *)line, sizeof line);
    if (len > sizeof line) return 9;
    fwrite(line, 1, len, stderr);
    return status == CAPT_DONE ? 0 : status == CAPT_MISUSE ? 4 : 1;
}

/* Whole seconds, which may take more than 64 bits. */
static void print_seconds(const capt_packet *packet) {
    __int128 seconds = packet->seconds + ((__int128)packet->carry << 64);
    if (seconds >= 0 && seconds > INT64_MAX) {
        uint64_t ten = 10000000000000000000u;
        printf("%" PRIu64 "%019" PRIu64, (uint64_t)(seconds / ten), (uint64_t)(seconds % ten));
    } else {
        printf("%" PRId64, packet->seconds);
    }
}

static void print_packet(uint64_t number, const capt_packet *packet) {
    printf("packet %" PRIu64 " offset %" PRIu64 " time ", number, packet->offset);
    if (packet->denominator) {
        print_seconds(packet);
        printf("+%" PRIu64 "/%" PRIu64, packet->numerator, packet->denominator);
    } else {
        printf("-");
    }
    printf(" captured %" PRIu32 " original %" PRIu32 " link %" PRIu32 " data ", packet->captured, packet->original, packet->link);
    for (uint32_t i = 0; i < packet->captured && i < 16; i++) printf("%02x", packet->frame[i]);
    printf(packet->captured ? "\n" : "-\n");
    /* every captured byte can be read */
    volatile uint8_t last = 0;
    for (uint32_t i = 0; i < packet->captured; i++) last = packet->frame[i];
    (void)last;
}

/* The next packets, up to `room`: one by capt_next if there is room for one alone. */
static uint32_t next(capt_reader *reader, capt_packet *packets, size_t room, size_t *count, capt_place *place) {
    if (room > 1) return capt_next_many(reader, packets, room, count, place);
    uint32_t status = capt_next(reader, packets, place);
    *count = status == CAPT_PACKET;
    return status;
}

static int list(capt_reader *reader, size_t room) {
    capt_packet packets[7];
    capt_place place, again;
    capt_ending ending;
    size_t count;
    uint64_t number = 0;
    uint32_t status;
    while ((status = next(reader, packets, room, &count, &place)) == CAPT_PACKET) {
        if (count < 1 || count > room) return 5;
        for (size_t i = 0; i < count; i++) print_packet(++number, &packets[i]);
    }
    if (count != 0) return 5;
    int code = told(status, place);
    /* the end and a refusal come again, and only after the end it is told how the capture ended */
    if (next(reader, packets, room, &count, &again) != status || memcmp(&place, &again, sizeof place)) return 6;
    if ((capt_end(reader, &ending) == CAPT_DONE) != (status == CAPT_DONE)) return 7;
    capt_close(reader);
    capt_close(reader);
    return next(reader, packets, room, &count, &again) == CAPT_MISUSE && capt_end(reader, &ending) == CAPT_MISUSE ? code : 8;
}

/* What comes next of a reader that is fed: feeds `size` bytes more as long as more are wanted. */
static uint32_t next_fed(capt_reader *reader, capt_bytes *rest, size_t size, capt_packet *packet, capt_place *place) {
    uint32_t status;
    while ((status = capt_next(reader, packet, place)) == CAPT_MORE) {
        if (place->offset || place->file || place->rule) exit(10);
        size_t len = rest->len < size ? rest->len : size;
        /* a piece of its own, so that bytes which the library keeps without a copy are seen by valgrind */
        uint8_t *piece = malloc(len ? len : 1);
        if (!piece) exit(3);
        memcpy(piece, rest->at, len);
        uint32_t fed = len ? capt_feed(reader, piece, len) : capt_feed_end(reader);
        free(piece);
        if (fed != CAPT_DONE) return fed;
        rest->at += len;
        rest->len -= len;
    }
    return status;
}

static int list_fed(capt_bytes rest, size_t size, uint32_t flags) {
    capt_reader reader = {0};
    capt_packet packet;
    capt_place place = {0, 0, 0}, again;
    capt_ending ending;
    size_t count;
    uint64_t number = 0;
    uint32_t status = capt_open_fed(&reader, flags);
    if (status != CAPT_DONE) return told(status, place);
    while ((status = next_fed(&reader, &rest, size, &packet, &place)) == CAPT_PACKET) {
        print_packet(++number, &packet);
        if (number == 1 && capt_end(&reader, &ending) != CAPT_MISUSE) return 7;
    }
    int code = told(status, place);
    if (status == CAPT_MEMORY) return capt_close(&reader), code;
    /* the end and a refusal come again, and only after the end it is told how the capture ended; no other call knows
     * such a reader */
    if (capt_next(&reader, &packet, &again) != status || memcmp(&place, &again, sizeof place)) return 6;
    if ((capt_end(&reader, &ending) == CAPT_DONE) != (status == CAPT_DONE)) return 7;
    if (capt_next_many(&reader, &packet, 1, &count, &place) != CAPT_MISUSE) return 7;
    if (capt_table_step(&reader, &place) != CAPT_MISUSE) return 7;
    if (capt_feed_end(&reader) != CAPT_DONE || capt_feed(&reader, (const uint8_t *)"", 0) != CAPT_MISUSE) return 11;
    capt_close(&reader);
    capt_close(&reader);
    bool closed = capt_feed(&reader, (const uint8_t *)"", 0) == CAPT_MISUSE && capt_feed_end(&reader) == CAPT_MISUSE;
    return closed && capt_next(&reader, &packet, &again) == CAPT_MISUSE ? code : 8;
}

static void print_interface(const capt_packet *packet) {
    printf("instance %" PRIu64 " link %" PRIu32 " snaplen %" PRIu32 " resolution %" PRIu64 " offset %" PRId64 "\n",
           packet->instance, packet->link, packet->snaplen, packet->resolution, packet->time_offset);
}

/* The interface of each packet of a file, whose packets come one by one, then several in a call, then of bytes fed. */
static int interfaces(capt_bytes file) {
    capt_reader reader = {0};
    capt_packet packets[7];
    capt_place place;
    size_t count;
    for (size_t room = 1; room <= 7; room += 6) {
        if (capt_open(&reader, file.at, file.len, 0) != CAPT_DONE) return 70;
        while (next(&reader, packets, room, &count, &place) == CAPT_PACKET)
            for (size_t i = 0; i < count; i++) print_interface(&packets[i]);
    }
    if (capt_open_fed(&reader, 0) != CAPT_DONE) return 71;
    while (next_fed(&reader, &file, 13, packets, &place) == CAPT_PACKET) print_interface(packets);
    capt_close(&reader);
    return 0;
}

/* Makes a call again that finds no memory, a few times. */
#define PATIENTLY(status, call) for (int tries = 0; ((status) = (call)) == CAPT_MEMORY && tries < 5; tries++) {}

/* Takes out what was written, and prints it. */
static uint32_t print_written(capt_writer *writer) {
    capt_text text = {0};
    uint32_t status;
    PATIENTLY(status, capt_writer_take(writer, &text))
    fwrite(text.at, 1, text.len, stdout);
    capt_text_close(&text);
    return status;
}

/* A file written packet by packet, and taken out after each third; a call that finds no memory is made again. */
static int copy(capt_bytes file, uint32_t form, uint32_t flags) {
    capt_reader reader = {0};
    capt_writer writer = {0};
    capt_packet packet;
    capt_place place = {0, 0, 0};
    uint32_t status, put;
    PATIENTLY(status, capt_open(&reader, file.at, file.len, flags))
    PATIENTLY(put, capt_writer_open(&writer, form))
    if (status != CAPT_DONE || put != CAPT_DONE) return 80;
    for (uint64_t number = 1;; number++) {
        PATIENTLY(status, capt_next(&reader, &packet, &place))
        if (status != CAPT_PACKET) break;
        PATIENTLY(status, capt_writer_put(&writer, &packet, packet.frame, packet.captured, &place))
        if (status != CAPT_DONE) break;
        if (number % 3 == 0 && print_written(&writer) != CAPT_DONE) return 81;
    }
    if (print_written(&writer) != CAPT_DONE) return 82;
    capt_close(&reader);
    capt_close(&writer);
    capt_close(&writer);
    if (capt_writer_put(&writer, &packet, packet.frame, 0, &(capt_place){0, 0, 0}) != CAPT_MISUSE) return 83;
    return told(status, place);
}

/* What was written since the last call is that. */
static bool is_written(capt_writer *writer, const uint8_t *want, size_t len) {
    capt_text text = {0};
    bool is_same = capt_writer_take(writer, &text) == CAPT_DONE && text.len == len;
    is_same = is_same && (!len || !memcmp(text.at, want, len));
    capt_text_close(&text);
    return is_same;
}

/* Packets of one's own, those that a file can't hold, which leave it as it was, and numbers that no packet has. */
static int written(void) {
    static const uint8_t frame[] = {1, 2, 3, 4}, long_frame[262145];
    static const uint8_t front[] = {10, 13, 13, 10, 28, 0, 0, 0, 0x4d, 0x3c, 0x2b, 0x1a, 1, 0, 0, 0,
                                    255, 255, 255, 255, 255, 255, 255, 255, 28, 0, 0, 0};
    static const uint8_t block[] = {1, 0, 0, 0, 32, 0, 0, 0, 1, 0, 0, 0, 0, 0, 4, 0,
                                    9, 0, 1, 0, 6, 0, 0, 0, 0, 0, 0, 0, 32, 0, 0, 0,
                                    6, 0, 0, 0, 36, 0, 0, 0, 0, 0, 0, 0, 0, 0, 0, 0, 0xa0, 0x25, 0x26, 0,
                                    4, 0, 0, 0, 4, 0, 0, 0, 1, 2, 3, 4, 36, 0, 0, 0};
    static const uint8_t header[] = {0xd4, 0xc3, 0xb2, 0xa1, 2, 0, 4, 0, 0, 0, 0, 0, 0, 0, 0, 0, 0, 0, 4, 0, 1, 0, 0, 0,
                                     2, 0, 0, 0, 0x20, 0xa1, 7, 0, 4, 0, 0, 0, 4, 0, 0, 0, 1, 2, 3, 4};
    const capt_packet good = {.offset = 7, .seconds = 2, .numerator = 500000, .denominator = 1000000,
                              .resolution = 1000000,
                              .original = 4, .snaplen = 262144, .link = 1};
    capt_packet bad[14];
    capt_writer writer = {0};
    capt_text text = {0};
    capt_place place = {1, 2, 3};
    for (int i = 0; i < 14; i++) bad[i] = good;
    bad[0].denominator = 0;                                        /* no-time */
    bad[1].link = 228;                                             /* link-mixed */
    bad[2].denominator = bad[2].resolution = 10000000000;          /* inexact */
    bad[2].numerator = 1;
    bad[3].seconds = 4294967296;                                   /* time-range */
    const uint32_t rules[] = {CAPT_RULE_NO_TIME, CAPT_RULE_LINK_MIXED, CAPT_RULE_INEXACT, CAPT_RULE_TIME_RANGE};
    bad[4].link = 65536;
    bad[5].denominator = bad[5].resolution = 1000001;
    bad[6].denominator = 1000;
    bad[7].numerator = 1000000;
    bad[8].seconds = -1;
    bad[9].time_offset = 3;
    bad[10].carry = 1;
    bad[11].resolution = 0;
    bad[12].denominator = bad[12].resolution = (uint64_t)3 << 62;
    bad[13].denominator = bad[13].resolution = 256;                /* a numerator above it */
    for (uint32_t form = 0; form <= CAPT_TO_PCAP; form += CAPT_TO_PCAP) {
        if (capt_writer_open(&writer, form) != CAPT_DONE) return 84;
        if (form == 0 && !is_written(&writer, front, sizeof front)) return 85;
        if (!is_written(&writer, NULL, 0) || capt_writer_put(&writer, &good, frame, 4, &place) != CAPT_DONE) return 86;
        if (place.offset || place.file || place.rule) return 87;
        for (uint32_t i = 0; i < 14; i++) {
            uint32_t rule = i < 4 && (form || i == 0) ? rules[i] : 0;
            if (!form && 0 < i && i < 4) continue;
            place = (capt_place){1, 2, 3};
            uint32_t status = capt_writer_put(&writer, &bad[i], frame, 4, &place);
            if (rule ? status != CAPT_REFUSED || place.rule != rule || place.offset != 7 || place.file != 1
                     : status != CAPT_MISUSE || place.rule != 3) return 100 + (int)i;
        }
        if (capt_writer_put(&writer, &good, long_frame, sizeof long_frame, &place) != CAPT_MISUSE) return 88;
        if (!(form ? is_written(&writer, header, sizeof header) : is_written(&writer, block, sizeof block))) return 89;
        /* the first packet of a pcap file is refused before its header is written */
        if (capt_writer_open(&writer, CAPT_TO_PCAP) != CAPT_DONE) return 90;
        if (capt_writer_put(&writer, &bad[3], frame, 4, &place) != CAPT_REFUSED) return 91;
        if (!is_written(&writer, NULL, 0)) return 91;
    }
    /* no reader, no table and no text, nor they a writer */
    capt_packet packet;
    if (capt_next(&writer, &packet, &place) != CAPT_MISUSE) return 92;
    if (capt_table_step(&writer, &place) != CAPT_MISUSE) return 92;
    if (capt_feed(&writer, frame, 4) != CAPT_MISUSE || capt_feed_end(&writer) != CAPT_MISUSE) return 93;
    if (capt_writer_open(&writer, CAPT_ALLOW_CUT) != CAPT_MISUSE) return 94;
    if (capt_writer_open(&writer, CAPT_IPV6) != CAPT_MISUSE) return 94;
    if (capt_writer_put(&writer, &good, frame, 4, &place) != CAPT_DONE) return 95;
    if (!is_written(&writer, header, sizeof header)) return 95;
    if (capt_open(&writer, frame, 4, 0) != CAPT_DONE) return 96;
    if (capt_writer_put(&writer, &good, frame, 4, &place) != CAPT_MISUSE) return 96;
    if (capt_writer_take(&writer, &text) != CAPT_MISUSE) return 97;
    capt_close(&writer);
    return capt_writer_take(&writer, &text) == CAPT_MISUSE && !text.at ? 0 : 98;
}

/* How many bytes malloc holds for this program. */
static size_t held(void) {
    struct mallinfo2 info = mallinfo2();
    return info.uordblks + info.hblkhd;
}

/* A pcap file of so many records of 84 bytes: 24 bytes, and 100 for each. */
static uint8_t *records(size_t count) {
    static const uint8_t header[24] = {0xd4, 0xc3, 0xb2, 0xa1, 2, 0, 4, 0, 0, 0, 0, 0, 0, 0, 0, 0, 0, 0, 4, 0, 1, 0, 0, 0};
    uint8_t *bytes = calloc(1, 24 + count * 100);
    if (!bytes) exit(3);
    memcpy(bytes, header, 24);
    for (size_t i = 0; i < count; i++) bytes[24 + i * 100 + 8] = bytes[24 + i * 100 + 12] = 84;
    return bytes;
}

/* Reads packets as long as they come, and says how many came. */
static size_t read_out(capt_reader *reader, uint32_t want) {
    capt_packet packet;
    capt_place place;
    size_t count = 0;
    uint32_t status;
    while ((status = capt_next(reader, &packet, &place)) == CAPT_PACKET) count++;
    if (status != want) exit(30);
    return count;
}

/* What a reader that is fed holds: no more than 1 MiB of a large piece that was read out, at most twice of what wasn't read, and
 * nothing after a refusal. A backlog is read in time though small pieces are fed to it. One of bytes in memory holds no copy of them. */
static int fed_memory(void) {
    enum { MANY = 1000000, SOME = 300000, MIB = 1 << 20 };
    capt_reader reader = {0};
    capt_packet packet;
    capt_place place;
    size_t before = held();
    uint8_t *piece = records(MANY);
    size_t with = held();
    if (capt_open(&reader, piece, 24 + MANY * 100, 0) != CAPT_DONE || read_out(&reader, CAPT_DONE) != MANY) return 45;
    if (held() - with > MIB) return 46;
    capt_close(&reader);
    /* all but half of the last record */
    if (capt_open_fed(&reader, 0) != CAPT_DONE || capt_feed(&reader, piece, 24 + MANY * 100 - 50) != CAPT_DONE) return 31;
    if (held() - before < 200 * (size_t)MIB * 9 / 10) return 32;
    free(piece);
    if (read_out(&reader, CAPT_MORE) != MANY - 1 || held() - before > 2 * MIB) return 33;
    uint8_t rest[50] = {0};
    rest[49] = 7;
    if (capt_feed(&reader, rest, 50) != CAPT_DONE || capt_next(&reader, &packet, &place) != CAPT_PACKET) return 34;
    if (packet.captured != 84 || packet.frame[83] != 7 || held() - before > 2 * MIB) return 35;
    capt_close(&reader);
    /* a backlog, and a record more after each that is read */
    piece = records(SOME);
    if (capt_open_fed(&reader, 0) != CAPT_DONE || capt_feed(&reader, piece, 24 + SOME * 100) != CAPT_DONE) return 36;
    for (size_t i = 0; i < 2 * SOME; i++) {
        if (capt_next(&reader, &packet, &place) != CAPT_PACKET || capt_feed(&reader, piece + 24, 100) != CAPT_DONE) return 37;
        if (held() - before > (SOME * 100 + 24) * (size_t)6) return 38;
    }
    if (read_out(&reader, CAPT_MORE) != SOME || held() - before > (SOME * 100 + 24) + 2 * (size_t)MIB) return 39;
    free(piece);
    capt_close(&reader);
    /* a reader that refuses */
    static uint8_t zeros[16384];
    if (capt_open_fed(&reader, 0) != CAPT_DONE || capt_feed(&reader, zeros, sizeof zeros) != CAPT_DONE) return 40;
    if (read_out(&reader, CAPT_REFUSED) != 0) return 41;
    for (int i = 0; i < 10000; i++)
        if (capt_feed(&reader, zeros, sizeof zeros) != CAPT_DONE) return 42;
    if (read_out(&reader, CAPT_REFUSED) != 0 || held() - before > MIB / 2) return 43;
    capt_close(&reader);
    return held() - before > MIB / 2 ? 44 : 0;
}

static void put_wide(FILE *out, __int128 number) {
    if (number < 0) fputc('-', out);
    unsigned __int128 size = number < 0 ? -(unsigned __int128)number : (unsigned __int128)number;
    uint64_t ten = 10000000000000000000u;
    if (size >= ten) fprintf(out, "%" PRIu64 "%019" PRIu64, (uint64_t)(size / ten), (uint64_t)(size % ten));
    else fprintf(out, "%" PRIu64, (uint64_t)size);
}

static void put_time(FILE *out, const char *label, const capt_time *time) {
    fprintf(out, " %s ", label);
    if (!time->denominator) {
        fputc('-', out);
        return;
    }
    put_wide(out, time->seconds + (__int128)time->carry * ((__int128)1 << 64));
    fprintf(out, "+%" PRIu64 "/%" PRIu64, time->numerator, time->denominator);
}

static void put_traffic(FILE *out, const char *between, const capt_traffic *them) {
    fprintf(out, "%" PRIu64 "%s", them->packets, between);
    put_wide(out, them->bytes + ((__int128)them->carry << 64));
}

/* An IPv6 address (RFC 5952, 4): the longest run of two zeros or more, of equal ones the first, is `::`. */
static void put_ipv6(FILE *out, const uint8_t *at) {
    int first = 0, longest = 1;
    for (int from = 0, to; from < 8; from = to + 1) {
        for (to = from; to < 8 && !at[2 * to] && !at[2 * to + 1]; to++) {}
        if (to - from > longest) longest = to - from, first = from;
    }
    for (int i = 0; i < 8; i++) {
        if (longest > 1 && i == first) fprintf(out, "::"), i += longest;
        else if (i) fputc(':', out);
        if (i < 8) fprintf(out, "%x", at[2 * i] << 8 | at[2 * i + 1]);
    }
}

static void put_end(FILE *out, const capt_endpoint *end) {
    bool is_bracketed = end->version == 6 && end->has_port;
    fprintf(out, is_bracketed ? " [" : " ");
    if (end->version == 6) put_ipv6(out, end->address);
    else fprintf(out, "%d.%d.%d.%d", end->address[0], end->address[1], end->address[2], end->address[3]);
    if (end->has_port) fprintf(out, is_bracketed ? "]:%d" : ":%d", end->port);
}

static void put_talk(FILE *out, const capt_talk *talk) {
    fprintf(out, talk->protocol == 17 ? "talk udp" : talk->protocol == 6 ? "talk tcp" : "talk p%d", talk->protocol);
    put_end(out, &talk->a);
    put_end(out, &talk->b);
    fprintf(out, " forward ");
    put_traffic(out, " ", &talk->forward);
    fprintf(out, " backward ");
    put_traffic(out, " ", &talk->backward);
    put_time(out, "first", &talk->first);
    put_time(out, "last", &talk->last);
    fputc('\n', out);
}

static void put_file(FILE *out, uint32_t number, const capt_file_counts *file) {
    static const char *formats[] = {"-", "pcap", "pcapng"};
    fprintf(out, "file %" PRIu32 " %s packets ", number, formats[file->format]);
    put_traffic(out, " bytes ", &file->all);
    fprintf(out, " truncated %" PRIu64 " skipped %" PRIu64, file->truncated, file->skipped);
    put_time(out, "first", &file->first);
    put_time(out, "last", &file->last);
    fprintf(out, file->was_cut ? " cut\n" : "\n");
}

static void put_totals(FILE *out, const capt_totals *all, uint32_t flags) {
    fprintf(out, "total packets ");
    put_traffic(out, " bytes ", &all->all);
    fprintf(out, " truncated %" PRIu64 "\nframes other-link %" PRIu64 " %s %" PRIu64 " short %" PRIu64, all->truncated,
            all->other_link, flags & CAPT_IPV6 ? "not-ip" : "not-ipv4", all->not_ip, all->too_short);
    fprintf(out, " cut %" PRIu64 " bad %" PRIu64 " unjoined %" PRIu64 " counted %" PRIu64 "\n", all->cut, all->bad,
            all->unjoined, all->counted);
    fprintf(out, "joined %" PRIu64 " given-up %" PRIu64 "\n", all->joined, all->given_up);
    fprintf(out, "talks %" PRIu64 "\n", all->talks);
}

/* Whether the report so far is that text, line by line, as the table tells it in numbers. */
static bool is_report(capt_table *table, uint32_t flags, const capt_text *text) {
    capt_totals totals;
    capt_file_counts file;
    capt_talk talk;
    static char made[1 << 22];
    uint32_t status = capt_table_totals(table, &totals);
    if (status != CAPT_DONE) return false;
    FILE *out = fmemopen(made, sizeof made, "w");
    if (!out) exit(3);
    fprintf(out, "files %" PRIu32 "\n", totals.files);
    for (uint32_t number = 1; (status = capt_table_file(table, number, &file)) == CAPT_DONE; number++)
        put_file(out, number, &file);
    put_totals(out, &totals, flags);
    for (size_t place = 0; capt_table_talk(table, place, &talk) == CAPT_DONE; place++) put_talk(out, &talk);
    long len = ftell(out);
    fclose(out);
    bool is_same = len >= 0 && (size_t)len == text->len && !memcmp(made, text->at, text->len);
    /* there is nothing at these places, and what is there stays */
    capt_talk before = talk;
    bool is_no_talk = capt_table_talk(table, totals.talks, &talk) == CAPT_MISUSE
                      && capt_table_talk(table, SIZE_MAX, &talk) == CAPT_MISUSE;
    bool is_no_file = capt_table_file(table, 0, &file) == CAPT_MISUSE
                      && capt_table_file(table, UINT32_MAX, &file) == CAPT_MISUSE;
    is_same = is_same && (totals.talks == 0 || !memcmp(&before, &talk, sizeof talk));
    return is_same && is_no_talk && is_no_file && status == CAPT_MISUSE;
}

/* The report of a file, step by step, with one after each step that can be written, as text and in numbers. */
static int report(capt_bytes file, uint32_t flags) {
    capt_table table = {0};
    capt_text text = {0};
    capt_place place = {0, 0, 0}, again;
    uint32_t status = capt_table_open(&table, &file, 1, flags);
    if (status != CAPT_DONE) return told(status, place);
    do {
        uint32_t written = capt_table_write(&table, &text, &again);
        if (written != CAPT_DONE || text.len < 8 || memcmp(text.at, "files 1\n", 8)) return told(written, again) + 16;
        if (!is_report(&table, flags, &text)) return 13;
    } while ((status = capt_table_step(&table, &place)) == CAPT_PACKET);
    if (capt_table_step(&table, &again) != status || memcmp(&place, &again, sizeof place)) return 6;
    if (status == CAPT_DONE) {
        uint32_t written = capt_table_write(&table, &text, &again);
        if (written != CAPT_DONE) return told(written, again) + 16;
        if (!is_report(&table, flags, &text)) return 13;
        fwrite(text.at, 1, text.len, stdout);
    }
    capt_close(&table);
    capt_text_close(&text);
    return capt_table_step(&table, &again) == CAPT_MISUSE && capt_table_write(&table, &text, &again) == CAPT_MISUSE ? told(status, place) : 8;
}

typedef uint32_t opening(capt_reader *, capt_bytes *, uint32_t);

static uint32_t open_bytes(capt_reader *reader, capt_bytes *file, uint32_t flags) { return capt_open(reader, file->at, file->len, flags); }
static uint32_t open_stdin(capt_reader *reader, capt_bytes *file, uint32_t flags) { return (void)file, capt_open_stdin(reader, flags); }
static uint32_t open_fed(capt_reader *reader, capt_bytes *file, uint32_t flags) { return (void)file, capt_open_fed(reader, flags); }
static uint32_t open_table(capt_reader *reader, capt_bytes *file, uint32_t flags) { return capt_table_open(reader, file, 1, flags); }

/* A command takes these flags and no others; a job that is there goes on if it doesn't. */
static int job_flags(uint32_t command, capt_bytes file, uint32_t flags, bool takes) {
    const capt_bytes files[] = {file, file};
    const capt_options none = {0}, options = {.flags = flags};
    capt_job job = {0}, before;
    capt_place place;
    uint8_t buffer[8];
    size_t len;
    if (capt_job_open(&job, CAPT_INFO, files, 1, &none) != CAPT_DONE) return 60;
    memcpy(&before, &job, sizeof job);
    uint32_t status = capt_job_open(&job, command, files, command == CAPT_DIFF ? 2 : 1, &options);
    bool is_same = !memcmp(&job, &before, sizeof job) && capt_job_read(&job, buffer, 8, &len, &place) == CAPT_PIECE;
    bool is_misused = status == CAPT_MISUSE && is_same && len == 8 && !memcmp(buffer, "files 1\n", 8);
    capt_close(&job);
    return takes ? (status == CAPT_DONE ? 0 : 61) : (is_misused ? 0 : 62);
}

/* A call that opens a handle takes these flags and no others; a reader that is there goes on if it doesn't. */
static int open_flags(opening *call, capt_bytes file, uint32_t flags, bool takes) {
    capt_reader reader = {0}, before;
    capt_packet packet;
    capt_place place;
    if (capt_open(&reader, file.at, file.len, 0) != CAPT_DONE || capt_next(&reader, &packet, &place) != CAPT_PACKET) return 63;
    uint64_t first = packet.offset;
    memcpy(&before, &reader, sizeof reader);
    uint32_t status = call(&reader, &file, flags);
    bool is_same = !memcmp(&reader, &before, sizeof reader);
    bool is_misused = status == CAPT_MISUSE && is_same && capt_next(&reader, &packet, &place) == CAPT_PACKET && packet.offset > first;
    capt_close(&reader);
    return takes ? (status == CAPT_DONE ? 0 : 64) : (is_misused ? 0 : 65);
}

/* Each call takes the flags that the header lists for it, and refuses each other bit, by itself and beside those. */
static int flags_refused(const char *name) {
    const uint32_t cut = CAPT_ALLOW_CUT, form = CAPT_ALLOW_CUT | CAPT_BIG | CAPT_TO_PCAP, report = CAPT_ALLOW_CUT | CAPT_IPV6;
    /* what each command takes beside flags without which it doesn't take all of them, or with which it takes fewer */
    const uint32_t json = cut | CAPT_JSON, ignored = CAPT_IGNORE_TIME | CAPT_IGNORE_LINK | CAPT_IGNORE_ORIGINAL;
    const struct { uint32_t command, beside, takes; } jobs[] = {
        {CAPT_LIST, CAPT_CLASS, json | CAPT_CLASS | CAPT_IPV6}, {CAPT_BLOCKS, 0, json}, {CAPT_INFO, 0, json},
        {CAPT_REPORT, 0, json | CAPT_IPV6}, {CAPT_CONVERT, 0, form}, {CAPT_MERGE, CAPT_TO_PCAP, form},
        {CAPT_MERGE, CAPT_SHARE_INTERFACES, cut | CAPT_BIG | CAPT_SHARE_INTERFACES}, {CAPT_JOIN, 0, form},
        {CAPT_DIFF, 0, json | ignored}, {CAPT_DIGEST, 0, json}, {CAPT_CHECK, 0, json | CAPT_WITH_DIGEST}};
    struct { opening *call; uint32_t takes; } opens[] = {{open_bytes, cut}, {open_stdin, cut}, {open_fed, cut}, {open_table, report}};
    capt_bytes file = bytes_of(name);
    int code = 0;
    for (int bit = 0; bit < 32 && !code; bit++) {
        uint32_t flag = (uint32_t)1 << bit;
        for (size_t i = 0; i < sizeof jobs / sizeof *jobs && !code; i++) {
            bool takes = jobs[i].takes & flag;
            code = job_flags(jobs[i].command, file, flag | jobs[i].beside, takes);
            if (!code) code = job_flags(jobs[i].command, file, flag | jobs[i].takes, takes);
        }
        for (size_t i = 0; i < sizeof opens / sizeof *opens && !code; i++) {
            bool takes = opens[i].takes & flag;
            code = open_flags(opens[i].call, file, flag, takes);
            if (!code) code = open_flags(opens[i].call, file, flag | opens[i].takes, takes);
        }
    }
    free((void *)file.at);
    return code;
}

/* The version as a number is that of the header, and has the parts of the text. */
static int version(void) {
    char text[16] = "", again[16];
    uint32_t number = capt_version_number();
    size_t len = capt_version((uint8_t *)text, sizeof text - 1);
    if (len >= sizeof text || number != CAPT_VERSION_NUMBER) return 66;
    snprintf(again, sizeof again, "%" PRIu32 ".%" PRIu32 ".%" PRIu32, number / 10000, number / 100 % 100, number % 100);
    return strcmp(text, again) ? 67 : 0;
}

static int misuse(const char *name) {
    capt_reader reader = {0};
    capt_text text = {0};
    capt_packet packet;
    capt_place place = {1, 2, 3}, same = place;
    capt_ending ending;
    capt_bytes files[33];
    size_t count;
    uint8_t buffer[4] = "....";
    files[0] = bytes_of(name);
    for (int i = 1; i < 33; i++) files[i] = files[0];
    if (capt_next(&reader, &packet, &place) != CAPT_MISUSE || capt_next_many(&reader, &packet, 1, &count, &place) != CAPT_MISUSE) return 1;
    if (capt_end(&reader, &ending) != CAPT_MISUSE) return 2;
    if (memcmp(&place, &same, sizeof place)) return 6;
    capt_table table = {0};
    if (capt_table_open(&table, files, 0, 0) != CAPT_MISUSE || capt_table_open(&table, files, 33, 0) != CAPT_MISUSE) return 16;
    if (capt_table_open(&table, files, 32, 0) != CAPT_DONE) return 17;
    /* a table is no capture that is read, nor is a text */
    if (capt_next(&table, &packet, &place) != CAPT_MISUSE || capt_end(&table, &ending) != CAPT_MISUSE) return 18;
    if (capt_table_step(&table, &place) != CAPT_PACKET) return 19;
    capt_close(&table);
    /* what is closed, or a reader, tells no rows */
    capt_talk talk;
    capt_file_counts counts;
    capt_totals totals;
    for (int i = 0; i < 2; i++) {
        if (capt_table_talk(&table, 0, &talk) != CAPT_MISUSE) return 24;
        if (capt_table_file(&table, 1, &counts) != CAPT_MISUSE) return 25;
        if (capt_table_totals(&table, &totals) != CAPT_MISUSE) return 25;
        if (i == 0 && capt_open(&table, files[0].at, files[0].len, 0) != CAPT_DONE) return 26;
    }
    capt_close(&table);
    place = same;
    if (capt_table_open(&table, files, 32, 0) != CAPT_DONE) return 7;
    if (capt_table_write(&table, &text, &place) != CAPT_DONE || text.len == 0) return 7;
    capt_close(&table);
    if (capt_next(&text.handle, &packet, &place) != CAPT_MISUSE) return 8;
    capt_text_close(&text);
    capt_text_close(&text);
    if (text.len != 0 || text.at) return 9;
    /* room for no packet, and a reader that is opened again and again */
    if (capt_open(&reader, files[0].at, files[0].len, 0) != CAPT_DONE) return 10;
    if (capt_next_many(&reader, &packet, 0, &count, &place) != CAPT_MISUSE) return 11;
    if (capt_feed(&reader, files[0].at, 1) != CAPT_MISUSE || capt_feed_end(&reader) != CAPT_MISUSE) return 22;
    for (int i = 0; i < 10000; i++) {
        if (capt_open(&reader, files[0].at, files[0].len, 0) != CAPT_DONE) return 12;
        if (capt_next(&reader, &packet, &place) != CAPT_PACKET || packet.offset != 24) return 13;
    }
    capt_close(&reader);
    free((void *)files[0].at);
    /* names are cut to the room, and there is none of a rule that isn't */
    if (capt_rule_name(6, buffer, 3) != 13 || memcmp(buffer, "blo.", 4)) return 14;
    uint32_t silent[] = {CAPT_DONE, CAPT_PACKET, CAPT_MISUSE, CAPT_MORE};
    for (int i = 0; i < 4; i++)
        if (capt_error_text(silent[i], &place, buffer, 4)) return 20;
    if (capt_error_text(CAPT_REFUSED, &(capt_place){1, 2, 0}, buffer, 4) || memcmp(buffer, "blo.", 4)) return 23;
    if (capt_error_text(CAPT_MEMORY, &place, buffer, 2) != 14 || memcmp(buffer, "fao.", 4)) return 21;
    return capt_rule_name(0, buffer, 4) || capt_rule_name(22, buffer, 4) ? 15 : 0;
}

/* The calls over 32 times a file, for a thread whose stack is measured. */
static struct {
    capt_bytes files[32];
    capt_reader reader, table;
    capt_text text;
    capt_packet packet;
    capt_place place;
    capt_talk talk;
    capt_file_counts counts;
    capt_totals totals;
} on;

static void call_none(void) {}
static void read_job(uint32_t command, size_t count, uint32_t flags) {
    static uint8_t buffer[4096];
    const capt_options options = {.flags = flags};
    size_t len;
    capt_job_open(&on.reader, command, on.files, count, &options);
    while (capt_job_read(&on.reader, buffer, sizeof buffer, &len, &on.place) == CAPT_PIECE) {}
    capt_close(&on.reader);
}
static void call_list(void) { read_job(CAPT_LIST, 1, CAPT_JSON | CAPT_CLASS | CAPT_IPV6); }
static void call_blocks(void) { read_job(CAPT_BLOCKS, 1, 0); }
static void call_convert(void) { read_job(CAPT_CONVERT, 1, 0); }
static void call_info(void) { read_job(CAPT_INFO, 32, 0); }
static void call_report(void) { read_job(CAPT_REPORT, 32, 0); }
static void call_report_ipv6(void) { read_job(CAPT_REPORT, 32, CAPT_IPV6); }
static void call_merge(void) { read_job(CAPT_MERGE, 32, 0); }
static void call_merge_pcap(void) { read_job(CAPT_MERGE, 32, CAPT_TO_PCAP); }
static void call_join(void) { read_job(CAPT_JOIN, 32, 0); }
static void call_join_pcap(void) { read_job(CAPT_JOIN, 32, CAPT_TO_PCAP); }
static void call_diff(void) { read_job(CAPT_DIFF, 2, CAPT_JSON); }
static void call_digest(void) { read_job(CAPT_DIGEST, 32, 0); }
static void call_check(void) { read_job(CAPT_CHECK, 32, CAPT_WITH_DIGEST); }
static void call_table_open(void) { capt_table_open(&on.table, on.files, 32, CAPT_IPV6); }
static void call_table(void) {
    while (capt_table_step(&on.table, &on.place) == CAPT_PACKET) {}
    capt_table_write(&on.table, &on.text, &on.place);
    capt_table_talk(&on.table, 0, &on.talk);
    capt_table_file(&on.table, 32, &on.counts);
    capt_table_totals(&on.table, &on.totals);
    capt_close(&on.table);
}
static void call_reader(void) {
    capt_open(&on.reader, on.files[0].at, on.files[0].len, 0);
    while (capt_next(&on.reader, &on.packet, &on.place) == CAPT_PACKET) {}
    capt_open_fed(&on.reader, 0);
    capt_feed(&on.reader, on.files[0].at, on.files[0].len);
    capt_feed_end(&on.reader);
    while (capt_next(&on.reader, &on.packet, &on.place) == CAPT_PACKET) {}
    capt_close(&on.reader);
    capt_text_close(&on.text);
}

static void call_writer(void) {
    capt_open(&on.reader, on.files[0].at, on.files[0].len, 0);
    capt_writer_open(&on.table, 0);
    while (capt_next(&on.reader, &on.packet, &on.place) == CAPT_PACKET)
        capt_writer_put(&on.table, &on.packet, on.packet.frame, on.packet.captured, &on.place);
    capt_writer_take(&on.table, &on.text);
    capt_close(&on.table);
    capt_close(&on.reader);
    capt_text_close(&on.text);
}

static void *called(void *call) {
    ((void (*)(void))call)();
    return NULL;
}

/* How many bytes of its stack a thread changes that makes a call. */
static size_t stack_of(void (*call)(void)) {
    enum { SIZE = 1 << 20 };
    uint8_t *stack = aligned_alloc(4096, SIZE);
    pthread_attr_t how;
    pthread_t thread;
    size_t free_bytes = 0;
    if (!stack) exit(3);
    memset(stack, 0xa5, SIZE);
    if (pthread_attr_init(&how) || pthread_attr_setstack(&how, stack, SIZE)) exit(50);
    if (pthread_create(&thread, &how, called, (void *)call) || pthread_join(thread, NULL)) exit(51);
    while (free_bytes < SIZE && stack[free_bytes] == 0xa5) free_bytes++;
    free(stack);
    return SIZE - free_bytes;
}

/* Each call takes at most 64 KiB of stack. */
static int stack(const char *name) {
    void (*calls[])(void) = {call_list, call_blocks, call_convert, call_info, call_report, call_report_ipv6, call_merge, call_merge_pcap, call_join,
                             call_join_pcap, call_diff, call_digest, call_check, call_table_open, call_table, call_reader, call_writer};
    for (int i = 0; i < 32; i++) on.files[i] = i ? on.files[0] : bytes_of(name);
    size_t none = stack_of(call_none);
    for (size_t i = 0; i < sizeof calls / sizeof *calls; i++) {
        size_t taken = stack_of(calls[i]) - none;
        if (taken < 1000 || taken > 64 * 1024) {
            printf("call %zu takes %zu bytes of stack\n", i, taken);
            return 52;
        }
    }
    free((void *)on.files[0].at);
    return 0;
}

static uint32_t flag_of(const char *word) {
    return strcmp(word, "--allow-cut") == 0 ? CAPT_ALLOW_CUT : strcmp(word, "--ipv6") == 0 ? CAPT_IPV6 : 0;
}

int main(int count, char **words) {
    if (count < 2) return 2;
    uint32_t flags = count > 2 ? flag_of(words[2]) : 0;
    capt_reader reader = {0};
    if (strcmp(words[1], "misuse") == 0) return misuse(words[count - 1]);
    if (strcmp(words[1], "flags") == 0) return flags_refused(words[count - 1]);
    if (strcmp(words[1], "memory") == 0) return fed_memory();
    if (strcmp(words[1], "version") == 0) return version();
    if (strcmp(words[1], "written") == 0) return written();
    if (strcmp(words[1], "stack") == 0) return stack(words[count - 1]);
    if (strcmp(words[1], "stdin") == 0) {
        uint32_t status = capt_open_stdin(&reader, flags);
        return status == CAPT_DONE ? list(&reader, 1) : told(status, (capt_place){0, 0, 0});
    }
    capt_bytes bytes = bytes_of(words[count - 1]);
    if (strcmp(words[1], "fed") == 0 && count > 3) {
        int code = list_fed(bytes, strtoul(words[2], NULL, 10), count > 4 ? flag_of(words[3]) : 0);
        free((void *)bytes.at);
        return code;
    }
    if (strcmp(words[1], "copy") == 0 && count > 3) {
        int code = copy(bytes, (uint32_t)strtoul(words[2], NULL, 10), count > 4 ? flag_of(words[3]) : 0);
        free((void *)bytes.at);
        return code;
    }
    if (strcmp(words[1], "table") == 0) {
        int code = report(bytes, flags);
        free((void *)bytes.at);
        return code;
    }
    if (strcmp(words[1], "interfaces") == 0) {
        int code = interfaces(bytes);
        free((void *)bytes.at);
        return code;
    }
    uint32_t status = capt_open(&reader, bytes.at, bytes.len, flags);
    int code = status == CAPT_DONE ? list(&reader, strcmp(words[1], "many") == 0 ? 7 : 1) : told(status, (capt_place){0, 0, 0});
    free((void *)bytes.at);
    return code;
}
