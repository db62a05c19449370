/* Reads the text of a job in pieces of a size, for checks/clib.py: COMMAND ROOM FLAGS DATA TOP TIMES UNIT FILE... prints
 * the text and, on standard error, what capt prints of a fault. The status is 0, 1 or 3 as the program's would be, 3 too
 * if no memory was found to open the job, or a number above 9 if a call breaks a promise of capt.h. COMMAND `misuse`
 * tries what the header calls misuse. */
#include <capt.h>
#include <stdio.h>
#include <stdlib.h>
#include <string.h>

static capt_bytes contents(const char *name) {
    FILE *file = fopen(name, "rb");
    capt_bytes bytes = {(const uint8_t *)"", 0};
    if (!file || fseek(file, 0, SEEK_END)) exit(30);
    size_t len = (size_t)ftell(file);
    rewind(file);
    /* of just that size, so that valgrind sees each byte past the end */
    uint8_t *room = len ? malloc(len) : NULL;
    if (len && (!room || fread(room, 1, len, file) != len)) exit(30);
    if (len) bytes.at = room, bytes.len = len;
    fclose(file);
    return bytes;
}

static int misuse(const capt_bytes *files) {
    capt_job job = {{0}, false};
    capt_place place = {7, 7, 7};
    uint8_t buffer[8] = "abcdefg";
    size_t len = 77;
    const capt_options none = {0, 0, 0, 0, 0};
    if (capt_job_read(&job, buffer, sizeof buffer, &len, &place) != CAPT_MISUSE) return 10;
    if (capt_job_open(&job, CAPT_LIST, files, 1, &none) != CAPT_DONE) return 11;
    if (capt_job_read(&job, buffer, 0, &len, &place) != CAPT_MISUSE) return 12;
    /* each of these leaves the job open, and its objects as they were */
    const struct { uint32_t command; size_t count; capt_options options; } wrong[] = {
        {0, 1, none}, {11, 1, none}, {CAPT_LIST, 0, none}, {CAPT_LIST, 2, none}, {CAPT_DIFF, 1, none},
        {CAPT_REPORT, 0, none}, {CAPT_REPORT, 33, none}, {CAPT_CHECK, 33, none}, {CAPT_CONVERT, 2, none},
        {CAPT_LIST, 1, {CAPT_BIG, 0, 0, 0, 0}}, {CAPT_LIST, 1, {CAPT_IPV6, 0, 0, 0, 0}},
        {CAPT_LIST, 1, {2048, 0, 0, 0, 0}}, {CAPT_LIST, 1, {0, 9, 0, 0, 0}},
        {CAPT_LIST, 1, {CAPT_JSON, 262145, 0, 0, 0}}, {CAPT_LIST, 1, {0, 0, 1, 0, 0}},
        {CAPT_LIST, 1, {0, 0, 0, 3, 0}}, {CAPT_LIST, 1, {0, 0, 0, 0, 1}},
        {CAPT_BLOCKS, 1, {0, 0, 0, CAPT_TIMES_UTC, 0}}, {CAPT_DIGEST, 1, {0, 0, 0, CAPT_TIMES_UTC, 0}},
        {CAPT_CONVERT, 1, {CAPT_JSON, 0, 0, 0, 0}}, {CAPT_CONVERT, 1, {0, 0, 0, 0, CAPT_UNIT_NANO}},
        {CAPT_CONVERT, 1, {CAPT_SHARE_INTERFACES, 0, 0, 0, 0}},
        {CAPT_MERGE, 1, {CAPT_TO_PCAP | CAPT_SHARE_INTERFACES, 0, 0, 0, 0}},
        {CAPT_MERGE, 1, {CAPT_TO_PCAP, 0, 0, 0, 3}}, {CAPT_INFO, 1, {CAPT_CLASS, 0, 0, 0, 0}},
        {CAPT_DIGEST, 1, {CAPT_WITH_DIGEST, 0, 0, 0, 0}}, {CAPT_CHECK, 1, {CAPT_IGNORE_TIME, 0, 0, 0, 0}},
        {CAPT_REPORT, 1, {CAPT_JSON, 5, 0, 0, 0}}, {CAPT_INFO, 1, {CAPT_IPV6, 0, 0, 0, 0}},
    };
    for (size_t at = 0; at < sizeof wrong / sizeof *wrong; at++) {
        capt_job was = job;
        uint32_t status = capt_job_open(&job, wrong[at].command, files, wrong[at].count, &wrong[at].options);
        if (status != CAPT_MISUSE || memcmp(&was, &job, sizeof job)) return fprintf(stderr, "%zu\n", at), 13;
    }
    if (len != 77 || place.offset != 7 || memcmp(buffer, "abcdefg", 8)) return 14;
    if (capt_job_read(&job, buffer, 6, &len, &place) != CAPT_PIECE || len != 6) return 15;
    if (memcmp(buffer, "packet", 6) || buffer[6] != 'g') return 16;
    /* what is no job is read by no other call */
    capt_packet packet;
    capt_text text = {0};
    if (capt_next(&job, &packet, &place) != CAPT_MISUSE || capt_table_step(&job, &place) != CAPT_MISUSE) return 17;
    if (capt_writer_take(&job, &text) != CAPT_MISUSE || capt_feed_end(&job) != CAPT_MISUSE) return 18;
    if (capt_open(&job, files[0].at, files[0].len, 0) != CAPT_DONE) return 19;
    if (capt_job_read(&job, buffer, 6, &len, &place) != CAPT_MISUSE) return 20;
    capt_close(&job);
    capt_close(&job);
    return capt_job_read(&job, buffer, 6, &len, &place) == CAPT_MISUSE && !job.is_open ? 0 : 21;
}

int main(int count, char **words) {
    if (count < 9) return 31;
    static capt_bytes files[33];
    size_t few = 0;
    for (int at = 8; at < count && few < 33; at++) files[few++] = contents(words[at]);
    if (!strcmp(words[1], "misuse")) return misuse(files);
    static const char *const names[] = {"", "list", "blocks", "info", "report", "convert", "merge", "join", "diff",
                                        "digest", "check"};
    uint32_t command = 1;
    while (command < 11 && strcmp(words[1], names[command])) command++;
    uint32_t numbers[5];
    for (int at = 0; at < 5; at++) numbers[at] = (uint32_t)strtoul(words[3 + at], NULL, 10);
    const capt_options options = {numbers[0], numbers[1], numbers[2], numbers[3], numbers[4]};
    size_t room = strtoul(words[2], NULL, 10), len = 0;
    uint8_t *buffer = malloc(room + 1), line[128];
    if (!buffer) return 32;
    capt_job job = {{0}, false};
    capt_place place = {0, 0, 0}, again;
    uint32_t status = capt_job_open(&job, command, files, few, &options);
    if (status == CAPT_MEMORY) return job.is_open || job.kept.at ? 22 : 3;
    if (status != CAPT_DONE) return 23;
    for (int refused = 0;;) {
        memset(buffer, 0xa5, room + 1);
        len = 99;
        status = capt_job_read(&job, buffer, room, &len, &place);
        if (status == CAPT_MEMORY) {
            /* no byte is lost: the call is made again */
            if (len != 0 || place.offset || ++refused > 9) return 24;
            continue;
        }
        if (status != CAPT_PIECE) break;
        if (len < 1 || len > room || place.offset || place.file || place.rule) return 25;
        for (size_t at = len; at <= room; at++) if (buffer[at] != 0xa5) return 26;
        fwrite(buffer, 1, len, stdout);
    }
    if (len != 0 || buffer[0] != 0xa5) return 27;
    /* how it ended comes again and again */
    for (int turn = 0; turn < 3; turn++) {
        uint32_t same = capt_job_read(&job, buffer, room, &len, &again);
        if (same != status || memcmp(&place, &again, sizeof place)) return 28;
    }
    fwrite(line, 1, capt_error_text(status, &place, line, sizeof line), stderr);
    capt_close(&job);
    capt_close(&job);
    if (job.is_open) return 29;
    free(buffer);
    for (size_t at = 0; at < few; at++) if (files[at].len) free((void *)(uintptr_t)files[at].at);
    return status == CAPT_DONE ? 0 : status == CAPT_DIFFERENCE ? 3 : 1;
}
