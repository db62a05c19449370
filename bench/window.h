/* A file read through a window of 524,288 bytes, as the plain C programs of this folder read one. */
#include <fcntl.h>
#include <stdint.h>
#include <stdio.h>
#include <stdlib.h>
#include <string.h>
#include <unistd.h>

enum { ROOM = 1 << 19 };

static uint8_t room[ROOM];
static size_t from, upto;

static void fail(const char *why) {
    fprintf(stderr, "%s\n", why);
    exit(1);
}

/* whether so many bytes are there, from room + from on */
static int need(int file, size_t bytes) {
    while (upto - from < bytes) {
        if (from) {
            memmove(room, room + from, upto - from);
            upto -= from;
            from = 0;
        }
        ssize_t taken = read(file, room + upto, ROOM - upto);
        if (taken < 0) fail("read");
        if (taken == 0) return 0;
        upto += (size_t)taken;
    }
    return 1;
}

static uint32_t little(const uint8_t *at) {
    return at[0] | at[1] << 8 | at[2] << 16 | (uint32_t)at[3] << 24;
}
