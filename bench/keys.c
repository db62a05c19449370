/* Pcap files of keys that a sender chose so that they begin at one place of capt's tables: keys with the same low bits in
 * the hash of std's `FoldHasher`, whose seed is fixed. With 0 bits the keys are plain ones.
 *
 * `talks`: UDP datagrams of 28 bytes, each of a conversation of its own. `groups`: first fragments of 1,023 datagrams, and
 * then copies of them in turn, which find their group each time.
 *
 * Use: keys talks|groups PACKETS BITS > FILE */
#include <stdint.h>
#include <stdio.h>
#include <stdlib.h>
#include <string.h>

#define MULTIPLIER 0x9e3779b97f4a7c15u

/* One write of up to 8 bytes: `value` is what the hasher makes of them. */
static inline uint64_t fold(uint64_t state, uint64_t value, unsigned length) {
    unsigned __int128 product = (unsigned __int128)(state ^ value) * (MULTIPLIER ^ (2 * length));
    return (uint64_t)product ^ (uint64_t)(product >> 64);
}

/* Four bytes are read twice; of two bytes the second, and one byte three times. */
static inline uint64_t with_word(uint64_t state, uint32_t word) { return fold(state, word | (uint64_t)word << 32, 4); }
static inline uint64_t with_half(uint64_t state, uint32_t half) { return fold(state, half | (half & 0xff00) << 8, 2); }
static inline uint64_t with_byte(uint64_t state, uint32_t byte) { return fold(state, byte * 0x010101, 1); }
/* Sixteen bytes are read as two numbers, of one product: a conversation's lesser end with its protocol, and its greater end. */
static inline uint64_t with_ends(uint64_t state, uint64_t lesser, uint64_t greater) {
    unsigned __int128 product = (unsigned __int128)(greater ^ (state + 16)) * (lesser ^ MULTIPLIER);
    return (uint64_t)product ^ (uint64_t)(product >> 64);
}
/* An end of a conversation as one number: a port counts from 1. */
static inline uint64_t end_number(uint32_t address, uint32_t port) { return (uint64_t)address * 131072 + port + 1; }
/* The table goes by the low bits of both halves together. */
static inline uint32_t place(uint64_t hash) { return (uint32_t)(hash ^ hash >> 32); }

static void put(uint8_t *at, uint32_t value, int bytes) {
    for (int i = 0; i < bytes; i++) at[i] = (uint8_t)(value >> 8 * (bytes - 1 - i));
}

enum { RECORD = 44, GROUPS = 1023, SOURCE = 0x0a000001, PORT = 1000, UDP = 17 };
static const uint64_t START = 0x243f6a8885a308d3u;
/* little-endian, of IP alone; a record of 28 bytes at 1 second */
static const uint8_t HEADER[24] = {0xd4, 0xc3, 0xb2, 0xa1, 2, 0, 4, 0, [18] = 4, [20] = 101};
static uint8_t record[RECORD] = {1, [8] = 28, [12] = 28, [16] = 0x45, 0, 0, 28, [24] = 64, UDP};

static void write_record(const uint8_t *bytes) { fwrite(bytes, 1, RECORD, stdout); }

/* Conversations between one end and others. */
static long talks(long left, uint32_t mask) {
    put(record + 36, PORT, 2);
    put(record + 40, 8, 2);
    uint64_t lesser = end_number(SOURCE, PORT) * 256 + UDP;
    for (uint32_t address = SOURCE + 1; left > 0 && address != 0; address++) {
        for (uint32_t port = 0; left > 0 && port < 0x10000; port++) {
            if ((place(with_ends(START, lesser, end_number(address, port))) & mask) != 0) continue;
            put(record + 32, address, 4);
            put(record + 38, port, 2);
            write_record(record);
            left--;
        }
    }
    return left;
}

/* Open groups of datagrams to several ends, each found again and again. */
static long groups(long left, uint32_t mask) {
    static uint8_t records[GROUPS][RECORD];
    int found = 0;
    record[22] = 0x20;
    for (uint32_t address = SOURCE + 1; found < GROUPS && address != 0; address++) {
        uint64_t state = with_byte(with_word(with_word(START, SOURCE), address), UDP);
        for (uint32_t name = 0; found < GROUPS && name < 0x10000; name++) {
            if ((place(with_half(state, name)) & mask) != 0) continue;
            put(record + 32, address, 4);
            put(record + 20, name, 2);
            memcpy(records[found++], record, RECORD);
        }
    }
    for (long n = 0; n < left; n++) write_record(records[n % GROUPS]);
    return GROUPS - found;
}

int main(int count, char **words) {
    if (count != 4) return 2;
    uint32_t mask = (uint32_t)((1ull << atoi(words[3])) - 1);
    fwrite(HEADER, 1, sizeof HEADER, stdout);
    put(record + 28, SOURCE, 4);
    long left = (strcmp(words[1], "talks") == 0 ? talks : groups)(atol(words[2]), mask);
    return fflush(stdout) != 0 || left > 0;
}
