// Joins the IPv4 fragments of a pcap file (link type 101, microseconds) as `capt join` does, the plain way: a bitmap
// of the blocks of 8 bytes that are covered, buffers that are used again and never filled with zeros, groups in a hash
// table and in a list in the order of their opening, and expiry from the front of that list, since clocks never fall.
// It is what bench/join.sh measures capt beside.
//
// Use: join IN OUT
#include <stdint.h>
#include <stdio.h>
#include <stdlib.h>
#include <string.h>

enum { LIMIT = 1024, BUCKETS = 4096, BLOCKS = 8192 };

typedef struct group {
    uint32_t source, destination;
    uint16_t identification;
    uint8_t protocol;
    uint64_t clock;
    uint32_t size, total, low;
    int has_total;
    uint8_t header[20];
    uint8_t *buffer;
    uint64_t covered[BLOCKS / 64];
    struct group *before, *after, *chain;
} group;

static group *table[BUCKETS], *oldest, *newest, *spare;
static unsigned open_groups;

static unsigned bucket_of(uint32_t s, uint32_t d, uint16_t i, uint8_t p) {
    uint64_t x = ((uint64_t)s << 32 | d) ^ ((uint64_t)i << 16 | p) * 0x9e3779b97f4a7c15u;
    x = (x ^ x >> 29) * 0xbf58476d1ce4e5b9u;
    return (x >> 32) % BUCKETS;
}

static void drop(group *g) {
    group **at = &table[bucket_of(g->source, g->destination, g->identification, g->protocol)];
    while (*at != g)
        at = &(*at)->chain;
    *at = g->chain;
    if (g->before) g->before->after = g->after; else oldest = g->after;
    if (g->after) g->after->before = g->before; else newest = g->before;
    open_groups--;
    g->chain = spare;
    spare = g;
}

static group *find(uint32_t s, uint32_t d, uint16_t i, uint8_t p) {
    group *g = table[bucket_of(s, d, i, p)];
    while (g && (g->source != s || g->destination != d || g->identification != i || g->protocol != p))
        g = g->chain;
    return g;
}

static group *start(uint32_t s, uint32_t d, uint16_t i, uint8_t p, uint64_t clock) {
    group *g = spare;
    if (open_groups == LIMIT) {
        drop(oldest);
        g = spare;
    }
    if (g)
        spare = g->chain;
    else if (!(g = calloc(1, sizeof *g)))
        exit(1);
    uint8_t *buffer = g->buffer;
    uint32_t size = g->size;
    memset(g, 0, sizeof *g);
    g->buffer = buffer, g->size = size;
    g->source = s, g->destination = d, g->identification = i, g->protocol = p, g->clock = clock;
    unsigned b = bucket_of(s, d, i, p);
    g->chain = table[b], table[b] = g;
    g->before = newest;
    if (newest) newest->after = g; else oldest = g;
    newest = g;
    open_groups++;
    return g;
}

static void put(group *g, uint32_t from, const uint8_t *data, uint32_t length, int more, const uint8_t *header) {
    uint32_t end = (from + length + 7) / 8 * 8;
    if (end > g->size) {
        g->size = end > 2 * g->size ? end : 2 * g->size;
        if (!(g->buffer = realloc(g->buffer, g->size)))
            exit(1);
    }
    memcpy(g->buffer + from, data, length);
    for (uint32_t k = from / 8; k < end / 8; k++)
        g->covered[k / 64] |= (uint64_t)1 << k % 64;
    while (g->covered[g->low / 64] >> g->low % 64 & 1)
        g->low++;
    if (!more)
        g->has_total = 1, g->total = from + length;
    if (from == 0)
        memcpy(g->header, header, 20);
}

static void write_record(FILE *out, uint32_t seconds, uint32_t micros, const uint8_t *header, const uint8_t *data, uint32_t length) {
    uint32_t record[4] = {seconds, micros, length + 20, length + 20}, sum = 0;
    uint8_t whole[20];
    memcpy(whole, header, 20);
    whole[2] = (length + 20) >> 8, whole[3] = length + 20, whole[6] = whole[7] = whole[10] = whole[11] = 0;
    for (int i = 0; i < 20; i += 2)
        sum += whole[i] << 8 | whole[i + 1];
    while (sum >> 16)
        sum = (sum & 0xffff) + (sum >> 16);
    whole[10] = ~sum >> 8, whole[11] = ~sum;
    fwrite(record, 16, 1, out);
    fwrite(whole, 20, 1, out);
    fwrite(data, length, 1, out);
}

int main(int count, char **words) {
    static uint8_t packet[1 << 18];
    uint32_t record[4];
    FILE *in = count == 3 ? fopen(words[1], "rb") : NULL, *out = count == 3 ? fopen(words[2], "wb") : NULL;
    uint64_t clock = 0;
    if (!in || !out || fread(packet, 24, 1, in) != 1)
        return 1;
    fwrite(packet, 24, 1, out);
    while (fread(record, 16, 1, in) == 1) {
        if (record[2] > sizeof packet || fread(packet, 1, record[2], in) != record[2])
            return 1;
        uint64_t time = record[0] * (uint64_t)1000000 + record[1];
        if (time > clock)
            clock = time;
        uint32_t s, d, total = packet[2] << 8 | packet[3], place = packet[6] << 8 | packet[7];
        if (record[2] < 20 || packet[0] != 0x45 || total > record[2] || total < 20)
            continue;
        uint32_t from = (place & 0x1fff) * 8, length = total - 20;
        int more = place >> 13 & 1;
        if ((from || more) && (length == 0 || from + length > 65515 || (more && length % 8)))
            continue;
        memcpy(&s, packet + 12, 4), memcpy(&d, packet + 16, 4);
        uint16_t i = packet[4] << 8 | packet[5];
        if (from == 0 && !more) {
            group *g = find(s, d, i, packet[9]);
            if (g)
                drop(g);
            write_record(out, record[0], record[1], packet, packet + 20, length);
            continue;
        }
        while (oldest && oldest->clock + 30000000 < clock)
            drop(oldest);
        group *g = find(s, d, i, packet[9]);
        if (!g)
            g = start(s, d, i, packet[9], clock);
        put(g, from, packet + 20, length, more, packet);
        if (g->has_total && g->low * 8 >= g->total) {
            write_record(out, record[0], record[1], g->header, g->buffer, g->total);
            drop(g);
        }
    }
    return fclose(out) != 0;
}
