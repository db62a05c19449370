/* The conversations of a pcap file as a plain C program counts them: what bench/all.sh holds `capt report` to.
 *
 * Reads little-endian pcap of Ethernet in microseconds, takes whole IPv4 datagrams of UDP and TCP into one hash table,
 * and prints `talks N` and the `talk` lines of `capt report`, in the order of the first packets. It checks the lengths
 * that it reads past, and nothing else: no other link, no tags, no fragments, no order of time.
 */
#include "window.h"

enum { RECORD = 16, ETHERNET = 14 };

struct key {
    uint32_t low, high;
    uint16_t low_port, high_port;
    uint32_t protocol;
};

struct talk {
    struct key key;
    uint32_t first_second, first_micro, last_second, last_micro;
    uint64_t frames[2], bytes[2];
};

static struct talk *talks;
static uint32_t *slots;
static size_t count, capacity = 1024;

static uint32_t big(const uint8_t *at) {
    return (uint32_t)at[0] << 24 | at[1] << 16 | at[2] << 8 | at[3];
}

static uint16_t pair(const uint8_t *at) {
    return (uint16_t)(at[0] << 8 | at[1]);
}

static uint64_t hash(const struct key *key) {
    uint64_t ends = (uint64_t)key->low << 32 | key->high;
    uint64_t rest = (uint64_t)key->low_port << 24 ^ (uint64_t)key->high_port << 8 ^ key->protocol;
    ends = (ends ^ rest * 0x9e3779b97f4a7c15) * 0xbf58476d1ce4e5b9;
    return ends ^ ends >> 32;
}

static void grow(void) {
    capacity *= 2;
    free(slots);
    slots = calloc(capacity * 2, sizeof *slots);
    talks = realloc(talks, capacity * sizeof *talks);
    if (!slots || !talks) fail("memory");
    for (size_t i = 0; i < count; i++) {
        size_t slot = hash(&talks[i].key) & (capacity * 2 - 1);
        while (slots[slot]) slot = (slot + 1) & (capacity * 2 - 1);
        slots[slot] = (uint32_t)i + 1;
    }
}

static struct talk *find(const struct key *key) {
    if (count == capacity || !slots) grow();
    size_t slot = hash(key) & (capacity * 2 - 1);
    while (slots[slot]) {
        struct talk *talk = &talks[slots[slot] - 1];
        if (!memcmp(&talk->key, key, sizeof *key)) return talk;
        slot = (slot + 1) & (capacity * 2 - 1);
    }
    slots[slot] = (uint32_t)++count;
    struct talk *talk = &talks[count - 1];
    memset(talk, 0, sizeof *talk);
    talk->key = *key;
    talk->first_second = UINT32_MAX;
    return talk;
}

static void take(const uint8_t *frame, uint32_t captured, uint32_t original, uint32_t second, uint32_t micro) {
    if (captured < ETHERNET + 20 || pair(frame + 12) != 0x0800) return;
    const uint8_t *ip = frame + ETHERNET;
    uint32_t header = (ip[0] & 15u) * 4, total = pair(ip + 2), protocol = ip[9];
    if (ip[0] >> 4 != 4 || header < 20 || total < header || captured < ETHERNET + header + 8) return;
    if ((pair(ip + 6) & 0x3fff) || (protocol != 6 && protocol != 17)) return;
    uint32_t source = big(ip + 12), destination = big(ip + 16);
    uint16_t from_port = pair(ip + header), to_port = pair(ip + header + 2);
    int back = source != destination ? source > destination : from_port > to_port;
    struct key key = {back ? destination : source, back ? source : destination,
                      back ? to_port : from_port, back ? from_port : to_port, protocol};
    struct talk *talk = find(&key);
    talk->frames[back]++;
    talk->bytes[back] += original;
    if (second < talk->first_second || (second == talk->first_second && micro < talk->first_micro)) {
        talk->first_second = second;
        talk->first_micro = micro;
    }
    if (second > talk->last_second || (second == talk->last_second && micro > talk->last_micro)) {
        talk->last_second = second;
        talk->last_micro = micro;
    }
}

static void print_end(uint32_t address, uint16_t port) {
    printf(" %u.%u.%u.%u:%u", address >> 24, address >> 16 & 255, address >> 8 & 255, address & 255, port);
}

int main(int words, char **word) {
    int file = words == 2 ? open(word[1], O_RDONLY) : -1;
    if (file < 0) fail("a pcap file is wanted");
    if (!need(file, 24) || little(room) != 0xa1b2c3d4 || little(room + 20) != 1) fail("not such a pcap file");
    from = 24;
    while (need(file, RECORD)) {
        uint32_t captured = little(room + from + 8);
        if (captured > ROOM - RECORD || !need(file, RECORD + captured)) fail("a record is cut");
        const uint8_t *at = room + from;
        take(at + RECORD, captured, little(at + 12), little(at), little(at + 4));
        from += RECORD + captured;
    }
    printf("talks %zu\n", count);
    for (size_t i = 0; i < count; i++) {
        const struct talk *talk = &talks[i];
        printf("talk %s", talk->key.protocol == 6 ? "tcp" : "udp");
        print_end(talk->key.low, talk->key.low_port);
        print_end(talk->key.high, talk->key.high_port);
        printf(" forward %llu %llu backward %llu %llu first %u+%u/1000000 last %u+%u/1000000\n",
               (unsigned long long)talk->frames[0], (unsigned long long)talk->bytes[0],
               (unsigned long long)talk->frames[1], (unsigned long long)talk->bytes[1],
               talk->first_second, talk->first_micro, talk->last_second, talk->last_micro);
    }
    return fflush(stdout) != 0;
}
