/* The line of a capture file as a plain C program counts it: what bench/all.sh holds `capt info` to.
 *
 * Reads little-endian pcap in microseconds, and little-endian pcapng of one section whose interfaces count microseconds and
 * whose packets are in enhanced packet blocks. Prints the line of `capt info`, but for the skipped blocks. It checks the
 * lengths that it reads past, and nothing else.
 */
#include "window.h"

enum { RECORD = 16, BLOCK = 12, ENHANCED = 6 };

static uint64_t packets, bytes, truncated, first = UINT64_MAX, last;

static void take(uint64_t time, uint32_t captured, uint32_t original) {
    packets++;
    bytes += original;
    truncated += captured < original;
    if (time < first) first = time;
    if (time > last) last = time;
}

static void read_pcap(int file) {
    from = 24;
    while (need(file, RECORD)) {
        uint32_t captured = little(room + from + 8);
        if (captured > ROOM - RECORD || !need(file, RECORD + captured)) fail("a record is cut");
        const uint8_t *at = room + from;
        take(little(at) * 1000000ull + little(at + 4), captured, little(at + 12));
        from += RECORD + captured;
    }
}

static void read_pcapng(int file) {
    while (need(file, BLOCK)) {
        uint32_t total = little(room + from + 4);
        if (total < BLOCK || total > ROOM || !need(file, total)) fail("a block is cut");
        const uint8_t *at = room + from;
        if (little(at) == ENHANCED && total >= 32)
            take((uint64_t)little(at + 12) << 32 | little(at + 16), little(at + 20), little(at + 24));
        from += total;
    }
}

int main(int words, char **word) {
    int file = words == 2 ? open(word[1], O_RDONLY) : -1;
    if (file < 0 || !need(file, 24)) fail("a capture is wanted");
    int is_pcap = little(room) == 0xa1b2c3d4;
    if (is_pcap) read_pcap(file);
    else read_pcapng(file);
    printf("file 1 %s packets %llu bytes %llu truncated %llu first %llu+%llu/1000000 last %llu+%llu/1000000\n", is_pcap ? "pcap" : "pcapng",
           (unsigned long long)packets, (unsigned long long)bytes, (unsigned long long)truncated, (unsigned long long)(first / 1000000),
           (unsigned long long)(first % 1000000), (unsigned long long)(last / 1000000), (unsigned long long)(last % 1000000));
    return fflush(stdout) != 0;
}
