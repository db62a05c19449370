/* Walks a capture by libcapt or by libpcap, and prints how many packets and captured bytes it has: for clib.sh.
 * clib next|many FILE, and with -DLIBPCAP also clib libpcap FILE */
#include <capt.h>
#include <fcntl.h>
#include <inttypes.h>
#include <stdio.h>
#include <string.h>
#include <sys/mman.h>
#include <sys/stat.h>
#ifdef LIBPCAP
#include <pcap.h>

static int by_libpcap(const char *name, uint64_t *packets, uint64_t *bytes) {
    char error[PCAP_ERRBUF_SIZE];
    pcap_t *file = pcap_open_offline_with_tstamp_precision(name, PCAP_TSTAMP_PRECISION_NANO, error);
    struct pcap_pkthdr *head;
    const u_char *frame;
    int answer;
    if (!file) return 1;
    while ((answer = pcap_next_ex(file, &head, &frame)) == 1) {
        *packets += 1;
        *bytes += head->caplen + (head->caplen ? frame[head->caplen - 1] & 1 : 0);
    }
    pcap_close(file);
    return answer != PCAP_ERROR_BREAK;
}
#endif

static void add(const capt_packet *packet, uint64_t *packets, uint64_t *bytes) {
    *packets += 1;
    *bytes += packet->captured + (packet->captured ? packet->frame[packet->captured - 1] & 1 : 0);
}

static int by_capt(const char *name, int many, uint64_t *packets, uint64_t *bytes) {
    static capt_packet some[256];
    struct stat of;
    capt_reader reader = {0};
    capt_place place;
    uint32_t status;
    size_t count;
    int file = open(name, O_RDONLY);
    if (file < 0 || fstat(file, &of)) return 1;
    const uint8_t *at = mmap(NULL, (size_t)of.st_size, PROT_READ, MAP_PRIVATE, file, 0);
    if (at == MAP_FAILED || capt_open(&reader, at, (size_t)of.st_size, 0) != CAPT_DONE) return 1;
    if (many) {
        while ((status = capt_next_many(&reader, some, 256, &count, &place)) == CAPT_PACKET)
            for (size_t i = 0; i < count; i++) add(&some[i], packets, bytes);
    } else {
        while ((status = capt_next(&reader, some, &place)) == CAPT_PACKET) add(some, packets, bytes);
    }
    capt_close(&reader);
    return status != CAPT_DONE;
}

int main(int count, char **words) {
    uint64_t packets = 0, bytes = 0;
    int status = 2;
    if (count != 3) return 2;
#ifdef LIBPCAP
    if (strcmp(words[1], "libpcap") == 0) status = by_libpcap(words[2], &packets, &bytes);
#endif
    if (strcmp(words[1], "libpcap") != 0) status = by_capt(words[2], strcmp(words[1], "many") == 0, &packets, &bytes);
    printf("%" PRIu64 " %" PRIu64 "\n", packets, bytes);
    return status;
}
