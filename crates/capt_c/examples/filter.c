/* Writes the packets of a capture that had at least so many bytes as a pcapng file to standard output:
 *
 *     cc -o filter filter.c -lcapt
 *     ./filter 1000 big.pcap > long.pcapng */
#include <capt_file.h>
#include <stdio.h>
#include <stdlib.h>

int main(int count, char **words) {
    static capt_file file;
    static uint8_t line[128];
    capt_writer writer = {0};
    capt_text text = {0};
    capt_packet packet;
    capt_place place = {0, 0, 0};
    if (count != 3) return 2;
    uint32_t status = capt_writer_open(&writer, 0);
    if (status == CAPT_DONE) status = capt_file_open(&file, words[2], 0);
    if (status == CAPT_DONE)
        while ((status = capt_file_next(&file, &packet, &place)) == CAPT_PACKET) {
            if (packet.original < strtoul(words[1], NULL, 10)) continue;
            status = capt_writer_put(&writer, &packet, packet.frame, packet.captured, &place);
            if (status != CAPT_DONE) break;
        }
    fwrite(line, 1, capt_error_text(status, &place, line, sizeof line), stderr);
    /* what was written before a fault is saved too */
    bool is_saved = capt_writer_take(&writer, &text) == CAPT_DONE && fwrite(text.at, 1, text.len, stdout) == text.len;
    capt_text_close(&text);
    capt_close(&writer);
    capt_file_close(&file);
    return status == CAPT_DONE && is_saved ? 0 : 1;
}
