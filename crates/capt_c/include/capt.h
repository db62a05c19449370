/* capt.h: packet captures (pcap 2.4, pcapng 1.0 and 1.2), read, written, listed, reported, converted, merged and joined
 * by proved code.
 *
 * * Link with -lcapt (libcapt.so), or with libcapt.a. It uses malloc, realloc and free, and read(2) for
 * capt_open_stdin; it opens no file, writes to none, starts no thread and keeps nothing between calls but what a
 * handle holds.
 *
 * * Handles. A capt_reader, a capt_table, a capt_writer, a capt_job or a capt_text belongs to you. Set it to {0} before
 * its first call, let only the library change it, don't copy it, and close it. Closing sets it to {0} again; closing it
 * twice does nothing. A call that fills a handle closes first what it held. A call that opens a handle leaves {0} if it
 * returns CAPT_MEMORY, and what was there if it returns CAPT_MISUSE.
 *
 * * Threads. One call at a time with a handle. Calls with different handles may run at once, also over the same bytes.
 *
 * * Pointers. None is NULL: for 0 bytes pass any address. Unlike free(NULL), capt_close(NULL) is a fault. The library
 * only reads the bytes that you give. Those of capt_open, capt_table_open and capt_job_open stay where and as they are
 * until capt_close; those of the other calls, of capt_feed too, until the call returns. The array of files and the
 * options of capt_job_open are only read by that call. A `len` is at most PTRDIFF_MAX, and so is the size in bytes of
 * an array.
 *
 * * Flags. A call's `flags` are 0, or flags of enum capt_flag that its comment lists, as CAPT_ALLOW_CUT | CAPT_BIG.
 * With any other bit, even one that no call takes so far, the call returns CAPT_MISUSE and does nothing.
 *
 * * Objects. The objects that you pass to one call overlap neither each other nor what its handles hold: don't feed a
 * frame to the reader that lent it. A call that returns CAPT_MISUSE changes none of them.
 *
 * * Memory. A reader holds at most 512 KiB and 1,024 interfaces. A reader that is fed keeps at most twice the bytes
 * that it hasn't read, and the last piece; when it returns CAPT_MORE, at most 1 MiB; after CAPT_DONE or CAPT_REFUSED
 * none. It gives back what more it held if malloc can make a block smaller; and it holds at most 1,024 interfaces. A
 * table holds what a reader holds for each of its files, and besides at most 1,024 groups of fragments and 1,048,576
 * conversations, which take some 200 MB. A writer holds what was put and not taken, in a block that grows, and at most
 * 1,024 interfaces. A job of CAPT_LIST or CAPT_BLOCKS holds what a reader holds, and of its text
 * as many bytes as the largest buffer has room for, and a line; a job of another command holds the whole text. A call
 * that makes a text holds the whole text.
 *
 * * Growth. The structs stay as they are as long as the library is libcapt.so.1: what a later version tells besides, it
 * tells by a call and a struct of its own.
 *
 * * Stack. A call takes at most 64 KiB of stack. capt_job_open of CAPT_REPORT takes the most: it was measured to take
 * 55 KiB.
 *
 * * No call is to be made from a signal handler. */
#ifndef CAPT_H
#define CAPT_H

#include <stdbool.h>
#include <stddef.h>
#include <stdint.h>

/* The version of this header: 10,000 times its first part, 100 times its second, and its third. The library's own is
 * capt_version_number(). */
#define CAPT_VERSION_NUMBER 10000

#ifdef __cplusplus
extern "C" {
#endif

/* What a call returns. */
enum capt_status {
    CAPT_DONE = 0,       /* all was done; of a reader: no packet comes any more; of a job: no byte */
    CAPT_PACKET = 1,     /* a packet came */
    CAPT_REFUSED = 2,    /* a capture breaks a rule: capt_place says which, and where */
    CAPT_READ = 3,       /* a read failed: capt_place says where; or capt_file_open couldn't open, and has no place */
    CAPT_MEMORY = 5,     /* malloc or realloc returned NULL */
    CAPT_MISUSE = 6,     /* the handle isn't open or is of other calls, there are no files or more than 32, there is no
                            room for a packet or a byte, no packet has such numbers, or the call doesn't take a flag or
                            another option */
    CAPT_MORE = 7,       /* of a reader that is fed: more bytes are wanted to tell what comes next */
    CAPT_PIECE = 8,      /* of a job: the next bytes of its text came */
    CAPT_DIFFERENCE = 9, /* of a job, all of whose text came: CAPT_DIFF found a difference */
    CAPT_NOT_WHOLE = 10  /* of a job, all of whose text came: CAPT_DIGEST or CAPT_CHECK found a file that isn't whole */
};

/* What a call is asked for. */
enum capt_flag {
    CAPT_ALLOW_CUT = 1, /* a last record or block that is cut off is dropped; without it, it is refused */
    CAPT_BIG = 2,       /* the numbers of what is written are big-endian; without it, little-endian */
    CAPT_TO_PCAP = 4,   /* a pcap file is written; without it, a pcapng file of one section */
    CAPT_IPV6 = 8,      /* a report also has the conversations of IPv6, and `not-ip` in place of `not-ipv4` */
    /* of jobs alone: each asks for what the program's option of that name does */
    CAPT_JSON = 16,             /* --json: JSON Lines */
    CAPT_CLASS = 32,            /* --class */
    CAPT_SHARE_INTERFACES = 64, /* --share-interfaces */
    CAPT_WITH_DIGEST = 128,     /* --digest */
    CAPT_IGNORE_TIME = 256,     /* --ignore time */
    CAPT_IGNORE_LINK = 512,     /* --ignore link */
    CAPT_IGNORE_ORIGINAL = 1024 /* --ignore original */
};

/* The commands of the program capt. */
enum capt_command {
    CAPT_LIST = 1,
    CAPT_BLOCKS = 2,
    CAPT_INFO = 3,
    CAPT_REPORT = 4,
    CAPT_CONVERT = 5,
    CAPT_MERGE = 6,
    CAPT_JOIN = 7,
    CAPT_DIFF = 8,
    CAPT_DIGEST = 9,
    CAPT_CHECK = 10
};

/* The form of the times that a command prints. */
enum capt_times {
    CAPT_TIMES_EXACT = 0,   /* 2+500000/1000000 */
    CAPT_TIMES_DECIMAL = 1, /* 2.500000 */
    CAPT_TIMES_UTC = 2      /* 1970-01-01T00:00:02.500000Z */
};

/* The unit of time of the pcap file that a command writes. */
enum capt_unit {
    CAPT_UNIT_OWN = 0, /* microseconds if they can hold each unit of its first interface, else nanoseconds */
    CAPT_UNIT_MICRO = 1,
    CAPT_UNIT_NANO = 2
};

/* No bytes of a packet are shown. */
#define CAPT_NO_DATA UINT32_MAX

/* The rules that a capture can break (docs/RULES.md); capt_rule_name has their names. A later version may have more. */
enum capt_rule {
    CAPT_RULE_MAGIC = 1,
    CAPT_RULE_VERSION = 2,
    CAPT_RULE_CUT = 3,
    CAPT_RULE_PACKET_LONG = 4,
    CAPT_RULE_BLOCK_LENGTH = 5,
    CAPT_RULE_BLOCK_TRAILER = 6,
    CAPT_RULE_ORDER_MAGIC = 7,
    CAPT_RULE_CAPTURED = 8,
    CAPT_RULE_INTERFACE_UNKNOWN = 9,
    CAPT_RULE_OPTION_END = 10,
    CAPT_RULE_OPTION_LENGTH = 11,
    CAPT_RULE_RESOLUTION = 12,
    CAPT_RULE_INTERFACE_LIMIT = 13,
    CAPT_RULE_FILE_LIMIT = 14,
    CAPT_RULE_OPEN_LIMIT = 15,
    CAPT_RULE_TALK_LIMIT = 16,
    CAPT_RULE_NO_TIME = 17,
    CAPT_RULE_LINK_MIXED = 18,
    CAPT_RULE_INEXACT = 19,
    CAPT_RULE_TIME_RANGE = 20,
    CAPT_RULE_NO_INTERFACE = 21
};

/* The link types, of the LINKTYPE registry, whose frames CAPT_REPORT and CAPT_JOIN look into. A packet can have any
 * other. */
enum capt_link {
    CAPT_LINK_ETHERNET = 1,
    CAPT_LINK_RAW = 101,
    CAPT_LINK_LINUX_SLL = 113,
    CAPT_LINK_IPV4 = 228,
    CAPT_LINK_IPV6 = 229, /* only with CAPT_IPV6 */
    CAPT_LINK_LINUX_SLL2 = 276
};

/* Where a capture is refused, or where a read failed. All are 0 after any other status but CAPT_MISUSE, which leaves
 * it. */
typedef struct {
    uint64_t offset; /* where the header, the record or the block begins, in bytes; after CAPT_READ in capt_file.h, how
                        many bytes were fed */
    uint32_t file;   /* the number of the file, from 1 */
    uint32_t rule;   /* the rule that is broken, from 1 to 21, of enum capt_rule; 0 after CAPT_READ */
} capt_place;

/* A packet. Its time is exactly carry * 2^64 + seconds + numerator/denominator since 1970-01-01 00:00 UTC. Of its
 * interface are `instance`, `resolution`, `time_offset`, `snaplen` and `link`. */
typedef struct {
    const uint8_t *frame; /* `captured` bytes, until the next call with this reader */
    uint64_t offset;      /* where its record or block begins, in bytes */
    uint64_t instance;    /* how many interface blocks of the file stand before its own interface's; 0 in a pcap file */
    int64_t seconds;      /* whole seconds, rounded down */
    uint64_t numerator;   /* below the denominator */
    uint64_t denominator; /* 0 if the packet has no time */
    uint64_t resolution;  /* how many units of time its interface counts in a second, even if the packet has no time */
    int64_t time_offset;  /* the second from which its interface counts, which `seconds` includes; 0 in a pcap file */
    uint32_t carry;       /* add carry * 2^64 to `seconds`: 0 before the year 292,277,026,596 */
    uint32_t captured;    /* how many of its bytes were captured, at most 262,144 */
    uint32_t original;    /* how many bytes it had */
    uint32_t snaplen;     /* the most bytes that its interface captures; 0 for no limit */
    uint32_t link;        /* the link type of its interface, of the LINKTYPE registry */
} capt_packet;

/* How a capture ended. */
typedef struct {
    uint64_t skipped; /* how many blocks are neither sections, interfaces nor packets; 0 in a pcap file */
    bool is_pcapng;   /* whether it is a pcapng file, and no pcap file */
    bool was_cut;     /* whether a cut rest was dropped, as CAPT_ALLOW_CUT asks */
} capt_ending;

/* An exact time: carry * 2^64 + seconds + numerator/denominator since 1970-01-01 00:00 UTC. */
typedef struct {
    int64_t seconds;      /* whole seconds, rounded down */
    int64_t carry;        /* add carry * 2^64 to `seconds`: 0 before the year 292,277,026,596 */
    uint64_t numerator;   /* below the denominator */
    uint64_t denominator; /* 0 if there is no time */
} capt_time;

/* Some packets, and the sum of their original lengths: carry * 2^64 + bytes. */
typedef struct {
    uint64_t packets;
    uint64_t bytes;
    uint64_t carry; /* add carry * 2^64 to `bytes`: 0 below 18 exabytes */
} capt_traffic;

/* An end of a conversation. */
typedef struct {
    uint8_t address[16]; /* in network order: of IPv4 the first 4 bytes, and 12 zeros */
    uint16_t port;       /* 0 if the protocol has none */
    uint8_t version;     /* 4 or 6 */
    bool has_port;       /* whether the protocol has ports */
} capt_endpoint;

/* A conversation, as a line `talk` of a report has it. The two ends have the same version. */
typedef struct {
    capt_endpoint a;      /* the lesser end */
    capt_endpoint b;      /* the other end */
    uint8_t protocol;      /* 6 TCP, 17 UDP, or another number (IANA) */
    capt_traffic forward;  /* from a to b */
    capt_traffic backward; /* from b to a */
    capt_time first;       /* the least time of its packets */
    capt_time last;        /* the greatest time of its packets */
} capt_talk;

/* The format of a file. */
enum capt_format {
    CAPT_FORMAT_UNKNOWN = 0, /* no packet was taken of it so far */
    CAPT_FORMAT_PCAP = 1,
    CAPT_FORMAT_PCAPNG = 2
};

/* What is counted of a file, as its line `file` has it. */
typedef struct {
    capt_traffic all;   /* its packets */
    uint64_t truncated; /* how many of them had more bytes than were captured */
    uint64_t skipped;   /* how many blocks are neither sections, interfaces nor packets; 0 in a pcap file */
    capt_time first;    /* the least time of its packets */
    capt_time last;     /* the greatest time of its packets */
    uint32_t format;    /* of enum capt_format */
    bool was_cut;       /* whether a cut rest was dropped */
} capt_file_counts;

/* What is counted of all packets, as the lines `total`, `frames`, `joined`, `talks` and `files` have it. */
typedef struct {
    capt_traffic all;    /* the packets */
    uint64_t truncated;  /* how many of them had more bytes than were captured */
    uint64_t other_link; /* those of each class of the line `frames` */
    uint64_t not_ip;     /* `not-ip` with CAPT_IPV6, and `not-ipv4` without it */
    uint64_t too_short;  /* `short` */
    uint64_t cut;
    uint64_t bad;
    uint64_t unjoined;
    uint64_t counted;
    uint64_t joined;   /* how many datagrams were joined */
    uint64_t given_up; /* how many groups of fragments were given up */
    uint64_t talks;    /* how many conversations there are */
    uint32_t files;    /* how many files there are */
} capt_totals;

/* A capture that is read packet by packet. */
typedef struct {
    struct {
        void *at;
    } kept;
    bool is_open;
} capt_reader;

/* A table of a report, which takes the packets of captures one by one. */
typedef capt_reader capt_table;

/* A capture file that is written packet by packet, in memory. */
typedef capt_reader capt_writer;

/* A command over captures in memory, whose text is read piece by piece. */
typedef capt_reader capt_job;

/* What a command is asked for: {0} for what the program does without options. */
typedef struct {
    uint32_t flags; /* of enum capt_flag */
    uint32_t data;  /* --data: how many bytes of a packet are shown at most, up to 262,144; 0 for 16, CAPT_NO_DATA for
                       none */
    uint32_t top;   /* --top: how many conversations have a line at most, those with the most bytes; 0 for all */
    uint32_t times; /* --time: of enum capt_times */
    uint32_t unit;  /* --unit: of enum capt_unit */
} capt_options;

/* A text that the library made: `len` bytes at `at`, with no zero after them. */
typedef struct {
    const uint8_t *at;
    size_t len;
    capt_reader handle;
} capt_text;

/* A file in memory: `len` bytes at `at`. */
typedef struct {
    const uint8_t *at;
    size_t len;
} capt_bytes;

/* Opens the capture of those bytes. Flags: CAPT_ALLOW_CUT. Nothing is read yet. The calls for its packets copy the
 * bytes part by part into what the reader holds. CAPT_DONE, CAPT_MEMORY or CAPT_MISUSE. */
uint32_t capt_open(capt_reader *reader, const uint8_t *at, size_t len, uint32_t flags);

/* The same of standard input, read by read(2) until capt_close, past any buffer of <stdio.h>. Any error of read(2) ends
 * it with CAPT_READ, EINTR and EAGAIN too: no read is made again, unlike those of capt_file.h. Flags:
 * CAPT_ALLOW_CUT. */
uint32_t capt_open_stdin(capt_reader *reader, uint32_t flags);

/* Opens a capture whose bytes you feed, in pieces cut anywhere, as they come out of a pipe or a socket. Flags:
 * CAPT_ALLOW_CUT. CAPT_DONE, CAPT_MEMORY or CAPT_MISUSE. */
uint32_t capt_open_fed(capt_reader *reader, uint32_t flags);

/* Feeds the next bytes of it, which are copied; the frame of the last packet goes. CAPT_DONE; CAPT_MEMORY, after which
 * nothing was fed; or CAPT_MISUSE after capt_feed_end, or if the reader isn't one of capt_open_fed. Ask for packets
 * until CAPT_MORE before you feed again, and it keeps no more than 1 MiB and a piece. Once nothing comes of the capture
 * any more, nothing of them is kept. */
uint32_t capt_feed(capt_reader *reader, const uint8_t *at, size_t len);

/* Says that all bytes were fed. CAPT_DONE, or CAPT_MISUSE if the reader isn't one of capt_open_fed. */
uint32_t capt_feed_end(capt_reader *reader);

/* The next packet. CAPT_PACKET; CAPT_DONE, CAPT_REFUSED or CAPT_READ, each of which every further call returns again;
 * CAPT_MORE of a reader that is fed, until more was fed or capt_feed_end said that no more comes; or CAPT_MEMORY,
 * after which the call may be made again. `packet` is changed by CAPT_PACKET alone. What was fed in which pieces
 * changes nothing of the packets, nor of a refusal. */
uint32_t capt_next(capt_reader *reader, capt_packet *packet, capt_place *place);

/* The next packets, up to `room` of them, which is at least 1: one, and those after it that need no further read.
 * `count` says how many came, and no others of `packets` are changed. The rest is as of capt_next; each frame stays
 * until the next call with this reader. CAPT_MISUSE of a reader that is fed. */
uint32_t capt_next_many(capt_reader *reader, capt_packet *packets, size_t room, size_t *count, capt_place *place);

/* How the capture ended, once capt_next or capt_next_many has returned CAPT_DONE, of a reader that is fed too; else
 * CAPT_MISUSE, which leaves `ending`. */
uint32_t capt_end(capt_reader *reader, capt_ending *ending);

/* Lets go what the reader, the table, the writer or the job holds. */
void capt_close(capt_reader *reader);

/* The report of CAPT_REPORT step by step. Opens a table of 1 to 32 captures. Flags: CAPT_ALLOW_CUT and CAPT_IPV6.
 * CAPT_DONE, CAPT_MEMORY or CAPT_MISUSE. */
uint32_t capt_table_open(capt_table *table, const capt_bytes *files, size_t count, uint32_t flags);

/* Takes the packet that comes next in the order of exact time. CAPT_PACKET; CAPT_DONE or CAPT_REFUSED, each of which
 * every further call returns again; or CAPT_MEMORY, after which nothing was taken, and the call may be made again. */
uint32_t capt_table_step(capt_table *table, capt_place *place);

/* The report over the packets that were taken so far: that of CAPT_REPORT after CAPT_DONE. Before it, and after
 * CAPT_REFUSED, a file of which no packet was taken has the format `-`, and no line says `cut`. CAPT_DONE, CAPT_MEMORY
 * or CAPT_MISUSE. */
uint32_t capt_table_write(capt_table *table, capt_text *text, capt_place *place);

/* The same as data, at any time. A conversation by its place in the order of the lines, from 0: it keeps its place when
 * more packets are taken. A file by its number, from 1. CAPT_DONE; or CAPT_MISUSE if there is none, which leaves the
 * struct. For all conversations call capt_table_talk from place 0 until CAPT_MISUSE. */
uint32_t capt_table_talk(capt_table *table, size_t place, capt_talk *talk);
uint32_t capt_table_file(capt_table *table, uint32_t number, capt_file_counts *file);
uint32_t capt_table_totals(capt_table *table, capt_totals *totals);

/* Opens a job: a command, of enum capt_command, over captures in memory. CAPT_LIST, CAPT_BLOCKS and CAPT_CONVERT take
 * one file, CAPT_DIFF two, the others 1 to 32. Its text is what the program prints or writes for the same options, byte
 * for byte, but that the lines of CAPT_DIGEST and CAPT_CHECK don't name their files, in JSON either. A command takes
 * CAPT_ALLOW_CUT and these options:
 *
 *     CAPT_LIST      CAPT_JSON, with it data; CAPT_CLASS, with it CAPT_IPV6; times
 *     CAPT_BLOCKS    CAPT_JSON
 *     CAPT_INFO      CAPT_JSON; times
 *     CAPT_REPORT    CAPT_JSON; CAPT_IPV6; top; times
 *     CAPT_CONVERT   CAPT_BIG; CAPT_TO_PCAP, with it unit
 *     CAPT_MERGE     CAPT_BIG; CAPT_TO_PCAP, with it unit; without it CAPT_SHARE_INTERFACES
 *     CAPT_JOIN      CAPT_BIG; CAPT_TO_PCAP, with it unit
 *     CAPT_DIFF      CAPT_JSON, with it data; CAPT_IGNORE_TIME, CAPT_IGNORE_LINK, CAPT_IGNORE_ORIGINAL; times
 *     CAPT_DIGEST    CAPT_JSON
 *     CAPT_CHECK     CAPT_JSON; CAPT_WITH_DIGEST; times
 *
 * CAPT_DONE; CAPT_MEMORY; or CAPT_MISUSE, also for an option that the command doesn't take. CAPT_LIST and CAPT_BLOCKS
 * make their text as it is read; the other commands read their files, and make their text, in this call. */
uint32_t capt_job_open(capt_job *job, uint32_t command, const capt_bytes *files, size_t count,
                       const capt_options *options);

/* The next bytes of a job's text: CAPT_PIECE, and `len` says how many were put into the buffer, at least 1 and at most
 * `room`, which is at least 1. Once all came, each further call returns how the job ended: CAPT_DONE, CAPT_DIFFERENCE,
 * CAPT_NOT_WHOLE or CAPT_REFUSED. If a capture is refused, the text of CAPT_INFO, CAPT_REPORT and CAPT_DIFF is empty,
 * and that of the others is what comes before the refusal. After CAPT_MEMORY the call may be made again, and no byte is
 * lost. CAPT_MISUSE if the handle isn't an open job, or if there is no room. `len` is 0 after any status but CAPT_PIECE
 * and CAPT_MISUSE, and the call changes no bytes of the buffer but those that came. */
uint32_t capt_job_read(capt_job *job, uint8_t *buffer, size_t room, size_t *len, capt_place *place);

/* Lets go a text. */
void capt_text_close(capt_text *text);

/* Opens a capture file that you write packet by packet, in memory. What capt_writer_take gives of it, one text after
 * another, is the file that the command `capt merge --share-interfaces` writes of these packets in this order, or with
 * CAPT_TO_PCAP `capt merge --to pcap`; before its first packet a pcap file has no byte. Flags: CAPT_BIG and
 * CAPT_TO_PCAP. CAPT_DONE, CAPT_MEMORY or CAPT_MISUSE. */
uint32_t capt_writer_open(capt_writer *writer, uint32_t flags);

/* Puts a packet at the end of the file. Its captured bytes are the `len` bytes at `frame`: `frame` and `captured` of a
 * packet that you read, fewer, or others; the call doesn't look at these two fields of `packet`. The other fields are
 * as capt_next fills them in, even for a packet that you make; `offset` is only for a refusal, `instance` isn't used.
 *
 * A pcapng file gets the packet's interface (link, snaplen, resolution and time_offset) first, if it has none like it;
 * a resolution of 1 is written as 10^0.
 * The header of a pcap file comes with the first packet, and has the link and the snaplen of that one; its times have
 * microseconds if they can hold each unit of that packet's interface, else nanoseconds.
 *
 * CAPT_DONE. CAPT_REFUSED if the file can't hold the packet exactly: by the rules no-time and interface-limit in a
 * pcapng file, no-time, link-mixed, inexact and time-range in a pcap file; `place` has the packet's offset, and file 1.
 * CAPT_MEMORY. After the last two the file is as it was. CAPT_MISUSE also if no packet has such fields: the link is
 * above 65,535, `len` is above 262,144, the resolution is neither a power of 10 up to 10^19 nor one of 2 up to 2^63,
 * the denominator is neither 0 nor the resolution; or, unless it is 0, the numerator isn't below it, or the time is
 * before time_offset, or more than 64 bits of units after it. */
uint32_t capt_writer_put(capt_writer *writer, const capt_packet *packet, const uint8_t *frame, size_t len,
                         capt_place *place);

/* Takes out what was written since the last call, as a text; the file goes on. CAPT_DONE; CAPT_MEMORY, after which the
 * text is {0}, nothing was taken, and the call may be made again; or CAPT_MISUSE. */
uint32_t capt_writer_take(capt_writer *writer, capt_text *text);

/* Put as many bytes of a text into the buffer as it has room for, leave those behind them, and return how long the
 * text is. capt_error_text puts the line that capt prints for CAPT_REFUSED, CAPT_READ or CAPT_MEMORY, with its end, as
 * "refused: file 1 offset 24 rule 6 block-trailer\n". For every other status of enum capt_status, CAPT_MISUSE too, and
 * for CAPT_REFUSED with no rule in `place`, it puts nothing and returns 0. capt_rule_name puts the name of a rule, as
 * "block-trailer", or returns 0 if there is no such rule; capt_version puts the version of the library, as "1.0.0". */
size_t capt_error_text(uint32_t status, const capt_place *place, uint8_t *buffer, size_t room);
size_t capt_rule_name(uint32_t rule, uint8_t *buffer, size_t room);
size_t capt_version(uint8_t *buffer, size_t room);

/* The version of the library as a number, in the form of CAPT_VERSION_NUMBER. */
uint32_t capt_version_number(void);

#ifdef __cplusplus
}
#endif
#endif
