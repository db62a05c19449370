/* capt_file.h: the packets of a file, a pipe or a socket, read piece by piece by read(2) and the calls of capt.h.
 *
 * * Everything here is `static inline`, for C and C++, and needs POSIX. It rests on tests; what it calls is proved.
 *
 * * A capt_file belongs to you, as a capt_reader does. Set it to {0} before its first call, let only these calls change
 * it, don't copy it, and close it. It has room for 64 KiB: make it `static`, or take it from malloc, if the stack is
 * small.
 *
 * * EINTR. A read that a signal interrupts is made again.
 *
 * * EAGAIN. If the descriptor doesn't wait and has no bytes yet, capt_file_next returns CAPT_MORE, which isn't the end:
 * wait by poll(2), and call it again. */
#ifndef CAPT_FILE_H
#define CAPT_FILE_H

#include "capt.h"
#include <errno.h>
#include <fcntl.h>
#include <unistd.h>

#ifdef O_CLOEXEC
#define CAPT_FILE_OPEN (O_RDONLY | O_CLOEXEC)
#else
#define CAPT_FILE_OPEN O_RDONLY
#endif

#ifdef __cplusplus
extern "C" {
#endif

/* A capture that is read from a descriptor. */
typedef struct {
    capt_reader reader;
    int descriptor;  /* from which it is read */
    int error;       /* after CAPT_READ the errno of open(2) or read(2) */
    bool owns;       /* whether closing it closes the descriptor */
    uint64_t offset; /* how many bytes were fed to the reader */
    size_t len;      /* how many bytes of `piece` were read and aren't fed yet */
    uint8_t piece[65536];
} capt_file;

/* For the calls below: opens a reader, if it takes the flags, and closes what the file held. */
static inline uint32_t capt_file_start(capt_file *file, uint32_t flags) {
    uint32_t status = capt_open_fed(&file->reader, flags);
    if (status == CAPT_MISUSE) return status;
    if (file->owns) close(file->descriptor);
    file->descriptor = -1;
    file->error = 0;
    file->owns = false;
    file->offset = 0;
    file->len = 0;
    return status;
}

/* Opens the capture that a descriptor gives from where it is to its end. The descriptor stays yours, and open. Flags:
 * CAPT_ALLOW_CUT. CAPT_DONE, CAPT_MEMORY or CAPT_MISUSE. What the file held is closed, unless it is CAPT_MISUSE. */
static inline uint32_t capt_file_from(capt_file *file, int descriptor, uint32_t flags) {
    uint32_t status = capt_file_start(file, flags);
    if (status == CAPT_DONE) file->descriptor = descriptor;
    return status;
}

/* The same of the file of that name, which is opened by open(2) and closed by capt_file_close. CAPT_READ if open(2)
 * fails: `error` says why. */
static inline uint32_t capt_file_open(capt_file *file, const char *name, uint32_t flags) {
    uint32_t status = capt_file_start(file, flags);
    if (status != CAPT_DONE) return status;
    do file->descriptor = open(name, CAPT_FILE_OPEN);
    while (file->descriptor < 0 && errno == EINTR);
    if (file->descriptor >= 0) {
        file->owns = true;
        return CAPT_DONE;
    }
    file->error = errno;
    capt_close(&file->reader);
    return CAPT_READ;
}

/* For the call below: reads a piece, unless there is one that wasn't fed for want of memory, and feeds it. After the
 * last byte it ends the feeding. */
static inline uint32_t capt_file_feed(capt_file *file, capt_place *place) {
    uint32_t status;
    ssize_t len;
    if (file->len == 0) {
        do len = read(file->descriptor, file->piece, sizeof file->piece);
        while (len < 0 && errno == EINTR);
        if (len == 0) return capt_feed_end(&file->reader);
#if EAGAIN != EWOULDBLOCK
        if (len < 0 && errno == EWOULDBLOCK) return CAPT_MORE;
#endif
        if (len < 0 && errno == EAGAIN) return CAPT_MORE;
        if (len < 0) {
            file->error = errno;
            place->file = 1;
            place->offset = file->offset;
            return CAPT_READ;
        }
        file->len = (size_t)len;
    }
    status = capt_feed(&file->reader, file->piece, file->len);
    if (status == CAPT_DONE) {
        file->offset += file->len;
        file->len = 0;
    }
    return status;
}

/* The next packet, as capt_next has it of a reader that is fed; its frame stays until the next call with this file.
 * CAPT_PACKET; CAPT_DONE at the end, or CAPT_REFUSED, each of which every further call returns again; CAPT_MORE if the
 * descriptor has no bytes yet; CAPT_READ if read(2) fails: `error` says why, and `place` at which offset; or
 * CAPT_MEMORY. After the last three the call may be made again. CAPT_MISUSE of a file that isn't open. */
static inline uint32_t capt_file_next(capt_file *file, capt_packet *packet, capt_place *place) {
    uint32_t status;
    while ((status = capt_next(&file->reader, packet, place)) == CAPT_MORE) {
        status = capt_file_feed(file, place);
        if (status != CAPT_DONE) break;
    }
    return status;
}

/* How the capture ended, once capt_file_next has returned CAPT_DONE; else CAPT_MISUSE, which leaves `ending`. */
static inline uint32_t capt_file_end(capt_file *file, capt_ending *ending) { return capt_end(&file->reader, ending); }

/* Closes it. Closing it twice does nothing. */
static inline void capt_file_close(capt_file *file) {
    capt_close(&file->reader);
    if (file->owns) close(file->descriptor);
    file->descriptor = 0;
    file->error = 0;
    file->owns = false;
    file->offset = 0;
    file->len = 0;
}

#ifdef __cplusplus
}
#endif
#endif
