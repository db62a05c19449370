/* Faults of memory and of devices for a program that this is loaded into (LD_PRELOAD), as the environment names them:
 *
 *   FAULT_GROWTHS=FROM-UPTO   the requests for memory from number FROM, from 1, up to but without UPTO are refused
 *   FAULT_READ=FILE-CALL      a read of the open file FILE (a number) fails, the one of that number, from 1: an even one
 *                             because a signal came
 *   FAULT_WRITE=BYTES-HOW     after so many bytes writes fail: HOW 0, they take nothing; 1, the disk is full; 2, a signal
 *                             comes at the first of them, and the next goes on
 *   FAULT_PIECE=BYTES         a read gives, and a write takes, so many bytes at most
 *   FAULT_ENDLESS=1           after its end a file goes on with blocks of 4,294,967,292 bytes, of kind 5, without end
 *   FAULT_TOLD=FILE           for each fault a byte is written to that open file, and as the program ends a line: its
 *                             greatest resident memory in KiB, and how many blocks of memory it hasn't given back
 *
 * Standard error is left alone. */
#include <errno.h>
#include <fcntl.h>
#include <stdio.h>
#include <stdlib.h>
#include <string.h>
#include <sys/types.h>
#include <unistd.h>
#include <sys/syscall.h>

/* the C library's own, which these stand before */
extern void *__libc_malloc(size_t size);
extern void *__libc_realloc(void *block, size_t size);
extern void __libc_free(void *block);

static struct { long from, upto, file, call, bytes, how, piece, endless, told; } faults;
static int is_ready;

/* One number, or two with a dash between them, of a variable that is set. */
static void read_variable(const char *name, long *first, long *second) {
    const char *text = getenv(name);
    if (!text) return;
    char *end;
    *first = strtol(text, &end, 10);
    if (second && *end == '-') *second = strtol(end + 1, NULL, 10);
}

static void ready(void) {
    if (is_ready) return;
    is_ready = 1;
    faults.file = faults.bytes = faults.told = -1;
    read_variable("FAULT_GROWTHS", &faults.from, &faults.upto);
    read_variable("FAULT_READ", &faults.file, &faults.call);
    read_variable("FAULT_WRITE", &faults.bytes, &faults.how);
    read_variable("FAULT_PIECE", &faults.piece, NULL);
    read_variable("FAULT_ENDLESS", &faults.endless, NULL);
    read_variable("FAULT_TOLD", &faults.told, NULL);
}

static void tell(const char *text, size_t length) {
    if (faults.told >= 0 && syscall(SYS_write, (int)faults.told, text, length) < 0) abort();
}

static ssize_t fail(int error) {
    tell("f", 1);
    errno = error;
    return -1;
}

static size_t piece(size_t size) { return faults.piece && size > (size_t)faults.piece ? (size_t)faults.piece : size; }

static int is_refused(void) {
    static long requests;
    ready();
    requests++;
    return requests >= faults.from && requests < faults.upto;
}

static long blocks;

void *malloc(size_t size) {
    void *block = is_refused() ? (fail(ENOMEM), NULL) : __libc_malloc(size);
    blocks += block != NULL;
    return block;
}

void *realloc(void *block, size_t size) {
    void *moved = is_refused() ? (fail(ENOMEM), NULL) : __libc_realloc(block, size);
    blocks += block == NULL && moved != NULL;
    return moved;
}

void free(void *block) {
    blocks -= block != NULL;
    __libc_free(block);
}

/* The bytes of a block's head and trailer, one at a time; of its body as many as are asked for, which nobody looks at. */
static ssize_t go_on(unsigned char *bytes, size_t size) {
    static const unsigned char head[8] = {5, 0, 0, 0, 0xfc, 0xff, 0xff, 0xff};
    static const unsigned long total = 4294967292u;
    static unsigned long at;
    unsigned long body = at < 8 || at >= total - 4 ? 0 : total - 4 - at;
    if (size == 0) return 0;
    if (body == 0) *bytes = at < 8 ? head[at] : head[at - (total - 8)];
    size_t count = body == 0 ? 1 : body < size ? body : size;
    at = (at + count) % total;
    return (ssize_t)count;
}

ssize_t read(int file, void *bytes, size_t size) {
    static long calls;
    static int is_behind;
    ready();
    if (file == faults.file && ++calls == faults.call) return fail(calls % 2 ? EIO : EINTR);
    ssize_t count = is_behind ? 0 : syscall(SYS_read, file, bytes, piece(size));
    is_behind = count == 0 && faults.endless;
    return is_behind ? go_on(bytes, size) : count;
}

ssize_t write(int file, const void *bytes, size_t size) {
    static long taken;
    ready();
    size = piece(size);
    if (file == 2 || faults.bytes < 0) return syscall(SYS_write, file, bytes, size);
    if (size > 0 && taken >= faults.bytes) {
        fail(faults.how == 1 ? ENOSPC : EINTR);
        if (faults.how == 2) faults.bytes = -1;
        return faults.how == 0 ? 0 : -1;
    }
    if ((long)size > faults.bytes - taken) size = (size_t)(faults.bytes - taken);
    ssize_t count = syscall(SYS_write, file, bytes, size);
    taken += count > 0 ? count : 0;
    return count;
}

__attribute__((destructor)) static void tell_memory(void) {
    static char status[4096];
    char line[64];
    int file = faults.told >= 0 ? open("/proc/self/status", O_RDONLY) : -1;
    if (file < 0 || syscall(SYS_read, file, status, sizeof status - 1) < 0) return;
    const char *peak = strstr(status, "VmHWM:");
    if (peak) tell(line, (size_t)snprintf(line, sizeof line, "%ld %ld\n", atol(peak + 6), blocks));
}
