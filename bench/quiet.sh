#!/usr/bin/env bash
# Whether the processors do as much as they can, or share their cores with work that this machine doesn't see. A line has, for
# each processor, all at once, the time of operations that don't wait for each other as a ratio to that of a multiplication
# and an addition that do. The first want all of a core, the second leave most of it idle: so the ratio is smallest if the core's
# other thread does nothing, and up to twice as large if it is busy. On an Intel Xeon it is 0.63 if nothing else runs there (ten operations, four
# at a time, beside four steps), and 0.95 to 1.3 if much does.
#
# It counts the time that the processors gave it, so it may also be asked beside work of this machine.
#
# Use: bench/quiet.sh [LINES]     (a line takes some two seconds; run it before, after and now and then during what is to be timed; it wants a C
# compiler)
set -eu
lines=${1:-3}
work=$(mktemp -d "${TMPDIR:-/tmp}/capt-quiet.XXXXXX")
trap 'rm -rf "$work"' EXIT
cat > "$work/quiet.c" <<'C'
#include <stdint.h>
#include <stdio.h>
#include <time.h>

static double now(void) {
    struct timespec at;
    clock_gettime(CLOCK_THREAD_CPUTIME_ID, &at);
    return at.tv_sec + at.tv_nsec / 1e9;
}

int main(void) {
    const long turns = 300000000;
    uint64_t a = 1, b = 2, c = 3, d = 4, e = 5, f = 6, g = 7, h = 8, x = 1;
    double start = now();
    for (long i = 0; i < turns; i++)
        __asm__ volatile("add $1, %0\n add $3, %1\n add $5, %2\n add $7, %3\n xor %0, %4\n xor %1, %5\n xor %2, %6\n xor %3, %7"
                         : "+r"(a), "+r"(b), "+r"(c), "+r"(d), "+r"(e), "+r"(f), "+r"(g), "+r"(h));
    double middle = now();
    for (long i = 0; i < turns; i++) {
        x = x * 6364136223846793005u + (uint64_t)i;
        __asm__ volatile("" : "+r"(x));
    }
    printf(" %.2f", (middle - start) / (now() - middle));
    return 0;
}
C
cc -O2 -o "$work/quiet" "$work/quiet.c"
for ((line = 0; line < lines; line++)); do
    for processor in $(seq 0 $(($(nproc) - 1))); do
        taskset -c "$processor" "$work/quiet" &
    done
    wait
    echo
done
