// How long the C library's memchr takes where the byte that ends the search comes last, as the row "any of 1" of
// `crates/kernel_bench` times it:
//
//   cc -O2 bench/memchr.c -o /tmp/memchr && /tmp/memchr 200
//
// prints the least time of a search, in picoseconds, of so many rounds.
#include <stdint.h>
#include <stdio.h>
#include <stdlib.h>
#include <string.h>
#include <time.h>

enum { BYTES_TIMED = 1 << 20 };

static const size_t lengths[] = {8, 16, 80, 4096, 1 << 20};

// Read anew for each call, so that none is left out.
static void *(*volatile search)(const void *, int, size_t) = memchr;

static uint64_t nanoseconds(void) {
    struct timespec now;
    clock_gettime(CLOCK_MONOTONIC, &now);
    return (uint64_t)now.tv_sec * 1000000000 + (uint64_t)now.tv_nsec;
}

static uint64_t least_time(unsigned char *hays[2], size_t len, long rounds) {
    size_t times = BYTES_TIMED / len;
    uint64_t least = UINT64_MAX;
    for (long round = 0; round < rounds; round++) {
        uint64_t start = nanoseconds();
        for (size_t turn = 0; turn < times; turn++) {
            if (search(hays[turn % 2], 'z', len) == NULL) {
                return UINT64_MAX;
            }
        }
        uint64_t each = (nanoseconds() - start) * 1000 / times;
        least = each < least ? each : least;
    }
    return least;
}

int main(int count, char **words) {
    long rounds = count > 1 ? atol(words[1]) : 1;
    for (size_t i = 0; i < sizeof lengths / sizeof *lengths; i++) {
        size_t len = lengths[i];
        unsigned char *hays[2] = {malloc(len), malloc(len)};
        if (hays[0] == NULL || hays[1] == NULL) {
            return 1;
        }
        for (int copy = 0; copy < 2; copy++) {
            memset(hays[copy], 'a', len);
            hays[copy][len - 1] = 'z';
        }
        unsigned long long least = least_time(hays, len, rounds);
        printf("memchr, %zu bytes: %llu ps\n", len, least);
        free(hays[0]);
        free(hays[1]);
    }
    return 0;
}
