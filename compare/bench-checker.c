/* Times the checker on two sound tables of 65,536 cells: three quarters full of Murmur keys, and all keys of one home. */
#define _POSIX_C_SOURCE 200809L
#include <stdint.h>
#include <stdio.h>
#include <stdlib.h>
#include <time.h>

#define CELLS ((size_t)65536)

uint64_t bench_clear(uint64_t *words, size_t words_len, uint8_t *deltas, size_t deltas_len, uint64_t kind);
size_t bench_insert(uint64_t *words, size_t words_len, uint8_t *deltas, size_t deltas_len, uint64_t kind, size_t live, uint64_t key);
uint64_t bench_check(const uint64_t *words, size_t words_len, const uint8_t *deltas, size_t deltas_len, uint64_t kind, size_t live);

static uint64_t words[3 * 65536];
static uint8_t deltas[2 * 65536];

static double now(void) {
    struct timespec t;
    clock_gettime(CLOCK_MONOTONIC, &t);
    return (double)t.tv_sec * 1e3 + (double)t.tv_nsec / 1e6;
}

static int time_one(const char *name, uint64_t kind, size_t keys, uint64_t first, uint64_t step, int rounds) {
    size_t live = 0;
    double built = now();
    if (bench_clear(words, 3 * CELLS, deltas, 2 * CELLS, kind)) return 1;
    for (size_t j = 0; j < keys; j++) live = bench_insert(words, 3 * CELLS, deltas, 2 * CELLS, kind, live, first + step * j);
    built = now() - built;
    double best = 1e18;
    for (int r = 0; r < rounds; r++) {
        double start = now();
        if (bench_check(words, 3 * CELLS, deltas, 2 * CELLS, kind, live)) return printf("%s: not sound\n", name), 1;
        double took = now() - start;
        if (took < best) best = took;
    }
    printf("%s: %zu live keys, checked in %.2f ms (built in %.2f ms)\n", name, live, best, built);
    return live != keys;
}

int main(void) {
    int bad = time_one("three quarters full, Murmur", 2, CELLS / 4 * 3, 1, 0x9e3779b97f4a7c15u, 20);
    bad |= time_one("all keys of one home, Simple", 1, CELLS, CELLS + 1, CELLS, 1);
    return bad;
}
