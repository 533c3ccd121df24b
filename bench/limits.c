// Times the sequential run through the crate benchlib, beside plain copies of as many bytes as a run has.
//   limits time BYTES          calls of a hand run of the 127-task tree, and ratios to a copy
//   limits hand|open|copy N    N of them and nothing else, to count instructions
//   limits deep                one hand run of 32 bodies, each spawning the next
#include <stdint.h>
#include <stdio.h>
#include <stdlib.h>
#include <string.h>
#include <time.h>

// A slice passes as a pointer and a length.
size_t bench_open(const uint8_t *list, size_t bytes, const uint32_t *memory, size_t numbers);
uint32_t bench_sequential(const uint8_t *list, size_t bytes, const uint32_t *memory, size_t numbers);

static uint8_t list[4805];
static size_t length;
static const uint32_t memory[1];

static void put(int n, const uint8_t *bytes) {
    memcpy(list + length, bytes, n);
    length += n;
}

// `bodies` bodies, each but the last spawning the next `times` times.
static void make_list(uint8_t bodies, uint8_t times) {
    put(8, (uint8_t[]){0x4A, 0x48, 1, 1, bodies, 0x4A, 0x46, 0});
    for (uint8_t s = 0; s < bodies; s++) {
        uint8_t count = s + 1 < bodies ? times : 0;
        put(3, (uint8_t[]){0x4A, 0x42, count});
        for (uint8_t i = 0; i < count; i++) put(4, (uint8_t[]){7, s + 1, 0, 0});
    }
}

static uint32_t hand(void) { return bench_sequential(list, length, memory, 1); }
static size_t fresh(void) { return bench_open(list, length, memory, 1); }

static uint8_t from[1 << 16], to[1 << 16];
static void copy(size_t bytes) {
    memcpy(to, from, bytes);
    __asm__ volatile("" : : "r"(to), "r"(from) : "memory");
}

static double now(void) {
    struct timespec t;
    clock_gettime(CLOCK_PROCESS_CPUTIME_ID, &t);
    return t.tv_sec * 1e9 + t.tv_nsec;
}

static int compare(const void *a, const void *b) {
    double x = *(const double *)a, y = *(const double *)b;
    return (x > y) - (x < y);
}

enum { ROUNDS = 21, TIMES = 40 };

static void times(size_t bytes) {
    uint32_t calls = hand();
    double ratio[ROUNDS], cost[ROUNDS], plain[ROUNDS];
    for (int round = 0; round < ROUNDS; round++) {
        double a = now();
        for (int i = 0; i < TIMES; i++) hand();
        double b = now();
        for (int i = 0; i < TIMES; i++) fresh();
        double c = now();
        for (int i = 0; i < TIMES * 100; i++) copy(bytes);
        double d = now();
        cost[round] = ((b - a) - (c - b)) / TIMES / calls;
        plain[round] = (d - c) / (TIMES * 100);
        ratio[round] = cost[round] / plain[round];
    }
    qsort(ratio, ROUNDS, sizeof *ratio, compare);
    qsort(cost, ROUNDS, sizeof *cost, compare);
    qsort(plain, ROUNDS, sizeof *plain, compare);
    printf("%u %.0f %.0f %.2f\n", calls, cost[ROUNDS / 2], plain[ROUNDS / 2], ratio[ROUNDS / 2]);
}

int main(int n, char **words) {
    if (n < 2) return 2;
    int deep = !strcmp(words[1], "deep");
    make_list(deep ? 32 : 7, deep ? 1 : 2);
    size_t count = n > 2 ? strtoul(words[2], 0, 10) : 0;
    if (deep) return hand() == 95 ? 0 : 1;
    if (!strcmp(words[1], "time")) times(count);
    if (!strcmp(words[1], "hand")) for (size_t i = 0; i < count; i++) hand();
    if (!strcmp(words[1], "open")) for (size_t i = 0; i < count; i++) fresh();
    if (!strcmp(words[1], "copy") && n > 3) for (size_t i = 0; i < strtoul(words[3], 0, 10); i++) copy(count);
    return 0;
}
