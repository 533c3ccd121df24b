// Measures the proved functions beside the fast ones of bench/fast and beside OpenMP, on the same inputs.
//   run compare FILE..     the fast functions give what the proved ones give, on these lists
//   run table ROUNDS       times, as a table
//   run count WHAT N       N times one of the inputs and nothing else, to count instructions
//   run lists FOLDER       the files of the program rounds for the tree and the dearest list, in FOLDER/tree and FOLDER/dearest
//   run rounds PROGRAM FOLDER N M    times of that program, N runs in FOLDER/tree, M in FOLDER/dearest; absolute paths
#include <stdint.h>
#include <stdio.h>
#include <stdlib.h>
#include <string.h>
#include <sys/resource.h>
#include <sys/wait.h>
#include <time.h>
#include <unistd.h>

#include "../include/preview.h"
#include "openmp.h"

// A slice passes as a pointer and a length.
size_t bench_open(const uint8_t *list, size_t bytes, const uint32_t *memory, size_t numbers);
uint32_t bench_sequential(const uint8_t *list, size_t bytes, const uint32_t *memory, size_t numbers);
uint32_t bench_replay(const uint8_t *list, size_t bytes, const uint32_t *memory, size_t numbers, const uint8_t *kinds, size_t many, const uint32_t *tasks, size_t count);
uint32_t bench_lent(const uint8_t *list, size_t bytes, const uint32_t *memory, size_t numbers, const uint8_t *input, size_t length);

uint32_t fast_check(const uint8_t *list, size_t bytes);
size_t fast_run_size(void);
uint32_t fast_hand_run(const uint8_t *list, size_t bytes, const uint32_t *memory, size_t numbers, const uint16_t *table, size_t weights, void *run);
uint32_t fast_calls(const void *run);
uint32_t fast_entry(const void *run, size_t entry);

static void *run;

static void fail(const char *words) {
    fprintf(stderr, "run: %s\n", words);
    exit(1);
}

// ---- inputs
static uint64_t state = 1;
static uint32_t drawn(uint32_t below) {
    state = state * 6364136223846793005u + 1442695040888963407u;
    return (uint32_t)(state >> 33) % below;
}

struct list {
    uint8_t bytes[4805];
    size_t length;
};

static void put(struct list *list, int n, const uint8_t *bytes) {
    memcpy(list->bytes + list->length, bytes, n);
    list->length += n;
}

// The longest list, 4,805 bytes: codes and fields are drawn; sheet 0 alone spawns.
static struct list longest(void) {
    struct list list = {.length = 0};
    put(&list, 5, (uint8_t[]){0x4A, 0x48, 64, 32, 32});
    for (int f = 0; f < 32; f++) {
        put(&list, 3, (uint8_t[]){0x4A, 0x46, 8});
        for (int i = 0; i < 8; i++) {
            uint8_t kind = drawn(6);
            put(&list, 2, (uint8_t[]){kind, drawn(kind < 2 || kind == 4 ? 64 : 4)});
        }
    }
    for (int s = 0; s < 32; s++) {
        put(&list, 3, (uint8_t[]){0x4A, 0x42, 32});
        for (int i = 0; i < 32; i++) {
            uint8_t code = drawn(12), a = drawn(4), b = drawn(4), c = drawn(4);
            if (code == 9) code = 12;
            if (code == 7 && s > 0) code = 8;
            if (code == 0) b = drawn(256), c = drawn(256);
            if (code > 3 && code < 11) c = 0;
            if (code == 6) b = drawn(32 - i);
            if (code == 7) a = 1 + drawn(31), b = drawn(32);
            if (code == 8) b = 0;
            put(&list, 4, (uint8_t[]){code, a, b, c});
        }
    }
    return list;
}

// "Seven sheets, each but the last spawning the next twice: 127 jobs."; each child reads entry 0 and writes entry 1.
static struct list tree(void) {
    struct list list = {.length = 0};
    put(&list, 12, (uint8_t[]){0x4A, 0x48, 2, 1, 7, 0x4A, 0x46, 2, 0, 0, 1, 1});
    for (uint8_t s = 0; s < 7; s++) {
        uint8_t count = s < 6 ? 2 : 0;
        put(&list, 3, (uint8_t[]){0x4A, 0x42, count});
        for (uint8_t i = 0; i < count; i++) put(&list, 4, (uint8_t[]){7, s + 1, 0, 0});
    }
    return list;
}

// The dearest list found for the rounds of request 111: 128 tasks and 4,352 calls, the most that a list can make.
// A round with two or more workers looks at every task that is held back, and each such look goes through all tasks ahead. So
// the list keeps as many as it can held back for as long as it can: 124 tasks that go one after the other, each 34 calls long.
// - Each reads or sums the same 8 entries, no two neighbours alike: a task is held back by the one ahead of it, and no look
//   ends early, as it would at a task of mode write. Which entries are summed is scattered, so that the branches of a look
//   are hard to foresee.
// - A sheet has room for 32 spawns. So sheets 0 to 3 spawn them, each the next of these sheets first: that task writes the
//   8 entries, stands at the front and so starts at once.
// - Sheet 0 ends with a wait, so that task 0 stays to the end and is looked at too.
static struct list dearest(void) {
    struct list list = {.length = 0};
    put(&list, 5, (uint8_t[]){0x4A, 0x48, 8, 32, 5});
    for (uint32_t f = 0; f < 32; f++) {
        uint8_t sums = f * 2654435761u >> 24; // another number for each f
        put(&list, 3, (uint8_t[]){0x4A, 0x46, 8});
        for (uint8_t e = 0; e < 8; e++) put(&list, 2, (uint8_t[]){f == 0 ? 1 : sums >> e & 1 ? 4 : 0, e});
    }
    static const uint8_t before[4] = {94, 63, 32, 0}; // tasks of the row that stand ahead of this sheet's
    for (uint8_t s = 0; s < 4; s++) {
        put(&list, 3, (uint8_t[]){0x4A, 0x42, 32});
        if (s < 3) put(&list, 4, (uint8_t[]){7, s + 1, 0, 0});
        for (uint8_t k = before[s]; k < (s ? before[s - 1] : 124); k++) put(&list, 4, (uint8_t[]){7, 4, 1 + k % 31, 0});
        if (s == 0) put(&list, 4, (uint8_t[]){8, 0, 0, 0});
    }
    put(&list, 3, (uint8_t[]){0x4A, 0x42, 32});
    for (int i = 0; i < 32; i++) put(&list, 4, (uint8_t[]){0, 0, 0, 0});
    return list;
}

// The calls of the tree's hand run, in order.
static uint8_t kinds[380], input[760];
static uint32_t tasks[380];
static size_t made;
static void call(uint8_t kind, uint32_t task) {
    kinds[made] = kind;
    tasks[made] = task;
    input[2 * made] = kind;
    input[2 * made + 1] = task;
    made++;
}
static uint32_t whole(uint32_t task, int depth) {
    uint32_t next = task + 1;
    call(0, task);
    for (int i = 0; i < 2 && depth < 6; i++) {
        call(1, task);
        next = whole(next, depth + 1);
    }
    call(2, task);
    return next;
}

// ---- what is measured; a piece that is lent holds 256 calls
enum { TASKS = 127, CALLS = 380, PIECE = 256, MOST_TASKS = 128, MOST_CALLS = 4352 };
static struct list big, small, dear;
static const uint32_t memory[64] = {5, 7};
// Today's weights: start, end, codes 0 to 12; over the C boundary as bytes.
enum { WEIGHTS = 15 };
static const uint16_t weights[WEIGHTS] = {5, 2, 1, 1, 1, 1, 3, 4, 1, 8, 1, 8, 4, 1, 1};
static const uint8_t weight_bytes[2 * WEIGHTS] = {5, 0, 2, 0, 1, 0, 1, 0, 1, 0, 1, 0, 3, 0, 4, 0, 1, 0, 8, 0, 1, 0, 8, 0, 4, 0, 1, 0, 1, 0};
static volatile uint32_t sink;

static void check_fast(void) { sink = fast_check(big.bytes, big.length); }
static void check_proved(void) { sink = preview_check(big.bytes, big.length); }
static void opened(void) { sink = bench_open(small.bytes, small.length, memory, 2); }
static void hand_fast(void) { sink = fast_hand_run(small.bytes, small.length, memory, 2, weights, WEIGHTS, run); }
static void hand_proved(void) { sink = bench_sequential(small.bytes, small.length, memory, 2); }
static void replayed(void) { sink = bench_replay(small.bytes, small.length, memory, 2, kinds, PIECE, tasks, PIECE); }
static void lent(void) { sink = bench_lent(small.bytes, small.length, memory, 2, input, 2 * PIECE); }

static void inputs(void) {
    big = longest();
    small = tree();
    dear = dearest();
    whole(0, 0);
    if (big.length != 4805 || made != CALLS) fail("an input is not what it should be");
    check_proved();
    if (sink == 0 || sink > 128) fail("the longest list is refused");
    if (fast_check(big.bytes, big.length) != sink) fail("the two checks of the longest list differ");
    hand_proved();
    if (sink != CALLS) fail("the hand run of the tree");
    hand_fast();
    if (sink != 0 || fast_calls(run) != CALLS) fail("the fast hand run of the tree");
    replayed();
    if (sink != PIECE) fail("the replay of the tree's calls");
    lent();
    if (sink != PIECE) fail("the lent calls of the tree");
    opened();
    if (sink != 1) fail("the opened tree");
    if (preview_check(dear.bytes, dear.length) != MOST_TASKS) fail("the dearest list");
    if (bench_sequential(dear.bytes, dear.length, memory, 8) != MOST_CALLS) fail("the hand run of the dearest list");
}

// ---- comparison
static int same(const uint8_t *list, size_t length) {
    uint32_t count = preview_check(list, length);
    if (fast_check(list, length) != count) return 0;
    size_t entries = length > 2 && list[2] <= 64 ? list[2] : 1; // an empty list has 1
    uint32_t numbers[64];
    uint8_t library[256], result[256];
    for (size_t i = 0; i < entries; i++) numbers[i] = drawn(8) ? drawn(64) : drawn(1u << 31);
    memcpy(library, numbers, sizeof numbers);
    uint32_t answer = preview_hand_run(list, length, library, 4 * entries, weight_bytes, sizeof weight_bytes, result, sizeof result);
    if (fast_hand_run(list, length, numbers, entries, weights, WEIGHTS, run) != answer) return 0;
    if (answer != 0) return 1;
    for (size_t i = 0; i < entries; i++) {
        uint32_t entry;
        memcpy(&entry, result + 4 * i, 4);
        if (fast_entry(run, i) != entry) return 0;
    }
    return fast_calls(run) == bench_sequential(list, length, numbers, entries);
}

static void compare(int n, char **names) {
    static uint8_t bytes[1 << 16];
    int accepted = 0, empty = 0;
    for (int i = 0; i < n; i++) {
        FILE *file = fopen(names[i], "rb");
        if (!file) fail(names[i]);
        size_t length = fread(bytes, 1, sizeof bytes, file);
        fclose(file);
        if (!same(bytes, length)) fail(names[i]);
        if (fast_check(bytes, length) <= 128) accepted++;
        if (length == 0) empty++;
    }
    printf("%d lists, %d of them accepted, %d empty: the fast check and hand run give what the proved ones give\n", n, accepted, empty);
}

// ---- the files of the program rounds
static const char *inside(const char *folder, const char *name) {
    static char path[4096];
    if (snprintf(path, sizeof path, "%s/%s", folder, name) >= (int)sizeof path) fail("a path is too long");
    return path;
}

static void written(const char *path, const void *bytes, size_t length) {
    FILE *file = fopen(path, "wb");
    if (!file || fwrite(bytes, 1, length, file) != length || fclose(file)) fail(path);
}

static void lists(const char *folder) {
    written(inside(folder, "tree/jobs.bin"), small.bytes, small.length);
    written(inside(folder, "tree/library.bin"), memory, 4 * 2);
    written(inside(folder, "dearest/jobs.bin"), dear.bytes, dear.length);
    written(inside(folder, "dearest/library.bin"), memory, 4 * 8);
}

// ---- times
static double now(clockid_t clock) {
    struct timespec t;
    clock_gettime(clock, &t);
    return t.tv_sec * 1e9 + t.tv_nsec;
}

static int order(const void *a, const void *b) {
    double x = *(const double *)a, y = *(const double *)b;
    return (x > y) - (x < y);
}

enum { MOST = 200 };
struct measure {
    double of[MOST];
};
enum { CHECK_FAST, CHECK_PROVED, HAND_FAST, HAND_PROVED, HAND_WALL, OPEN, REPLAY, LENT, OPENMP, OPENMP_WAITS, MEASURES };
static struct measure measures[MEASURES];
static int rounds;

// One thread's processor time, so that other programs count as little as they can.
static void measured(int which, int round, void (*what)(void), int times) {
    double begin = now(CLOCK_THREAD_CPUTIME_ID);
    for (int i = 0; i < times; i++) what();
    measures[which].of[round] = (now(CLOCK_THREAD_CPUTIME_ID) - begin) / times;
}

// OpenMP has two threads: time that passes, and the same of the hand run beside it.
static void walls(int which, int round, void (*what)(void), int times) {
    double begin = now(CLOCK_MONOTONIC);
    for (int i = 0; i < times; i++) what();
    measures[which].of[round] = (now(CLOCK_MONOTONIC) - begin) / times;
}

static void trees(int which, int round, int times, int waits) {
    double begin = now(CLOCK_MONOTONIC);
    if (openmp_trees(times, waits) != (unsigned)(times * TASKS)) fail("OpenMP's tree");
    measures[which].of[round] = (now(CLOCK_MONOTONIC) - begin) / times;
}

// The middle of the rounds, and the quarter below and above it.
struct spread {
    double low, middle, high;
};
static struct spread spread_of(const double *values) {
    double sorted[MOST];
    memcpy(sorted, values, rounds * sizeof *values);
    qsort(sorted, rounds, sizeof *sorted, order);
    return (struct spread){sorted[rounds / 4], sorted[rounds / 2], sorted[rounds - 1 - rounds / 4]};
}

// A row: both times in units of `parts`, less what opening takes where it is left out, and the ratio round by round.
static void row(const char *name, int one, int less, double one_parts, int other, int other_less, double other_parts, const char *goal) {
    double a[MOST], b[MOST], ratio[MOST];
    for (int i = 0; i < rounds; i++) {
        a[i] = (measures[one].of[i] - (less ? measures[OPEN].of[i] : 0)) / one_parts;
        b[i] = (measures[other].of[i] - (other_less ? measures[OPEN].of[i] : 0)) / other_parts;
        ratio[i] = a[i] / b[i];
    }
    struct spread r = spread_of(ratio);
    printf("%-52s %9.0f %9.0f %8.2f  %7.2f to %-7.2f %s\n", name, spread_of(a).middle, spread_of(b).middle, r.middle, r.low, r.high, goal);
}

static void calls(const char *name, int one, double parts) {
    double a[MOST];
    for (int i = 0; i < rounds; i++) a[i] = (measures[one].of[i] - measures[OPEN].of[i]) / parts;
    struct spread s = spread_of(a);
    printf("%-52s %9.0f %9.0f            %7.0f to %-7.0f\n", name, s.middle, 1e9 / s.middle, s.low, s.high);
}

static void table(void) {
    for (int i = 0; i < rounds; i++) {
        measured(CHECK_FAST, i, check_fast, 200);
        measured(CHECK_PROVED, i, check_proved, 100);
        measured(HAND_FAST, i, hand_fast, 200);
        measured(HAND_PROVED, i, hand_proved, 10);
        measured(OPEN, i, opened, 40);
        measured(REPLAY, i, replayed, 10);
        measured(LENT, i, lent, 10);
        walls(HAND_WALL, i, hand_proved, 10);
        trees(OPENMP, i, 20, 0);
        trees(OPENMP_WAITS, i, 20, 1);
    }
    printf("%-52s %9s %9s %8s  %-18s %s\n", "ns", "proved", "other", "ratio", "middle half", "goal");
    row("check of 4,805 bytes | fast Rust", CHECK_PROVED, 0, 1, CHECK_FAST, 0, 1, "1.5");
    row("hand run of 127 tasks, opening too | fast Rust", HAND_PROVED, 0, 1, HAND_FAST, 0, 1, "none");
    row("a task of that hand run | OpenMP", HAND_WALL, 0, TASKS, OPENMP, 0, TASKS, "1");
    row("a task of that hand run | OpenMP, same order", HAND_WALL, 0, TASKS, OPENMP_WAITS, 0, TASKS, "1");
    row("a call lent | a call of replay", LENT, 1, PIECE, REPLAY, 1, PIECE, "none");
    printf("%-52s %9s %9s %8s  %s\n", "accepted calls, opening left out", "ns a call", "a second", "", "middle half, ns");
    calls("  hand run: changes put in place", HAND_PROVED, CALLS);
    calls("  replay: try_start, try_step, try_end", REPLAY, PIECE);
    calls("  lent: start_in, step_in, end_in", LENT, PIECE);
}

// The user time of a program that is run here and prints into the file `table`, in seconds.
static double user_time(const char *program) {
    fflush(stdout);
    pid_t child = fork();
    if (child < 0) fail("no process");
    if (child == 0) {
        if (!freopen("table", "w", stdout)) _exit(127);
        execl(program, program, (char *)0);
        _exit(127);
    }
    int status;
    struct rusage used;
    if (wait4(child, &status, 0, &used) != child || status != 0) fail(program);
    return used.ru_utime.tv_sec + used.ru_utime.tv_usec / 1e6;
}

static void seconds(const char *name, const char *program, const char *folder, int times, unsigned calls, const char *goal) {
    double a[MOST];
    unsigned found;
    if (chdir(folder)) fail(folder);
    rounds = times;
    for (int i = 0; i < rounds; i++) a[i] = user_time(program);
    FILE *file = fopen("table", "r");
    if (!file || fscanf(file, "calls %u", &found) != 1 || found != calls) fail("the table of rounds has other calls");
    fclose(file);
    struct spread s = spread_of(a);
    printf("%-52s %9.3f %9s %8s  %7.3f to %-7.3f %s\n", name, s.middle, "", "", s.low, s.high, goal);
}

static void programs(const char *program, const char *folder, int trees, int dearests) {
    printf("%-52s %9s %9s %8s  %-18s %s\n", "the program rounds: all of its table, user time", "s", "", "", "middle half", "goal");
    seconds("  the tree of 127 tasks", program, inside(folder, "tree"), trees, CALLS, "0.1");
    seconds("  the dearest list found, 128 tasks", program, inside(folder, "dearest"), dearests, MOST_CALLS, "5");
}

static void count(const char *what, int times) {
    static const struct {
        const char *name;
        void (*what)(void);
    } all[] = {{"check_fast", check_fast}, {"check_proved", check_proved}, {"hand_fast", hand_fast}, {"hand_proved", hand_proved}, {"open", opened}, {"replay", replayed}, {"lent", lent}};
    for (size_t i = 0; i < sizeof all / sizeof *all; i++)
        if (!strcmp(what, all[i].name))
            for (int k = 0; k < times; k++) all[i].what();
}

int main(int n, char **words) {
    run = calloc(1, fast_run_size());
    if (n < 3 || !run) return 2;
    inputs();
    if (!strcmp(words[1], "compare")) compare(n - 2, words + 2);
    if (!strcmp(words[1], "table")) {
        rounds = atoi(words[2]);
        if (rounds < 4 || rounds > MOST) return 2;
        table();
    }
    if (!strcmp(words[1], "count") && n > 3) count(words[2], atoi(words[3]));
    if (!strcmp(words[1], "lists")) lists(words[2]);
    if (!strcmp(words[1], "rounds") && n > 5) {
        int trees = atoi(words[4]), dearests = atoi(words[5]);
        if (trees < 4 || trees > MOST || dearests < 4 || dearests > MOST) return 2;
        programs(words[2], words[3], trees, dearests);
    }
    return 0;
}
