/* Times of the calls: for each number of pairs in the arguments a line for each call, its least
   time of some turns in nanoseconds a call. */
#define NDEBUG                  /* as a program that is delivered is built */
#define _POSIX_C_SOURCE 199309L // for clock_gettime
#include "sweep_bptree.h"
#include <stdio.h>
#include <stdlib.h>
#include <time.h>

enum { TURNS = 5, CALLS = 17, AT_ONCE = 1000, NEW = 10000 };

static uint64_t dice = 0x9e3779b97f4a7c15;

static uint64_t roll(void) {
    dice ^= dice << 13;
    dice ^= dice >> 7;
    dice ^= dice << 17;
    return dice;
}

static double now(void) {
    struct timespec t;
    clock_gettime(CLOCK_MONOTONIC, &t);
    return t.tv_sec * 1e9 + t.tv_nsec;
}

static void shuffle(uint64_t *keys, size_t n) {
    for (size_t i = n; i > 1; i--) {
        size_t j = roll() % i;
        uint64_t key = keys[i - 1];
        keys[i - 1] = keys[j];
        keys[j] = key;
    }
}

static const char *names[CALLS] = {"insert",
                                   "get",
                                   "rank",
                                   "at",
                                   "next",
                                   "range of 64, a pair",
                                   "remove",
                                   "load, a pair",
                                   "get of 1000 at once, a key",
                                   "rank of 1000 at once, a key",
                                   "contains of 1000 at once, a key",
                                   "at of 1000 at once, a key",
                                   "put of 10000 new keys at once, a key",
                                   "put of 10000 new keys one by one, a key",
                                   "del of these at once, a key",
                                   "del of these one by one, a key"};
static double least[CALLS];

static void took(int call, double start, size_t n) {
    double each = (now() - start) / n;
    if (!least[call] || each < least[call]) least[call] = each;
}

/* Keys that are not in a map are put into it and removed again: some at once, and others one by one. */
static uint64_t measure_new(bptree *map) {
    static uint64_t keys[NEW], others[NEW], values[NEW];
    static uint8_t found[NEW];
    uint64_t sum = 0, old = 0;
    for (size_t i = 0; i < NEW; i++) keys[i] = roll(), others[i] = roll();
    double start = now();
    sum += bptree_put_many(map, keys, NEW, values, NEW);
    took(12, start, NEW);
    start = now();
    for (size_t i = 0; i < NEW; i++) sum += bptree_put(map, others[i], i, &old);
    took(13, start, NEW);
    shuffle(keys, NEW), shuffle(others, NEW);
    start = now();
    bptree_del_many(map, keys, NEW, found, NEW);
    took(14, start, NEW);
    start = now();
    for (size_t i = 0; i < NEW; i++) sum += bptree_del(map, others[i], &old);
    took(15, start, NEW);
    return sum + found[0];
}

static uint64_t measure(size_t n) {
    uint64_t *keys = malloc(n * sizeof *keys), sum = 0, old = 0;
    bptree_pair *given = malloc(n * sizeof *given), pair, out[64];
    static uint64_t values[AT_ONCE], found_keys[AT_ONCE];
    static uint8_t found[AT_ONCE];
    static size_t ranks[AT_ONCE], indexes[AT_ONCE];
    if (!keys || !given) exit(2);
    for (size_t i = 0; i < n; i++) keys[i] = roll();
    // A turn of few pairs is over before the processor is at its speed, so they get more of them.
    for (int turn = 0; turn < (n < 100000 ? 20 * TURNS : TURNS); turn++) {
        bptree map = {0};
        size_t rank = 0;
        if (!bptree_new(&map)) exit(2);
        shuffle(keys, n);
        double start = now();
        for (size_t i = 0; i < n; i++) sum += bptree_put(&map, keys[i], i, &old);
        took(0, start, n);
        shuffle(keys, n);
        start = now();
        for (size_t i = 0; i < n; i++) sum += bptree_get(&map, keys[i], &old) + old;
        took(1, start, n);
        start = now();
        for (size_t i = 0; i < n; i++) sum += bptree_rank(&map, keys[i], &rank) + rank;
        took(2, start, n);
        start = now();
        for (size_t i = 0; i < n; i++) sum += bptree_at(&map, keys[i] % n, &pair) + pair.key;
        took(3, start, n);
        start = now();
        for (size_t i = 0; i < n; i++) sum += bptree_next(&map, keys[i], &pair) + pair.key;
        took(4, start, n);
        start = now();
        for (size_t i = 0; i < n; i += 64) sum += bptree_range(&map, keys[i], out, 64) + out[0].key;
        took(5, start, n);
        start = now();
        for (size_t i = 0; i + AT_ONCE <= n; i += AT_ONCE) {
            bptree_get_many(&map, keys + i, AT_ONCE, values, AT_ONCE, found, AT_ONCE);
            sum += values[0] + found[AT_ONCE - 1];
        }
        took(8, start, n);
        start = now();
        for (size_t i = 0; i + AT_ONCE <= n; i += AT_ONCE) {
            bptree_rank_many(&map, keys + i, AT_ONCE, ranks, AT_ONCE);
            sum += ranks[0];
        }
        took(9, start, n);
        start = now();
        for (size_t i = 0; i + AT_ONCE <= n; i += AT_ONCE) {
            bptree_contains_many(&map, keys + i, AT_ONCE, found, AT_ONCE);
            sum += found[0];
        }
        took(10, start, n);
        start = now();
        for (size_t i = 0; i + AT_ONCE <= n; i += AT_ONCE) {
            for (size_t j = 0; j < AT_ONCE; j++) indexes[j] = keys[i + j] % n;
            bptree_at_many(&map, indexes, AT_ONCE, found_keys, AT_ONCE, values, AT_ONCE, found, AT_ONCE);
            sum += found_keys[0] + values[0] + found[0];
        }
        took(11, start, n);
        sum += measure_new(&map);
        shuffle(keys, n);
        start = now();
        for (size_t i = 0; i < n; i++) sum += bptree_del(&map, keys[i], &old);
        took(6, start, n);
        for (size_t i = 0; i < n; i++) given[i] = (bptree_pair){keys[i], i};
        start = now();
        sum += bptree_load(&map, given, n);
        took(7, start, n);
        bptree_free(&map);
    }
    free(keys);
    free(given);
    return sum;
}

int main(int count, char **arguments) {
    uint64_t sum = 0;
    for (int i = 1; i < count; i++) {
        size_t n = strtoull(arguments[i], NULL, 10);
        for (int call = 0; call < CALLS; call++) least[call] = 0;
        sum += measure(n);
        for (int call = 0; names[call]; call++) printf("%zu c %s %.1f\n", n, names[call], least[call]);
    }
    fprintf(stderr, "%llu\n", (unsigned long long)sum);
    return 0;
}
