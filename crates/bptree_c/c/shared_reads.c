/* Several threads that read one map of numbers, one map from byte strings and one set at once, by
   `const` handles: every call that reads, and every result compared with what the pairs' rule gives.
   The first argument is the number of pairs, and the second how often each thread reads them. With a
   third argument one of the threads stores values meanwhile, which no caller may do: a tool that
   finds races has to find that one. The last line is 'ok'. */
#include "sweep_bptree.h"
#include <pthread.h>
#include <stdatomic.h>
#include <stdio.h>
#include <stdlib.h>
#include <string.h>

enum { THREADS = 4, BLOCK = 64, WIDTH = 8 };

static const bptree *numbers;
static const bptree_dict *texts;
static const bptree_bytes *set;
static size_t pairs, rounds;
static atomic_size_t failures;

#define must(holds)                                                                                                                                  \
    do {                                                                                                                                             \
        if (!(holds)) {                                                                                                                              \
            printf("line %d: %s\n", __LINE__, #holds);                                                                                               \
            failures++;                                                                                                                              \
        }                                                                                                                                            \
    } while (0)

/* Pair i has the key 3 * i + 1 and the value i, and as a text the key's eight decimal digits. */
static uint64_t key_of(size_t i) { return 3 * (uint64_t)i + 1; }
static void text_of(uint64_t key, uint8_t *text) {
    for (int at = WIDTH; at-- > 0; key /= 10) text[at] = (uint8_t)('0' + key % 10);
}

static void read_numbers(size_t i) {
    bptree_pair pair, some[BLOCK];
    uint64_t key = key_of(i), value, keys[2] = {key, key + 1}, values[2] = {7, 7}, some_keys[BLOCK], some_values[BLOCK];
    size_t rank, ranks[2], indexes[2] = {i, pairs}, left = pairs - i < BLOCK ? pairs - i : BLOCK, before = i + 1 < BLOCK ? i + 1 : BLOCK;
    uint8_t found[2];
    must(bptree_len(numbers) == pairs);
    must(bptree_contains(numbers, key) && !bptree_contains(numbers, key + 1));
    must(bptree_get(numbers, key, &value) && value == i);
    must(!bptree_get(numbers, key - 1, &value) && value == i);
    must(bptree_first(numbers, &pair) && pair.value == 0);
    must(bptree_last(numbers, &pair) && pair.value == pairs - 1);
    must(bptree_next(numbers, key - 1, &pair) && pair.value == i);
    must(bptree_prev(numbers, key + 1, &pair) && pair.value == i);
    must(bptree_at(numbers, i, &pair) && pair.key == key);
    must(bptree_rank(numbers, key, &rank) && rank == i);
    must(bptree_range_len(numbers, key, UINT64_MAX) == pairs - i);
    must(bptree_range(numbers, key, some, BLOCK) == left && some[left - 1].value == i + left - 1);
    must(bptree_range_back(numbers, key, some, BLOCK) == before && some[before - 1].value == i + 1 - before);
    must(bptree_page(numbers, i, some, 1) == 1 && some[0].value == i);
    bptree_get_many(numbers, keys, 2, values, 2, found, 2);
    must(values[0] == i && values[1] == 7 && found[0] == 1 && found[1] == 0);
    bptree_rank_many(numbers, keys, 2, ranks, 2);
    must(ranks[0] == i && ranks[1] == i + 1);
    found[0] = found[1] = 7;
    bptree_contains_many(numbers, keys, 2, found, 2);
    must(found[0] == 1 && found[1] == 0);
    keys[0] = keys[1] = values[0] = 7, found[0] = found[1] = 7;
    bptree_at_many(numbers, indexes, 2, keys, 2, values, 2, found, 2);
    must(keys[0] == key && values[0] == i && found[0] == 1 && keys[1] == 7 && values[1] == 7 && found[1] == 0);
    must(bptree_copy(numbers, i, some_keys, BLOCK, some_values, BLOCK) == left);
    must(some_keys[0] == key && some_values[0] == i && some_keys[left - 1] == key_of(i + left - 1) && some_values[left - 1] == i + left - 1);
}

static void read_texts(size_t i) {
    uint8_t key[WIDTH], other[WIDTH], out[BLOCK * WIDTH];
    uint64_t value, values[BLOCK];
    bptree_record records[BLOCK];
    size_t rank, length, left = pairs - i < BLOCK ? pairs - i : BLOCK;
    text_of(key_of(i), key), text_of(key_of(i) + 1, other);
    must(bptree_dict_len(texts) == pairs);
    must(bptree_dict_contains(texts, key, WIDTH) && !bptree_dict_contains(texts, other, WIDTH));
    must(bptree_dict_get(texts, key, WIDTH, &value) && value == i);
    must(bptree_dict_rank(texts, key, WIDTH, &rank) && rank == i);
    must(bptree_dict_first(texts, out, WIDTH, &length, &value) && value == 0);
    must(bptree_dict_last(texts, out, WIDTH, &length, &value) && value == pairs - 1);
    must(bptree_dict_at(texts, i, out, WIDTH, &length, &value) && value == i && !memcmp(out, key, WIDTH));
    must(bptree_dict_prev(texts, other, WIDTH, out, WIDTH, &length, &value) && value == i);
    must(bptree_dict_next(texts, key, WIDTH, out, WIDTH, &length, &value) == (i + 1 < pairs));
    must(bptree_dict_range_len(texts, key, WIDTH, other, WIDTH) == 1);
    must(bptree_dict_values(texts, i, values, BLOCK) == left && values[left - 1] == i + left - 1);
    must(bptree_dict_page(texts, i, out, sizeof out, records, BLOCK) == left && records[left - 1].value == i + left - 1);
    must(bptree_dict_page_back(texts, i + 1, out, sizeof out, records, 1) == 1 && records[0].value == i && !memcmp(out, key, WIDTH));
    must(bptree_bytes_contains(set, key, WIDTH) && bptree_bytes_rank(set, key, WIDTH, &rank) && rank == i);
}

static void *reads(void *from) {
    for (size_t round = 0; round < rounds; round++)
        for (size_t i = 0; i < pairs; i++) {
            size_t at = (i + (size_t)from * pairs / THREADS) * 7919 % pairs;
            read_numbers(at), read_texts(at);
        }
    return NULL;
}

static void *stores(void *map) {
    uint64_t old;
    for (size_t i = 0; i < pairs; i++) bptree_put(map, key_of(i), i, &old);
    return NULL;
}

int main(int count, char **given) {
    bptree map = {0};
    bptree_dict dict = {0};
    bptree_bytes bytes = {0};
    pthread_t threads[THREADS];
    uint8_t text[WIDTH];
    uint64_t old;
    if (count < 3) return 2;
    pairs = strtoul(given[1], NULL, 10), rounds = strtoul(given[2], NULL, 10);
    if (!bptree_new(&map) || !bptree_dict_new(&dict) || !bptree_bytes_new(&bytes)) return 2;
    for (size_t i = 0; i < pairs; i++) {
        text_of(key_of(i), text);
        must(bptree_put(&map, key_of(i), i, &old) == BPTREE_ADDED);
        must(bptree_dict_put(&dict, text, WIDTH, i, &old) == BPTREE_ADDED);
        must(bptree_bytes_put(&bytes, text, WIDTH) == BPTREE_ADDED);
    }
    numbers = &map, texts = &dict, set = &bytes;
    for (size_t i = 0; i < THREADS; i++) {
        int code = i == 0 && count > 3 ? pthread_create(&threads[i], NULL, stores, &map) : pthread_create(&threads[i], NULL, reads, (void *)i);
        if (code) return 2;
    }
    for (size_t i = 0; i < THREADS; i++) pthread_join(threads[i], NULL);
    bptree_free(&map), bptree_dict_free(&dict), bptree_bytes_free(&bytes);
    puts(failures ? "failed" : "ok");
    return failures != 0;
}
