/* Calls of the map in random order beside a plain ascending array, which must have the same
   results. The last line is 'ok'. */
#include "sweep_bptree.h"
#include <stdio.h>
#include <stdlib.h>
#include <string.h>

enum { MOST = 9000, KEYS = 12000, CALLS = 400000, ROOM = 70, MANY = 700 };

/* What a pair holds before a call, and still holds after a call that finds no pair. */
static const bptree_pair BLANK = {7, 77};

static bptree_pair plain[MOST + 1];
static size_t len;

static uint64_t dice = 0x9e3779b97f4a7c15;

static uint64_t roll(uint64_t below) {
    dice ^= dice << 13;
    dice ^= dice >> 7;
    dice ^= dice << 17;
    return (dice >> 11) % below;
}

/* Ends the program if two results differ. */
static void alike(uint64_t one, uint64_t other, const char *call) {
    if (one != other) {
        printf("%s: %llu in place of %llu\n", call, (unsigned long long)one, (unsigned long long)other);
        exit(1);
    }
}

static void alike_pairs(bptree_pair one, bptree_pair other, const char *call) {
    alike(one.key, other.key, call);
    alike(one.value, other.value, call);
}

/* Whether a call found a pair: that one, or if none is due, the pair that was there before. */
static void alike_found(bool found, bptree_pair *pair, bool is_due, size_t at, const char *call) {
    alike(found, is_due, call);
    alike_pairs(*pair, is_due ? plain[at] : BLANK, call);
    *pair = BLANK;
}

/* How many keys of the array are smaller. */
static size_t smaller(uint64_t key) {
    size_t low = 0, high = len;
    while (low < high) {
        size_t at = low + (high - low) / 2;
        if (plain[at].key < key) low = at + 1;
        else high = at;
    }
    return low;
}

static bool is_there(uint64_t key) {
    size_t at = smaller(key);
    return at < len && plain[at].key == key;
}

static void put(uint64_t key, uint64_t value) {
    size_t at = smaller(key);
    if (!is_there(key)) {
        memmove(plain + at + 1, plain + at, (len - at) * sizeof *plain);
        len++;
    }
    plain[at] = (bptree_pair){key, value};
}

static void take_out(size_t at) {
    len--;
    memmove(plain + at, plain + at + 1, (len - at) * sizeof *plain);
}

/* Keys at both ends of what fits, and between them even numbers. */
static uint64_t any_key(void) {
    uint64_t number = roll(KEYS);
    return number == 0 ? 0 : number == 1 ? UINT64_MAX : number;
}

static void change(bptree *map) {
    uint64_t key = any_key(), value = roll(1000000), old = 77, code;
    size_t at = smaller(key), place = roll(len + 2);
    bptree_pair pair = BLANK;
    bool there = is_there(key);
    uint64_t was = there ? plain[at].value : 77;
    switch (roll(8)) {
    case 0:
    case 1:
    case 2:
        if (len == MOST && !there) return;
        code = bptree_put(map, key, value, &old);
        alike(code, there ? BPTREE_REPLACED : BPTREE_ADDED, "put");
        alike(old, was, "put, old value");
        put(key, value);
        return;
    case 3:
    case 4:
        code = bptree_del(map, key, &old);
        alike(code, there ? BPTREE_REMOVED : BPTREE_ABSENT, "del");
        alike(old, was, "del, old value");
        if (there) take_out(at);
        return;
    case 5:
        code = bptree_del_at(map, place, &pair);
        alike(code, place < len ? BPTREE_REMOVED : BPTREE_ABSENT, "remove_at");
        alike_found(code == BPTREE_REMOVED, &pair, place < len, place, "remove_at");
        if (place < len) take_out(place);
        return;
    case 6:
        code = bptree_pop_first(map, &pair);
        alike(code, len ? BPTREE_REMOVED : BPTREE_ABSENT, "pop_first");
        alike_found(code == BPTREE_REMOVED, &pair, len > 0, 0, "pop_first");
        if (len) take_out(0);
        return;
    default:
        code = bptree_pop_last(map, &pair);
        alike(code, len ? BPTREE_REMOVED : BPTREE_ABSENT, "pop_last");
        alike_found(code == BPTREE_REMOVED, &pair, len > 0, len - 1, "pop_last");
        if (len) len--;
    }
}

static void ask(const bptree *map) {
    uint64_t key = any_key(), to = any_key(), value = 77;
    size_t at = smaller(key), place = roll(len + 2), rank = 7;
    size_t above = at + is_there(key), end = smaller(to);
    bptree_pair pair = BLANK;
    alike(bptree_len(map), len, "len");
    alike(bptree_contains(map, key), is_there(key), "contains");
    alike(bptree_get(map, key, &value), is_there(key), "get");
    alike(value, is_there(key) ? plain[at].value : 77, "get, value");
    alike(bptree_rank(map, key, &rank), is_there(key), "rank, there");
    alike(rank, at, "rank");
    alike(bptree_range_len(map, key, to), end > at ? end - at : 0, "range_len");
    alike_found(bptree_first(map, &pair), &pair, len > 0, 0, "first");
    alike_found(bptree_last(map, &pair), &pair, len > 0, len - 1, "last");
    alike_found(bptree_next(map, key, &pair), &pair, above < len, above, "next");
    alike_found(bptree_prev(map, key, &pair), &pair, at > 0, at - 1, "prev");
    alike_found(bptree_at(map, place, &pair), &pair, place < len, place, "at");
}

/* What a call copied: so many pairs, and the rest of the array is unchanged. */
static void copied(bptree_pair *out, size_t room, size_t count, size_t first, size_t wanted, bool back, const char *call) {
    alike(count, wanted < room ? wanted : room, call);
    for (size_t i = 0; i < room; i++) {
        bptree_pair as_it_was = {i, ~(uint64_t)i};
        alike_pairs(out[i], i >= count ? as_it_was : plain[back ? first - i : first + i], call);
    }
}

static void ask_for_many(const bptree *map) {
    bptree_pair out[ROOM];
    size_t room = roll(ROOM + 1), number = roll(len / (room + 1) + 2);
    uint64_t key = any_key();
    size_t at = smaller(key), above = at + is_there(key), first = number * room;
    for (int call = 0; call < 3; call++) {
        for (size_t i = 0; i < room; i++) out[i] = (bptree_pair){i, ~(uint64_t)i};
        if (call == 0) copied(out, room, bptree_range(map, key, out, room), at, len - at, false, "range");
        if (call == 1) copied(out, room, bptree_range_back(map, key, out, room), above - 1, above, true, "range_back");
        if (call == 2) copied(out, room, bptree_page(map, number, out, room), first, first < len ? len - first : 0, false, "page");
    }
}

/* What arrays of a call hold before it, and behind its n members. */
static uint64_t keys[MANY + 1], values[MANY + 1], keys_at[MANY + 1];
static size_t ranks[MANY + 1], indexes[MANY + 1];
static uint8_t found[MANY + 1];

static void blank_arrays(void) {
    for (size_t i = 0; i <= MANY; i++) {
        values[i] = 1000 + i, keys_at[i] = 2000 + i, ranks[i] = 3000 + i, found[i] = 5;
    }
}

/* Calls that read n keys or indexes at once. What is behind the n members, and what belongs to no
   key or pair, is unchanged. */
static void read_each(const bptree *map, size_t n) {
    blank_arrays();
    bptree_get_many(map, keys, n, values, n, found, n);
    bptree_rank_many(map, keys, n, ranks, n);
    for (size_t i = 0; i <= MANY; i++) {
        bool there = i < n && is_there(keys[i]);
        alike(found[i], i < n ? there : 5, "get_many, found");
        alike(values[i], there ? plain[smaller(keys[i])].value : 1000 + i, "get_many");
        alike(ranks[i], i < n ? smaller(keys[i]) : 3000 + i, "rank_many");
    }
    blank_arrays();
    bptree_contains_many(map, keys, n, found, n);
    for (size_t i = 0; i <= MANY; i++) alike(found[i], i < n ? is_there(keys[i]) : 5, "contains_many");
    blank_arrays();
    bptree_at_many(map, indexes, n, keys_at, n, values, n, found, n);
    for (size_t i = 0; i <= MANY; i++) {
        bool there = i < n && indexes[i] < len;
        alike(found[i], i < n ? there : 5, "at_many, found");
        alike(keys_at[i], there ? plain[indexes[i]].key : 2000 + i, "at_many, key");
        alike(values[i], there ? plain[indexes[i]].value : 1000 + i, "at_many, value");
    }
}

static void put_each(bptree *map, size_t n) {
    uint64_t before[MANY];
    if (len + n > MOST) return;
    memcpy(before, keys, sizeof before);
    for (size_t i = 0; i < n; i++) values[i] = roll(1000000);
    alike(bptree_put_many(map, keys, n, values, n), true, "put_many");
    alike(memcmp(before, keys, sizeof before), 0, "put_many leaves the keys");
    for (size_t i = 0; i < n; i++) put(keys[i], values[i]);
    alike(bptree_len(map), len, "len behind put_many");
}

/* Of a key that comes twice, the second one is not there. */
static void del_each(bptree *map, size_t n) {
    blank_arrays();
    bptree_del_many(map, keys, n, found, n);
    for (size_t i = 0; i <= MANY; i++) {
        bool there = i < n && is_there(keys[i]);
        alike(found[i], i < n ? there : 5, "del_many");
        if (there) take_out(smaller(keys[i]));
    }
    alike(bptree_len(map), len, "len behind del_many");
}

/* Numbers of keys beside those of a group of 16, and more than a sixteenth of a map's keys. */
static size_t some_number(void) {
    static const size_t sizes[] = {0, 1, 2, 15, 16, 17, 31, 32, 33, MANY};
    size_t most = sizeof sizes / sizeof *sizes, at = roll(most + 2);
    return at < most ? sizes[at] : roll(MANY + 1);
}

/* Keys that are there, and any keys: some of them equal, and some of them next to each other. */
static void choose_keys(size_t n) {
    uint64_t kinds = roll(4);
    for (size_t i = 0; i < MANY; i++) {
        keys[i] = len && roll(4) < kinds ? plain[roll(len)].key : any_key();
        if (i && roll(6) == 0) keys[i] = keys[roll(i < n ? i : n)];
        indexes[i] = roll(5) ? roll(len + 2) : roll(2) ? len + roll(2) : SIZE_MAX - roll(2);
        if (i && roll(6) == 0) indexes[i] = indexes[i - 1];
    }
}

static void ask_for_each(bptree *map) {
    size_t n = some_number();
    choose_keys(n ? n : 1);
    read_each(map, n);
    if (roll(2)) put_each(map, n);
    else del_each(map, n);
    read_each(map, n);
}

/* Copies the pairs from an index on into arrays with room for fewer, as many and more. */
static void copy_from(const bptree *map, size_t index, size_t room) {
    size_t left = index < len ? len - index : 0, count;
    uint64_t *to_keys = malloc((room + 1) * sizeof *to_keys), *to_values = malloc((room + 1) * sizeof *to_values);
    if (!to_keys || !to_values) exit(2);
    for (size_t i = 0; i <= room; i++) to_keys[i] = i, to_values[i] = ~(uint64_t)i;
    count = bptree_copy(map, index, to_keys, room, to_values, room);
    alike(count, left < room ? left : room, "copy");
    for (size_t i = 0; i <= room; i++) {
        bptree_pair as_it_was = {i, ~(uint64_t)i};
        alike_pairs((bptree_pair){to_keys[i], to_values[i]}, i < count ? plain[index + i] : as_it_was, "copy");
    }
    free(to_keys);
    free(to_values);
}

static void copy_some(const bptree *map) {
    size_t index = roll(8) ? roll(len + 3) : SIZE_MAX - roll(2), left = index < len ? len - index : 0;
    copy_from(map, index, roll(ROOM + 1));
    copy_from(map, index, left);
    if (left) copy_from(map, index, left - 1);
    copy_from(map, index, left + 1 + roll(ROOM));
}

/* Each index of small maps, with room for fewer pairs, as many and more. */
static void copy_small_maps(void) {
    bptree map = {0};
    alike(bptree_new(&map), true, "new");
    len = 0;
    for (uint64_t key = 0; key < 40; key++) {
        uint64_t old;
        for (size_t index = 0; index <= len + 1; index++) {
            for (size_t room = 0; room <= len + 2; room++) copy_from(&map, index, room);
        }
        alike(bptree_put(&map, key * 3, key, &old), BPTREE_ADDED, "put");
        put(key * 3, key);
    }
    bptree_free(&map);
    len = 0;
}

/* All pairs of a map at once: into an empty map in ascending order, over the same keys in another
   order, and each key twice; then out of it. */
static void put_and_del_all(void) {
    static uint64_t all[MOST], numbers[MOST];
    static uint8_t were[MOST + 1];
    bptree map = {0};
    alike(bptree_new(&map), true, "new");
    len = 0;
    for (int turn = 0; turn < 3; turn++) {
        for (size_t i = 0; i < MOST; i++) {
            all[i] = turn == 0 ? i * 2 : (turn == 1 ? i : i / 2) * 7919 % MOST * 2;
            numbers[i] = 10 * i + (size_t)turn;
        }
        alike(bptree_put_many(&map, all, MOST, numbers, MOST), true, "put_many of all");
        for (size_t i = 0; i < MOST; i++) put(all[i], numbers[i]);
        alike(bptree_len(&map), len, "put_many of all");
        copy_from(&map, 0, MOST);
    }
    for (size_t i = 0; i < MOST; i++) all[i] = (i * 7919) % MOST * 2, were[i] = 5;
    were[MOST] = 5;
    bptree_del_many(&map, all, MOST, were, MOST);
    for (size_t i = 0; i < MOST; i++) alike(were[i], 1, "del_many of all");
    alike(were[MOST], 5, "del_many of all");
    alike(bptree_len(&map), 0, "del_many of all");
    bptree_del_many(&map, all, MOST, were, MOST);
    for (size_t i = 0; i < MOST; i++) alike(were[i], 0, "del_many of absent keys");
    bptree_free(&map);
    len = 0;
}

/* Arrays of length 0 by NULL, and by a pointer to what is not to be read or written. */
static void ask_for_none(bptree *map) {
    bptree_pair pair = BLANK, *pairs[] = {NULL, &pair};
    uint64_t word = 77, *words[] = {NULL, &word};
    uint8_t byte = 77, *bytes[] = {NULL, &byte};
    size_t size = 77, *sizes[] = {NULL, &size};
    for (int i = 0; i < 2; i++) {
        alike(bptree_range(map, 0, pairs[i], 0), 0, "range of 0 pairs");
        alike(bptree_range_back(map, UINT64_MAX, pairs[i], 0), 0, "range_back of 0 pairs");
        alike(bptree_page(map, 0, pairs[i], 0), 0, "page of 0 pairs");
        alike(bptree_page(map, 1, pairs[i], 0), 0, "page of 0 pairs");
        bptree_get_many(map, words[i], 0, words[i], 0, bytes[i], 0);
        bptree_rank_many(map, words[i], 0, sizes[i], 0);
        bptree_contains_many(map, words[i], 0, bytes[i], 0);
        bptree_at_many(map, sizes[i], 0, words[i], 0, words[1 - i], 0, bytes[i], 0);
        bptree_del_many(map, words[i], 0, bytes[i], 0);
        alike(bptree_copy(map, 0, words[i], 0, words[1 - i], 0), 0, "copy of 0 pairs");
        alike(bptree_copy(map, SIZE_MAX, words[i], 0, words[1 - i], 0), 0, "copy of 0 pairs");
        alike(bptree_put_many(map, words[i], 0, words[1 - i], 0), true, "put_many of 0 pairs");
        alike(bptree_len(map), len, "len behind arrays of length 0");
    }
    alike_pairs(pair, BLANK, "a pair of no array");
    alike(word == 77 && byte == 77 && size == 77, true, "a word of no array");
}

static void load_none(bptree *map) {
    bptree_pair pair = BLANK;
    alike(bptree_load(map, NULL, 0), true, "load of 0 pairs");
    alike(bptree_len(map), 0, "load of 0 pairs");
    alike(bptree_load(map, &pair, 1), true, "load of one");
    alike(bptree_len(map), 1, "load of one");
    alike(bptree_load(map, &pair, 0), true, "load of 0 pairs");
    alike(bptree_len(map), 0, "load of 0 pairs");
    len = 0;
}

/* Loads pairs in random order, some with equal keys, of which the last one stays. */
static void load(bptree *map) {
    size_t many = roll(MOST / 2);
    bptree_pair *given = malloc((many + 1) * sizeof *given);
    if (!given) exit(2);
    len = 0;
    for (size_t i = 0; i < many; i++) {
        given[i] = (bptree_pair){any_key(), roll(1000000)};
        put(given[i].key, given[i].value);
    }
    alike(bptree_load(map, given, many), true, "load");
    free(given);
}

/* A copy has the map's pairs, and keeps them if the map changes. */
static void copy_it(bptree *map) {
    bptree copy = {0};
    bptree_pair pair;
    uint64_t old;
    alike(bptree_clone(map, &copy), true, "clone");
    if (bptree_first(map, &pair)) alike(bptree_del(map, pair.key, &old), BPTREE_REMOVED, "del beside a copy");
    alike(bptree_len(&copy), len, "len of a copy");
    for (size_t i = 0; i < len; i++) {
        alike(bptree_at(&copy, i, &pair), true, "at of a copy");
        alike_pairs(pair, plain[i], "at of a copy");
    }
    bptree_free(&copy);
    if (len) alike(bptree_put(map, plain[0].key, plain[0].value, &old), BPTREE_ADDED, "put beside a copy");
}

int main(void) {
    bptree map = {0};
    alike(bptree_new(&map), true, "new");
    for (int call = 0; call < CALLS; call++) {
        change(&map);
        if (call % 4 == 0) ask(&map);
        if (call % 64 == 0) ask_for_many(&map);
        if (call % 200 == 0) ask_for_each(&map);
        if (call % 3000 == 0) copy_some(&map);
        if (call % 1024 == 0) ask_for_none(&map);
        if (call % 40000 == 39999) load(&map);
        if (call % 30000 == 0) copy_it(&map);
        if (call % 150000 == 149999) alike(bptree_clear(&map), true, "clear"), len = 0;
    }
    for (size_t i = 0; i < len; i++) {
        bptree_pair pair;
        alike(bptree_at(&map, i, &pair), true, "at the end");
        alike_pairs(pair, plain[i], "at the end");
    }
    load_none(&map);
    copy_it(&map);
    ask_for_none(&map);
    bptree_free(&map);
    alike(map.at == NULL, true, "free");
    copy_small_maps();
    put_and_del_all();
    puts("ok");
    return 0;
}
