/* Calls of which each allocation fails in turn: a call that fails says so and changes nothing,
   neither the map nor what its arguments point to, and made again with memory it succeeds. Nothing
   is left on the heap at the end. Linked with --wrap for malloc, realloc and free. The last line is
   'ok', and the one before it how many allocations failed. */
#include "sweep_bptree.h"
#include <stdio.h>
#include <stdlib.h>
#include <string.h>

enum { PAIRS = 4400, STRINGS = 600 };

void *__real_malloc(size_t);
void *__real_realloc(void *, size_t);
void __real_free(void *);

static long until_refusal = -1, refusals, blocks;

static bool is_refused(void) {
    if (until_refusal < 0 || until_refusal--) return false;
    refusals++;
    return true;
}

void *__wrap_malloc(size_t size) {
    void *at = is_refused() ? NULL : __real_malloc(size);
    blocks += at != NULL;
    return at;
}

void *__wrap_realloc(void *from, size_t size) {
    void *at = is_refused() ? NULL : __real_realloc(from, size);
    blocks += at && !from;
    return at;
}

void __wrap_free(void *at) {
    blocks -= at != NULL;
    __real_free(at);
}

static void must(bool holds, const char *what) {
    if (!holds) {
        printf("%s\n", what);
        exit(1);
    }
}

static bptree_pair before[PAIRS + 1], after[PAIRS + 1], given[PAIRS];

static uint64_t key, old;
static bptree_pair pair;

/* What a call may write to, before it, and behind a call that finds nothing or fails. */
static void blank(void) { old = 77, pair = (bptree_pair){7, 78}; }
static bool is_blank(void) { return old == 77 && pair.key == 7 && pair.value == 78; }

/* Whether the map holds as many pairs as before, and the same. */
static bool is_as_it_was(const bptree *map, size_t len) {
    return bptree_range(map, 0, after, PAIRS + 1) == len && !memcmp(before, after, len * sizeof *before);
}

/* Makes a call again and again. First its first allocation fails, then its second one, and so on, until no
   allocation failed. `hints` of its allocations are for room that the call can do without. */
static void refuse_all_but(int hints, bptree *map, bptree_result (*call)(bptree *), const char *name) {
    for (long request = 0;; request++) {
        size_t len = bptree_range(map, 0, before, PAIRS + 1);
        long were = refusals;
        blank();
        until_refusal = request;
        bptree_result answer = call(map);
        until_refusal = -1;
        must(answer == BPTREE_REMOVED || answer == BPTREE_REPLACED || is_blank(), name);
        if (refusals == were) {
            must(answer != BPTREE_NO_MEMORY, name);
            return;
        }
        if (answer != BPTREE_NO_MEMORY) {
            must(hints-- > 0, name);
            continue;
        }
        must(is_as_it_was(map, len), name);
    }
}

/* A copy of which each allocation fails in turn: nothing of it is left then. */
static void refuse_clone(const bptree *map) {
    size_t len = bptree_range(map, 0, before, PAIRS + 1);
    for (long request = 0;; request++) {
        bptree copy = {0};
        long were = refusals, held = blocks;
        until_refusal = request;
        bool made = bptree_clone(map, &copy);
        until_refusal = -1;
        must(made == (copy.at != NULL) && made == (refusals == were), "clone");
        must(is_as_it_was(map, len), "clone changes no map");
        if (!made) {
            must(blocks == held, "clone keeps nothing");
            continue;
        }
        must(is_as_it_was(&copy, len), "clone has the pairs");
        bptree_free(&copy);
        must(blocks == held, "memory is left by a clone");
        return;
    }
}

static void refuse_each(bptree *map, bptree_result (*call)(bptree *), const char *name) { refuse_all_but(0, map, call, name); }

static bptree_result put(bptree *map) { return bptree_put(map, key, key, &old); }
static bptree_result del(bptree *map) { return bptree_del(map, key, &old); }
static bptree_result remove_at(bptree *map) { return bptree_del_at(map, key, &pair); }
static bptree_result pop_first(bptree *map) { return bptree_pop_first(map, &pair); }
static bptree_result pop_last(bptree *map) { return bptree_pop_last(map, &pair); }
static bptree_result clear(bptree *map) { return bptree_clear(map) ? BPTREE_ADDED : BPTREE_NO_MEMORY; }
static bptree_result load(bptree *map) { return bptree_load(map, given, key) ? BPTREE_ADDED : BPTREE_NO_MEMORY; }

/* The same of a map from byte strings, here of four bytes each. */
typedef uint8_t string[4];

static string name;

static void name_it(size_t number) {
    for (size_t i = 0; i < sizeof name; i++) name[i] = (uint8_t)((number * 7919) % STRINGS >> 4 * (sizeof name - 1 - i));
}

static uint8_t bytes_before[STRINGS * 4], bytes_after[STRINGS * 4], bytes_given[STRINGS * 4];
static bptree_record records_before[STRINGS + 1], records_after[STRINGS + 1], records_given[STRINGS];
static size_t place, told;

static size_t list_dict(const bptree_dict *dict, uint8_t *bytes, bptree_record *records) {
    size_t many = bptree_dict_page(dict, 0, bytes, STRINGS * 4, records, STRINGS + 1);
    must(many == bptree_dict_len(dict), "page of a map of strings");
    return many;
}

/* Each of the call's allocations, from one on, fails in turn. The call can do without so many of these. */
static void refuse_each_from(long request, int hints, bptree_dict *dict, bptree_result (*call)(bptree_dict *), const char *what) {
    for (;; request++) {
        size_t many = list_dict(dict, bytes_before, records_before);
        long were = refusals;
        blank();
        until_refusal = request;
        bptree_result answer = call(dict);
        until_refusal = -1;
        must(answer == BPTREE_REMOVED || answer == BPTREE_REPLACED || is_blank(), what);
        if (refusals == were) {
            must(answer != BPTREE_NO_MEMORY, what);
            return;
        }
        if (answer != BPTREE_NO_MEMORY) {
            must(hints-- > 0, what);
            continue;
        }
        must(list_dict(dict, bytes_after, records_after) == many, what);
        must(!memcmp(bytes_before, bytes_after, many * 4), what);
        must(!memcmp(records_before, records_after, many * sizeof *records_before), what);
    }
}

static void refuse_each_of_dict(int hints, bptree_dict *dict, bptree_result (*call)(bptree_dict *), const char *what) {
    refuse_each_from(0, hints, dict, call, what);
}

static void refuse_clone_of_dict(const bptree_dict *dict) {
    size_t many = list_dict(dict, bytes_before, records_before);
    for (long request = 0;; request++) {
        bptree_dict copy = {0};
        long were = refusals, held = blocks;
        until_refusal = request;
        bool made = bptree_dict_clone(dict, &copy);
        until_refusal = -1;
        must(made == (copy.at != NULL) && made == (refusals == were), "clone of strings");
        if (!made) {
            must(blocks == held, "clone of strings keeps nothing");
            continue;
        }
        must(list_dict(&copy, bytes_after, records_after) == many, "clone of strings");
        must(!memcmp(bytes_before, bytes_after, many * 4), "clone of strings");
        must(!memcmp(records_before, records_after, many * sizeof *records_before), "clone of strings");
        bptree_dict_free(&copy);
        must(blocks == held, "memory is left by a clone of strings");
        return;
    }
}

static bptree_result put_name(bptree_dict *dict) { return bptree_dict_put(dict, name, sizeof name, place, &old); }
static bptree_result del_name(bptree_dict *dict) { return bptree_dict_del(dict, name, sizeof name, &old); }
static bptree_result remove_place(bptree_dict *dict) { return bptree_dict_del_at(dict, place, &old); }
static bptree_result pop_first_name(bptree_dict *dict) {
    string out;
    return bptree_dict_pop_first(dict, out, sizeof out, &told, &old);
}
static bptree_result pop_last_name(bptree_dict *dict) {
    string out;
    return bptree_dict_pop_last(dict, out, sizeof out, &told, &old);
}
static bptree_result clear_dict(bptree_dict *dict) { return bptree_dict_clear(dict) ? BPTREE_ADDED : BPTREE_NO_MEMORY; }

static bptree_result load_dict(bptree_dict *dict) {
    bool done = bptree_dict_load(dict, bytes_given, 4 * place, records_given, place);
    return done ? BPTREE_ADDED : BPTREE_NO_MEMORY;
}

static void dict_of_strings(void) {
    bptree_dict dict = {0};
    for (long request = 0; !dict.at; request++) {
        until_refusal = request;
        bool made = bptree_dict_new(&dict);
        until_refusal = -1;
        must(made == (dict.at != NULL) && (made || blocks == 0), "new of a map of strings");
    }
    for (place = 0; place < STRINGS; place++) name_it(place), refuse_each_of_dict(0, &dict, put_name, "put of a string");
    must(bptree_dict_len(&dict) == STRINGS, "put of a string");
    refuse_clone_of_dict(&dict);
    for (size_t i = 0; i < STRINGS; i += 50) {
        name_it(i);
        /* (the copy of a key that is there is not needed) */
        refuse_each_of_dict(1, &dict, put_name, "put of a string that is there");
    }
    /* (the copy of the key is the first allocation: a removal does without it, and then the key is gone) */
    for (size_t i = 0; i < 200; i++) name_it(i), refuse_each_from(i % 2, 1 - i % 2, &dict, del_name, "del of a string");
    for (place = 300; place > 0; place--) refuse_each_of_dict(0, &dict, remove_place, "remove_at of strings");
    must(bptree_dict_len(&dict) == STRINGS - 500, "removals of strings");
    for (size_t i = 0; i < 45; i++) refuse_each_of_dict(0, &dict, pop_first_name, "pop_first of strings");
    for (size_t i = 0; i < 45; i++) refuse_each_of_dict(0, &dict, pop_last_name, "pop_last of strings");
    must(bptree_dict_len(&dict) == STRINGS - 590, "removals of strings");
    for (size_t i = 0; i < STRINGS; i++) {
        name_it(i);
        memcpy(bytes_given + 4 * i, name, sizeof name);
        records_given[i] = (bptree_record){sizeof name, i};
    }
    for (place = 0; place <= STRINGS; place += STRINGS / 3) refuse_each_of_dict(1, &dict, load_dict, "load of strings");
    must(bptree_dict_len(&dict) == STRINGS, "load of strings");
    refuse_each_of_dict(0, &dict, clear_dict, "clear of strings");
    must(bptree_dict_len(&dict) == 0, "clear of a map of strings");
    refuse_each_of_dict(1, &dict, del_name, "del of no string");
    /* An empty map allocates nothing else for what is not there. */
    long were = refusals;
    place = 0;
    refuse_each_of_dict(0, &dict, remove_place, "remove_at of no string");
    refuse_each_of_dict(0, &dict, pop_first_name, "pop_first of no string");
    refuse_each_of_dict(0, &dict, pop_last_name, "pop_last of no string");
    must(refusals == were, "allocations of an empty map of strings");
    bptree_dict_free(&dict);
    must(blocks == 0, "memory is left by a map of strings");
}

/* Pairs that are stored at once: each of the call's allocations fails in turn, and then the map is
   unchanged and no block is left. Made again with memory the call succeeds. */
enum { MANY = PAIRS };
static uint64_t many_keys[MANY], many_values[MANY], copied_keys[MANY], copied_values[MANY];

static size_t after_put_many(bptree_pair *wanted, size_t len, size_t n) {
    for (size_t i = 0; i < n; i++) {
        size_t at = 0;
        while (at < len && wanted[at].key < many_keys[i]) at++;
        if (at == len || wanted[at].key != many_keys[i]) {
            memmove(wanted + at + 1, wanted + at, (len - at) * sizeof *wanted);
            len++;
        }
        wanted[at] = (bptree_pair){many_keys[i], many_values[i]};
    }
    return len;
}

static void make_even(bptree *map, size_t len) {
    must(bptree_new(map), "new");
    for (uint64_t i = 0; i < len; i++) must(bptree_put(map, 2 * i, i, &old) == BPTREE_ADDED, "put");
}

/* Puts n keys, the first of which is `first`, into a map of the even keys below 2 * len. Returns how
   many allocations the call makes. One of them is for room that the call can do without. */
static long put_many(size_t len, size_t n, uint64_t first, uint64_t step) {
    static bptree_pair wanted[PAIRS + MANY + 1], left[PAIRS + MANY + 1];
    bptree map = {0};
    int hints = 1;
    long made = 0;
    make_even(&map, len);
    for (uint64_t i = 0; i < n; i++) {
        many_keys[i] = copied_keys[i] = first + i * 7919 % (n + 1) * step;
        many_values[i] = copied_values[i] = 100000 + i;
        /* (some keys come twice) */
        if (i % 9 == 8) many_keys[i] = copied_keys[i] = many_keys[i - 3];
    }
    for (bool was_refused = true; was_refused; made += was_refused) {
        size_t count = bptree_range(&map, 0, wanted, PAIRS + MANY + 1);
        long were = refusals, held = blocks;
        must(count == len, "pairs before put_many");
        until_refusal = made;
        bool is_stored = bptree_put_many(&map, many_keys, n, many_values, n);
        until_refusal = -1;
        must(!memcmp(many_keys, copied_keys, sizeof many_keys), "put_many changes no key of its argument");
        must(!memcmp(many_values, copied_values, sizeof many_values), "put_many changes no value of its argument");
        was_refused = refusals != were;
        if (is_stored) count = after_put_many(wanted, count, n);
        /* (a tree that had some of the pairs for a time may keep more nodes) */
        else must(was_refused && blocks >= held, "a put_many that fails frees a block of the map");
        must(bptree_range(&map, 0, left, PAIRS + MANY + 1) == count && bptree_len(&map) == count, "len behind put_many");
        must(!memcmp(left, wanted, count * sizeof *left), "pairs behind put_many");
        if (is_stored && was_refused) {
            must(hints-- > 0, "put_many without memory");
            bptree_free(&map);
            make_even(&map, len);
        }
    }
    bptree_free(&map);
    must(blocks == 0, "memory is left by put_many");
    return made;
}

static void put_many_of_each_size(void) {
    static const size_t lens[] = {0, 1, 500, PAIRS}, numbers[] = {1, 15, 16, 17, 60, 275, 276, MANY};
    for (size_t i = 0; i < sizeof lens / sizeof *lens; i++) {
        for (size_t j = 0; j < sizeof numbers / sizeof *numbers; j++) {
            /* between all keys, over the keys that are there, and behind them */
            must(put_many(lens[i], numbers[j], 1, 2 * PAIRS / numbers[j]) > 0, "put_many asks for no memory");
            put_many(lens[i], numbers[j], 0, 2);
            must(put_many(lens[i], numbers[j], 2 * PAIRS, 3) > 0, "put_many asks for no memory");
        }
        must(put_many(lens[i], 0, 0, 0) == 0, "put_many of 0 keys asks for memory");
    }
}

/* Calls that need no memory: they ask for none. */
static void many_without_memory(void) {
    static uint8_t found[PAIRS];
    static size_t places[PAIRS];
    bptree map = {0};
    must(bptree_new(&map), "new");
    for (uint64_t i = 0; i < PAIRS; i++) {
        must(bptree_put(&map, i, i, &old) == BPTREE_ADDED, "put");
        many_keys[i] = i * 7919 % PAIRS, places[i] = i;
    }
    long were = refusals;
    until_refusal = 0;
    bptree_get_many(&map, many_keys, PAIRS, many_values, PAIRS, found, PAIRS);
    bptree_contains_many(&map, many_keys, PAIRS, found, PAIRS);
    bptree_rank_many(&map, many_keys, PAIRS, places, PAIRS);
    bptree_at_many(&map, places, PAIRS, copied_keys, PAIRS, copied_values, PAIRS, found, PAIRS);
    must(bptree_copy(&map, 0, copied_keys, PAIRS, copied_values, PAIRS) == PAIRS, "copy");
    must(bptree_put_many(&map, many_keys, 0, many_values, 0), "put_many of 0 keys");
    bptree_del_many(&map, many_keys, PAIRS, found, PAIRS);
    until_refusal = -1;
    must(refusals == were && bptree_len(&map) == 0, "calls for many keys need no memory");
    for (size_t i = 0; i < PAIRS; i++) must(found[i] == 1, "del_many");
    bptree_free(&map);
    must(blocks == 0, "memory is left by calls for many keys");
}

int main(void) {
    bptree map = {0};
    for (long request = 0;; request++) {
        until_refusal = request;
        bool made = bptree_new(&map);
        until_refusal = -1;
        must(made == (map.at != NULL), "new");
        if (made) break;
        must(blocks == 0, "new keeps nothing");
    }
    /* From one leaf up to three layers of nodes, and down again. */
    for (key = 1; key <= PAIRS; key++) refuse_each(&map, put, "put");
    must(bptree_len(&map) == PAIRS, "put");
    refuse_clone(&map);
    for (key = PAIRS; key > PAIRS - 900; key -= 3) refuse_each(&map, del, "del");
    for (key = 2000; key > 1500; key--) refuse_each(&map, remove_at, "remove_at");
    for (int i = 0; i < 400; i++) refuse_each(&map, pop_first, "pop_first");
    for (int i = 0; i < 400; i++) refuse_each(&map, pop_last, "pop_last");
    for (size_t i = 0; i < PAIRS; i++) given[i] = (bptree_pair){(i * 7919) % PAIRS, i};
    for (key = 0; key <= PAIRS; key += PAIRS / 4) refuse_all_but(1, &map, load, "load");
    must(bptree_len(&map) == PAIRS, "load");
    refuse_each(&map, clear, "clear");
    must(bptree_len(&map) == 0, "clear");
    refuse_clone(&map);
    /* An empty map allocates nothing for what is not there. */
    long were = refusals;
    refuse_each(&map, pop_first, "pop_first of an empty map");
    refuse_each(&map, pop_last, "pop_last of an empty map");
    refuse_each(&map, del, "del in an empty map");
    must(refusals == were, "requests of an empty map");
    bptree_free(&map);
    must(blocks == 0, "memory is left");
    dict_of_strings();
    put_many_of_each_size();
    many_without_memory();
    printf("%ld allocations failed\nok\n", refusals);
    return 0;
}
