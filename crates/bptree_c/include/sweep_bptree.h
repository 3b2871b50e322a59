/* sweep_bptree: an ordered map from 64-bit numbers to 64-bit numbers, an ordered map from byte
   strings to 64-bit numbers, and an ordered set of byte strings. Each is kept in a B+ tree, which
   also finds the index of a key and the key at an index.

   Keys and values may be handles, pointers or numbers of the caller's own. n is the number of pairs
   below. docs/guide/c.md shows how to build and link, and what is proved. */
#ifndef SWEEP_BPTREE_H
#define SWEEP_BPTREE_H

#include <stdbool.h>
#include <stddef.h>
#include <stdint.h>

#define SWEEP_BPTREE_VERSION "0.10.4"
#define SWEEP_BPTREE_VERSION_NUMBER 10004

#ifdef __cplusplus
extern "C" {
#endif

/* SWEEP_BPTREE_VERSION_NUMBER of the library that the program is linked with: major * 1000000 +
   minor * 1000 + patch. O(1). It cannot fail. */
uint32_t bptree_version(void);

/* A map from numbers to numbers, or none. Its caller keeps three things:
   1. it begins with `bptree map = {0};`, then bptree_new or bptree_clone, and no bptree that holds
      a map is copied;
   2. after bptree_free no call but bptree_new and bptree_clone. Any other call of a bptree that
      holds no map ends the program with a segmentation fault;
   3. while a call runs that changes a map, no other call uses it. Calls that read, those that take
      a `const bptree *`, may run at once in several threads. Each pointer of a call points to memory
      of its own, with room for as many members as the call names.

   No pointer is NULL, except that of an array whose length is given as 0. Such an array is neither
   read nor written. */
typedef struct bptree {
    void *at;
} bptree;

typedef struct bptree_pair {
    uint64_t key, value;
} bptree_pair;

/* The result of a call that changes a map. */
typedef enum bptree_result {
    BPTREE_ABSENT = 0,    /* there is no such key or pair. Nothing has changed */
    BPTREE_REMOVED = 1,   /* the pair was removed */
    BPTREE_NO_MEMORY = 2, /* an allocation failed. Nothing has changed, neither the map nor what the
                             call's other arguments point to */
    BPTREE_ADDED = 3,     /* the key is new, and was stored with its value */
    BPTREE_REPLACED = 4,  /* the key was there, and its value was replaced */
    BPTREE_NO_ROOM = 5    /* the key does not fit into the caller's array. The map is unchanged */
} bptree_result;

/* How a map is made, copied, freed, emptied, and filled at once. False: an allocation failed, and
   nothing has changed. */
/* Makes a map with no pairs. O(1). */
bool bptree_new(bptree *map);
/* Makes `to`, which holds no map, a copy of a map. O(n). */
bool bptree_clone(const bptree *map, bptree *to);
/* Frees a map. O(n). It never fails. */
void bptree_free(bptree *map);
/* Removes all pairs. It allocates one node. O(n). */
bool bptree_clear(bptree *map);
/* The n given pairs, in any order, replace what the map holds: of equal keys the last one stays.
   O(n log n), and O(n) if the pairs are sorted. */
bool bptree_load(bptree *map, const bptree_pair *given, size_t n);

/* Calls that read. None of them fails, allocates, or writes to the map. False: there is no such key
   or pair, and what the last argument points to is unchanged; but bptree_rank always writes how many
   keys are smaller, and returns whether the key itself is there. bptree_len takes O(1), the others
   take O(log n). */
size_t bptree_len(const bptree *map);
bool bptree_contains(const bptree *map, uint64_t key);
bool bptree_get(const bptree *map, uint64_t key, uint64_t *value);
bool bptree_first(const bptree *map, bptree_pair *pair);
bool bptree_last(const bptree *map, bptree_pair *pair);
/* The pair with the least greater key, and the one with the greatest smaller key. The key itself
   need not be there. */
bool bptree_next(const bptree *map, uint64_t key, bptree_pair *pair);
bool bptree_prev(const bptree *map, uint64_t key, bptree_pair *pair);
/* Indexes count from 0, in the order of the keys. */
bool bptree_at(const bptree *map, size_t index, bptree_pair *pair);
bool bptree_rank(const bptree *map, uint64_t key, size_t *rank);
/* The number of keys that are at least `from` and less than `to`. */
size_t bptree_range_len(const bptree *map, uint64_t from, uint64_t to);

/* Calls that change a map, in O(log n). BPTREE_REPLACED and BPTREE_REMOVED alone write to what the
   last argument points to; otherwise that is unchanged. */
/* BPTREE_ADDED, BPTREE_REPLACED with the old value in *old, or BPTREE_NO_MEMORY. The call never
   fails for a key that is there. */
bptree_result bptree_put(bptree *map, uint64_t key, uint64_t value, uint64_t *old);
/* BPTREE_REMOVED with the value in *old, or BPTREE_ABSENT. A removal needs no memory and never
   fails. */
bptree_result bptree_del(bptree *map, uint64_t key, uint64_t *old);
/* The pair at an index, the first and the last pair: BPTREE_REMOVED with the pair in *pair, or
   BPTREE_ABSENT. The calls need no memory and never fail. */
bptree_result bptree_del_at(bptree *map, size_t index, bptree_pair *pair);
bptree_result bptree_pop_first(bptree *map, bptree_pair *pair);
bptree_result bptree_pop_last(bptree *map, bptree_pair *pair);

/* Calls that copy pairs into an array of n, until it is full or there are no more, and return how
   many. The rest of the array is unchanged. None of them fails. They take O(log m + n) in a map of m
   pairs. */
/* From the least key that is at least `from`, upward. */
size_t bptree_range(const bptree *map, uint64_t from, bptree_pair *out, size_t n);
/* From the greatest key that is at most `from`, downward. */
size_t bptree_range_back(const bptree *map, uint64_t from, bptree_pair *out, size_t n);
/* A page of n pairs: the first page is 0. */
size_t bptree_page(const bptree *map, size_t number, bptree_pair *out, size_t n);
/* From the pair at an index, upward: the keys into one array and the values into another. Both have
   n members, so n_values is n. */
size_t bptree_copy(const bptree *map, size_t index, uint64_t *keys, size_t n, uint64_t *values, size_t n_values);

/* Calls for n keys or indexes at once. Each of their arrays has n members, and every count of such a
   call is n. O(n log m) in a map of m pairs. The calls that only read search the tree for 16 keys
   side by side, so that in a large map they take about half the time of single calls.
   bptree_put_many alone can fail. */
/* The value at each key that is there, and a 1 in `found`; for the others `values` is unchanged,
   and `found` has a 0. */
void bptree_get_many(const bptree *map, const uint64_t *keys, size_t n, uint64_t *values, size_t n_values, uint8_t *found, size_t n_found);
/* A 1 in `found` for each key that is there, and a 0 for the others. */
void bptree_contains_many(const bptree *map, const uint64_t *keys, size_t n, uint8_t *found, size_t n_found);
/* How many keys of the map are smaller than each of the keys. */
void bptree_rank_many(const bptree *map, const uint64_t *keys, size_t n, size_t *ranks, size_t n_ranks);
/* The key and the value at each index, and a 1 in `found`; past the last pair `keys` and `values` are
   unchanged, and `found` has a 0. */
void bptree_at_many(const bptree *map, const size_t *indexes, size_t n, uint64_t *keys, size_t n_keys, uint64_t *values, size_t n_values,
                    uint8_t *found, size_t n_found);
/* Stores each value at its key, all of them or none. False: an allocation failed, and nothing has
   changed. Of equal keys the last value stays. O(n log n) to sort the keys; then O(n log m) if they
   are fewer than m / 6, and else O(n + m). */
bool bptree_put_many(bptree *map, const uint64_t *keys, size_t n, const uint64_t *values, size_t n_values);
/* Removes the keys: a 1 in `found` for each that was there, and a 0 for the others. Of a key that
   comes twice, the second one is not there. The call needs no memory and never fails. */
void bptree_del_many(bptree *map, const uint64_t *keys, size_t n, uint8_t *found, size_t n_found);

/* A map from byte strings to 64-bit numbers, or none. Its caller keeps the same three things as of a
   map of numbers, and its calls cost what those do, with comparisons of keys in place of numbers.
   Keys are copied in, may be empty and may hold any bytes. The first byte that differs decides their
   order; if one of two keys is a prefix of the other, the shorter one is less. A call that looks up
   a key compares its n bytes without a copy: it allocates nothing and never fails. Beside each key
   the map stores its first eight bytes as a number, and compares the bytes themselves only where
   two such numbers are equal. */
typedef struct bptree_dict {
    void *at;
} bptree_dict;

typedef struct bptree_record {
    size_t length;
    uint64_t value;
} bptree_record;

/* Calls of a map from byte strings. They take O(log n) comparisons and steps at most, but
   bptree_dict_new and bptree_dict_len take O(1), bptree_dict_clone, bptree_dict_free and
   bptree_dict_clear take O(n), and bptree_dict_load takes O(n log n). A call that copies pairs also
   takes O(1) a pair, and the time to copy its bytes. Calls that read never fail. */
/* Makes a map with no pairs. False: an allocation failed, and nothing has changed. */
bool bptree_dict_new(bptree_dict *dict);
/* Makes `to`, which holds no map, a copy of a map. False: an allocation failed, and nothing has
   changed. */
bool bptree_dict_clone(const bptree_dict *dict, bptree_dict *to);
/* Frees a map. It never fails. */
void bptree_dict_free(bptree_dict *dict);
/* Removes all pairs. False: an allocation failed, and nothing has changed. */
bool bptree_dict_clear(bptree_dict *dict);
/* The number of pairs. */
size_t bptree_dict_len(const bptree_dict *dict);
/* False: the key is absent, and *value is unchanged; bptree_dict_rank always writes how many keys
   are smaller. */
bool bptree_dict_contains(const bptree_dict *dict, const uint8_t *key, size_t n);
bool bptree_dict_get(const bptree_dict *dict, const uint8_t *key, size_t n, uint64_t *value);
bool bptree_dict_rank(const bptree_dict *dict, const uint8_t *key, size_t n, size_t *rank);
/* BPTREE_ADDED, BPTREE_REPLACED with the old value in *old, or BPTREE_NO_MEMORY. The call never
   fails for a key that is there. */
bptree_result bptree_dict_put(bptree_dict *dict, const uint8_t *key, size_t n, uint64_t value, uint64_t *old);
/* BPTREE_REMOVED with the value in *old, BPTREE_ABSENT, or BPTREE_NO_MEMORY: a removal can copy a
   key that stays. The call never fails for a key that is absent. It copies the key to descend once;
   if that copy fails, it descends twice. */
bptree_result bptree_dict_del(bptree_dict *dict, const uint8_t *key, size_t n, uint64_t *old);
/* These calls copy as many bytes of a pair's key as fit into an array of `room` bytes, with no 0
   behind them, and write the key's whole length to *len and the value to *value: if *len is more
   than `room`, the copy was truncated. The rest of the array is unchanged. False: there is no such
   pair, and nothing is written. */
bool bptree_dict_first(const bptree_dict *dict, uint8_t *out, size_t room, size_t *len, uint64_t *value);
bool bptree_dict_last(const bptree_dict *dict, uint8_t *out, size_t room, size_t *len, uint64_t *value);
bool bptree_dict_at(const bptree_dict *dict, size_t index, uint8_t *out, size_t room, size_t *len, uint64_t *value);
bool bptree_dict_next(const bptree_dict *dict, const uint8_t *key, size_t n, uint8_t *out, size_t room, size_t *len, uint64_t *value);
bool bptree_dict_prev(const bptree_dict *dict, const uint8_t *key, size_t n, uint8_t *out, size_t room, size_t *len, uint64_t *value);
/* The number of keys that are at least the n bytes of `from` and less than the m bytes of `to`. */
size_t bptree_dict_range_len(const bptree_dict *dict, const uint8_t *from, size_t n, const uint8_t *to, size_t m);
/* Copies the values of the pairs from an index on, in the order of their keys, until the array is
   full or there are no more, and returns how many. The rest of the array is unchanged. */
size_t bptree_dict_values(const bptree_dict *dict, size_t index, uint64_t *out, size_t n);
/* Copies pairs from an index on, in the order of the keys, until the records are used up, the next
   key does not fit into what is left of the bytes, or there are no more: the keys' bytes one after
   another, and of each pair a record of its key's length and its value. It returns how many. The
   rest of both arrays is unchanged. */
size_t bptree_dict_page(const bptree_dict *dict, size_t index, uint8_t *bytes, size_t room, bptree_record *out, size_t n);
/* The same from the pair just before an index, downward. An index past the end is that behind the
   last pair. */
size_t bptree_dict_page_back(const bptree_dict *dict, size_t index, uint8_t *bytes, size_t room, bptree_record *out, size_t n);
/* The given pairs, in any order and in the form that bptree_dict_page writes, replace what the map
   holds: of equal keys the last one stays. False: an allocation failed, or there are fewer bytes
   than the lengths add up to; then nothing has changed. */
bool bptree_dict_load(bptree_dict *dict, const uint8_t *bytes, size_t room, const bptree_record *given, size_t n);
/* BPTREE_REMOVED with the value in *old, BPTREE_ABSENT, or BPTREE_NO_MEMORY. The call never fails
   past the end. */
bptree_result bptree_dict_del_at(bptree_dict *dict, size_t index, uint64_t *old);
/* The first and the last pair: BPTREE_REMOVED with the key in `out`, its length in *len and the value
   in *value, BPTREE_ABSENT, BPTREE_NO_ROOM with the key's length in *len if that is more than `room`,
   or BPTREE_NO_MEMORY. What is not named here is unchanged. The calls never fail for an empty map. */
bptree_result bptree_dict_pop_first(bptree_dict *dict, uint8_t *out, size_t room, size_t *len, uint64_t *value);
bptree_result bptree_dict_pop_last(bptree_dict *dict, uint8_t *out, size_t room, size_t *len, uint64_t *value);

/* A set of byte strings, or none: a map from byte strings whose values are all 0. Each call is the
   map's call of that name, and costs and fails as that does. */
typedef struct bptree_bytes {
    bptree_dict keys;
} bptree_bytes;

/* Each of these calls is the call of bptree_dict of its name, with 0 as the value. It fails as that
   call fails, and takes what that call takes: O(log n) comparisons; O(1) for bptree_bytes_new and
   bptree_bytes_len; O(n) for bptree_bytes_clone, bptree_bytes_free and bptree_bytes_clear. */
static inline bool bptree_bytes_new(bptree_bytes *set) { return bptree_dict_new(&set->keys); }
static inline bool bptree_bytes_clone(const bptree_bytes *set, bptree_bytes *to) { return bptree_dict_clone(&set->keys, &to->keys); }
static inline void bptree_bytes_free(bptree_bytes *set) { bptree_dict_free(&set->keys); }
static inline bool bptree_bytes_clear(bptree_bytes *set) { return bptree_dict_clear(&set->keys); }
static inline size_t bptree_bytes_len(const bptree_bytes *set) { return bptree_dict_len(&set->keys); }
static inline bool bptree_bytes_contains(const bptree_bytes *set, const uint8_t *key, size_t n) { return bptree_dict_contains(&set->keys, key, n); }
static inline bool bptree_bytes_rank(const bptree_bytes *set, const uint8_t *key, size_t n, size_t *rank) {
    return bptree_dict_rank(&set->keys, key, n, rank);
}
/* BPTREE_ADDED, BPTREE_REPLACED if the key was there, or BPTREE_NO_MEMORY. */
static inline bptree_result bptree_bytes_put(bptree_bytes *set, const uint8_t *key, size_t n) {
    uint64_t old;
    return bptree_dict_put(&set->keys, key, n, 0, &old);
}
static inline bptree_result bptree_bytes_del(bptree_bytes *set, const uint8_t *key, size_t n) {
    uint64_t old;
    return bptree_dict_del(&set->keys, key, n, &old);
}
static inline bptree_result bptree_bytes_del_at(bptree_bytes *set, size_t index) {
    uint64_t old;
    return bptree_dict_del_at(&set->keys, index, &old);
}
static inline size_t bptree_bytes_range_len(const bptree_bytes *set, const uint8_t *from, size_t n, const uint8_t *to, size_t m) {
    return bptree_dict_range_len(&set->keys, from, n, to, m);
}
static inline bool bptree_bytes_first(const bptree_bytes *set, uint8_t *out, size_t room, size_t *len) {
    uint64_t value;
    return bptree_dict_first(&set->keys, out, room, len, &value);
}
static inline bool bptree_bytes_last(const bptree_bytes *set, uint8_t *out, size_t room, size_t *len) {
    uint64_t value;
    return bptree_dict_last(&set->keys, out, room, len, &value);
}
static inline bool bptree_bytes_at(const bptree_bytes *set, size_t index, uint8_t *out, size_t room, size_t *len) {
    uint64_t value;
    return bptree_dict_at(&set->keys, index, out, room, len, &value);
}
static inline bool bptree_bytes_next(const bptree_bytes *set, const uint8_t *key, size_t n, uint8_t *out, size_t room, size_t *len) {
    uint64_t value;
    return bptree_dict_next(&set->keys, key, n, out, room, len, &value);
}
static inline bool bptree_bytes_prev(const bptree_bytes *set, const uint8_t *key, size_t n, uint8_t *out, size_t room, size_t *len) {
    uint64_t value;
    return bptree_dict_prev(&set->keys, key, n, out, room, len, &value);
}
static inline bptree_result bptree_bytes_pop_first(bptree_bytes *set, uint8_t *out, size_t room, size_t *len) {
    uint64_t value;
    return bptree_dict_pop_first(&set->keys, out, room, len, &value);
}
static inline bptree_result bptree_bytes_pop_last(bptree_bytes *set, uint8_t *out, size_t room, size_t *len) {
    uint64_t value;
    return bptree_dict_pop_last(&set->keys, out, room, len, &value);
}

#ifdef __cplusplus
}
#endif
#endif
