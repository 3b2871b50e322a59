/* What the parts of the extension share of maps and sets. */
#ifndef SWEEP_BPTREE_MAPS_H
#define SWEEP_BPTREE_MAPS_H

#include "keys.h"
#include "sweep_bptree.h"

/* What holds the pairs: nothing, one of the two ranges of 64 bits, or the map of byte strings. */
typedef enum { HOLDS_NONE, HOLDS_SIGNED, HOLDS_UNSIGNED, HOLDS_ANY } Holder;

/* What an iterator or a list has. */
enum { KEYS, VALUES, ITEMS };

enum { MOST_SHARED = 47 };

typedef struct Map {
    PyObject_HEAD
    Holder holder;
    bool has_values;  /* false: a set */
    uint64_t version; /* grows by each change */
    bptree numbers;
    bptree_dict any;
    /* The first bytes of all keys of the map of byte strings, which has what is behind them. They
       were last made as many as they can be when there were `shared_since` keys. */
    size_t shared_since;
    uint8_t n_shared, shared[MOST_SHARED];
} Map;

/* A key and its value, which is NULL in a set. */
typedef struct Entry {
    PyObject *key, *value;
} Entry;

static inline bool is_by_words(Holder holder) { return holder == HOLDS_SIGNED || holder == HOLDS_UNSIGNED; }
static inline bool is_signed(const Map *map) { return map->holder == HOLDS_SIGNED; }
static inline bool is_of_numbers(const Map *map) { return is_by_words(map->holder); }
static inline uint64_t word_of(const void *at) { return (uint64_t)(uintptr_t)at; }
static inline PyObject *object_at(uint64_t word) { return (PyObject *)(uintptr_t)word; }
static inline Entry *entry_at(uint64_t word) { return (Entry *)(uintptr_t)word; }

/* Sets MemoryError, and returns -1. */
int no_memory(void);
/* An array of n members of a size. NULL with an exception if there is no memory. */
void *make_array(size_t n, size_t size);
size_t length_of(Map *map);
/* Frees what holds the pairs, and drops no reference. */
void free_holder(Map *map);
/* Makes these pairs what a map holds, and neither takes nor drops a reference. On failure nothing has
   changed. */
int load_numbers(Map *map, Holder holder, const bptree_pair *pairs, size_t n);
/* 1: the word of the value or the entry. 0: the key is absent. -1: an exception. */
int find(Map *map, PyObject *key, uint64_t *found);
/* The value of a word that `find` wrote, borrowed. */
static inline PyObject *value_of(const Map *map, uint64_t word) { return map->holder == HOLDS_ANY ? entry_at(word)->value : object_at(word); }
/* Makes room for an int of 64 bits that is outside the range of a map of numbers. 1: the map has keys
   of both ranges then, and nothing has changed. -1: an exception. */
int shift(Map *map);
/* How many keys are smaller, and whether the key is there. -1: an exception. */
Py_ssize_t rank_of(Map *map, PyObject *key, bool *is_there);
/* The same of an encoded key, in a map of byte strings. It runs no code. */
size_t rank_of_bytes(Map *map, const Bytes *bytes, bool *is_there);
/* Stores a pair. On failure there is an exception, and the pairs are as before. */
int put(Map *map, PyObject *key, PyObject *value);
/* 1: the key is gone, and *value is the caller's. 0: it was absent. -1: an exception. */
int take(Map *map, PyObject *key, PyObject **value);
/* The indices of the keys that are at least the minimum and less than the maximum: NULL or None is
   no bound. Returns -1 with an exception. */
int indices_between(Map *map, PyObject *minimum, PyObject *maximum, Py_ssize_t *from, Py_ssize_t *to);

/* The keys, values or pairs from an index to another one, as they are at one moment. */
PyObject *list_of(Map *map, int what, size_t from, size_t to);
/* Makes a pair of two references that are the caller's, and are not then. */
PyObject *pair_of(PyObject *key, PyObject *value);

/* Iterators (iterators.c). */
int walks_begin(void);
/* An iterator from one end to the other, each of them a key or NULL. */
PyObject *walk_over(Map *map, int what, bool is_back, PyObject *low, bool is_low_in, PyObject *high, bool is_high_in);
/* An iterator that has reached its end. */
PyObject *walk_over_nothing(Map *map);

/* Writes the arguments of a call to `found`: NULL for each that is not given. They are named in
   `names`, of which the first `least` must be given and may not be named. */
int arguments(const char *call, PyObject *const *given, Py_ssize_t n, PyObject *keywords, const char *const *names, Py_ssize_t least,
              PyObject **found);

#define ARGUMENTS PyObject *self, PyObject *const *given, Py_ssize_t n, PyObject *keywords
#define TAKE(call, least, ...)                                                                                                                       \
    static const char *const names[] = {__VA_ARGS__, NULL};                                                                                          \
    PyObject *found[sizeof names / sizeof *names];                                                                                                   \
    if (arguments(call, given, n, keywords, names, least, found)) return NULL
#define PLAIN(name, call, flags, doc)                                                                                                                \
    { name, call, flags, PyDoc_STR(doc) }
#define NAMED(name, call, doc)                                                                                                                       \
    { name, (PyCFunction)(void (*)(void))call, METH_FASTCALL | METH_KEYWORDS, PyDoc_STR(doc) }

/* Calls for arrays of keys (arrays.c). */
PyObject *shared_rank_many(PyObject *self, PyObject *keys);
PyObject *shared_del_many(PyObject *self, PyObject *keys);
PyObject *shared_keys_array(ARGUMENTS);
PyObject *map_get_many(ARGUMENTS);
PyObject *map_put_many(ARGUMENTS);
PyObject *map_items_arrays(ARGUMENTS);

#endif
