/* Iterators over the keys, values or pairs of a map, from one end to the other.

   An iterator reads pairs in blocks. A block needs no references: it is read only while the map is
   unchanged, which `version` shows. After a change the iterator continues from the key that it
   returned last, and reads a block anew.

   In a map of numbers the search for a block is by its first word. In a map of byte strings it is by
   its first index, and the addresses of keys and values are read from their entries many at once. */
#include "maps.h"

/* (the object of a block of 56 pairs is of a size for which malloc keeps a list of freed blocks) */
enum { BLOCK = 56, FIRST_BLOCK = 16, SHORT_BLOCK = 4 };

typedef struct Walk {
    PyObject_HEAD
    Map *map;                /* NULL: the end was reached, and the block is empty */
    uint64_t version;        /* of the map when the block was read */
    size_t at, count;        /* of the block: the next pair, and how many there are */
    uint64_t low, high;      /* what no block had: from one word to another, or from an index to before another */
    uint64_t last;           /* if has_last: the word that was returned last, in place of `start` */
    PyObject *start, *bound; /* the key to continue from, and the last one: NULL for no bound */
    size_t room;             /* how many pairs the next block takes */
    Holder holder;           /* what held the pairs when `low` and `high` were found */
    unsigned char what;
    bool is_back, is_start_in, is_bound_in, has_last;
    bool is_empty;            /* no word is between the ends */
    bool is_over;             /* no block is behind this one */
    bptree_pair pairs[BLOCK]; /* of a map of byte strings: the addresses of keys and values */
} Walk;

static PyTypeObject *walk_type;

/* Sets the words of a range of a map of numbers, by the spots of its ends. */
static void set_words(Walk *walk, int low_spot, uint64_t low, bool is_low_in, int high_spot, uint64_t high, bool is_high_in) {
    bool is_behind = low_spot == SPOT_AT && !is_low_in;
    bool is_before = high_spot == SPOT_BEFORE || (high_spot == SPOT_AT && !is_high_in);
    if (high_spot == SPOT_BEHIND) high = UINT64_MAX;
    walk->low = low + is_behind;
    walk->high = high - is_before;
    walk->is_empty = low_spot == SPOT_BEHIND || (is_behind && low == UINT64_MAX) || (is_before && !high) || walk->low > walk->high;
    walk->is_over = walk->is_empty;
}

/* Sets the indices of a range of a map of byte strings, by the bytes of its ends: NULL for no end. */
static void set_indices(Walk *walk, Map *map, const Bytes *low, bool is_low_in, const Bytes *high, bool is_high_in) {
    bool is_there = false;
    walk->low = low ? rank_of_bytes(map, low, &is_there) : 0;
    if (low && is_there && !is_low_in) walk->low++;
    walk->high = high ? rank_of_bytes(map, high, &is_there) : SIZE_MAX;
    if (high && is_there && is_high_in) walk->high++;
    walk->is_empty = walk->is_over = walk->low >= walk->high;
}

/* The spot of an end that is encoded or is an int, and `otherwise` if there is no end. It runs no code. */
static int spot_of_end(const Map *map, PyObject *end, const Bytes *bytes, int otherwise, uint64_t *word) {
    *word = 0;
    if (!end) return otherwise;
    return bytes->n ? key_spot(bytes, is_signed(map), word) : key_spot_of_int(end, is_signed(map), word);
}

static int encode_end(Bytes *bytes, PyObject *end) {
    int result = end ? key_encode(bytes, end) : KEY_GOOD;
    if (result == KEY_NONE) key_raise(bytes);
    return result ? -1 : 0;
}

/* Finds what is between two ends that are encoded, or are ints in a map of numbers. It runs no code. */
static void set_range(Walk *walk, Map *map, PyObject *const *ends, const Bytes *bytes, const bool *are_in) {
    uint64_t low, high;
    int low_spot, high_spot;
    walk->is_empty = walk->is_over = true;
    if (is_of_numbers(map)) {
        low_spot = spot_of_end(map, ends[0], &bytes[0], SPOT_BEFORE, &low);
        high_spot = spot_of_end(map, ends[1], &bytes[1], SPOT_BEHIND, &high);
        set_words(walk, low_spot, low, are_in[0], high_spot, high, are_in[1]);
    }
    if (map->holder == HOLDS_ANY) set_indices(walk, map, ends[0] ? &bytes[0] : NULL, are_in[0], ends[1] ? &bytes[1] : NULL, are_in[1]);
    walk->holder = map->holder;
    walk->version = map->version;
    walk->at = walk->count = 0;
}

/* Finds what is between both ends of an iterator. To encode a key may run code that uses this
   iterator or changes the map. So both keys are encoded first, and then the map is looked at. */
static int walk_find(Walk *walk, Map *map) {
    bool is_back = walk->is_back;
    PyObject *ends[2] = {is_back ? walk->bound : walk->start, is_back ? walk->start : walk->bound};
    bool are_in[2] = {is_back ? walk->is_bound_in : walk->is_start_in, is_back ? walk->is_start_in : walk->is_bound_in};
    Bytes bytes[2];
    int result = 0;
    bool are_ints = is_of_numbers(map);
    for (int i = 0; i < 2; i++) {
        bytes_begin(&bytes[i]);
        Py_XINCREF(ends[i]);
        are_ints = are_ints && (!ends[i] || PyLong_CheckExact(ends[i]));
    }
    for (int i = 0; i < 2 && !are_ints && !result; i++) result = encode_end(&bytes[i], ends[i]);
    if (!result) set_range(walk, map, ends, bytes, are_in);
    for (int i = 0; i < 2; i++) {
        bytes_end(&bytes[i]);
        Py_XDECREF(ends[i]);
    }
    return result;
}

/* Removes the pairs that were returned from what is between the ends. */
static void walk_skip(Walk *walk) {
    size_t n = walk->at;
    walk->at = walk->count = 0;
    if (!n) return;
    if (!is_by_words(walk->holder)) {
        if (walk->is_back) walk->high -= n;
        else walk->low += n;
        return;
    }
    walk->last = walk->pairs[n - 1].key;
    walk->has_last = true;
    if (walk->last == (walk->is_back ? walk->low : walk->high)) walk->is_empty = walk->is_over = true;
    else if (walk->is_back) walk->high = walk->last - 1;
    else walk->low = walk->last + 1;
}

/* Continues after a change of the map. The next block is short, since the map may change again. */
static int walk_resume(Walk *walk, Map *map) {
    bool was_by_words = is_by_words(walk->holder);
    walk->room = SHORT_BLOCK;
    if (was_by_words) walk_skip(walk);
    if (was_by_words && walk->holder == map->holder) {
        walk->is_over = walk->is_empty;
        walk->version = map->version;
        return 0;
    }
    if (was_by_words && walk->has_last) {
        PyObject *old = walk->start, *key = key_of_word(walk->last, walk->holder == HOLDS_SIGNED);
        if (!key) return -1;
        walk->start = key;
        walk->is_start_in = walk->has_last = false;
        Py_XDECREF(old);
    }
    return walk_find(walk, map);
}

static void read_entries(Walk *walk, Map *map, size_t n) {
    uint64_t words[BLOCK];
    uint64_t length = length_of(map);
    if (walk->high > length) walk->high = length;
    uint64_t left = walk->high > walk->low ? walk->high - walk->low : 0;
    if (n >= left) {
        n = (size_t)left;
        walk->is_over = true;
    }
    walk->count = bptree_dict_values(&map->any, (size_t)(walk->is_back ? walk->high - n : walk->low), words, n);
    /* (entries and objects are anywhere in memory, so all are asked for before one is used) */
    for (size_t i = 0; i < walk->count; i++) __builtin_prefetch(entry_at(words[i]));
    for (size_t i = 0; i < walk->count; i++) {
        PyObject *key = entry_at(words[i])->key, *value = entry_at(words[i])->value;
        walk->pairs[walk->is_back ? walk->count - 1 - i : i] = (bptree_pair){word_of(key), word_of(value)};
        __builtin_prefetch(key, 1);
        if (walk->what != KEYS) __builtin_prefetch(value, 1);
    }
}

static void read_words(Walk *walk, Map *map, size_t n) {
    size_t count =
        walk->is_back ? bptree_range_back(&map->numbers, walk->high, walk->pairs, n) : bptree_range(&map->numbers, walk->low, walk->pairs, n);
    walk->is_over = count < n;
    if (walk->is_back) {
        while (count && walk->pairs[count - 1].key < walk->low) count--;
    } else {
        while (count && walk->pairs[count - 1].key > walk->high) count--;
    }
    walk->is_over |= count < n;
    walk->count = count;
    for (size_t i = 0; i < count && walk->what != KEYS; i++) __builtin_prefetch(object_at(walk->pairs[i].value), 1);
}

/* Reads the next block. Returns 1; 0 at the end; -1 with an exception. (in walk_next itself it would
   cost each call the registers that it saves) */
static __attribute__((noinline)) int walk_more(Walk *walk) {
    /* (the search may run code that uses this iterator or changes the map) */
    while (walk->map && walk->version != walk->map->version) {
        Map *map = walk->map;
        Py_INCREF((PyObject *)map);
        int result = walk_resume(walk, map);
        Py_DECREF((PyObject *)map);
        if (result) return -1;
    }
    if (!walk->map) return 0;
    if (walk->at < walk->count) return 1;
    walk_skip(walk);
    if (!walk->is_over) {
        size_t n = walk->room;
        walk->room = n < FIRST_BLOCK ? FIRST_BLOCK : BLOCK;
        if (walk->holder == HOLDS_ANY) read_entries(walk, walk->map, n);
        else read_words(walk, walk->map, n);
        if (walk->count) return 1;
    }
    Py_CLEAR(walk->map);
    return 0;
}

/* The key, value or pair of a map of byte strings. */
static PyObject *next_of_entries(Walk *walk) {
    bptree_pair pair = walk->pairs[walk->at++];
    PyObject *key = object_at(pair.key), *value = object_at(pair.value), *old = walk->start;
    Py_INCREF(key);
    walk->start = key;
    walk->is_start_in = false;
    if (walk->what != VALUES) Py_INCREF(key);
    if (walk->what != KEYS) Py_INCREF(value);
    Py_XDECREF(old);
    if (walk->what == ITEMS) return pair_of(key, value);
    return walk->what == KEYS ? key : value;
}

/* The key, value or pair of a map of numbers. */
static PyObject *next_of_words(Walk *walk) {
    bptree_pair pair = walk->pairs[walk->at];
    PyObject *value = object_at(pair.value), *key = NULL;
    if (walk->what != VALUES && !(key = key_of_word(pair.key, walk->holder == HOLDS_SIGNED))) return NULL;
    walk->at++;
    if (walk->what == KEYS) return key;
    Py_INCREF(value);
    return walk->what == VALUES ? value : pair_of(key, value);
}

static PyObject *walk_next(PyObject *self) {
    Walk *walk = (Walk *)self;
    if ((walk->at == walk->count || walk->version != walk->map->version) && walk_more(walk) <= 0) return NULL;
    return walk->holder == HOLDS_ANY ? next_of_entries(walk) : next_of_words(walk);
}

static int walk_traverse(PyObject *self, visitproc visit, void *arg) {
    Walk *walk = (Walk *)self;
    Py_VISIT(Py_TYPE(self));
    Py_VISIT((PyObject *)walk->map);
    Py_VISIT(walk->start);
    Py_VISIT(walk->bound);
    return 0;
}

static int walk_clear(PyObject *self) {
    Walk *walk = (Walk *)self;
    walk->at = walk->count = 0;
    Py_CLEAR(walk->map);
    Py_CLEAR(walk->start);
    Py_CLEAR(walk->bound);
    return 0;
}

static void walk_dealloc(PyObject *self) {
    PyTypeObject *type = Py_TYPE(self);
    PyObject_GC_UnTrack(self);
    walk_clear(self);
    PyObject_GC_Del(self);
    Py_DECREF(type);
}

PyObject *walk_over(Map *map, int what, bool is_back, PyObject *low, bool is_low_in, PyObject *high, bool is_high_in) {
    Walk *walk = PyObject_GC_New(Walk, walk_type);
    if (!walk) return NULL;
    walk->map = map;
    walk->start = is_back ? high : low;
    walk->bound = is_back ? low : high;
    Py_INCREF((PyObject *)map);
    Py_XINCREF(low);
    Py_XINCREF(high);
    walk->what = (unsigned char)what;
    walk->is_back = is_back;
    walk->is_start_in = is_back ? is_high_in : is_low_in;
    walk->is_bound_in = is_back ? is_low_in : is_high_in;
    /* (code that runs while an end is encoded could find the iterator, and then it searches too) */
    walk->holder = HOLDS_NONE;
    walk->version = map->version - 1;
    walk->at = walk->count = 0;
    walk->low = walk->high = walk->last = 0;
    walk->has_last = false;
    walk->is_empty = walk->is_over = true;
    walk->room = FIRST_BLOCK;
    PyObject_GC_Track((PyObject *)walk);
    if (!walk_find(walk, map)) return (PyObject *)walk;
    Py_DECREF((PyObject *)walk);
    return NULL;
}

PyObject *walk_over_nothing(Map *map) {
    PyObject *walk = walk_over(map, KEYS, false, NULL, true, NULL, true);
    if (walk) Py_CLEAR(((Walk *)walk)->map);
    return walk;
}

#define SLOT(name, call)                                                                                                                             \
    { Py_##name, (void *)call }

static PyType_Slot walk_slots[] = {
    SLOT(tp_doc, "An iterator over keys, values or pairs."),
    SLOT(tp_dealloc, walk_dealloc),
    SLOT(tp_traverse, walk_traverse),
    SLOT(tp_clear, walk_clear),
    SLOT(tp_iter, PyObject_SelfIter),
    SLOT(tp_iternext, walk_next),
    {0, NULL},
};
static PyType_Spec walk_spec = {
    "sweep_bptree._native.Walk", sizeof(Walk), 0, Py_TPFLAGS_DEFAULT | Py_TPFLAGS_HAVE_GC | Py_TPFLAGS_DISALLOW_INSTANTIATION, walk_slots,
};

int walks_begin(void) {
    walk_type = (PyTypeObject *)PyType_FromSpec(&walk_spec);
    return walk_type ? 0 : -1;
}
