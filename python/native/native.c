/* The compiled part of the package sweep_bptree: maps and sets of any key over the maps of
   sweep_bptree.h. The interpreter's lock is held over each call, and results are in memory of the
   call, so that calls of several threads take turns.

   While all keys are ints of 64 bits, the map of numbers holds them, each with its value's address.
   The first other key moves all pairs to the map of byte strings. That holds the bytes of each key
   (keys.h) and the address of an entry: the key object and its value. The first bytes, if they are
   those of all keys, are held once, beside the map: it compares eight bytes of a key as a number.

   Code of the caller can run when a key is encoded, when a reference is dropped, and when an object
   is made that the garbage collector tracks. So a key is encoded before the map is read, references
   are dropped after the map is whole again, and what is read from a map is held before an object is
   made. */
#include "maps.h"
#include <string.h>

/* BLOCK and FEW_WORDS are of pairs or words that are read at a time. */
enum { BLOCK = 64, FEW_WORDS = 32, FEW_KEYS = 64 };

static PyTypeObject *map_type, *set_type;
/* A KeyError, which popitem raises if there is no pair. It is a TypeError too, which popitem of a
   dict raises if an index is given. */
static PyObject *empty_error;

size_t length_of(Map *map) {
    if (map->holder == HOLDS_NONE) return 0;
    return map->holder == HOLDS_ANY ? bptree_dict_len(&map->any) : bptree_len(&map->numbers);
}

int no_memory(void) {
    PyErr_NoMemory();
    return -1;
}

static Entry *make_entry(PyObject *key, PyObject *value) {
    Entry *entry = PyMem_Malloc(sizeof *entry);
    if (!entry) {
        PyErr_NoMemory();
        return NULL;
    }
    Py_INCREF(key);
    Py_XINCREF(value);
    *entry = (Entry){key, value};
    return entry;
}

static void drop_entry(Entry *entry) {
    Entry old = *entry;
    PyMem_Free(entry);
    Py_DECREF(old.key);
    Py_XDECREF(old.value);
}

/* ---- what holds the pairs */

void free_holder(Map *map) {
    if (is_of_numbers(map)) bptree_free(&map->numbers);
    if (map->holder == HOLDS_ANY) bptree_dict_free(&map->any);
    map->holder = HOLDS_NONE;
}

/* The pairs of a map, or those that were taken out of one. */
typedef struct Held {
    Holder holder;
    bptree numbers;
    bptree_dict any;
} Held;

static Held held_of(const Map *map) { return (Held){map->holder, map->numbers, map->any}; }

/* The values or entries from an index on, as words: BLOCK at most. */
static __attribute__((noinline)) size_t words_from(const Held *held, size_t place, uint64_t *words, size_t n) {
    uint64_t keys[BLOCK];
    if (held->holder == HOLDS_NONE) return 0;
    if (held->holder == HOLDS_ANY) return bptree_dict_values(&held->any, place, words, n);
    return bptree_copy(&held->numbers, place, keys, n, words, n);
}

/* Takes all pairs out of a map, drops their references, and frees what held them. Maps in maps are
   freed in each other, some thousands of them deep, so this needs little of the stack. */
static void drop_all(Map *map) {
    Held old = held_of(map);
    uint64_t words[FEW_WORDS];
    map->holder = HOLDS_NONE;
    map->numbers = (bptree){0};
    map->any = (bptree_dict){0};
    map->version++;
    for (size_t place = 0, n; (n = words_from(&old, place, words, FEW_WORDS)); place += n) {
        for (size_t i = 0; i < n; i++) {
            if (old.holder == HOLDS_ANY) drop_entry(entry_at(words[i]));
            else Py_XDECREF(object_at(words[i]));
        }
    }
    if (is_by_words(old.holder)) bptree_free(&old.numbers);
    if (old.holder == HOLDS_ANY) bptree_dict_free(&old.any);
}

void *make_array(size_t n, size_t size) {
    void *array = n <= PY_SSIZE_T_MAX / size ? PyMem_Malloc(n ? n * size : 1) : NULL;
    if (!array) PyErr_NoMemory();
    return array;
}

/* All pairs of a map of numbers. */
static bptree_pair *all_pairs(Map *map, size_t n) {
    bptree_pair *pairs = make_array(n, sizeof *pairs);
    if (pairs) bptree_range(&map->numbers, 0, pairs, n);
    return pairs;
}

int load_numbers(Map *map, Holder holder, const bptree_pair *pairs, size_t n) {
    bptree numbers = {0};
    if (!bptree_new(&numbers)) return no_memory();
    if (!bptree_load(&numbers, pairs, n)) {
        bptree_free(&numbers);
        return no_memory();
    }
    free_holder(map);
    map->numbers = numbers;
    map->holder = holder;
    map->version++;
    return 0;
}

/* The bytes of keys, one key after another, and a record of each with its entry. */
typedef struct Batch {
    Bytes bytes;
    bptree_record *records;
    size_t n;
} Batch;

static int batch_begin(Batch *batch, size_t room) {
    bytes_begin(&batch->bytes);
    batch->n = 0;
    batch->records = make_array(room, sizeof *batch->records);
    return batch->records ? 0 : -1;
}

/* The results are those of key_encode. */
static int batch_add(Batch *batch, PyObject *key, PyObject *value) {
    size_t begun = batch->bytes.n;
    int result = key_encode(&batch->bytes, key);
    Entry *entry = result ? NULL : make_entry(key, value);
    if (!entry) return result ? result : KEY_FAILED;
    batch->records[batch->n++] = (bptree_record){batch->bytes.n - begun, word_of(entry)};
    return KEY_GOOD;
}

static void batch_end(Batch *batch, bool with_entries) {
    for (size_t i = 0; i < batch->n && with_entries; i++) drop_entry(entry_at(batch->records[i].value));
    bytes_end(&batch->bytes);
    PyMem_Free(batch->records);
}

/* How many bytes two keys have in common at their beginning: `most` at most. */
static size_t n_common(const uint8_t *one, size_t n, const uint8_t *other, size_t m, size_t most) {
    size_t i = 0;
    while (i < n && i < m && i < most && one[i] == other[i]) i++;
    return i;
}

/* Makes a batch what a map holds, and drops no reference of what it held. All its keys begin with
   the given bytes, which are not in the batch. 1: some keys are equal, and nothing has changed. */
static int batch_load(Batch *batch, Map *map, const uint8_t *shared, size_t n_shared) {
    bptree_dict any = {0};
    if (!bptree_dict_new(&any)) return no_memory();
    bool is_loaded = bptree_dict_load(&any, batch->bytes.at, batch->bytes.n, batch->records, batch->n);
    if (!is_loaded || bptree_dict_len(&any) < batch->n) {
        bptree_dict_free(&any);
        return is_loaded ? 1 : no_memory();
    }
    free_holder(map);
    map->any = any;
    map->holder = HOLDS_ANY;
    memmove(map->shared, shared, n_shared);
    map->n_shared = (uint8_t)n_shared;
    map->version++;
    return 0;
}

/* Takes the bytes that all keys of a batch share out of it, and of a key that is stored next if one
   is given. Returns how many. */
static size_t batch_share(Batch *batch, const Bytes *next, uint8_t *shared) {
    const uint8_t *key = batch->bytes.at, *first = next ? next->at : key;
    size_t n = next ? next->n : batch->n ? batch->records[0].length : 0;
    /* (a key alone shares its kind) */
    size_t most = batch->n ? MOST_SHARED : 1;
    if (n > most) n = most;
    for (size_t i = 0; i < batch->n && n; i++) {
        n = n_common(first, n, key, batch->records[i].length, n);
        key += batch->records[i].length;
    }
    memcpy(shared, first, n);
    uint8_t *to = batch->bytes.at;
    key = to;
    for (size_t i = 0; i < batch->n && n; i++) {
        size_t length = batch->records[i].length;
        memmove(to, key + n, length - n);
        to += length - n;
        key += length;
        batch->records[i].length = length - n;
    }
    batch->bytes.n -= n * batch->n;
    return n;
}

/* Makes a batch of whole keys what a map holds, as batch_load does. */
static int batch_load_all(Batch *batch, Map *map, const Bytes *next) {
    uint8_t shared[MOST_SHARED];
    size_t n_shared = batch_share(batch, next, shared);
    int result = batch_load(batch, map, shared, n_shared);
    if (!result) map->shared_since = batch->n;
    return result;
}

/* Holds all keys of a map of byte strings without the given bytes, with which they begin: more or
   fewer of them than before. On failure nothing has changed. */
static int share(Map *map, const uint8_t *shared, size_t n_shared) {
    size_t n = length_of(map), before = map->n_shared;
    size_t more = before > n_shared ? before - n_shared : 0, fewer = n_shared > before ? n_shared - before : 0;
    Batch batch;
    Bytes page, *bytes = &batch.bytes;
    bptree_record records[BLOCK];
    bytes_begin(&page);
    int result = batch_begin(&batch, n);
    while (batch.n < n && !result) {
        size_t count = bptree_dict_page(&map->any, batch.n, page.at, page.room, records, n - batch.n < BLOCK ? n - batch.n : BLOCK);
        const uint8_t *key = page.at;
        if (!count) result = bytes_grow(&page, page.room + 1);
        for (size_t i = 0; i < count && !result; i++) {
            size_t length = records[i].length;
            result = bytes_grow(bytes, more + length);
            if (result) break;
            memcpy(bytes->at + bytes->n, map->shared + n_shared, more);
            memcpy(bytes->at + bytes->n + more, key + fewer, length - fewer);
            bytes->n += more + length - fewer;
            key += length;
            batch.records[batch.n++] = (bptree_record){more + length - fewer, records[i].value};
        }
    }
    if (!result) result = batch_load(&batch, map, shared, n_shared);
    bytes_end(&page);
    batch_end(&batch, false);
    return result;
}

/* Shares no more bytes than a key has that is stored next. At least half of the bytes are given up at
   a time, so that this is seldom. On failure nothing has changed. */
static int share_fewer(Map *map, const Bytes *next) {
    uint8_t shared[MOST_SHARED];
    size_t n = n_common(map->shared, map->n_shared, next->at, next->n, MOST_SHARED);
    if (n == map->n_shared) return 0;
    if (n > map->n_shared / 2) n = map->n_shared / 2;
    memcpy(shared, map->shared, n);
    return share(map, shared, n);
}

/* Shares all bytes that the keys have in common, each time that there are twice as many keys, and not
   before there are FEW_KEYS. If there is no memory for that, the map stays as it is. */
static void share_more(Map *map) {
    size_t n = length_of(map), n_first = 0, n_last = 0, before = map->n_shared;
    if (n < FEW_KEYS || n / 2 < map->shared_since) return;
    uint8_t shared[MOST_SHARED], first[MOST_SHARED], last[MOST_SHARED];
    uint64_t word;
    map->shared_since = n;
    bptree_dict_first(&map->any, first, MOST_SHARED - before, &n_first, &word);
    bptree_dict_last(&map->any, last, MOST_SHARED - before, &n_last, &word);
    size_t more = n_common(first, n_first, last, n_last, MOST_SHARED - before);
    if (!more) return;
    memcpy(shared, map->shared, before);
    memcpy(shared + before, first, more);
    if (share(map, shared, before + more)) PyErr_Clear();
}

/* Moves all pairs of a map of numbers to a map of byte strings, in which a key is stored next. On
   failure nothing has changed. */
static int widen(Map *map, const Bytes *next) {
    size_t n = length_of(map);
    bptree_pair *pairs = is_of_numbers(map) ? all_pairs(map, n) : make_array(0, 1);
    if (!pairs) return -1;
    Batch batch;
    int result = batch_begin(&batch, n);
    for (size_t i = 0; i < n && !result; i++) {
        PyObject *key = key_of_word(pairs[i].key, is_signed(map));
        result = key ? batch_add(&batch, key, object_at(pairs[i].value)) : -1;
        Py_XDECREF(key);
    }
    if (!result) result = batch_load_all(&batch, map, next);
    batch_end(&batch, result != 0);
    /* (each entry has a reference to its value that the map of numbers had before) */
    for (size_t i = 0; i < n && !result; i++) Py_XDECREF(object_at(pairs[i].value));
    PyMem_Free(pairs);
    return result;
}

int shift(Map *map) {
    bptree_pair end;
    size_t n = length_of(map);
    bool was_signed = is_signed(map), is_there = was_signed ? bptree_first(&map->numbers, &end) : bptree_last(&map->numbers, &end);
    if (is_there && end.key >> 63 != was_signed) return 1;
    bptree_pair *pairs = all_pairs(map, n);
    for (size_t i = 0; pairs && i < n; i++) pairs[i].key ^= UINT64_C(1) << 63;
    int result = pairs ? load_numbers(map, was_signed ? HOLDS_UNSIGNED : HOLDS_SIGNED, pairs, n) : -1;
    PyMem_Free(pairs);
    return result;
}

/* ---- one key */

/* What finds a key: a spot in a map of numbers, or bytes in a map of byte strings, if the key begins
   with the shared bytes; else it is before or behind all keys. NO_KEY: the object is not a key. */
enum { AT_WORD = SPOT_AT, BEFORE_WORD = SPOT_BEFORE, BEHIND_ALL = SPOT_BEHIND, BEFORE_ALL, BY_BYTES, NO_KEY };

/* A key that is looked up. */
typedef struct Probe {
    uint64_t word;
    const uint8_t *at; /* the bytes behind the shared ones: of the encoding, or of a str */
    size_t n;
    Bytes bytes; /* the encoding, or nothing if no search needs it */
} Probe;

/* Compares the first bytes of a key with the shared ones, but for some bytes that are known to be equal. */
static int locate_bytes(const Map *map, const uint8_t *at, size_t n, size_t n_equal, Probe *probe) {
    size_t m = map->n_shared - n_equal;
    int order = memcmp(at, map->shared + n_equal, n < m ? n : m);
    if (order || n < m) return order > 0 ? BEHIND_ALL : BEFORE_ALL;
    probe->at = at + m;
    probe->n = n - m;
    return BY_BYTES;
}

/* Returns one of these, or -1 with an exception. Code of the caller may run before the map is read,
   and not after. */
static int locate(Map *map, PyObject *key, Probe *probe) {
    bytes_begin(&probe->bytes);
    if (PyLong_CheckExact(key) && is_of_numbers(map)) return key_spot_of_int(key, is_signed(map), &probe->word);
    bool are_strs = map->holder == HOLDS_ANY && map->n_shared && map->shared[0] == KEY_OF_STR;
    if (are_strs && (PyUnicode_CheckExact(key) || PyUnicode_Check(key))) {
        /* (the UTF-8 of a str is compared in its own memory) */
        Py_ssize_t n;
        const char *from = PyUnicode_AsUTF8AndSize(key, &n);
        if (from) return locate_bytes(map, (const uint8_t *)from, (size_t)n, 1, probe);
        PyErr_Clear();
    }
    int result = key_encode(&probe->bytes, key);
    if (result) return result == KEY_NONE ? NO_KEY : -1;
    if (map->holder == HOLDS_NONE) return BEHIND_ALL;
    if (is_of_numbers(map)) return key_spot(&probe->bytes, is_signed(map), &probe->word);
    return locate_bytes(map, probe->bytes.at, probe->bytes.n, 0, probe);
}

int find(Map *map, PyObject *key, uint64_t *found) {
    Probe probe;
    if (PyLong_CheckExact(key) && is_of_numbers(map)) {
        return key_spot_of_int(key, is_signed(map), &probe.word) == SPOT_AT && bptree_get(&map->numbers, probe.word, found);
    }
    int where = locate(map, key, &probe), result = where < 0 ? -1 : 0;
    if (where == AT_WORD) result = bptree_get(&map->numbers, probe.word, found);
    if (where == BY_BYTES) result = bptree_dict_get(&map->any, probe.at, probe.n, found);
    bytes_end(&probe.bytes);
    return result;
}

/* How many keys are smaller than one that was located, and whether it is there. */
static size_t rank_at(Map *map, int where, const Probe *probe, bool *is_there) {
    size_t smaller = 0;
    *is_there = false;
    if (where == AT_WORD) *is_there = bptree_rank(&map->numbers, probe->word, &smaller);
    if (where == BEFORE_WORD) bptree_rank(&map->numbers, probe->word, &smaller);
    if (where == BEHIND_ALL) smaller = length_of(map);
    if (where == BY_BYTES) *is_there = bptree_dict_rank(&map->any, probe->at, probe->n, &smaller);
    return smaller;
}

Py_ssize_t rank_of(Map *map, PyObject *key, bool *is_there) {
    Probe probe;
    int where = locate(map, key, &probe);
    size_t smaller = rank_at(map, where, &probe, is_there);
    if (where == NO_KEY) key_raise(&probe.bytes);
    bytes_end(&probe.bytes);
    return where < 0 || where == NO_KEY ? -1 : (Py_ssize_t)smaller;
}

size_t rank_of_bytes(Map *map, const Bytes *bytes, bool *is_there) {
    Probe probe;
    int where = locate_bytes(map, bytes->at, bytes->n, 0, &probe);
    return rank_at(map, where, &probe, is_there);
}

/* Stores at a word of the map of numbers. */
static int put_word(Map *map, uint64_t word, PyObject *value) {
    uint64_t old = 0;
    bptree_result code = bptree_put(&map->numbers, word, word_of(value), &old);
    if (code == BPTREE_NO_MEMORY) return no_memory();
    map->version++;
    Py_XINCREF(value);
    if (code == BPTREE_REPLACED) Py_XDECREF(object_at(old));
    return 0;
}

static int put_bytes(Map *map, const Probe *probe, PyObject *key, PyObject *value) {
    uint64_t old = 0;
    Entry *entry = make_entry(key, value);
    if (!entry) return -1;
    bptree_result code = bptree_dict_put(&map->any, probe->at, probe->n, word_of(entry), &old);
    if (code == BPTREE_NO_MEMORY) {
        drop_entry(entry);
        return no_memory();
    }
    map->version++;
    if (code == BPTREE_REPLACED) {
        /* the key that was there stays, as in a dict */
        Entry *gone = entry_at(old);
        PyObject *given = entry->key;
        entry->key = gone->key;
        gone->key = given;
        drop_entry(gone);
    } else share_more(map);
    return 0;
}

/* Stores a pair whose key is of type int itself in an empty map or one of numbers. 1: the map has to
   be widened, and nothing has changed. */
static int put_int(Map *map, PyObject *key, PyObject *value) {
    uint64_t word;
    bool is_fresh = map->holder == HOLDS_NONE, fits_signed = key_spot_of_int(key, true, &word) == SPOT_AT;
    if (is_fresh) {
        if (!fits_signed && key_spot_of_int(key, false, &word) != SPOT_AT) return 1;
        if (!bptree_new(&map->numbers)) return no_memory();
        map->holder = fits_signed ? HOLDS_SIGNED : HOLDS_UNSIGNED;
    } else if (key_spot_of_int(key, is_signed(map), &word) != SPOT_AT) {
        if (key_spot_of_int(key, !is_signed(map), &word) != SPOT_AT) return 1;
        int result = shift(map);
        if (result) return result;
    }
    int result = put_word(map, word, value);
    if (result && is_fresh) free_holder(map);
    return result;
}

int put(Map *map, PyObject *key, PyObject *value) {
    uint64_t word;
    if (PyLong_CheckExact(key) && is_of_numbers(map) && key_spot_of_int(key, is_signed(map), &word) == SPOT_AT) {
        return put_word(map, word, value);
    }
    if (key_is_by_index(key)) {
        PyObject *number = PyNumber_Index(key);
        int result = number ? put(map, number, value) : -1;
        Py_XDECREF(number);
        return result;
    }
    if (PyLong_CheckExact(key) && map->holder != HOLDS_ANY) {
        int result = put_int(map, key, value);
        if (result <= 0) return result;
    }
    Probe probe;
    int where = locate(map, key, &probe), result = 0;
    if (where == NO_KEY) key_raise(&probe.bytes);
    if (where < 0 || where == NO_KEY) result = -1;
    else if (where == BY_BYTES) result = put_bytes(map, &probe, key, value);
    else if (where == AT_WORD && bptree_contains(&map->numbers, probe.word)) result = put_word(map, probe.word, value);
    else {
        /* (to encode a large int makes objects, so the map is looked at again after that) */
        if (!probe.bytes.n) result = key_encode(&probe.bytes, key);
        if (!result) result = map->holder == HOLDS_ANY ? share_fewer(map, &probe.bytes) : widen(map, &probe.bytes);
        if (!result) {
            locate_bytes(map, probe.bytes.at, probe.bytes.n, 0, &probe);
            result = put_bytes(map, &probe, key, value);
        }
    }
    bytes_end(&probe.bytes);
    return result;
}

int take(Map *map, PyObject *key, PyObject **value) {
    Probe probe;
    uint64_t old = 0;
    int where = locate(map, key, &probe);
    bptree_result code = BPTREE_ABSENT;
    if (where == AT_WORD) code = bptree_del(&map->numbers, probe.word, &old);
    if (where == BY_BYTES) code = bptree_dict_del(&map->any, probe.at, probe.n, &old);
    bytes_end(&probe.bytes);
    if (code == BPTREE_NO_MEMORY) return no_memory();
    if (where < 0) return -1;
    if (code == BPTREE_ABSENT) return 0;
    map->version++;
    if (map->holder == HOLDS_ANY) {
        Entry *entry = entry_at(old);
        *value = entry->value;
        entry->value = NULL;
        drop_entry(entry);
    } else *value = object_at(old);
    return 1;
}

/* ---- pairs by their index */

/* What is at an index, of which there is one: the references are the caller's. The value of a set
   is NULL. Makes nothing that the garbage collector tracks. */
static int hold_at(Map *map, size_t place, PyObject **key, PyObject **value) {
    if (map->holder == HOLDS_ANY) {
        uint64_t word = 0;
        bptree_dict_values(&map->any, place, &word, 1);
        *key = entry_at(word)->key;
        *value = entry_at(word)->value;
        Py_INCREF(*key);
    } else {
        bptree_pair pair = {0, 0};
        bptree_at(&map->numbers, place, &pair);
        *key = key_of_word(pair.key, is_signed(map));
        *value = object_at(pair.value);
        if (!*key) return -1;
    }
    Py_XINCREF(*value);
    return 0;
}

PyObject *pair_of(PyObject *key, PyObject *value) {
    PyObject *pair = key && value ? PyTuple_Pack(2, key, value) : NULL;
    Py_XDECREF(key);
    Py_XDECREF(value);
    return pair;
}

/* The key, value or pair of two references that are the caller's, and are not then. */
static PyObject *part_of(int what, PyObject *key, PyObject *value) {
    if (what == ITEMS) return pair_of(key, value);
    Py_XDECREF(what == KEYS ? value : key);
    return what == KEYS ? key : value;
}

static PyObject *part_at(Map *map, int what, size_t place) {
    PyObject *key, *value;
    return hold_at(map, place, &key, &value) ? NULL : part_of(what, key, value);
}

/* The index from 0 on, of one that may count from the end. -1: an IndexError. */
static Py_ssize_t place_of(Map *map, PyObject *index) {
    Py_ssize_t place = index ? PyNumber_AsSsize_t(index, PyExc_IndexError) : -1, length = (Py_ssize_t)length_of(map);
    if (place == -1 && PyErr_Occurred()) return -1;
    if (place < 0) place += length;
    if (place >= 0 && place < length) return place;
    PyErr_SetString(PyExc_IndexError, "list index out of range");
    return -1;
}

/* Removes what is at an index, of which there is one. The references are the caller's. */
static int take_at(Map *map, size_t place, PyObject **key, PyObject **value) {
    uint64_t old = 0;
    bptree_pair pair;
    if (map->holder == HOLDS_ANY) {
        if (bptree_dict_del_at(&map->any, place, &old) != BPTREE_REMOVED) return no_memory();
        Entry *entry = entry_at(old);
        *key = entry->key;
        *value = entry->value;
        PyMem_Free(entry);
    } else {
        bptree_at(&map->numbers, place, &pair);
        if (!(*key = key_of_word(pair.key, is_signed(map)))) return -1;
        bptree_del_at(&map->numbers, place, &pair);
        *value = object_at(pair.value);
    }
    map->version++;
    return 0;
}

PyObject *list_of(Map *map, int what, size_t from, size_t to) {
    size_t length = length_of(map), n = to > length ? length : to;
    n = n > from ? n - from : 0;
    PyObject **held = make_array(2 * n, sizeof *held), *list = NULL;
    size_t count = 0, done = 0;
    if (!held) return NULL;
    /* (in blocks, with no object made that is tracked) */
    bptree_pair pairs[BLOCK], first;
    uint64_t words[BLOCK];
    for (bool is_good = true; count < n && is_good;) {
        size_t more = n - count < BLOCK ? n - count : BLOCK;
        if (map->holder == HOLDS_ANY) bptree_dict_values(&map->any, from + count, words, more);
        else {
            bptree_at(&map->numbers, from + count, &first);
            bptree_range(&map->numbers, first.key, pairs, more);
        }
        for (size_t i = 0; i < more && is_good; i++) {
            bool is_any = map->holder == HOLDS_ANY;
            PyObject *key = NULL, *value = is_any ? entry_at(words[i])->value : object_at(pairs[i].value);
            if (what != VALUES) {
                key = is_any ? entry_at(words[i])->key : key_of_word(pairs[i].key, is_signed(map));
                if (is_any) Py_INCREF(key);
                if (!(is_good = key)) break;
            }
            if (what == KEYS) value = NULL;
            Py_XINCREF(value);
            held[2 * count] = key;
            held[2 * count++ + 1] = value;
        }
    }
    if (count == n) list = PyList_New((Py_ssize_t)n);
    /* (code that runs while a pair is made could find a list that is tracked, and is not full) */
    if (list) PyObject_GC_UnTrack(list);
    for (bool is_good = list; done < n && is_good; done++) {
        PyObject *part = part_of(what, held[2 * done], held[2 * done + 1]);
        is_good = part && !PyList_SetItem(list, (Py_ssize_t)done, part);
        if (!is_good) Py_CLEAR(list);
    }
    for (; done < count; done++) {
        Py_XDECREF(held[2 * done]);
        Py_XDECREF(held[2 * done + 1]);
    }
    PyMem_Free(held);
    if (list) PyObject_GC_Track(list);
    return list;
}

/* The keys, values or pairs at a slice of indices. */
static PyObject *list_of_slice(Map *map, int what, PyObject *slice) {
    Py_ssize_t from, to, step;
    if (PySlice_Unpack(slice, &from, &to, &step)) return NULL;
    Py_ssize_t n = PySlice_AdjustIndices((Py_ssize_t)length_of(map), &from, &to, step);
    if (step == 1 || !n) return list_of(map, what, (size_t)from, (size_t)(from + n));
    Py_ssize_t low = step > 0 ? from : from + (n - 1) * step, high = step > 0 ? from + (n - 1) * step : from;
    PyObject *between = list_of(map, what, (size_t)low, (size_t)high + 1);
    PyObject *number = between ? PyLong_FromSsize_t(step) : NULL;
    PyObject *every = number ? PySlice_New(NULL, NULL, number) : NULL, *list = every ? PyObject_GetItem(between, every) : NULL;
    Py_XDECREF(every);
    Py_XDECREF(number);
    Py_XDECREF(between);
    return list;
}

/* ---- arguments */

int arguments(const char *call, PyObject *const *given, Py_ssize_t n, PyObject *keywords, const char *const *names, Py_ssize_t least,
              PyObject **found) {
    Py_ssize_t most = 0, named = keywords ? PyTuple_Size(keywords) : 0;
    for (; names[most]; most++) found[most] = most < n ? given[most] : NULL;
    if (n > most || n < least) {
        PyErr_Format(PyExc_TypeError, "%s() takes from %zd to %zd arguments, and %zd were given", call, least, most, n);
        return -1;
    }
    for (Py_ssize_t i = 0; i < named; i++) {
        PyObject *name = PyTuple_GetItem(keywords, i);
        Py_ssize_t at = least;
        while (at < most && PyUnicode_CompareWithASCIIString(name, names[at])) at++;
        if (at == most || found[at]) {
            PyErr_Format(PyExc_TypeError, at == most ? "%s() has no argument %R to be named" : "%s() got the argument %R twice", call, name);
            return -1;
        }
        found[at] = given[n + i];
    }
    return 0;
}

/* ---- what maps and sets share */

/* How many keys are below an end of a range, or all or none of them if there is no such end. */
static Py_ssize_t count_below(Map *map, PyObject *end, bool is_in, Py_ssize_t without) {
    bool is_there;
    if (!end) return without;
    Py_INCREF(end);
    Py_ssize_t count = rank_of(map, end, &is_there);
    Py_DECREF(end);
    return count < 0 ? -1 : count + (is_there && is_in);
}

/* (subclasses in Python alone are made: their deallocation bounds the depth of maps in maps) */
static PyObject *make(PyTypeObject *type, bool has_values) {
    if (type == map_type || type == set_type) return PyErr_Format(PyExc_TypeError, "only a subclass in Python is made");
    allocfunc allocate = (allocfunc)PyType_GetSlot(type, Py_tp_alloc);
    Map *map = (Map *)allocate(type, 0);
    if (map) map->has_values = has_values;
    return (PyObject *)map;
}

static int shared_traverse(PyObject *self, visitproc visit, void *arg) {
    Map *map = (Map *)self;
    Held held = held_of(map);
    uint64_t words[BLOCK];
    Py_VISIT(Py_TYPE(self));
    if (is_of_numbers(map) && !map->has_values) return 0;
    for (size_t place = 0, n; (n = words_from(&held, place, words, BLOCK)); place += n) {
        for (size_t i = 0; i < n; i++) {
            if (map->holder == HOLDS_ANY) Py_VISIT(entry_at(words[i])->key);
            Py_VISIT(map->holder == HOLDS_ANY ? entry_at(words[i])->value : object_at(words[i]));
        }
    }
    return 0;
}

static int shared_clear(PyObject *self) {
    drop_all((Map *)self);
    return 0;
}

static void shared_dealloc(PyObject *self) {
    PyTypeObject *type = Py_TYPE(self);
    PyObject_GC_UnTrack(self);
    shared_clear(self);
    freefunc release = (freefunc)PyType_GetSlot(type, Py_tp_free);
    release(self);
    Py_DECREF(type);
}

static Py_ssize_t shared_length(PyObject *self) { return (Py_ssize_t)length_of((Map *)self); }

static int shared_contains(PyObject *self, PyObject *key) {
    uint64_t word;
    return find((Map *)self, key, &word);
}

static PyObject *shared_iter(PyObject *self) { return walk_over((Map *)self, KEYS, false, NULL, true, NULL, true); }

static PyObject *shared_reversed(PyObject *self, PyObject *none) {
    (void)none;
    return walk_over((Map *)self, KEYS, true, NULL, true, NULL, true);
}

static PyObject *shared_clear_call(PyObject *self, PyObject *none) {
    (void)none;
    shared_clear(self);
    Py_RETURN_NONE;
}

static PyObject *rank_or_behind(PyObject *self, PyObject *key, bool is_behind) {
    Py_ssize_t count = count_below((Map *)self, key, is_behind, 0);
    return count < 0 ? NULL : PyLong_FromSsize_t(count);
}

static PyObject *shared_rank(PyObject *self, PyObject *key) { return rank_or_behind(self, key, false); }

static PyObject *shared_bisect_right(PyObject *self, PyObject *key) { return rank_or_behind(self, key, true); }

static PyObject *shared_index(ARGUMENTS) {
    TAKE("index", 1, "key", "start", "stop");
    Map *map = (Map *)self;
    uint64_t word;
    Py_ssize_t bounds[2] = {0, PY_SSIZE_T_MAX};
    for (int i = 0; i < 2; i++) {
        if (!found[1 + i] || found[1 + i] == Py_None) continue;
        bounds[i] = PyNumber_AsSsize_t(found[1 + i], NULL);
        if (bounds[i] == -1 && PyErr_Occurred()) return NULL;
        if (bounds[i] < 0) bounds[i] += (Py_ssize_t)length_of(map);
    }
    int result = find(map, found[0], &word);
    bool is_there = false;
    Py_ssize_t rank = result > 0 ? rank_of(map, found[0], &is_there) : 0;
    if (result < 0 || rank < 0) return NULL;
    if (is_there && rank >= bounds[0] && rank < bounds[1]) return PyLong_FromSsize_t(rank);
    PyErr_Format(PyExc_ValueError, "%R is not there", found[0]);
    return NULL;
}

int indices_between(Map *map, PyObject *minimum, PyObject *maximum, Py_ssize_t *from, Py_ssize_t *to) {
    PyObject *low = minimum == Py_None ? NULL : minimum, *high = maximum == Py_None ? NULL : maximum;
    *from = count_below(map, low, false, 0);
    *to = *from < 0 ? -1 : count_below(map, high, false, (Py_ssize_t)length_of(map));
    if (*to < 0) return -1;
    if (*to < *from) *to = *from;
    return 0;
}

static PyObject *shared_range_len(ARGUMENTS) {
    TAKE("range_len", 0, "minimum", "maximum");
    Py_ssize_t from, to;
    return indices_between((Map *)self, found[0], found[1], &from, &to) ? NULL : PyLong_FromSsize_t(to - from);
}

static int truth(PyObject *object, bool *is_true) {
    int result = object ? PyObject_IsTrue(object) : *is_true;
    *is_true = result > 0;
    return result < 0 ? -1 : 0;
}

/* The iterator of irange and irange_items. */
static PyObject *some(PyObject *self, PyObject *const *found, int what) {
    bool is_in[2] = {true, true}, is_back = false;
    PyObject *both = found[2] ? PySequence_Tuple(found[2]) : NULL;
    if (found[2] && !both) return NULL;
    if (both && PyTuple_Size(both) != 2) {
        Py_DECREF(both);
        PyErr_SetString(PyExc_ValueError, "inclusive has two members");
        return NULL;
    }
    int result = truth(found[3], &is_back);
    for (int i = 0; i < 2 && both && !result; i++) result = truth(PyTuple_GetItem(both, i), &is_in[i]);
    Py_XDECREF(both);
    PyObject *low = found[0] == Py_None ? NULL : found[0], *high = found[1] == Py_None ? NULL : found[1];
    return result ? NULL : walk_over((Map *)self, what, is_back, low, is_in[0], high, is_in[1]);
}

static PyObject *shared_irange(ARGUMENTS) {
    TAKE("irange", 0, "minimum", "maximum", "inclusive", "reverse");
    return some(self, found, KEYS);
}

static PyObject *shared_islice(ARGUMENTS) {
    TAKE("islice", 0, "start", "stop", "reverse");
    Map *map = (Map *)self;
    bool is_back = false;
    Py_ssize_t from, to, step;
    PyObject *slice = truth(found[2], &is_back) ? NULL : PySlice_New(found[0], found[1], NULL);
    int result = slice ? PySlice_Unpack(slice, &from, &to, &step) : -1;
    Py_XDECREF(slice);
    if (result) return NULL;
    bool is_some = PySlice_AdjustIndices((Py_ssize_t)length_of(map), &from, &to, step) > 0;
    PyObject *low = is_some ? part_at(map, KEYS, (size_t)from) : NULL;
    PyObject *high = low ? part_at(map, KEYS, (size_t)to - 1) : NULL;
    PyObject *walk = high ? walk_over(map, KEYS, is_back, low, true, high, true) : NULL;
    Py_XDECREF(low);
    Py_XDECREF(high);
    return is_some ? walk : walk_over_nothing(map);
}

static int what_of(const Map *map, PyObject *what) {
    long number = PyLong_AsLong(what);
    if (number >= KEYS && number <= (map->has_values ? ITEMS : KEYS)) return (int)number;
    if (!PyErr_Occurred()) PyErr_SetString(PyExc_TypeError, "0, 1 or 2 is wanted: keys, values or items");
    return -1;
}

static PyObject *shared_list(PyObject *self, PyObject *given) {
    int what = what_of((Map *)self, given);
    return what < 0 ? NULL : list_of((Map *)self, what, 0, PY_SSIZE_T_MAX);
}

static PyObject *shared_walk(ARGUMENTS) {
    TAKE("_walk", 2, "what", "reverse");
    bool is_back = false;
    int what = what_of((Map *)self, found[0]);
    if (what < 0 || truth(found[1], &is_back)) return NULL;
    return walk_over((Map *)self, what, is_back, NULL, true, NULL, true);
}

/* What is at an index or a slice of them. */
static PyObject *part_by(Map *map, int what, PyObject *index) {
    if (PySlice_Check(index)) return list_of_slice(map, what, index);
    Py_ssize_t place = place_of(map, index);
    return place < 0 ? NULL : part_at(map, what, (size_t)place);
}

static PyObject *shared_at(ARGUMENTS) {
    TAKE("_at", 2, "what", "index");
    int what = what_of((Map *)self, found[0]);
    return what < 0 ? NULL : part_by((Map *)self, what, found[1]);
}

/* Makes what another map holds, or held, what a map holds. */
static void hold_as(Map *map, const Map *other) {
    map->holder = other->holder;
    map->numbers = other->numbers;
    map->any = other->any;
    map->shared_since = other->shared_since;
    map->n_shared = other->n_shared;
    memmove(map->shared, other->shared, MOST_SHARED);
    map->version++;
}

static PyObject *shared_swap(PyObject *self, PyObject *given) {
    if (!PyObject_TypeCheck(given, Py_TYPE(self))) return PyErr_Format(PyExc_TypeError, "_swap() takes an object of the same type");
    Map *map = (Map *)self, *other = (Map *)given, old = *map;
    hold_as(map, other);
    hold_as(other, &old);
    Py_RETURN_NONE;
}

/* ---- many keys at once */

/* Copies all pairs of another map or set into an empty one. */
static int copy_any(Map *map, Map *from) {
    size_t n = length_of(from);
    Batch batch;
    int result = batch_begin(&batch, n);
    while (batch.n < n && !result) {
        Bytes *bytes = &batch.bytes;
        size_t more = bptree_dict_page(&from->any, batch.n, bytes->at + bytes->n, bytes->room - bytes->n, batch.records + batch.n, n - batch.n);
        if (!more) result = bytes_grow(bytes, bytes->room - bytes->n + 1);
        for (; more && !result; more--) {
            bptree_record *record = &batch.records[batch.n];
            Entry *entry = entry_at(record->value), *copy = make_entry(entry->key, map->has_values ? entry->value : NULL);
            if (!copy) result = -1;
            else {
                record->value = word_of(copy);
                bytes->n += record->length;
                batch.n++;
            }
        }
    }
    if (!result) result = batch_load(&batch, map, from->shared, from->n_shared);
    if (!result) map->shared_since = from->shared_since;
    batch_end(&batch, result != 0);
    return result;
}

/* The same, whatever holds them. The other one has values if this one has. */
static int copy_all(Map *map, Map *from) {
    size_t n = length_of(from);
    if (!n) return 0;
    if (from->holder == HOLDS_ANY) return copy_any(map, from);
    bptree_pair *pairs = all_pairs(from, n);
    for (size_t i = 0; pairs && i < n && !map->has_values; i++) pairs[i].value = 0;
    int result = pairs ? load_numbers(map, from->holder, pairs, n) : -1;
    for (size_t i = 0; i < n && !result; i++) Py_XINCREF(object_at(pairs[i].value));
    PyMem_Free(pairs);
    return result;
}

static PyObject *key_of(const Map *map, PyObject *members, Py_ssize_t at) {
    PyObject *member = PyTuple_GetItem(members, at);
    return map->has_values ? PyTuple_GetItem(member, 0) : member;
}

static PyObject *value_in(const Map *map, PyObject *members, Py_ssize_t at) {
    return map->has_values ? PyTuple_GetItem(PyTuple_GetItem(members, at), 1) : NULL;
}

/* All members of an iterable in a tuple: of a map they must be pairs. Each key is one, or an object
   whose __index__ returns one, and is_by_index says that some are such objects. */
static PyObject *members_of(const Map *map, PyObject *given, bool *is_by_index) {
    PyObject *members = PySequence_Tuple(given);
    Bytes bytes;
    bytes_begin(&bytes);
    int result = members ? 0 : -1;
    for (Py_ssize_t i = 0, n = members ? PyTuple_Size(members) : 0; i < n && !result; i++) {
        PyObject *member = PyTuple_GetItem(members, i);
        if (map->has_values && !(PyTuple_CheckExact(member) && PyTuple_Size(member) == 2)) {
            PyErr_SetString(PyExc_TypeError, "a member is no tuple of a key and a value");
            result = -1;
        } else {
            *is_by_index |= key_is_by_index(key_of(map, members, i));
            result = key_check(&bytes, key_of(map, members, i));
        }
        if (result == KEY_NONE) key_raise(&bytes);
    }
    bytes_end(&bytes);
    if (result) Py_CLEAR(members);
    return members;
}

/* Loads members into an empty map of numbers. 1: they don't fit into one, and nothing has changed. */
static int load_ints(Map *map, PyObject *members, Py_ssize_t n, bool as_signed) {
    bptree_pair *pairs = make_array((size_t)n, sizeof *pairs);
    uint64_t words[BLOCK];
    int result = pairs ? 0 : -1;
    for (Py_ssize_t i = 0; i < n && !result; i++) {
        PyObject *key = key_of(map, members, i);
        if (!PyLong_CheckExact(key) || key_spot_of_int(key, as_signed, &pairs[i].key) != SPOT_AT) result = 1;
        pairs[i].value = word_of(value_in(map, members, i));
    }
    if (!result) result = load_numbers(map, as_signed ? HOLDS_SIGNED : HOLDS_UNSIGNED, pairs, (size_t)n);
    PyMem_Free(pairs);
    Held held = held_of(map);
    for (size_t place = 0, more; !result && (more = words_from(&held, place, words, BLOCK)); place += more) {
        for (size_t i = 0; i < more; i++) Py_XINCREF(object_at(words[i]));
    }
    return result;
}

/* Loads members into an empty map of byte strings. 1: some keys are equal, and nothing has changed. */
static int load_any(Map *map, PyObject *members, Py_ssize_t n) {
    Batch batch;
    int result = batch_begin(&batch, (size_t)n);
    for (Py_ssize_t i = 0; i < n && !result; i++) {
        result = batch_add(&batch, key_of(map, members, i), value_in(map, members, i));
        if (result == KEY_NONE) key_raise(&batch.bytes);
        if (result) result = -1;
    }
    /* (the keys may have run code) */
    if (!result) result = length_of(map) ? 1 : batch_load_all(&batch, map, NULL);
    batch_end(&batch, result != 0);
    return result;
}

static PyObject *shared_store(PyObject *self, PyObject *given) {
    Map *map = (Map *)self;
    bool is_map = PyObject_TypeCheck(given, map_type);
    if (!length_of(map) && (is_map || (!map->has_values && PyObject_TypeCheck(given, set_type)))) {
        if (copy_all(map, (Map *)given)) return NULL;
        Py_RETURN_NONE;
    }
    PyObject *list = is_map ? list_of((Map *)given, map->has_values ? ITEMS : KEYS, 0, PY_SSIZE_T_MAX) : NULL;
    bool is_by_index = false;
    PyObject *members = list || !is_map ? members_of(map, list ? list : given, &is_by_index) : NULL;
    Py_XDECREF(list);
    if (!members) return NULL;
    Py_ssize_t n = PyTuple_Size(members);
    int result = 1;
    if (n > 1 && !is_by_index && !length_of(map)) {
        result = load_ints(map, members, n, true);
        if (result > 0) result = load_ints(map, members, n, false);
        if (result > 0) result = load_any(map, members, n);
    }
    if (result > 0) {
        result = 0;
        for (Py_ssize_t i = 0; i < n && !result; i++) result = put(map, key_of(map, members, i), value_in(map, members, i));
    }
    Py_DECREF(members);
    if (result) return NULL;
    Py_RETURN_NONE;
}

/* ---- maps */

static PyObject *map_new(PyTypeObject *type, PyObject *arguments, PyObject *keywords) {
    (void)arguments, (void)keywords;
    return make(type, true);
}

/* The value at a key with a reference that is the caller's; the default if the key is absent, or if
   there is none a KeyError. */
static PyObject *value_at(Map *map, PyObject *key, PyObject *otherwise) {
    uint64_t word;
    int result = find(map, key, &word);
    if (result < 0) return NULL;
    PyObject *value = result ? value_of(map, word) : otherwise;
    if (!value) PyErr_SetObject(PyExc_KeyError, key);
    Py_XINCREF(value);
    return value;
}

static PyObject *map_subscript(PyObject *self, PyObject *key) { return value_at((Map *)self, key, NULL); }

static int map_assign(PyObject *self, PyObject *key, PyObject *value) {
    if (value) return put((Map *)self, key, value);
    int result = take((Map *)self, key, &value);
    if (result > 0) Py_XDECREF(value);
    if (!result) PyErr_SetObject(PyExc_KeyError, key);
    return result > 0 ? 0 : -1;
}

static PyObject *map_get(ARGUMENTS) {
    TAKE("get", 1, "key", "default");
    return value_at((Map *)self, found[0], found[1] ? found[1] : Py_None);
}

static PyObject *map_pop(ARGUMENTS) {
    TAKE("pop", 1, "key", "default");
    PyObject *value = NULL;
    int result = take((Map *)self, found[0], &value);
    if (result) return value;
    if (!found[1]) PyErr_SetObject(PyExc_KeyError, found[0]);
    Py_XINCREF(found[1]);
    return found[1];
}

static PyObject *map_setdefault(ARGUMENTS) {
    TAKE("setdefault", 1, "key", "default");
    PyObject *otherwise = found[1] ? found[1] : Py_None;
    uint64_t word;
    int result = find((Map *)self, found[0], &word);
    PyObject *value = result > 0 ? value_of((Map *)self, word) : otherwise;
    Py_INCREF(value);
    if (!result) result = put((Map *)self, found[0], value);
    if (result >= 0) return value;
    Py_DECREF(value);
    return NULL;
}

static PyObject *map_peekitem(ARGUMENTS) {
    TAKE("peekitem", 0, "index");
    Py_ssize_t place = place_of((Map *)self, found[0]);
    return place < 0 ? NULL : part_at((Map *)self, ITEMS, (size_t)place);
}

static PyObject *map_popitem(ARGUMENTS) {
    TAKE("popitem", 0, "index");
    PyObject *key, *value, *pair = PyTuple_New(2);
    Py_ssize_t place = -1;
    if (!pair) return NULL;
    /* (the code of an index could find a tuple that is tracked, and is not full) */
    PyObject_GC_UnTrack(pair);
    if (length_of((Map *)self)) place = place_of((Map *)self, found[0]);
    else PyErr_SetString(empty_error, "popitem(): map is empty");
    if (place < 0 || take_at((Map *)self, (size_t)place, &key, &value)) {
        Py_DECREF(pair);
        return NULL;
    }
    PyTuple_SetItem(pair, 0, key);
    PyTuple_SetItem(pair, 1, value);
    PyObject_GC_Track(pair);
    return pair;
}

static PyObject *map_irange_items(ARGUMENTS) {
    TAKE("irange_items", 0, "minimum", "maximum", "inclusive", "reverse");
    return some(self, found, ITEMS);
}

/* ---- sets */

static PyObject *set_new(PyTypeObject *type, PyObject *arguments, PyObject *keywords) {
    (void)arguments, (void)keywords;
    return make(type, false);
}

static PyObject *set_add(PyObject *self, PyObject *key) {
    if (put((Map *)self, key, NULL)) return NULL;
    Py_RETURN_NONE;
}

static PyObject *set_discard(PyObject *self, PyObject *key) {
    PyObject *none;
    if (take((Map *)self, key, &none) < 0) return NULL;
    Py_RETURN_NONE;
}

static PyObject *set_remove(PyObject *self, PyObject *key) {
    if (map_assign(self, key, NULL)) return NULL;
    Py_RETURN_NONE;
}

static PyObject *set_pop(ARGUMENTS) {
    TAKE("pop", 0, "index");
    PyObject *key, *none;
    Py_ssize_t place = place_of((Map *)self, found[0]);
    return place < 0 || take_at((Map *)self, (size_t)place, &key, &none) ? NULL : key;
}

static PyObject *set_count(PyObject *self, PyObject *key) {
    int result = shared_contains(self, key);
    return result < 0 ? NULL : PyLong_FromLong(result);
}

static PyObject *set_subscript(PyObject *self, PyObject *index) { return part_by((Map *)self, KEYS, index); }

/* ---- the types */

static PyMethodDef shared_methods[] = {
    PLAIN("rank", shared_rank, METH_O,
          "rank($self, key, /)\n--\n\n"
          "The number of keys that are less than a key, which need not be there. O(log n).\n\n"
          ">>> SortedSet([10, 20, 30]).rank(20), SortedMap(a=1, b=2).rank('c')\n(1, 2)"),
    PLAIN("bisect_left", shared_rank, METH_O,
          "bisect_left($self, key, /)\n--\n\n"
          "The number of keys that are less than a key, as `rank`. O(log n).\n\n"
          ">>> SortedSet([10, 20, 30]).bisect_left(20.5)\n2"),
    PLAIN("bisect_right", shared_bisect_right, METH_O,
          "bisect_right($self, key, /)\n--\n\n"
          "The number of keys that are not greater than a key. O(log n).\n\n"
          ">>> SortedSet([10, 20, 30]).bisect_right(20)\n2"),
    PLAIN("bisect", shared_bisect_right, METH_O,
          "bisect($self, key, /)\n--\n\n"
          "The number of keys that are not greater than a key, as `bisect_right`. O(log n).\n\n"
          ">>> SortedMap(a=1, b=2).bisect('a')\n1"),
    NAMED("index", shared_index,
          "index($self, key, /, start=None, stop=None)\n--\n\n"
          "The index of a key. It raises ValueError if the key is absent, or if its index is outside the\n"
          "given ones. O(log n).\n\n>>> SortedSet([10, 20, 30]).index(20)\n1"),
    PLAIN("rank_many", shared_rank_many, METH_O,
          "rank_many($self, keys, /)\n--\n\n"
          "The number of smaller keys for each key of an array, as an `array.array` of type 'q'. The keys\n"
          "are 64-bit integers of an object with the buffer protocol. O(m log n) for m keys, and less than\n"
          "`rank` for each, since 16 keys go down the tree side by side.\n\n"
          ">>> from array import array\n>>> SortedSet([10, 20, 30]).rank_many(array('q', [25, 10])).tolist()\n[2, 0]"),
    PLAIN("del_many", shared_del_many, METH_O,
          "del_many($self, keys, /)\n--\n\n"
          "Removes the keys of an array, and returns how many were there. The keys are those of\n"
          "`rank_many`. If an allocation fails, MemoryError is raised and no key is removed, unless some\n"
          "key of the map is no 64-bit integer: then the keys before the one that failed may be removed.\n"
          "O(m log(n + m)) for m keys.\n\n"
          ">>> from array import array\n>>> numbers = SortedSet([10, 20, 30])\n>>> numbers.del_many(array('q', [20, 25, 20])), numbers\n(1, "
          "SortedSet([10, 30]))"),
    NAMED("keys_array", shared_keys_array,
          "keys_array($self, minimum=None, maximum=None)\n--\n\n"
          "The keys that are at least the minimum and less than the maximum, as an `array.array` of type\n"
          "'q', or 'Q' if one of them is above 2**63 - 1. None is no bound. It raises TypeError if one of\n"
          "these keys is not of type `int` itself, and OverflowError if neither type has room for all.\n"
          "O(log n), and O(1) a key.\n\n"
          ">>> SortedSet([10, 20, 30]).keys_array(15).tolist()\n[20, 30]"),
    NAMED("range_len", shared_range_len,
          "range_len($self, minimum=None, maximum=None)\n--\n\n"
          "The number of keys that are at least the minimum and less than the maximum. None is no bound.\n"
          "O(log n).\n\n>>> SortedSet([10, 20, 30]).range_len(10, 30)\n2"),
    NAMED("irange", shared_irange,
          "irange($self, minimum=None, maximum=None, inclusive=(True, True), reverse=False)\n--\n\n"
          "An iterator over the keys between two keys. `inclusive` says for each whether it is included.\n"
          "None is no bound. O(log n) to begin, and O(1) a key.\n\n"
          ">>> list(SortedSet([10, 20, 30]).irange(10, 30, (True, False), reverse=True))\n[20, 10]"),
    NAMED("islice", shared_islice,
          "islice($self, start=None, stop=None, reverse=False)\n--\n\n"
          "An iterator over the keys of a slice of indices. O(log n) to begin, and O(1) a key.\n\n"
          ">>> list(SortedSet('abcd').islice(1, 3))\n['b', 'c']"),
    PLAIN("clear", shared_clear_call, METH_NOARGS,
          "clear($self, /)\n--\n\nRemoves all keys. It never fails. O(n).\n\n"
          ">>> numbers = SortedSet([1, 2])\n>>> numbers.clear()\n>>> len(numbers)\n0"),
    PLAIN("__reversed__", shared_reversed, METH_NOARGS, "__reversed__($self, /)\n--\n\nAn iterator over the keys, the greatest one first."),
    PLAIN("_list", shared_list, METH_O, "All keys (0), values (1) or pairs (2), as they are at one moment."),
    NAMED("_walk", shared_walk, "An iterator over all keys (0), values (1) or pairs (2)."),
    NAMED("_at", shared_at, "The key (0), value (1) or pair (2) at an index, or a list of those at a slice."),
    PLAIN("_store", shared_store, METH_O, "Stores all pairs, or all keys, of an iterable."),
    PLAIN("_swap", shared_swap, METH_O, "Exchanges all pairs with those of another object of the type."),
    {NULL, NULL, 0, NULL},
};

static PyMethodDef map_methods[] = {
    NAMED("get", map_get,
          "get($self, key, /, default=None)\n--\n\nThe value at a key, or the default if the key is absent. O(log n).\n\n"
          ">>> SortedMap(a=1).get('a'), SortedMap(a=1).get('b', 0)\n(1, 0)"),
    NAMED("get_many", map_get_many,
          "get_many($self, keys, /, default=None)\n--\n\n"
          "A list of the value at each key of an array, or of the default if a key is absent. The keys\n"
          "are 64-bit integers of an object with the buffer protocol, such as `array.array` or an array of\n"
          "numpy. O(m log n) for m keys, and less than `get` for each, since 16 keys descend the tree side\n"
          "by side.\n\n"
          ">>> from array import array\n>>> SortedMap({1: 'a', 2: 'b'}).get_many(array('q', [2, 3]))\n['b', None]"),
    NAMED("put_many", map_put_many,
          "put_many($self, keys, values, /)\n--\n\n"
          "Stores the value at each key of an array. The keys are those of `get_many`. The values are a\n"
          "list or a tuple of any objects, or 64-bit integers or floats of an object with the buffer\n"
          "protocol. Of equal keys the last value stays. If an array is none of these, TypeError or\n"
          "ValueError is raised and the map is unchanged. If an allocation fails, MemoryError is raised\n"
          "and the map is unchanged, unless no type of an array has room for all keys, those of the map\n"
          "and the new ones: then the pairs before the one that failed may be stored. O(m log(n + m)) for\n"
          "m keys.\n\n"
          ">>> from array import array\n>>> names = SortedMap({1: 'a'})\n>>> names.put_many(array('q', [2, 1]), ['c', 'b'])\n>>> "
          "names\nSortedMap({1: 'b', 2: 'c'})"),
    NAMED("items_arrays", map_items_arrays,
          "items_arrays($self, minimum=None, maximum=None)\n--\n\n"
          "The keys as `keys_array` returns them, and their values: an `array.array` of type 'q' or 'Q' if\n"
          "all are of type `int` itself, and 'd' if all are of type `float` itself. It raises TypeError if\n"
          "they are neither, and OverflowError if neither 'q' nor 'Q' has room for all ints. O(log n), and\n"
          "O(1) a pair.\n\n"
          ">>> [part.tolist() for part in SortedMap({1: 10, 2: 20, 3: 30}).items_arrays(2)]\n[[2, 3], [20, 30]]"),
    NAMED("pop", map_pop,
          "pop($self, key, /, default=<unrepresentable>)\n--\n\n"
          "Removes a key and returns its value. If the key is absent it returns the default, or raises\n"
          "KeyError if none is given. O(log n).\n\n>>> SortedMap(a=1).pop('a')\n1"),
    NAMED("setdefault", map_setdefault,
          "setdefault($self, key, /, default=None)\n--\n\n"
          "The value at a key. If the key is absent, the default is stored there first. O(log n).\n\n"
          ">>> SortedMap(a=1).setdefault('b', 2)\n2"),
    NAMED("peekitem", map_peekitem,
          "peekitem($self, index=-1)\n--\n\n"
          "The pair at an index in the order of the keys: the last one by default. It raises IndexError\n"
          "if there is none. O(log n).\n\n>>> SortedMap(a=1, b=2).peekitem(0)\n('a', 1)"),
    NAMED("popitem", map_popitem,
          "popitem($self, index=-1)\n--\n\n"
          "Removes the pair at an index and returns it: the last one by default. It raises KeyError if\n"
          "the map is empty, and IndexError if there is no such index. O(log n).\n\n"
          ">>> SortedMap(a=1, b=2).popitem()\n('b', 2)"),
    NAMED("irange_items", map_irange_items,
          "irange_items($self, minimum=None, maximum=None, inclusive=(True, True), reverse=False)\n--\n\n"
          "An iterator over the pairs between two keys, as `irange`. O(log n) to begin, and O(1) a pair.\n\n"
          ">>> list(SortedMap(a=1, b=2, c=3).irange_items('b'))\n[('b', 2), ('c', 3)]"),
    {NULL, NULL, 0, NULL},
};

static PyMethodDef set_methods[] = {
    PLAIN("add", set_add, METH_O,
          "add($self, key, /)\n--\n\nAdds a key. If an equal one is there, that one stays. O(log n).\n\n"
          ">>> numbers = SortedSet([1, 3])\n>>> numbers.add(2)\n>>> numbers\nSortedSet([1, 2, 3])"),
    PLAIN("discard", set_discard, METH_O,
          "discard($self, key, /)\n--\n\nRemoves a key if it is there. O(log n).\n\n"
          ">>> numbers = SortedSet([1, 3])\n>>> numbers.discard(3)\n>>> numbers\nSortedSet([1])"),
    PLAIN("remove", set_remove, METH_O,
          "remove($self, key, /)\n--\n\nRemoves a key. It raises KeyError if the key is absent. O(log n).\n\n"
          ">>> numbers = SortedSet([1, 3])\n>>> numbers.remove(1)\n>>> numbers\nSortedSet([3])"),
    NAMED("pop", set_pop,
          "pop($self, index=-1)\n--\n\n"
          "Removes the key at an index and returns it: the greatest one by default. It raises IndexError\n"
          "if there is none. O(log n).\n\n>>> SortedSet([1, 3]).pop(0)\n1"),
    PLAIN("count", set_count, METH_O,
          "count($self, key, /)\n--\n\n1 if the key is there, and else 0. O(log n).\n\n>>> SortedSet([1, 3]).count(3)\n1"),
    {NULL, NULL, 0, NULL},
};

#define SLOT(name, call)                                                                                                                             \
    { Py_##name, (void *)call }

static PyType_Slot shared_slots[] = {
    SLOT(tp_doc, "What SortedMap and SortedSet share."),
    SLOT(tp_dealloc, shared_dealloc),
    SLOT(tp_traverse, shared_traverse),
    SLOT(tp_clear, shared_clear),
    SLOT(tp_methods, shared_methods),
    SLOT(tp_iter, shared_iter),
    SLOT(sq_contains, shared_contains),
    SLOT(mp_length, shared_length),
    SLOT(tp_hash, PyObject_HashNotImplemented),
    {0, NULL},
};
static PyType_Slot map_slots[] = {
    SLOT(tp_doc, "The compiled part of SortedMap."),
    SLOT(tp_new, map_new),
    SLOT(tp_traverse, shared_traverse),
    SLOT(tp_clear, shared_clear),
    SLOT(tp_methods, map_methods),
    SLOT(mp_subscript, map_subscript),
    SLOT(mp_ass_subscript, map_assign),
    {0, NULL},
};
static PyType_Slot set_slots[] = {
    SLOT(tp_doc, "The compiled part of SortedSet."),
    SLOT(tp_new, set_new),
    SLOT(tp_traverse, shared_traverse),
    SLOT(tp_clear, shared_clear),
    SLOT(tp_methods, set_methods),
    SLOT(mp_subscript, set_subscript),
    {0, NULL},
};
enum {
    OPEN = Py_TPFLAGS_DEFAULT | Py_TPFLAGS_HAVE_GC | Py_TPFLAGS_BASETYPE,
    CLOSED = Py_TPFLAGS_DEFAULT | Py_TPFLAGS_HAVE_GC | Py_TPFLAGS_DISALLOW_INSTANTIATION
};

static PyType_Spec shared_spec = {"sweep_bptree._native.Sorted", sizeof(Map), 0, CLOSED | Py_TPFLAGS_BASETYPE, shared_slots};
/* (each is larger than what both are of, so that no class can be of both) */
static PyType_Spec map_spec = {"sweep_bptree._native.Map", sizeof(Map) + sizeof(void *), 0, OPEN, map_slots};
static PyType_Spec set_spec = {"sweep_bptree._native.Set", sizeof(Map) + sizeof(void *), 0, OPEN, set_slots};

static int module_begin(PyObject *module) {
    /* (the types are this process's only ones, so a second interpreter may not have the module) */
    if (map_type) {
        PyErr_SetString(PyExc_ImportError, "sweep_bptree can be imported once in a process");
        return -1;
    }
    PyObject *bases = PyTuple_Pack(2, PyExc_KeyError, PyExc_TypeError);
    empty_error = bases ? PyErr_NewExceptionWithDoc("sweep_bptree.EmptyError", "There is no pair to remove.", bases, NULL) : NULL;
    Py_XDECREF(bases);
    if (!empty_error || PyModule_AddObjectRef(module, "EmptyError", empty_error) || keys_begin()) return -1;
    PyObject *shared = PyType_FromSpec(&shared_spec);
    int result = shared ? PyModule_AddObjectRef(module, "Sorted", shared) : -1;
    if (!result) map_type = (PyTypeObject *)PyType_FromSpecWithBases(&map_spec, shared);
    if (!result) set_type = (PyTypeObject *)PyType_FromSpecWithBases(&set_spec, shared);
    Py_XDECREF(shared);
    if (!map_type || !set_type || PyModule_AddObjectRef(module, "Map", (PyObject *)map_type)) return -1;
    return PyModule_AddObjectRef(module, "Set", (PyObject *)set_type) ? -1 : walks_begin();
}

static PyModuleDef_Slot module_slots[] = {{Py_mod_exec, (void *)module_begin}, {0, NULL}};
static struct PyModuleDef module_definition = {
    PyModuleDef_HEAD_INIT, "_native", PyDoc_STR("The compiled part of sweep_bptree."), 0, NULL, module_slots, NULL, NULL, NULL,
};

PyMODINIT_FUNC PyInit__native(void) { return PyModuleDef_Init(&module_definition); }
