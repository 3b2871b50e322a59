/* Calls for arrays of keys: 64-bit integers in memory of an object with the buffer protocol.

   Memory and Python objects are made first, since that may run code of the caller that changes the
   map. Then the map is looked at, and no code of the caller runs until it is whole again. Another
   thread may write the caller's array at any time, so each number of it is read once. */
#include "maps.h"
#include <stdlib.h>
#include <string.h>

enum { GROUP = 256, NATIVE_ORDER = __BYTE_ORDER__ == __ORDER_LITTLE_ENDIAN__ ? '<' : '>' };
#define SIGN_BIT (UINT64_C(1) << 63)

/* Numbers of an object with the buffer protocol. */
typedef struct Numbers {
    Py_buffer view;
    const uint64_t *at;
    size_t n;
    char kind; /* 'q', 'Q' or 'd', as `array.array` names them */
} Numbers;

/* The kind of a format of the struct module for numbers of 64 bits: 0 for other formats. */
static char kind_of(const char *format, Py_ssize_t size) {
    if (!format || size != (Py_ssize_t)sizeof(uint64_t)) return 0;
    if (*format == '@' || *format == '=' || *format == NATIVE_ORDER) format++;
    if (!*format || format[1]) return 0;
    if (strchr("qln", *format)) return 'q';
    if (strchr("QLN", *format)) return 'Q';
    return *format == 'd' ? 'd' : 0;
}

/* Reads the numbers of an object. Returns -1 with an exception, and then there is nothing to end. */
static int numbers_begin(Numbers *numbers, PyObject *object, const char *what, bool with_floats) {
    const char *wanted = with_floats ? "a list, a tuple, or an array of 64-bit integers or floats" : "an array of 64-bit integers";
    if (!PyObject_CheckBuffer(object)) {
        PyErr_Format(PyExc_TypeError, "%s: %s is wanted, and no object of %R", what, wanted, (PyObject *)Py_TYPE(object));
        return -1;
    }
    if (PyObject_GetBuffer(object, &numbers->view, PyBUF_STRIDED_RO | PyBUF_FORMAT)) return -1;
    numbers->kind = kind_of(numbers->view.format, numbers->view.itemsize);
    if (!numbers->kind || (numbers->kind == 'd' && !with_floats)) {
        const char *format = numbers->view.format ? numbers->view.format : "B";
        PyErr_Format(PyExc_TypeError, "%s: %s is wanted, and no array of the format '%s'", what, wanted, format);
    } else if (numbers->view.ndim != 1) {
        PyErr_Format(PyExc_ValueError, "%s: the array has %d dimensions, and one is wanted", what, numbers->view.ndim);
    } else if (!PyBuffer_IsContiguous(&numbers->view, 'C')) {
        PyErr_Format(PyExc_ValueError, "%s: the members of the array are not next to each other; pass a copy of it", what);
    } else if (numbers->view.len && (uintptr_t)numbers->view.buf % sizeof(uint64_t)) {
        PyErr_Format(PyExc_ValueError, "%s: the array is not aligned; pass a copy of it", what);
    } else {
        numbers->at = numbers->view.buf;
        numbers->n = (size_t)(numbers->view.len / (Py_ssize_t)sizeof(uint64_t));
        return 0;
    }
    PyBuffer_Release(&numbers->view);
    return -1;
}

static void numbers_end(Numbers *numbers) { PyBuffer_Release(&numbers->view); }

/* Reads a number once, whatever writes it meanwhile. */
static uint64_t number_at(const Numbers *numbers, size_t i) { return __atomic_load_n(numbers->at + i, __ATOMIC_RELAXED); }

/* The int or float of a number. It makes nothing that the garbage collector tracks. */
static PyObject *object_of(char kind, uint64_t number) {
    double real;
    if (kind == 'q') return PyLong_FromLongLong((long long)number);
    if (kind == 'Q') return PyLong_FromUnsignedLongLong(number);
    memcpy(&real, &number, sizeof real);
    return PyFloat_FromDouble(real);
}

/* The spot of a number in a map of numbers: SPOT_AT its word, or before or behind all words. */
static int spot_of(const Map *map, char kind, uint64_t number, uint64_t *word) {
    bool has_sign_bit = number & SIGN_BIT;
    *word = is_signed(map) ? number ^ SIGN_BIT : number;
    if (!has_sign_bit || is_signed(map) == (kind == 'q')) return SPOT_AT;
    *word = kind == 'q' ? 0 : UINT64_MAX;
    return kind == 'q' ? SPOT_BEFORE : SPOT_BEHIND;
}

/* Writes the words and the spots of n numbers from an index on. */
static void spots_of(const Map *map, const Numbers *numbers, size_t at, size_t n, uint64_t *words, uint8_t *spots) {
    for (size_t i = 0; i < n; i++) spots[i] = (uint8_t)spot_of(map, numbers->kind, number_at(numbers, at + i), words + i);
}

/* An `array.array` of n numbers, and its memory. */
static PyObject *array_of(char kind, size_t n, Py_buffer *view) {
    PyObject *module = PyImport_ImportModule("array");
    PyObject *one = module ? PyObject_CallMethod(module, "array", "C[i]", kind, 0) : NULL;
    PyObject *array = one ? PySequence_Repeat(one, (Py_ssize_t)n) : NULL;
    Py_XDECREF(one);
    Py_XDECREF(module);
    if (!array || PyObject_GetBuffer(array, view, PyBUF_WRITABLE)) {
        Py_XDECREF(array);
        return NULL;
    }
    /* (the caller may have put another object into the module) */
    if ((size_t)view->len == n * sizeof(uint64_t) && (!n || (uintptr_t)view->buf % sizeof(uint64_t) == 0)) return array;
    PyErr_SetString(PyExc_TypeError, "array.array makes no array of 64-bit numbers");
    PyBuffer_Release(view);
    Py_DECREF(array);
    return NULL;
}

static size_t least(size_t a, size_t b) { return a < b ? a : b; }

/* ---- reads */

/* Fills a list. Of a map of numbers no code of the caller runs meanwhile. */
static int get_each(Map *map, const Numbers *keys, PyObject *otherwise, PyObject *list) {
    uint64_t words[GROUP], values[GROUP];
    uint8_t spots[GROUP], found[GROUP];
    for (size_t at = 0; at < keys->n; at += GROUP) {
        size_t n = least(GROUP, keys->n - at);
        bool is_by_words = is_of_numbers(map);
        if (is_by_words) {
            spots_of(map, keys, at, n, words, spots);
            bptree_get_many(&map->numbers, words, n, values, n, found, n);
            for (size_t i = 0; i < n; i++) {
                found[i] = found[i] && spots[i] == SPOT_AT;
                if (found[i]) __builtin_prefetch(object_at(values[i]), 1);
            }
        }
        for (size_t i = 0; i < n; i++) {
            PyObject *value = otherwise;
            if (is_by_words) {
                if (found[i]) value = object_at(values[i]);
            } else {
                uint64_t word;
                PyObject *key = object_of(keys->kind, number_at(keys, at + i));
                int result = key ? find(map, key, &word) : -1;
                Py_XDECREF(key);
                if (result < 0) return -1;
                if (result) value = value_of(map, word);
            }
            Py_INCREF(value);
            if (PyList_SetItem(list, (Py_ssize_t)(at + i), value)) return -1;
        }
    }
    return 0;
}

PyObject *map_get_many(ARGUMENTS) {
    TAKE("get_many", 1, "keys", "default");
    Numbers keys;
    if (numbers_begin(&keys, found[0], "get_many()", false)) return NULL;
    PyObject *list = PyList_New((Py_ssize_t)keys.n);
    /* (code that runs while a large key is encoded could find a list that is tracked, and is not full) */
    if (list) PyObject_GC_UnTrack(list);
    if (list && get_each((Map *)self, &keys, found[1] ? found[1] : Py_None, list)) Py_CLEAR(list);
    if (list) PyObject_GC_Track(list);
    numbers_end(&keys);
    return list;
}

static int rank_each(Map *map, const Numbers *keys, size_t *ranks) {
    uint64_t words[GROUP];
    uint8_t spots[GROUP];
    for (size_t at = 0; at < keys->n; at += GROUP) {
        size_t n = least(GROUP, keys->n - at);
        if (is_of_numbers(map)) {
            spots_of(map, keys, at, n, words, spots);
            bptree_rank_many(&map->numbers, words, n, ranks + at, n);
            for (size_t i = 0; i < n; i++) {
                if (spots[i] == SPOT_BEHIND) ranks[at + i] = length_of(map);
            }
            continue;
        }
        for (size_t i = 0; i < n; i++) {
            bool is_there;
            PyObject *key = object_of(keys->kind, number_at(keys, at + i));
            Py_ssize_t rank = key ? rank_of(map, key, &is_there) : -1;
            Py_XDECREF(key);
            if (rank < 0) return -1;
            ranks[at + i] = (size_t)rank;
        }
    }
    return 0;
}

PyObject *shared_rank_many(PyObject *self, PyObject *given) {
    Numbers keys;
    Py_buffer view;
    if (numbers_begin(&keys, given, "rank_many()", false)) return NULL;
    PyObject *array = array_of('q', keys.n, &view);
    if (array) {
        int result = rank_each((Map *)self, &keys, view.buf);
        PyBuffer_Release(&view);
        if (result) Py_CLEAR(array);
    }
    numbers_end(&keys);
    return array;
}

/* ---- arrays of what a map holds */

/* Pairs of a map at one moment. A key is the word of a number, or the address of an object in a map of
   byte strings. A value is the address of an object, or 0. Each object has a reference. */
typedef struct Columns {
    uint64_t *keys, *values;
    size_t n;
    Holder holder;
} Columns;

/* Reads the pairs between two keys, and their values if they are wanted. Returns -1 with an exception;
   `columns_end` is called either way. */
static int columns_begin(Columns *columns, Map *map, PyObject *const *bounds, bool with_values) {
    Py_ssize_t from, to;
    *columns = (Columns){NULL, NULL, 0, HOLDS_NONE};
    if (indices_between(map, bounds[0], bounds[1], &from, &to)) return -1;
    size_t room = (size_t)(to - from), n = 0;
    columns->keys = make_array(room, sizeof(uint64_t));
    columns->values = columns->keys ? make_array(room, sizeof(uint64_t)) : NULL;
    if (!columns->values) return -1;
    columns->holder = map->holder;
    if (is_of_numbers(map)) n = bptree_copy(&map->numbers, (size_t)from, columns->keys, room, columns->values, room);
    if (map->holder == HOLDS_ANY) n = bptree_dict_values(&map->any, (size_t)from, columns->values, room);
    columns->n = n;
    for (size_t i = 0; i < n; i++) {
        PyObject *key = map->holder == HOLDS_ANY ? entry_at(columns->values[i])->key : NULL;
        PyObject *value = with_values ? value_of(map, columns->values[i]) : NULL;
        Py_XINCREF(key);
        Py_XINCREF(value);
        if (key) columns->keys[i] = word_of(key);
        columns->values[i] = word_of(value);
    }
    return 0;
}

static void columns_end(Columns *columns) {
    for (size_t i = 0; i < columns->n; i++) {
        if (columns->holder == HOLDS_ANY) Py_DECREF(object_at(columns->keys[i]));
        Py_XDECREF(object_at(columns->values[i]));
    }
    PyMem_Free(columns->keys);
    PyMem_Free(columns->values);
}

static PyObject *array_with(char kind, const uint64_t *numbers, size_t n) {
    Py_buffer view;
    PyObject *array = array_of(kind, n, &view);
    if (!array) return NULL;
    if (n) memcpy(view.buf, numbers, n * sizeof *numbers);
    PyBuffer_Release(&view);
    return array;
}

/* Writes the number of an int or a float that is of a kind. Returns whether it is. */
static bool is_number(PyObject *object, char kind, uint64_t *number) {
    if (kind == 'd') {
        if (!PyFloat_CheckExact(object)) return false;
        double real = PyFloat_AsDouble(object);
        memcpy(number, &real, sizeof real);
        return true;
    }
    if (!PyLong_CheckExact(object) || key_spot_of_int(object, kind == 'q', number) != SPOT_AT) return false;
    if (kind == 'q') *number ^= SIGN_BIT;
    return true;
}

/* An array of the numbers of objects, in the first kind that has room for all: of keys 'q' or 'Q', and
   of values also 'd'. */
static PyObject *array_of_objects(const uint64_t *objects, size_t n, const char *kinds, const char *what) {
    uint64_t *numbers = make_array(n, sizeof *numbers);
    PyObject *array = NULL;
    if (!numbers) return NULL;
    for (; *kinds; kinds++) {
        size_t at = 0;
        while (at < n && is_number(object_at(objects[at]), *kinds, numbers + at)) at++;
        if (at == n) break;
    }
    size_t ints = 0;
    while (!*kinds && ints < n && PyLong_CheckExact(object_at(objects[ints]))) ints++;
    if (*kinds) array = array_with(*kinds, numbers, n);
    else if (ints == n) PyErr_Format(PyExc_OverflowError, "no type of an array has room for all %s", what);
    else PyErr_Format(PyExc_TypeError, "the %s are not all of type int%s", what, kinds[-1] == 'd' ? ", and not all of type float" : "");
    PyMem_Free(numbers);
    return array;
}

static PyObject *array_of_keys(const Columns *columns) {
    size_t n = columns->n;
    if (columns->holder == HOLDS_ANY) return array_of_objects(columns->keys, n, "qQ", "keys");
    for (size_t i = 0; i < n && columns->holder == HOLDS_SIGNED; i++) columns->keys[i] ^= SIGN_BIT;
    bool is_large = columns->holder == HOLDS_UNSIGNED && n && columns->keys[n - 1] & SIGN_BIT;
    return array_with(is_large ? 'Q' : 'q', columns->keys, n);
}

PyObject *shared_keys_array(ARGUMENTS) {
    TAKE("keys_array", 0, "minimum", "maximum");
    Columns columns;
    PyObject *array = columns_begin(&columns, (Map *)self, found, false) ? NULL : array_of_keys(&columns);
    columns_end(&columns);
    return array;
}

PyObject *map_items_arrays(ARGUMENTS) {
    TAKE("items_arrays", 0, "minimum", "maximum");
    Columns columns;
    PyObject *keys = columns_begin(&columns, (Map *)self, found, true) ? NULL : array_of_keys(&columns);
    PyObject *values = keys ? array_of_objects(columns.values, columns.n, "qQd", "values") : NULL;
    PyObject *both = values ? PyTuple_Pack(2, keys, values) : NULL;
    Py_XDECREF(values);
    Py_XDECREF(keys);
    columns_end(&columns);
    return both;
}

/* ---- changes */

/* The value objects of a call, each with a reference that is the caller's. */
static PyObject **objects_of(PyObject *given, size_t n) {
    bool is_list = PyList_Check(given) || PyTuple_Check(given);
    Numbers numbers = {.n = 0};
    PyObject *tuple = is_list ? PySequence_Tuple(given) : NULL;
    if (is_list ? !tuple : numbers_begin(&numbers, given, "put_many(), values", true)) return NULL;
    size_t there = is_list ? (size_t)PyTuple_Size(tuple) : numbers.n, made = 0;
    PyObject **objects = NULL;
    if (there != n) PyErr_Format(PyExc_ValueError, "put_many(): there are %zu keys and %zu values", n, there);
    else objects = make_array(n, sizeof *objects);
    for (; objects && made < n; made++) {
        objects[made] = is_list ? PyTuple_GetItem(tuple, (Py_ssize_t)made) : object_of(numbers.kind, number_at(&numbers, made));
        if (!objects[made]) break;
        if (is_list) Py_INCREF(objects[made]);
    }
    if (is_list) Py_DECREF(tuple);
    else numbers_end(&numbers);
    if (objects && made < n) {
        for (size_t i = 0; i < made; i++) Py_DECREF(objects[i]);
        PyMem_Free(objects);
        return NULL;
    }
    return objects;
}

static void drop_objects(PyObject **objects, size_t n) {
    for (size_t i = 0; i < n; i++) Py_XDECREF(objects[i]);
}

/* Stores all pairs in a map of numbers, or none. What they replace is in `objects` then, and the rest
   of these is NULL; if it fails, `objects` is unchanged. Each key is at a word. */
static int put_words(Map *map, const Numbers *keys, PyObject **objects) {
    uint64_t *words = make_array(keys->n, 2 * sizeof *words), values[GROUP];
    uint8_t spots[GROUP], there[GROUP];
    if (!words) return -1;
    uint64_t *olds = words + keys->n;
    size_t done = 0;
    bool is_good = true;
    while (is_good && done < keys->n) {
        size_t n = least(GROUP, keys->n - done), end = done + n;
        spots_of(map, keys, done, n, words + done, spots);
        /* (this brings the nodes of the group near, many at once) */
        bptree_get_many(&map->numbers, words + done, n, values, n, there, n);
        while (is_good && done < end) {
            olds[done] = 0;
            is_good = bptree_put(&map->numbers, words[done], word_of(objects[done]), olds + done) != BPTREE_NO_MEMORY;
            done += is_good;
        }
    }
    /* (to put back a value never fails, nor does the removal of a key) */
    while (!is_good && done--) {
        uint64_t old;
        if (olds[done]) bptree_put(&map->numbers, words[done], olds[done], &old);
        else bptree_del(&map->numbers, words[done], &old);
    }
    for (size_t i = 0; i < keys->n && is_good; i++) objects[i] = object_at(olds[i]);
    PyMem_Free(words);
    map->version++;
    return is_good ? 0 : no_memory();
}

/* Stores all pairs in an empty map, or none, as put_words does. */
static int load_columns(Map *map, const Numbers *keys, PyObject **objects) {
    Map made = {.holder = HOLDS_NONE};
    Holder holder = HOLDS_SIGNED;
    for (size_t i = 0; i < keys->n && keys->kind == 'Q'; i++) {
        if (keys->at[i] & SIGN_BIT) holder = HOLDS_UNSIGNED;
    }
    bptree_pair *pairs = make_array(keys->n, sizeof *pairs);
    if (!pairs) return -1;
    for (size_t i = 0; i < keys->n; i++) {
        pairs[i] = (bptree_pair){holder == HOLDS_SIGNED ? keys->at[i] ^ SIGN_BIT : keys->at[i], word_of(objects[i])};
    }
    int result = load_numbers(&made, holder, pairs, keys->n);
    PyMem_Free(pairs);
    if (result) return -1;
    if (length_of(&made) == keys->n) memset(objects, 0, keys->n * sizeof *objects);
    else {
        /* some keys are equal, and each but the last one has a value to drop */
        result = load_numbers(&made, holder, NULL, 0);
        if (!result) result = put_words(&made, keys, objects);
    }
    if (result) {
        free_holder(&made);
        return -1;
    }
    free_holder(map);
    map->numbers = made.numbers;
    map->holder = holder;
    map->version++;
    return 0;
}

static bool are_all_at_words(const Map *map, const Numbers *keys) {
    uint64_t word;
    for (size_t i = 0; i < keys->n; i++) {
        if (spot_of(map, keys->kind, keys->at[i], &word) != SPOT_AT) return false;
    }
    return true;
}

static int put_one_by_one(Map *map, const Numbers *keys, PyObject **objects) {
    int result = 0;
    for (size_t i = 0; i < keys->n && !result; i++) {
        PyObject *key = object_of(keys->kind, keys->at[i]);
        result = key ? put(map, key, objects[i]) : -1;
        Py_XDECREF(key);
    }
    return result;
}

/* Stores pairs. The references in `objects` are the caller's before and after. */
static int put_each(Map *map, const Numbers *keys, PyObject **objects) {
    if (!length_of(map)) return load_columns(map, keys, objects);
    int result = 1;
    /* (keys that are outside the range of a map of numbers are inside the other one) */
    if (is_of_numbers(map)) result = are_all_at_words(map, keys) ? 0 : shift(map);
    if (result < 0) return -1;
    return result ? put_one_by_one(map, keys, objects) : put_words(map, keys, objects);
}

PyObject *map_put_many(ARGUMENTS) {
    TAKE("put_many", 2, "keys", "values");
    Numbers keys;
    if (numbers_begin(&keys, found[0], "put_many(), keys", false)) return NULL;
    PyObject **objects = objects_of(found[1], keys.n);
    uint64_t *own = objects ? make_array(keys.n, sizeof *own) : NULL;
    int result = own ? 0 : -1;
    /* (the keys are looked at more than once) */
    for (size_t i = 0; i < keys.n && own; i++) own[i] = number_at(&keys, i);
    keys.at = own;
    if (own && keys.n) result = put_each((Map *)self, &keys, objects);
    if (objects) drop_objects(objects, keys.n);
    PyMem_Free(objects);
    PyMem_Free(own);
    numbers_end(&keys);
    if (result) return NULL;
    Py_RETURN_NONE;
}

static int compare_words(const void *one, const void *other) {
    uint64_t a = *(const uint64_t *)one, b = *(const uint64_t *)other;
    return (a > b) - (a < b);
}

/* Writes each word once that is a key of a map of numbers, and what is at it. Returns how many. */
static size_t words_there(const Map *map, const Numbers *keys, uint64_t *words, uint64_t *values) {
    uint8_t found[GROUP];
    size_t all = 0, count = 0;
    for (size_t i = 0; i < keys->n; i++) {
        if (spot_of(map, keys->kind, number_at(keys, i), words + all) == SPOT_AT) all++;
    }
    qsort(words, all, sizeof *words, compare_words);
    for (size_t at = 0; at < all; at += GROUP) {
        size_t n = least(GROUP, all - at);
        bptree_get_many(&map->numbers, words + at, n, values + at, n, found, n);
        for (size_t i = at; i < at + n; i++) {
            if (!found[i - at] || (count && words[count - 1] == words[i])) continue;
            words[count] = words[i];
            values[count++] = values[i];
        }
    }
    return count;
}

/* Removes keys of a map of numbers, all of them or none. Returns how many were there. */
static PyObject *del_words(Map *map, const Numbers *keys) {
    uint64_t *words = make_array(keys->n, 2 * sizeof *words);
    uint8_t found[GROUP];
    if (!words) return NULL;
    uint64_t *values = words + keys->n;
    size_t count = words_there(map, keys, words, values);
    PyObject *number = PyLong_FromSize_t(count);
    for (size_t at = 0; at < count && number; at += GROUP) {
        size_t n = least(GROUP, count - at);
        bptree_del_many(&map->numbers, words + at, n, found, n);
    }
    if (number && count) map->version++;
    for (size_t i = 0; i < count && number; i++) Py_XDECREF(object_at(values[i]));
    PyMem_Free(words);
    return number;
}

static PyObject *del_one_by_one(Map *map, const Numbers *keys) {
    size_t count = 0;
    for (size_t i = 0; i < keys->n; i++) {
        PyObject *key = object_of(keys->kind, number_at(keys, i)), *old = NULL;
        int result = key ? take(map, key, &old) : -1;
        Py_XDECREF(key);
        Py_XDECREF(old);
        if (result < 0) return NULL;
        count += result > 0;
    }
    return PyLong_FromSize_t(count);
}

PyObject *shared_del_many(PyObject *self, PyObject *given) {
    Map *map = (Map *)self;
    Numbers keys;
    if (numbers_begin(&keys, given, "del_many()", false)) return NULL;
    PyObject *count = is_of_numbers(map) ? del_words(map, &keys) : del_one_by_one(map, &keys);
    numbers_end(&keys);
    return count;
}
