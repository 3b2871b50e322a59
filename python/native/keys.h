/* Keys of Python as bytes: memcmp orders the bytes of two keys as the keys are ordered, and equal
   keys have equal bytes. */
#ifndef SWEEP_BPTREE_KEYS_H
#define SWEEP_BPTREE_KEYS_H

#define PY_SSIZE_T_CLEAN
#include <Python.h>
#include <stdbool.h>
#include <stddef.h>
#include <stdint.h>

/* An array of bytes that grows. The first bytes need no block of memory. */
typedef struct Bytes {
    uint8_t *at;
    size_t n, room;
    PyObject *culprit; /* the object that is not a key, or the part of a tuple that is not: borrowed from the key */
    uint8_t own[232];
} Bytes;

/* The results of a call that takes a key. KEY_FAILED: an exception is set. KEY_NONE: the object is
   no key, and no exception is set. */
enum { KEY_FAILED = -1, KEY_GOOD = 0, KEY_NONE = 1 };

/* The first byte of a str. Behind it is its UTF-8, if the str is no part of a tuple. */
enum { KEY_OF_STR = 0x50 };

/* The spot of a key among the integers of a map: at a word, before that word, or behind all words. */
enum { SPOT_AT, SPOT_BEFORE, SPOT_BEHIND };

/* Finds the types of dates. Returns -1 and sets an exception if that fails. */
int keys_begin(void);

static inline void bytes_begin(Bytes *bytes) {
    bytes->at = bytes->own;
    bytes->n = 0;
    bytes->room = sizeof bytes->own;
    bytes->culprit = NULL;
}

static inline void bytes_end(Bytes *bytes) {
    if (bytes->at != bytes->own) PyMem_Free(bytes->at);
}

/* Makes room for more bytes. Returns KEY_FAILED if there is no memory, and nothing has changed. */
int bytes_grow(Bytes *bytes, size_t more);

/* Whether an object is stored as the int that its __index__ returns. */
bool key_is_by_index(PyObject *key);
/* Appends the bytes of a key. May run code of a time zone or of an __index__. */
int key_encode(Bytes *bytes, PyObject *key);
/* KEY_GOOD if the object is a key. It encodes only the parts that decide this. */
int key_check(Bytes *bytes, PyObject *key);
/* Sets the TypeError or ValueError of a KEY_NONE. */
void key_raise(const Bytes *bytes);

/* The spot of an encoded key among integers from -2**63 to 2**63 - 1, or from 0 to 2**64 - 1. The word
   of a signed integer has its first bit turned over, so that words are ordered as their integers. */
int key_spot(const Bytes *bytes, bool is_signed, uint64_t *word);
/* The same of an object of type int itself. It runs no code, and sets no exception. */
int key_spot_of_int(PyObject *key, bool is_signed, uint64_t *word);
/* The int of a word. NULL if there is no memory. */
static inline PyObject *key_of_word(uint64_t word, bool is_signed) {
    return is_signed ? PyLong_FromLongLong((long long)(word ^ UINT64_C(1) << 63)) : PyLong_FromUnsignedLongLong(word);
}

#endif
