/* The encoding of keys. The first byte is the kind, and kinds are ordered as their codes:

   None         the code
   number       16 bits of sign and exponent, then 8 bytes of the mantissa and a byte that says
                whether 8 more follow. So an int and a float of one value have the same bytes. The
                bytes of a negative number are turned over. Zero, the infinities and exponents
                above 2046 have codes of their own.
   str, bytes   UTF-8 or the bytes; in a tuple a zero byte is followed by 255, and a zero byte and
                one that is not 255 end it
   date         its day
   datetime     day and microseconds, without a time zone or as UTC
   tuple        its parts, then a zero byte */
#include "keys.h"
#include <string.h>

enum {
    CODE_END = 0x00,
    CODE_NONE = 0x10,
    CODE_MINUS_INFINITY = 0x1e,
    CODE_MINUS_HUGE = 0x1f,
    CODE_NUMBER = 0x30, /* of zero and of positive numbers; negative ones have 0x20 */
    CODE_HUGE = 0x40,
    CODE_INFINITY = 0x41,
    CODE_STR = KEY_OF_STR,
    CODE_BYTES = 0x51,
    CODE_DATE = 0x52,
    CODE_NAIVE = 0x53,
    CODE_AWARE = 0x54,
    CODE_TUPLE = 0x60,
    ESCAPE = 0xff,
};
enum { EXPONENT_OF_ZERO = 2048, LEAST_HUGE = 2047 };
#define FIRST_BIT (UINT64_C(1) << 63)

static PyTypeObject *date_type, *datetime_type;
static PyObject *naive_epoch, *aware_epoch, *days_name, *seconds_name, *microseconds_name;

int keys_begin(void) {
    PyObject *module = PyImport_ImportModule("datetime"), *zone = NULL, *utc = NULL;
    if (!module) return -1;
    date_type = (PyTypeObject *)PyObject_GetAttrString(module, "date");
    datetime_type = (PyTypeObject *)PyObject_GetAttrString(module, "datetime");
    days_name = PyUnicode_InternFromString("days");
    seconds_name = PyUnicode_InternFromString("seconds");
    microseconds_name = PyUnicode_InternFromString("microseconds");
    zone = PyObject_GetAttrString(module, "timezone");
    utc = zone ? PyObject_GetAttrString(zone, "utc") : NULL;
    if (datetime_type && utc) {
        naive_epoch = PyObject_CallFunction((PyObject *)datetime_type, "iii", 1970, 1, 1);
        aware_epoch = PyObject_CallFunction((PyObject *)datetime_type, "iiiiiiiO", 1970, 1, 1, 0, 0, 0, 0, utc);
    }
    Py_XDECREF(utc);
    Py_XDECREF(zone);
    Py_DECREF(module);
    bool is_whole = date_type && days_name && seconds_name && microseconds_name && naive_epoch && aware_epoch;
    return is_whole ? 0 : -1;
}

int bytes_grow(Bytes *bytes, size_t more) {
    if (more <= bytes->room - bytes->n) return KEY_GOOD;
    uint8_t *at = NULL;
    /* (neither sum overflows: both are below half of the memory there is) */
    size_t needed = bytes->n + more, room = bytes->room * 2 > needed ? bytes->room * 2 : needed;
    if (more <= PY_SSIZE_T_MAX / 2 && bytes->room <= PY_SSIZE_T_MAX / 2) at = PyMem_Malloc(room);
    if (!at) {
        PyErr_NoMemory();
        return KEY_FAILED;
    }
    memcpy(at, bytes->at, bytes->n);
    bytes_end(bytes);
    bytes->at = at;
    bytes->room = room;
    return KEY_GOOD;
}

/* Appends the last n bytes of a word, the highest first. There is room. */
static void append_word(Bytes *bytes, uint64_t word, int n) {
    while (n-- > 0) bytes->at[bytes->n++] = (uint8_t)(word >> (8 * n));
}

static int encode_code(Bytes *bytes, int code) {
    if (bytes_grow(bytes, 2)) return KEY_FAILED;
    bytes->at[bytes->n++] = (uint8_t)code;
    return KEY_GOOD;
}

static int encode_string(Bytes *bytes, int code, const char *from, size_t n, bool is_part) {
    if (n > PY_SSIZE_T_MAX / 4) {
        PyErr_NoMemory();
        return KEY_FAILED;
    }
    if (bytes_grow(bytes, (is_part ? 2 * n : n) + 3)) return KEY_FAILED;
    bytes->at[bytes->n++] = (uint8_t)code;
    if (!is_part) {
        memcpy(bytes->at + bytes->n, from, n);
        bytes->n += n;
        return KEY_GOOD;
    }
    for (size_t i = 0; i < n; i++) {
        bytes->at[bytes->n++] = (uint8_t)from[i];
        if (!from[i]) bytes->at[bytes->n++] = ESCAPE;
    }
    bytes->at[bytes->n++] = CODE_END;
    return KEY_GOOD;
}

static int encode_str(Bytes *bytes, PyObject *key, bool is_part) {
    Py_ssize_t n;
    const char *from = PyUnicode_AsUTF8AndSize(key, &n);
    if (from) return encode_string(bytes, CODE_STR, from, (size_t)n, is_part);
    if (!PyErr_ExceptionMatches(PyExc_UnicodeEncodeError)) return KEY_FAILED;
    /* half of a surrogate pair, in UTF-8 all the same: bytes are ordered as code points */
    PyErr_Clear();
    PyObject *raw = PyUnicode_AsEncodedString(key, "utf-8", "surrogatepass");
    if (!raw) return KEY_FAILED;
    int result = encode_string(bytes, CODE_STR, PyBytes_AsString(raw), (size_t)PyBytes_Size(raw), is_part);
    Py_DECREF(raw);
    return result;
}

/* A number that is not zero: the mantissa has n bytes, in eights, and its first bit is set. */
static int encode_number(Bytes *bytes, bool is_negative, int64_t exponent, const uint8_t *mantissa, size_t n) {
    uint8_t turn = is_negative ? 0xff : 0;
    if (bytes_grow(bytes, n + n / 8 + 10)) return KEY_FAILED;
    if (exponent < LEAST_HUGE) {
        uint64_t code = (CODE_NUMBER << 8) + (uint64_t)(exponent + EXPONENT_OF_ZERO);
        append_word(bytes, is_negative ? (2 * CODE_NUMBER << 8) - 1 - code : code, 2);
    } else {
        bytes->at[bytes->n++] = is_negative ? CODE_MINUS_HUGE : CODE_HUGE;
        append_word(bytes, is_negative ? ~(uint64_t)exponent : (uint64_t)exponent, 8);
    }
    for (size_t i = 0; i < n; i++) {
        bytes->at[bytes->n++] = mantissa[i] ^ turn;
        if (i % 8 == 7) bytes->at[bytes->n++] = (i + 1 < n) ^ turn;
    }
    return KEY_GOOD;
}

/* A number of 64 bits times a power of 2. */
static int encode_word(Bytes *bytes, bool is_negative, uint64_t size, int power) {
    if (!size) {
        if (encode_code(bytes, CODE_NUMBER)) return KEY_FAILED;
        bytes->at[bytes->n++] = 0;
        return KEY_GOOD;
    }
    int zeros = __builtin_clzll(size);
    uint8_t mantissa[8];
    for (int i = 0; i < 8; i++) mantissa[i] = (uint8_t)(size << zeros >> (8 * (7 - i)));
    return encode_number(bytes, is_negative, power + 63 - zeros, mantissa, 8);
}

static int encode_float(Bytes *bytes, PyObject *key) {
    double number = PyFloat_AsDouble(key);
    uint64_t word;
    memcpy(&word, &number, 8);
    bool is_negative = word & FIRST_BIT;
    int power = (int)(word >> 52 & 0x7ff);
    uint64_t fraction = word & ((UINT64_C(1) << 52) - 1);
    if (power == 0x7ff && fraction) {
        bytes->culprit = key;
        return KEY_NONE;
    }
    if (power == 0x7ff) return encode_code(bytes, is_negative ? CODE_MINUS_INFINITY : CODE_INFINITY);
    if (power) return encode_word(bytes, is_negative, fraction | UINT64_C(1) << 52, power - 1075);
    return encode_word(bytes, is_negative, fraction, -1074);
}

/* The bytes of an int that is above 64 bits, its first bit first, in eights. */
static PyObject *raw_of(PyObject *size, size_t *bits) {
    PyObject *length = PyObject_CallMethod(size, "bit_length", NULL), *shift = NULL, *shifted = NULL, *raw = NULL;
    *bits = length ? PyLong_AsSize_t(length) : 0;
    if (length && !PyErr_Occurred()) shift = PyLong_FromSize_t((64 - *bits % 64) % 64);
    if (shift) shifted = PyNumber_Lshift(size, shift);
    if (shifted) raw = PyObject_CallMethod(shifted, "to_bytes", "ns", (Py_ssize_t)((*bits + 63) / 64 * 8), "big");
    Py_XDECREF(shifted);
    Py_XDECREF(shift);
    Py_XDECREF(length);
    return raw;
}

static int encode_large(Bytes *bytes, PyObject *key, bool is_negative) {
    /* (the methods of a subclass may be others) */
    PyObject *plain = PyObject_CallMethod((PyObject *)&PyLong_Type, is_negative ? "__neg__" : "__pos__", "O", key);
    size_t bits = 0;
    PyObject *raw = plain ? raw_of(plain, &bits) : NULL;
    Py_XDECREF(plain);
    if (!raw) return KEY_FAILED;
    const uint8_t *mantissa = (const uint8_t *)PyBytes_AsString(raw);
    size_t n = (size_t)PyBytes_Size(raw), last = n;
    while (!mantissa[last - 1]) last--;
    int result = encode_number(bytes, is_negative, (int64_t)bits - 1, mantissa, (last + 7) / 8 * 8);
    Py_DECREF(raw);
    return result;
}

static int encode_int(Bytes *bytes, PyObject *key) {
    int over;
    long long number = PyLong_AsLongLongAndOverflow(key, &over);
    if (over) return encode_large(bytes, key, over < 0);
    return encode_word(bytes, number < 0, number < 0 ? 0 - (uint64_t)number : (uint64_t)number, 0);
}

static int encode_date(Bytes *bytes, PyObject *key) {
    PyObject *day = PyObject_CallMethod(key, "toordinal", NULL);
    unsigned long ordinal = day ? PyLong_AsUnsignedLong(day) : 0;
    Py_XDECREF(day);
    if (!day || PyErr_Occurred() || bytes_grow(bytes, 5)) return KEY_FAILED;
    bytes->at[bytes->n++] = CODE_DATE;
    append_word(bytes, ordinal, 4);
    return KEY_GOOD;
}

/* A part of a difference of two datetimes. On failure an exception is set. */
static long long part_of(PyObject *difference, PyObject *name) {
    PyObject *part = PyObject_GetAttr(difference, name);
    long long number = part ? PyLong_AsLongLong(part) : -1;
    Py_XDECREF(part);
    return number;
}

static int encode_datetime(Bytes *bytes, PyObject *key) {
    PyObject *offset = PyObject_CallMethod(key, "utcoffset", NULL);
    if (!offset) return KEY_FAILED;
    bool is_naive = offset == Py_None;
    Py_DECREF(offset);
    PyObject *since = PyNumber_Subtract(key, is_naive ? naive_epoch : aware_epoch);
    if (!since) return KEY_FAILED;
    long long days = part_of(since, days_name), seconds = 0, microseconds = 0;
    if (!PyErr_Occurred()) seconds = part_of(since, seconds_name);
    if (!PyErr_Occurred()) microseconds = part_of(since, microseconds_name);
    Py_DECREF(since);
    if (PyErr_Occurred() || bytes_grow(bytes, 10)) return KEY_FAILED;
    bytes->at[bytes->n++] = is_naive ? CODE_NAIVE : CODE_AWARE;
    append_word(bytes, (uint64_t)(days + INT32_MAX), 4);
    append_word(bytes, (uint64_t)(seconds * 1000000 + microseconds), 5);
    return KEY_GOOD;
}

static int encode_any(Bytes *bytes, PyObject *key, bool is_part);

static int encode_tuple(Bytes *bytes, PyObject *key) {
    Py_ssize_t n = PyTuple_Size(key);
    if (encode_code(bytes, CODE_TUPLE) || Py_EnterRecursiveCall(" in the parts of a key")) return KEY_FAILED;
    int result = KEY_GOOD;
    for (Py_ssize_t i = 0; i < n && !result; i++) result = encode_any(bytes, PyTuple_GetItem(key, i), true);
    Py_LeaveRecursiveCall();
    return result ? result : encode_code(bytes, CODE_END);
}

bool key_is_by_index(PyObject *key) {
    return !PyLong_Check(key) && !PyUnicode_Check(key) && !PyFloat_Check(key) && !PyBytes_Check(key) && !PyTuple_Check(key) && key != Py_None &&
           PyIndex_Check(key);
}

static int encode_any(Bytes *bytes, PyObject *key, bool is_part) {
    if (PyUnicode_Check(key)) return encode_str(bytes, key, is_part);
    if (PyLong_Check(key)) return encode_int(bytes, key);
    if (PyFloat_Check(key)) return encode_float(bytes, key);
    if (PyBytes_Check(key)) {
        return encode_string(bytes, CODE_BYTES, PyBytes_AsString(key), (size_t)PyBytes_Size(key), is_part);
    }
    if (PyTuple_Check(key)) return encode_tuple(bytes, key);
    if (key == Py_None) return encode_code(bytes, CODE_NONE);
    if (Py_IS_TYPE(key, datetime_type)) return encode_datetime(bytes, key);
    if (Py_IS_TYPE(key, date_type)) return encode_date(bytes, key);
    if (PyIndex_Check(key)) {
        PyObject *number = PyNumber_Index(key);
        if (!number) return KEY_FAILED;
        int result = encode_int(bytes, number);
        Py_DECREF(number);
        return result;
    }
    bytes->culprit = key;
    return KEY_NONE;
}

int key_encode(Bytes *bytes, PyObject *key) { return encode_any(bytes, key, false); }

int key_check(Bytes *bytes, PyObject *key) {
    if (PyUnicode_Check(key) || PyLong_Check(key) || PyBytes_Check(key) || key == Py_None) return KEY_GOOD;
    bytes->n = 0;
    return encode_any(bytes, key, false);
}

void key_raise(const Bytes *bytes) {
    if (PyFloat_Check(bytes->culprit)) {
        PyErr_SetString(PyExc_ValueError, "nan cannot be ordered, so it is not a key");
        return;
    }
    PyErr_Format(PyExc_TypeError, "a key is None, a number, a str, a bytes, a date, a datetime or a tuple of these, and no object of %R",
                 (PyObject *)Py_TYPE(bytes->culprit));
}

/* The spot of an integer, or of a number between it and the integer below. */
static int spot_of(bool is_negative, uint64_t size, bool is_between, bool is_signed, uint64_t *word) {
    *word = 0;
    if (is_negative && (is_signed ? size > FIRST_BIT : size > 0)) return SPOT_BEFORE;
    if (!is_negative && is_signed && size >= FIRST_BIT) return SPOT_BEHIND;
    *word = is_negative ? 0 - size : size;
    if (is_signed) *word ^= FIRST_BIT;
    return is_between ? SPOT_BEFORE : SPOT_AT;
}

int key_spot(const Bytes *bytes, bool is_signed, uint64_t *word) {
    int code = bytes->at[0];
    *word = 0;
    if (code <= CODE_MINUS_HUGE) return SPOT_BEFORE;
    if (code >= CODE_HUGE) return SPOT_BEHIND;
    bool is_negative = code < CODE_NUMBER;
    int exponent = (bytes->at[0] << 8 | bytes->at[1]) & 0xfff;
    exponent = (is_negative ? 0xfff - exponent : exponent) - EXPONENT_OF_ZERO;
    if (exponent == -EXPONENT_OF_ZERO) return spot_of(false, 0, false, is_signed, word);
    if (exponent < 0) return spot_of(is_negative, !is_negative, true, is_signed, word);
    if (exponent > 63) return is_negative ? SPOT_BEFORE : SPOT_BEHIND;
    uint64_t mantissa = 0;
    for (int i = 2; i < 10; i++) mantissa = mantissa << 8 | bytes->at[i];
    if (is_negative) mantissa = ~mantissa;
    uint64_t size = mantissa >> (63 - exponent);
    bool is_between = exponent < 63 && mantissa << (exponent + 1);
    return spot_of(is_negative, size + (is_between && !is_negative), is_between, is_signed, word);
}

int key_spot_of_int(PyObject *key, bool is_signed, uint64_t *word) {
    int over;
    long long number = PyLong_AsLongLongAndOverflow(key, &over);
    *word = 0;
    if (over < 0 || (number < 0 && !over && !is_signed)) return SPOT_BEFORE;
    if (!over) {
        *word = is_signed ? (uint64_t)number ^ FIRST_BIT : (uint64_t)number;
        return SPOT_AT;
    }
    if (is_signed) return SPOT_BEHIND;
    *word = PyLong_AsUnsignedLongLong(key);
    if (*word != UINT64_MAX || !PyErr_Occurred()) return SPOT_AT;
    PyErr_Clear();
    return SPOT_BEHIND;
}
