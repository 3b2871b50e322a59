/* Calls of the map from byte strings in random order beside a sorted array. The look-ups run while
   malloc and realloc fail. The last line is 'ok'. */
#include "sweep_bptree.h"
#include <stdio.h>
#include <stdlib.h>
#include <string.h>

#define MOST 3000
struct key {
    size_t n;
    uint8_t at[40];
};
static struct key keys[MOST];
static uint64_t values[MOST];
static size_t count;
static int closed;
static size_t asked;
void *__real_malloc(size_t n);
void *__real_realloc(void *at, size_t n);
void *__wrap_malloc(size_t n) {
    asked++;
    return closed ? NULL : __real_malloc(n);
}
void *__wrap_realloc(void *at, size_t n) {
    asked++;
    return closed ? NULL : __real_realloc(at, n);
}

static int order(const struct key *a, const struct key *b) {
    int o = memcmp(a->at, b->at, a->n < b->n ? a->n : b->n);
    return o ? o : (a->n > b->n) - (a->n < b->n);
}
static size_t place(const struct key *k, int *there) {
    size_t i = 0;
    while (i < count && order(&keys[i], k) < 0) i++;
    *there = i < count && order(&keys[i], k) == 0;
    return i;
}
static uint64_t seed = 1;
static uint64_t draw(uint64_t n) {
    seed ^= seed << 13;
    seed ^= seed >> 7;
    seed ^= seed << 17;
    return seed % n;
}
#define must(x)                                                                                                                                      \
    do {                                                                                                                                             \
        if (!(x)) {                                                                                                                                  \
            printf("failed: %s, line %d\n", #x, __LINE__);                                                                                           \
            exit(1);                                                                                                                                 \
        }                                                                                                                                            \
    } while (0)

/* What the arguments hold before a call, and behind a call that finds nothing. */
enum { WHOLE = 40, NO_LENGTH = 79, NO_VALUE = 5, NO_OLD = 6 };
static uint8_t out[WHOLE];
static size_t len;
static uint64_t found;

static void blank(void) { memset(out, 0x55, sizeof out), len = NO_LENGTH, found = NO_VALUE; }

/* Whether a call found the pair at an index of the array, with as many of its key's bytes as fit
   into `room`; if none is due, nothing is written. */
static void found_is(bool is_found, bool is_due, size_t at, size_t room) {
    must(is_found == is_due);
    must(len == (is_due ? keys[at].n : NO_LENGTH) && found == (is_due ? values[at] : NO_VALUE));
    for (size_t i = 0; i < WHOLE; i++) must(out[i] == (is_due && i < keys[at].n && i < room ? keys[at].at[i] : 0x55));
    blank();
}

static void take_out(size_t i) {
    memmove(keys + i, keys + i + 1, (count - i - 1) * sizeof *keys);
    memmove(values + i, values + i + 1, (count - i - 1) * sizeof *values);
    count--;
}

static void put_at(size_t i, bool there, const struct key *k, uint64_t value) {
    if (!there) {
        memmove(keys + i + 1, keys + i, (count - i) * sizeof *keys);
        memmove(values + i + 1, values + i, (count - i) * sizeof *values);
        keys[i] = *k;
        count++;
    }
    values[i] = value;
}

/* A third of the keys begin with the same seven bytes. */
static struct key any_key(void) {
    size_t front = draw(3) < 1 ? 7 : 0;
    struct key k = {draw(20) < 1 ? front + draw(WHOLE - 7) : front + draw(4), {0}};
    memset(k.at, 'k', front);
    for (size_t i = front; i < k.n; i++) k.at[i] = (uint8_t)("\0\1ab\xff"[draw(5)]);
    return k;
}

/* Replaces all pairs by some in random order, of which some have equal keys, and before that fails
   to: without memory, and with a byte too few. */
static void load(bptree_dict *dict) {
    enum { MANY = 300 };
    static uint8_t bytes[MANY * WHOLE];
    static bptree_record records[MANY];
    size_t n = draw(MANY + 1), used = 0, before = bptree_dict_len(dict);
    struct key given[MANY];
    for (size_t i = 0; i < n; i++) {
        given[i] = any_key();
        memcpy(bytes + used, given[i].at, given[i].n);
        used += given[i].n;
        records[i] = (bptree_record){given[i].n, draw(1000)};
    }
    if (n > 0) {
        closed = 1;
        must(!bptree_dict_load(dict, bytes, used, records, n));
        closed = 0;
    }
    if (used > 0) must(!bptree_dict_load(dict, bytes, used - 1, records, n));
    must(bptree_dict_len(dict) == before);
    must(bptree_dict_load(dict, bytes, used, records, n));
    count = 0;
    for (size_t i = 0; i < n; i++) {
        int there;
        size_t at = place(&given[i], &there);
        put_at(at, there, &given[i], records[i].value);
    }
    must(bptree_dict_len(dict) == count);
}

/* The empty key by NULL, and arrays of length 0 by NULL. */
static void with_null(bptree_dict *dict) {
    struct key empty = {0, {0}};
    int there;
    size_t i = place(&empty, &there), rank = 77;
    uint64_t was = there ? values[0] : 0, old = NO_OLD, value = NO_VALUE;
    must(i == 0 && bptree_dict_contains(dict, NULL, 0) == there);
    must(bptree_dict_get(dict, NULL, 0, &value) == there && value == (there ? was : NO_VALUE));
    must(bptree_dict_rank(dict, NULL, 0, &rank) == there && rank == 0);
    blank();
    found_is(bptree_dict_first(dict, NULL, 0, &len, &found), count > 0, 0, 0);
    found_is(bptree_dict_last(dict, NULL, 0, &len, &found), count > 0, count - 1, 0);
    found_is(bptree_dict_at(dict, 0, NULL, 0, &len, &found), count > 0, 0, 0);
    found_is(bptree_dict_next(dict, NULL, 0, NULL, 0, &len, &found), count > (size_t)there, there, 0);
    found_is(bptree_dict_prev(dict, NULL, 0, NULL, 0, &len, &found), false, 0, 0);
    must(bptree_dict_range_len(dict, NULL, 0, NULL, 0) == 0);
    must(bptree_dict_range_len(dict, NULL, 0, (const uint8_t *)"\0", 1) == (size_t)there);
    must(bptree_dict_values(dict, 0, NULL, 0) == 0);
    must(bptree_dict_page(dict, 0, NULL, 0, NULL, 0) == 0);
    must(bptree_dict_page_back(dict, 1, NULL, 0, NULL, 0) == 0);
    bptree_record record = {NO_LENGTH, NO_VALUE};
    must(bptree_dict_page(dict, 0, NULL, 0, &record, 1) == (size_t)there);
    must(record.length == (there ? 0 : NO_LENGTH) && record.value == (there ? was : NO_VALUE));
    must(bptree_dict_del(dict, NULL, 0, &old) == (there ? BPTREE_REMOVED : BPTREE_ABSENT));
    must(old == (there ? was : NO_OLD) && !bptree_dict_contains(dict, NULL, 0));
    old = NO_OLD;
    must(bptree_dict_put(dict, NULL, 0, 8, &old) == BPTREE_ADDED && old == NO_OLD);
    must(bptree_dict_put(dict, NULL, 0, 9, &old) == BPTREE_REPLACED && old == 8);
    if (there) must(bptree_dict_put(dict, empty.at, 0, was, &old) == BPTREE_REPLACED && old == 9);
    else must(bptree_dict_del_at(dict, 0, &old) == BPTREE_REMOVED && old == 9);
    must(bptree_dict_len(dict) == count);
}

/* Keys without bytes, whose bytes are no array; and no pairs. */
static void load_null(bptree_dict *dict) {
    bptree_record records[] = {{0, 4}, {0, 6}};
    uint64_t value = NO_VALUE;
    must(bptree_dict_load(dict, NULL, 0, records, 2) && bptree_dict_len(dict) == 1);
    must(bptree_dict_get(dict, NULL, 0, &value) && value == 6);
    must(bptree_dict_load(dict, NULL, 0, NULL, 0) && bptree_dict_len(dict) == 0);
}

int main(void) {
    bptree_dict dict = {0};
    must(bptree_dict_new(&dict));
    for (int step = 0; step < 60000; step++) {
        struct key k = any_key();
        int there;
        size_t i = place(&k, &there), rank = 77;
        uint64_t value = NO_VALUE, old = NO_OLD;
        if (step % 64 == 0) with_null(&dict);
        if (step % 4000 == 3999) load(&dict), i = place(&k, &there);
        blank();
        switch (draw(10)) {
        case 0:
        case 1:
        case 2:
            if (count == MOST) break;
            value = draw(1000);
            closed = there;
            must(bptree_dict_put(&dict, k.at, k.n, value, &old) == (there ? BPTREE_REPLACED : BPTREE_ADDED));
            closed = 0;
            must(old == (there ? values[i] : NO_OLD));
            put_at(i, there, &k, value);
            break;
        case 3:
        case 4:
            must(bptree_dict_del(&dict, k.at, k.n, &old) == (there ? BPTREE_REMOVED : BPTREE_ABSENT));
            must(old == (there ? values[i] : NO_OLD));
            if (there) take_out(i);
            break;
        case 9: {
            size_t p = step % 2 ? count - 1 : 0, room = draw(WHOLE + 1);
            bptree_result code =
                step % 2 ? bptree_dict_pop_last(&dict, out, room, &len, &found) : bptree_dict_pop_first(&dict, out, room, &len, &found);
            must(code == (count == 0 ? BPTREE_ABSENT : keys[p].n > room ? BPTREE_NO_ROOM : BPTREE_REMOVED));
            if (code == BPTREE_NO_ROOM) {
                must(len == keys[p].n && found == NO_VALUE);
                for (size_t q = 0; q < WHOLE; q++) must(out[q] == 0x55);
                must(bptree_dict_len(&dict) == count);
            } else {
                found_is(code == BPTREE_REMOVED, count > 0, p, room);
            }
            if (code == BPTREE_REMOVED) take_out(p);
            break;
        }
        case 8: {
            size_t p = draw(count + 3);
            must(bptree_dict_del_at(&dict, p, &old) == (p < count ? BPTREE_REMOVED : BPTREE_ABSENT));
            must(old == (p < count ? values[p] : NO_OLD));
            if (p < count) take_out(p);
            break;
        }
        case 5: {
            size_t before = asked;
            closed = 1;
            must(bptree_dict_contains(&dict, k.at, k.n) == there);
            must(bptree_dict_get(&dict, k.at, k.n, &value) == there && value == (there ? values[i] : NO_VALUE));
            must(bptree_dict_rank(&dict, k.at, k.n, &rank) == there && rank == i);
            size_t above = i + there, room = draw(WHOLE + 1);
            found_is(bptree_dict_next(&dict, k.at, k.n, out, room, &len, &found), above < count, above, room);
            found_is(bptree_dict_prev(&dict, k.at, k.n, out, room, &len, &found), i > 0, i - 1, room);
            struct key t = {draw(3), {'a', 'b'}};
            int u;
            size_t j = place(&t, &u);
            must(bptree_dict_range_len(&dict, k.at, k.n, t.at, t.n) == (j > i ? j - i : 0));
            must(asked == before);
            closed = 0;
            break;
        }
        case 6: {
            closed = 1;
            size_t p = draw(count + 3), room = draw(WHOLE + 1);
            found_is(bptree_dict_at(&dict, p, out, room, &len, &found), p < count, p, room);
            found_is(bptree_dict_first(&dict, out, room, &len, &found), count > 0, 0, room);
            found_is(bptree_dict_last(&dict, out, room, &len, &found), count > 0, count - 1, room);
            must(bptree_dict_len(&dict) == count);
            closed = 0;
            break;
        }
        default: {
            closed = 1;
            uint8_t bytes[200];
            bptree_record records[60];
            uint64_t some[60];
            memset(bytes, 0x55, sizeof bytes);
            for (size_t q = 0; q < 60; q++) records[q] = (bptree_record){NO_LENGTH, NO_VALUE + q}, some[q] = q;
            size_t p = draw(count + 3), room = draw(201), n = draw(61), used = 0, got = bptree_dict_page(&dict, p, bytes, room, records, n), want = 0;
            while (want < n && p + want < count && used + keys[p + want].n <= room) {
                must(want < got && records[want].length == keys[p + want].n && records[want].value == values[p + want] &&
                     !memcmp(bytes + used, keys[p + want].at, keys[p + want].n));
                used += keys[p + want].n;
                want++;
            }
            must(got == want);
            for (size_t q = used; q < sizeof bytes; q++) must(bytes[q] == 0x55);
            for (size_t q = got; q < 60; q++) must(records[q].length == NO_LENGTH && records[q].value == NO_VALUE + q);
            memset(bytes, 0x55, sizeof bytes);
            for (size_t q = 0; q < 60; q++) records[q] = (bptree_record){NO_LENGTH, NO_VALUE + q};
            size_t end = p < count ? p : count;
            got = bptree_dict_page_back(&dict, p, bytes, room, records, n), used = want = 0;
            while (want < n && want < end && used + keys[end - 1 - want].n <= room) {
                size_t q = end - 1 - want;
                must(want < got && records[want].length == keys[q].n && records[want].value == values[q] &&
                     !memcmp(bytes + used, keys[q].at, keys[q].n));
                used += keys[q].n;
                want++;
            }
            must(got == want);
            for (size_t q = used; q < sizeof bytes; q++) must(bytes[q] == 0x55);
            for (size_t q = got; q < 60; q++) must(records[q].length == NO_LENGTH && records[q].value == NO_VALUE + q);
            got = bptree_dict_values(&dict, p, some, n);
            must(got == (p >= count ? 0 : count - p < n ? count - p : n));
            for (size_t q = 0; q < 60; q++) must(some[q] == (q < got ? values[p + q] : q));
            closed = 0;
        }
        }
    }
    bptree_dict copy = {0};
    must(bptree_dict_clone(&dict, &copy) && bptree_dict_len(&copy) == count);
    must(bptree_dict_clear(&dict) && bptree_dict_len(&dict) == 0);
    for (size_t p = 0; p < count; p++) blank(), found_is(bptree_dict_at(&copy, p, out, WHOLE, &len, &found), 1, p, WHOLE);
    bptree_dict_free(&copy);
    count = 0;
    with_null(&dict);
    load_null(&dict);
    bptree_dict_free(&dict);
    must(!dict.at);
    puts("ok");
    return 0;
}
