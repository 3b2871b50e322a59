/* Calls of a set of byte strings in random order beside a plain ascending array, which must have
   the same results. The last line is 'ok'. */
#include "sweep_bptree.h"
#include <stdio.h>
#include <stdlib.h>
#include <string.h>

enum { MOST = 3000, LONGEST = 13, ROOM = 15, CALLS = 150000 };

typedef struct string {
    size_t n;
    uint8_t bytes[LONGEST];
} string;

static string plain[MOST + 1];
static size_t len;

static uint64_t dice = 0x9e3779b97f4a7c15;

static uint64_t roll(uint64_t below) {
    dice ^= dice << 13;
    dice ^= dice >> 7;
    dice ^= dice << 17;
    return (dice >> 11) % below;
}

/* Ends the program if two results differ. */
static void alike(uint64_t one, uint64_t other, const char *call) {
    if (one != other) {
        printf("%s: %llu in place of %llu\n", call, (unsigned long long)one, (unsigned long long)other);
        exit(1);
    }
}

/* A string of few bytes, among them the least and the greatest, so that many are equal or begin one
   another. Half of them begin with the same seven bytes, so that bytes behind the eighth decide. */
static string any_string(void) {
    static const uint8_t some[] = {0, 1, 'a', 'b', 0x7f, 0x80, 0xff};
    size_t front = roll(2) ? 7 : 0;
    string it = {front + roll(7), {0}};
    memset(it.bytes, 'k', front);
    for (size_t i = front; i < it.n; i++) it.bytes[i] = some[roll(sizeof some)];
    return it;
}

static int compared(const string *one, const string *other) {
    int by_bytes = memcmp(one->bytes, other->bytes, one->n < other->n ? one->n : other->n);
    return by_bytes ? by_bytes : (one->n > other->n) - (one->n < other->n);
}

/* How many strings of the array are smaller. */
static size_t smaller(const string *key) {
    size_t low = 0, high = len;
    while (low < high) {
        size_t at = low + (high - low) / 2;
        if (compared(&plain[at], key) < 0) low = at + 1;
        else high = at;
    }
    return low;
}

static void change(bptree_bytes *set, const string *key) {
    size_t at = smaller(key);
    bool there = at < len && !compared(&plain[at], key);
    if (roll(5) < 3) {
        if (len == MOST && !there) return;
        alike(bptree_bytes_put(set, key->bytes, key->n), there ? BPTREE_REPLACED : BPTREE_ADDED, "insert");
        if (there) return;
        memmove(plain + at + 1, plain + at, (len++ - at) * sizeof *plain);
        plain[at] = *key;
    } else {
        alike(bptree_bytes_del(set, key->bytes, key->n), there ? BPTREE_REMOVED : BPTREE_ABSENT, "remove");
        if (there) memmove(plain + at, plain + at + 1, (--len - at) * sizeof *plain);
    }
}

/* What a call wrote of a key: whether there is one, as many of its bytes as fit, and the rest is
   unchanged. If there is none, all is unchanged. */
static uint8_t out[ROOM];
static size_t room, told;

static void blank(void) {
    memset(out, 0x55, sizeof out);
    room = roll(ROOM + 1), told = 77;
}

static void told_of(bool is_there, size_t at, bool answer, const char *call) {
    alike(answer, is_there, call);
    alike(told, is_there ? plain[at].n : 77, call);
    for (size_t i = 0; i < ROOM; i++) alike(out[i], is_there && i < plain[at].n && i < room ? plain[at].bytes[i] : 0x55, call);
    blank();
}

static void ask_for_keys(const bptree_bytes *set, const string *key) {
    size_t at = smaller(key), place = roll(len + 2);
    size_t above = at + (at < len && !compared(&plain[at], key));
    blank();
    told_of(len > 0, 0, bptree_bytes_first(set, out, room, &told), "first");
    told_of(len > 0, len - 1, bptree_bytes_last(set, out, room, &told), "last");
    told_of(place < len, place, bptree_bytes_at(set, place, out, room, &told), "at");
    told_of(above < len, above, bptree_bytes_next(set, key->bytes, key->n, out, room, &told), "next");
    told_of(at > 0, at - 1, bptree_bytes_prev(set, key->bytes, key->n, out, room, &told), "prev");
}

/* The empty key by NULL, and an array of length 0 by NULL: whether the key is in the set, and the
   lengths of keys without their bytes. */
static void ask_with_null(bptree_bytes *set) {
    string empty = {0, {0}};
    size_t at = smaller(&empty), rank = 77;
    bool there = at < len && !compared(&plain[at], &empty);
    size_t above = at + there;
    alike(bptree_bytes_contains(set, NULL, 0), there, "contains of NULL");
    alike(bptree_bytes_rank(set, NULL, 0, &rank), there, "rank of NULL");
    alike(rank, 0, "rank of NULL");
    blank(), room = 0;
    told_of(len > 0, 0, bptree_bytes_first(set, NULL, 0, &told), "first into NULL"), room = 0;
    told_of(len > 0, len - 1, bptree_bytes_last(set, NULL, 0, &told), "last into NULL"), room = 0;
    told_of(len > 0, 0, bptree_bytes_at(set, 0, NULL, 0, &told), "at into NULL"), room = 0;
    told_of(above < len, above, bptree_bytes_next(set, NULL, 0, NULL, 0, &told), "next of NULL");
    told_of(false, 0, bptree_bytes_prev(set, NULL, 0, NULL, 0, &told), "prev of NULL");
    alike(bptree_bytes_del(set, NULL, 0), there ? BPTREE_REMOVED : BPTREE_ABSENT, "remove of NULL");
    alike(bptree_bytes_contains(set, NULL, 0), false, "contains of NULL");
    alike(bptree_bytes_put(set, NULL, 0), BPTREE_ADDED, "insert of NULL");
    alike(bptree_bytes_put(set, NULL, 0), BPTREE_REPLACED, "insert of NULL");
    alike(bptree_bytes_contains(set, empty.bytes, 0), true, "contains of no bytes");
    if (!there) alike(bptree_bytes_del(set, empty.bytes, 0), BPTREE_REMOVED, "remove of no bytes");
}

static void ask(const bptree_bytes *set, const string *key) {
    size_t at = smaller(key), rank = 7;
    bool there = at < len && !compared(&plain[at], key);
    alike(bptree_bytes_len(set), len, "len");
    alike(bptree_bytes_contains(set, key->bytes, key->n), there, "contains");
    alike(bptree_bytes_rank(set, key->bytes, key->n, &rank), there, "rank, there");
    alike(rank, at, "rank");
}

int main(void) {
    bptree_bytes set = {0};
    alike(bptree_bytes_new(&set), true, "new");
    for (int call = 0; call < CALLS; call++) {
        string key = any_string(), other = any_string();
        change(&set, &key);
        ask(&set, &other);
        ask_for_keys(&set, &other);
        if (call % 64 == 0) ask_with_null(&set);
        if (call == CALLS / 2) alike(bptree_bytes_clear(&set), true, "clear"), len = 0, ask_with_null(&set);
    }
    bptree_bytes_free(&set);
    alike(set.keys.at == NULL, true, "free");
    puts("ok");
    return 0;
}
