/* A call of a handle that holds no map ends the program with a segmentation fault, each call in a
   process of its own. The last line is 'ok'. */
#include "sweep_bptree.h"
#include <signal.h>
#include <stdio.h>
#include <sys/resource.h>
#include <sys/wait.h>
#include <unistd.h>

static bptree map;
static bptree_dict dict;
static bptree_pair pair;
static bptree_record record;
static uint64_t value;
static size_t number;
static uint8_t byte;

static void none(void) {}
static void free_it(void) { bptree_free(&map); }
static void clear(void) { bptree_clear(&map); }
static void load(void) { bptree_load(&map, &pair, 1); }
static void clone(void) {
    bptree to = {0};
    bptree_clone(&map, &to);
}
static void len(void) { number = bptree_len(&map); }
static void contains(void) { bptree_contains(&map, 1); }
static void get(void) { bptree_get(&map, 1, &value); }
static void first(void) { bptree_first(&map, &pair); }
static void next(void) { bptree_next(&map, 1, &pair); }
static void at(void) { bptree_at(&map, 0, &pair); }
static void rank(void) { bptree_rank(&map, 1, &number); }
static void put(void) { bptree_put(&map, 1, 1, &value); }
static void del(void) { bptree_del(&map, 1, &value); }
static void pop_last(void) { bptree_pop_last(&map, &pair); }
static void range(void) { bptree_range(&map, 0, &pair, 1); }
static void get_many(void) { bptree_get_many(&map, &value, 1, &value, 1, &byte, 1); }
static void contains_many(void) { bptree_contains_many(&map, &value, 1, &byte, 1); }
static void rank_many(void) { bptree_rank_many(&map, &value, 1, &number, 1); }
static void at_many(void) {
    size_t index = 0;
    bptree_at_many(&map, &index, 1, &value, 1, &pair.value, 1, &byte, 1);
}
static void put_many(void) { bptree_put_many(&map, &value, 1, &pair.value, 1); }
static void del_many(void) { bptree_del_many(&map, &value, 1, &byte, 1); }
static void copy(void) { bptree_copy(&map, 0, &value, 1, &pair.value, 1); }
static void dict_free(void) { bptree_dict_free(&dict); }
static void dict_clear(void) { bptree_dict_clear(&dict); }
static void dict_load(void) { bptree_dict_load(&dict, &byte, 1, &record, 1); }
static void dict_clone(void) {
    bptree_dict to = {0};
    bptree_dict_clone(&dict, &to);
}
static void dict_len(void) { number = bptree_dict_len(&dict); }
static void dict_get(void) { bptree_dict_get(&dict, &byte, 1, &value); }
static void dict_rank(void) { bptree_dict_rank(&dict, &byte, 1, &number); }
static void dict_put(void) { bptree_dict_put(&dict, &byte, 1, 1, &value); }
static void dict_del(void) { bptree_dict_del(&dict, &byte, 1, &value); }
static void dict_at(void) { bptree_dict_at(&dict, 0, &byte, 1, &number, &value); }
static void dict_page(void) { bptree_dict_page(&dict, 0, &byte, 1, &record, 1); }
static void dict_remove_at(void) { bptree_dict_del_at(&dict, 0, &value); }

static void (*const calls[])(void) = {
    free_it,  clear,    load,      clone,          len,       contains,   get,      first,         next,      at,
    rank,     put,      del,       pop_last,       range,     copy,       get_many, contains_many, rank_many, at_many,
    put_many, del_many, dict_free, dict_clear,     dict_load, dict_clone, dict_len, dict_get,      dict_rank, dict_put,
    dict_del, dict_at,  dict_page, dict_remove_at,
};

/* The signal that ended a process which made a call, or 0. */
static int signal_of(void (*call)(void)) {
    int status = 0;
    pid_t child = fork();
    if (child == 0) {
        call();
        _exit(0);
    }
    waitpid(child, &status, 0);
    return WIFSIGNALED(status) ? WTERMSIG(status) : 0;
}

int main(void) {
    struct rlimit no_core = {0, 0};
    setrlimit(RLIMIT_CORE, &no_core);
    if (signal_of(none) != 0) return puts("a process that makes no call was ended"), 1;
    for (size_t i = 0; i < sizeof calls / sizeof *calls; i++)
        if (signal_of(calls[i]) != SIGSEGV) return printf("call %zu did not fault\n", i), 1;
    puts("ok");
    return 0;
}
