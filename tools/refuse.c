// Loaded ahead of the C library (LD_PRELOAD): counts the allocations of a program, and makes one of them fail.
//
// The file that REFUSE_COUNT names is a page of four machine words that are up to date at each moment:
//   how many allocations the program made;
//   how many blocks it has, which at its end is what it leaked;
//   how many blocks it was given in all;
//   the number, from 1, of the allocation that fails, counted from now on, or 0. Another process writes it while the program
//   waits for input, or before it starts. Each allocation takes 1 away, and the one that makes it 0 fails. So an allocation
//   failed exactly if the word is 0 then.
//
// Allocations and blocks are those of the program's own code, and not those of the C library or the loader.
typedef unsigned long word;

typedef struct {
    unsigned kind, rights;
    word offset, address, physical, size_in_file, size, alignment;
} segment; // as Elf64_Phdr

typedef volatile struct { word requests, blocks, given, refuse; } counts;

char *getenv(const char *);
word getauxval(word);
int open(const char *, int, ...);
int close(int);
int ftruncate(int, long);
void *mmap(void *, word, int, int, int, long);
void *__libc_malloc(word);
void *__libc_calloc(word, word);
void *__libc_realloc(void *, word);
void *__libc_memalign(word, word);
void __libc_free(void *);

static counts own_counts;
static counts *count = &own_counts;
static word program_begin, program_end;

// Finds where the program is in memory.
static void find_program(void) {
    const segment *all = (const segment *)getauxval(3); // AT_PHDR: of the program, and of no library
    word many = getauxval(5), base = 0;                 // AT_PHNUM
    for (word at = 0; at < many; at++)
        if (all[at].kind == 6) base = (word)all - all[at].address; // PT_PHDR
    for (word at = 0; at < many; at++) {
        word begin = base + all[at].address, end = begin + all[at].size;
        if (all[at].kind != 1) continue; // PT_LOAD
        if (!program_end || begin < program_begin) program_begin = begin;
        if (end > program_end) program_end = end;
    }
}

__attribute__((constructor)) static void begin(void) {
    const char *name = getenv("REFUSE_COUNT");
    int file = name ? open(name, 2 | 0100, 0600) : -1; // for reading and writing, made if it is missing
    find_program();
    if (file < 0) return;
    // A file that is longer or shorter gets the page's length. What it has of it stays.
    if (!ftruncate(file, sizeof *count)) {
        void *page = mmap(0, sizeof *count, 1 | 2, 1, file, 0); // read, written, and shared with the file
        if (page != (void *)-1) count = page;
    }
    close(file);
    count->requests = count->blocks = count->given = 0;
}

#define IS_OF_PROGRAM ((word)__builtin_return_address(0) >= program_begin && (word)__builtin_return_address(0) < program_end)

static int is_refused(int is_of_program) {
    if (!is_of_program) return 0;
    count->requests++;
    return count->refuse && !--count->refuse;
}

static void *counted(void *block, int is_of_program) {
    if (block && is_of_program) {
        count->blocks++;
        count->given++;
    }
    return block;
}

void *malloc(word size) { return is_refused(IS_OF_PROGRAM) ? 0 : counted(__libc_malloc(size), IS_OF_PROGRAM); }

void *calloc(word many, word size) { return is_refused(IS_OF_PROGRAM) ? 0 : counted(__libc_calloc(many, size), IS_OF_PROGRAM); }

void *realloc(void *from, word size) {
    if (is_refused(IS_OF_PROGRAM)) return 0;
    void *to = __libc_realloc(from, size);
    if (!from) return counted(to, IS_OF_PROGRAM);
    if (!to && !size && IS_OF_PROGRAM) count->blocks--; // it frees
    return to;
}

void *aligned_alloc(word align, word size) { return is_refused(IS_OF_PROGRAM) ? 0 : counted(__libc_memalign(align, size), IS_OF_PROGRAM); }

int posix_memalign(void **to, word align, word size) {
    void *from = is_refused(IS_OF_PROGRAM) ? 0 : counted(__libc_memalign(align, size), IS_OF_PROGRAM);
    if (!from) return 12;
    *to = from;
    return 0;
}

void free(void *block) {
    if (block && IS_OF_PROGRAM) count->blocks--;
    __libc_free(block);
}
