/* Preloaded into a program, refuses one growth of memory: the one whose number REFUSE_AT gives,
   counted from 1 over malloc, calloc, realloc, aligned_alloc and posix_memalign. Where COUNT_FILE
   is set, their count is written there when the program ends. tools/refuse-memory uses it.

   What it takes of the C library is declared here, with the numbers that Linux has, since a machine
   need not have the headers of the C library: the toolchain's compiler does without. */
typedef __SIZE_TYPE__ size_t;
enum { no_memory = 12, write_only_anew = 01 | 0100 | 01000 };

extern int *__errno_location(void);
extern char *getenv(const char *);
extern long atol(const char *);
extern int open(const char *, int, ...);
extern int dprintf(int, const char *, ...);
extern int close(int);
extern void *__libc_malloc(size_t);
extern void *__libc_calloc(size_t, size_t);
extern void *__libc_realloc(void *, size_t);
extern void *__libc_memalign(size_t, size_t);

static long count;

static int is_refused(void) {
    static long at = -1;
    if (at < 0) {
        const char *text = getenv("REFUSE_AT");
        at = text ? atol(text) : 0;
    }
    count += 1;
    return count == at;
}

static void *refused(void) {
    *__errno_location() = no_memory;
    return 0;
}

void *malloc(size_t size) {
    return is_refused() ? refused() : __libc_malloc(size);
}

void *calloc(size_t items, size_t size) {
    return is_refused() ? refused() : __libc_calloc(items, size);
}

void *realloc(void *block, size_t size) {
    return size != 0 && is_refused() ? refused() : __libc_realloc(block, size);
}

void *aligned_alloc(size_t alignment, size_t size) {
    return is_refused() ? refused() : __libc_memalign(alignment, size);
}

int posix_memalign(void **block, size_t alignment, size_t size) {
    if (is_refused()) return no_memory;
    *block = __libc_memalign(alignment, size);
    return *block ? 0 : no_memory;
}

__attribute__((destructor)) static void tell(void) {
    const char *path = getenv("COUNT_FILE");
    int file = path ? open(path, write_only_anew, 0644) : -1;
    if (file < 0) return;
    dprintf(file, "%ld\n", count);
    close(file);
}
