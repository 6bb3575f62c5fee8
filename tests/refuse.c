// Loaded before the C library, it counts the program's requests for memory and its starts of threads, in whatever thread, and refuses
// the one whose number, counted from 1, REFUSED_REQUEST or REFUSED_START gives, and where LATER_TOO gives 1 each later one of its kind.
// To the descriptor that COUNTS_TO gives, where it gives one, it writes a byte for each: `m` for a request, `t` for a start, and at the
// program's end `b` for each block that is not given back.

extern void *__libc_malloc(unsigned long size);
extern void *__libc_realloc(void *old, unsigned long size);
extern void __libc_free(void *block);
extern char *getenv(const char *name);
extern int *__errno_location(void);
extern long write(int file, const void *bytes, unsigned long length);
extern long syscall(long number, ...);
extern void *dlsym(void *from, const char *name);

enum { TRY_AGAIN = 11, OUT_OF_MEMORY = 12, EXIT_GROUP = 231 };

// From the libraries that are loaded after this one.
#define NEXT ((void *)-1)

typedef int start_call(unsigned long *thread, const void *options, void *(*work)(void *), void *argument);

static long requests, starts, blocks;

// The number in a variable of the environment, or 0.
static long number_in(const char *name) {
    const char *digit = getenv(name);
    long number = 0;
    for (; digit && *digit; digit++) number = number * 10 + (*digit - '0');
    return number;
}

static void tell(const char *kind) {
    long file = number_in("COUNTS_TO");
    if (file) write((int)file, kind, 1);
}

static long add(long *count, long more) {
    return __atomic_add_fetch(count, more, __ATOMIC_SEQ_CST);
}

// Whether the request or the start of a number is refused, where this variable has that of the first one.
static int is_refused(long number, const char *name) {
    long first = number_in(name);
    return first && (number == first || (number > first && number_in("LATER_TOO")));
}

// Counts one more request, and says whether it is refused.
static int is_memory_refused(void) {
    tell("m");
    if (!is_refused(add(&requests, 1), "REFUSED_REQUEST")) return 0;
    *__errno_location() = OUT_OF_MEMORY;
    return 1;
}

void *malloc(unsigned long size) {
    void *block = is_memory_refused() ? 0 : __libc_malloc(size);
    if (block) add(&blocks, 1);
    return block;
}

void *realloc(void *old, unsigned long size) {
    void *block = is_memory_refused() ? 0 : __libc_realloc(old, size);
    if (block && !old) add(&blocks, 1);
    return block;
}

void free(void *block) {
    if (block) add(&blocks, -1);
    __libc_free(block);
}

int pthread_create(unsigned long *thread, const void *options, void *(*work)(void *), void *argument) {
    tell("t");
    if (is_refused(add(&starts, 1), "REFUSED_START")) return TRY_AGAIN;
    start_call *start = (start_call *)dlsym(NEXT, "pthread_create");
    return start(thread, options, work, argument);
}

__attribute__((destructor)) static void tell_blocks(void) {
    for (long left = blocks; left > 0; left--) tell("b");
}

void _exit(int status) {
    tell_blocks();
    for (;;) syscall(EXIT_GROUP, status);
}
