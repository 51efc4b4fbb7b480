// Preloaded before a program, this spoils its calls of some functions of the C library, as environment variables say:
//
//     SHORT    so many calls of `read`, and so many of `write`, move one byte at most
//     TWICE    where it is set, each call of `open`, `read` and `write` is interrupted once before it does anything
//     FAULTY   the function of which further calls go wrong: open, read, write, or thread for `pthread_create`
//     AT       the number of the first of these calls, from 1 on
//     TIMES    how many there are, one after the other; 1 where it is not set
//     ERROR    the number of the error with which they fail; where it is 0 they do not, and move one byte at most
//
// At the first of these calls a byte is written to the file descriptor FAULT_TOLD.

typedef unsigned long size;
typedef __builtin_va_list arguments;
typedef int starter(size *thread, const void *how, void *(*run)(void *), void *with);

char *getenv(const char *name);
long strtol(const char *text, char **end, int base);
int strcmp(const char *one, const char *other);
void *dlsym(void *handle, const char *name);
int *__errno_location(void);
int __open(const char *path, int flags, ...);
long __read(int file, void *bytes, size count);
long __write(int file, const void *bytes, size count);

enum { OPEN, READ, WRITE, THREAD, FUNCTIONS };
enum { INTERRUPTED = 4, CREATES = 0100, RIGHT = -1, SHORT = 0 };

static const char *const names[FUNCTIONS] = {"open", "read", "write", "thread"};
static long shorts, first, times, error, told, faulty;
static int interrupts;
static long calls[FUNCTIONS], tries[FUNCTIONS];
static starter *start;

static long number_of(const char *name, long otherwise) {
    const char *text = getenv(name);
    return text ? strtol(text, 0, 10) : otherwise;
}

__attribute__((constructor)) static void prepare(void) {
    const char *name = getenv("FAULTY");
    for (faulty = 0; faulty < FUNCTIONS && !(name && !strcmp(name, names[faulty])); faulty++)
        ;
    shorts = number_of("SHORT", 0);
    first = number_of("AT", 0);
    times = number_of("TIMES", 1);
    error = number_of("ERROR", 0);
    told = number_of("FAULT_TOLD", -1);
    interrupts = getenv("TWICE") != 0;
    void *next_library = (void *)-1;
    start = (starter *)dlsym(next_library, "pthread_create");
}

// What becomes of this call of the function: RIGHT, SHORT, or the number of an error.
static long fate(int function) {
    if (interrupts && function != THREAD && __atomic_fetch_add(&tries[function], 1, __ATOMIC_SEQ_CST) % 2 == 0)
        return INTERRUPTED;
    long call = __atomic_add_fetch(&calls[function], 1, __ATOMIC_SEQ_CST);
    if (function != faulty || call < first || call - first >= times)
        return call <= shorts ? SHORT : RIGHT;
    if (call == first)
        __write((int)told, "!", 1);
    return error;
}

static long failed(long error) {
    *__errno_location() = (int)error;
    return -1;
}

int open(const char *path, int flags, ...) {
    arguments rest;
    __builtin_va_start(rest, flags);
    int mode = flags & CREATES ? __builtin_va_arg(rest, int) : 0;
    __builtin_va_end(rest);
    long it = fate(OPEN);
    return it > 0 ? (int)failed(it) : __open(path, flags, mode);
}

long read(int file, void *bytes, size count) {
    long it = fate(READ);
    return it > 0 ? failed(it) : __read(file, bytes, it == SHORT && count ? 1 : count);
}

long write(int file, const void *bytes, size count) {
    long it = fate(WRITE);
    return it > 0 ? failed(it) : __write(file, bytes, it == SHORT && count ? 1 : count);
}

int pthread_create(size *thread, const void *how, void *(*run)(void *), void *with) {
    long it = fate(THREAD);
    return it > 0 ? (int)it : start(thread, how, run, with);
}
