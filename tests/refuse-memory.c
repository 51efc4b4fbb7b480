// Preloaded before a program, this refuses one request for memory: the one that the environment variable REFUSED numbers, from 1 on,
// and with it all later ones where ALL_LATER is set. When it does so first, it writes a byte to the file descriptor REFUSAL_TOLD.

extern char **environ;
char *getenv(const char *name);
long strtol(const char *text, char **end, int base);
long write(int file, const void *bytes, unsigned long count);
int *__errno_location(void);
void *__libc_malloc(unsigned long size);
void *__libc_calloc(unsigned long count, unsigned long size);
void *__libc_realloc(void *old, unsigned long size);
void *__libc_memalign(unsigned long alignment, unsigned long size);

enum { OUT_OF_MEMORY = 12 };

static long refused, told = -1, requests;
static int all_later;

static long number_of(const char *name) {
    const char *text = getenv(name);
    return text ? strtol(text, 0, 10) : 0;
}

static int is_refused(void) {
    if (told < 0) {
        // Before the C library has begun there is no environment, and nothing is refused.
        if (!environ)
            return 0;
        refused = number_of("REFUSED");
        all_later = getenv("ALL_LATER") != 0;
        told = number_of("REFUSAL_TOLD");
    }
    long request = __atomic_add_fetch(&requests, 1, __ATOMIC_SEQ_CST);
    if (request == refused)
        write((int)told, "!", 1);
    else if (request < refused || !all_later)
        return 0;
    *__errno_location() = OUT_OF_MEMORY;
    return 1;
}

void *malloc(unsigned long size) { return is_refused() ? 0 : __libc_malloc(size); }

void *calloc(unsigned long count, unsigned long size) { return is_refused() ? 0 : __libc_calloc(count, size); }

void *realloc(void *old, unsigned long size) { return is_refused() ? 0 : __libc_realloc(old, size); }

void *aligned_alloc(unsigned long alignment, unsigned long size) {
    return is_refused() ? 0 : __libc_memalign(alignment, size);
}

int posix_memalign(void **made, unsigned long alignment, unsigned long size) {
    *made = is_refused() ? 0 : __libc_memalign(alignment, size);
    return *made ? 0 : OUT_OF_MEMORY;
}
