/*
 * Refuses one growth of memory. Preloaded into a program, it counts the calls of malloc, calloc,
 * realloc, memalign, aligned_alloc and posix_memalign, has the one whose number the variable REFUSE
 * says answer that no memory is left, and at the end of the program writes the line "growths N
 * refused M" to standard error. It needs no header, and no library but the C library.
 */

typedef __SIZE_TYPE__ size;

extern void *__libc_malloc(size bytes);
extern void *__libc_calloc(size count, size bytes);
extern void *__libc_realloc(void *old, size bytes);
extern void *__libc_memalign(size to, size bytes);
extern char *getenv(const char *name);
extern long write(int to, const void *bytes, size count);

static unsigned long growths, refused, number;

static int refuses(void) {
    growths++;
    if (growths != number)
        return 0;
    refused++;
    return 1;
}

void *malloc(size bytes) { return refuses() ? 0 : __libc_malloc(bytes); }

void *calloc(size count, size bytes) { return refuses() ? 0 : __libc_calloc(count, bytes); }

void *realloc(void *old, size bytes) { return refuses() ? 0 : __libc_realloc(old, bytes); }

void *memalign(size to, size bytes) { return refuses() ? 0 : __libc_memalign(to, bytes); }

void *aligned_alloc(size to, size bytes) { return refuses() ? 0 : __libc_memalign(to, bytes); }

int posix_memalign(void **at, size to, size bytes) {
    void *found = refuses() ? 0 : __libc_memalign(to, bytes);
    if (found)
        *at = found;
    return found ? 0 : 12;
}

static void start(void) __attribute__((constructor));

static void start(void) {
    const char *word = getenv("REFUSE");
    while (word && *word >= '0' && *word <= '9')
        number = 10 * number + (unsigned long)(*word++ - '0');
    growths = refused = 0;
}

static size put(char *line, size at, const char *text, unsigned long value) {
    char digits[24];
    int count = 0;
    while (*text)
        line[at++] = *text++;
    do
        digits[count++] = (char)('0' + value % 10);
    while (value /= 10);
    while (count)
        line[at++] = digits[--count];
    return at;
}

static void end(void) __attribute__((destructor));

static void end(void) {
    char line[96];
    size at = put(line, 0, "growths ", growths);
    at = put(line, at, " refused ", refused);
    line[at++] = '\n';
    if (write(2, line, at) < 0)
        return;
}
