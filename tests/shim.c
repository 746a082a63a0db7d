/* Stands before the C library in the program that `tests/faults` runs, and refuses one of its calls: the allocation, the read of standard
   input or the write of standard output whose number, from 1, is asked for. It says so on descriptor 3, by `<` where standard input was
   not read before, else by `>`. Environment:

       QDOUBLE_REFUSE   `memory`, `read` or `write`, or several of these with commas
       QDOUBLE_AT       the number of the call that is refused; 0, or no such word: none
       QDOUBLE_STEP     how many bytes a read gives and a write takes at most; 0, or no such word: as many as there are */

#define _GNU_SOURCE
#include <dlfcn.h>
#include <errno.h>
#include <stdlib.h>
#include <string.h>
#include <sys/types.h>
#include <unistd.h>

enum { TELL = 3 };

static const char *refused = "";
static unsigned long at, step;
static unsigned long allocations, reads, writes;
static int counting, has_read;

static void *(*real_malloc)(size_t);
static void *(*real_calloc)(size_t, size_t);
static void *(*real_realloc)(void *, size_t);
static void *(*real_aligned_alloc)(size_t, size_t);
static int (*real_posix_memalign)(void **, size_t, size_t);
static ssize_t (*real_read)(int, void *, size_t);
static ssize_t (*real_write)(int, const void *, size_t);

static unsigned long number_of(const char *name) {
    const char *text = getenv(name);
    return text ? strtoul(text, NULL, 10) : 0;
}

static void find_all(void) {
    real_malloc = dlsym(RTLD_NEXT, "malloc");
    real_calloc = dlsym(RTLD_NEXT, "calloc");
    real_realloc = dlsym(RTLD_NEXT, "realloc");
    real_aligned_alloc = dlsym(RTLD_NEXT, "aligned_alloc");
    real_posix_memalign = dlsym(RTLD_NEXT, "posix_memalign");
    real_read = dlsym(RTLD_NEXT, "read");
    real_write = dlsym(RTLD_NEXT, "write");
}

/* Calls before this one are those of the loader, and are let through. */
__attribute__((constructor)) static void begin(void) {
    find_all();
    if (getenv("QDOUBLE_REFUSE"))
        refused = getenv("QDOUBLE_REFUSE");
    at = number_of("QDOUBLE_AT");
    step = number_of("QDOUBLE_STEP");
    counting = 1;
}

/* Whether this call of the kind is the one that is refused. */
static int is_refused(const char *kind, unsigned long *calls) {
    if (!counting || !strstr(refused, kind) || ++*calls != at)
        return 0;
    real_write(TELL, has_read ? ">" : "<", 1);
    return 1;
}

static int no_memory(void) {
    if (!is_refused("memory", &allocations))
        return 0;
    errno = ENOMEM;
    return 1;
}

void *malloc(size_t size) {
    if (!real_malloc)
        find_all();
    return no_memory() ? NULL : real_malloc(size);
}

void *calloc(size_t count, size_t size) {
    if (!real_calloc)
        find_all();
    return no_memory() ? NULL : real_calloc(count, size);
}

void *realloc(void *block, size_t size) {
    if (!real_realloc)
        find_all();
    return no_memory() ? NULL : real_realloc(block, size);
}

void *aligned_alloc(size_t alignment, size_t size) {
    if (!real_aligned_alloc)
        find_all();
    return no_memory() ? NULL : real_aligned_alloc(alignment, size);
}

int posix_memalign(void **block, size_t alignment, size_t size) {
    if (!real_posix_memalign)
        find_all();
    return no_memory() ? ENOMEM : real_posix_memalign(block, alignment, size);
}

static size_t cut(size_t size) {
    return step && size > step ? step : size;
}

ssize_t read(int file, void *buffer, size_t size) {
    if (!real_read)
        find_all();
    if (file != STDIN_FILENO)
        return real_read(file, buffer, size);
    if (is_refused("read", &reads)) {
        errno = EIO;
        return -1;
    }
    has_read = 1;
    return real_read(file, buffer, cut(size));
}

ssize_t write(int file, const void *buffer, size_t size) {
    if (!real_write)
        find_all();
    if (file != STDOUT_FILENO)
        return real_write(file, buffer, size);
    if (is_refused("write", &writes)) {
        errno = EIO;
        return -1;
    }
    return real_write(file, buffer, cut(size));
}
