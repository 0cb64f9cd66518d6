/* Loaded before a program's libraries: the allocation that REFUSED numbers, from 1 on, finds no memory, and the file COUNTED gets how
   many were asked for. The read of standard input that READ numbers fails, and so does the write that WRITE numbers, of standard output
   or standard error, and with AND_LATER each write after it; with PIECE no call moves more than so many bytes. */
#define _GNU_SOURCE
#include <dlfcn.h>
#include <errno.h>
#include <stdio.h>
#include <stdlib.h>
#include <sys/syscall.h>
#include <unistd.h>

static unsigned long count, reads, writes;
static unsigned long refused, failing_read, failing_write, and_later, piece;

static unsigned long number(const char *name) {
    const char *word = getenv(name);
    return word ? strtoul(word, NULL, 10) : 0;
}

__attribute__((constructor)) static void begin(void) {
    refused = number("REFUSED");
    failing_read = number("READ");
    failing_write = number("WRITE");
    and_later = number("AND_LATER");
    piece = number("PIECE");
    count = 0;
}

__attribute__((destructor)) static void end(void) {
    unsigned long all = count;
    const char *path = getenv("COUNTED");
    FILE *file = path ? fopen(path, "w") : NULL;
    if (file) {
        fprintf(file, "%lu\n", all);
        fclose(file);
    }
}

static int is_refused(void) {
    if (++count != refused)
        return 0;
    errno = ENOMEM;
    return 1;
}

void *__libc_malloc(size_t);
void *__libc_calloc(size_t, size_t);
void *__libc_realloc(void *, size_t);
void *__libc_memalign(size_t, size_t);

void *malloc(size_t size) { return is_refused() ? NULL : __libc_malloc(size); }
void *calloc(size_t items, size_t size) { return is_refused() ? NULL : __libc_calloc(items, size); }
void *realloc(void *old, size_t size) { return is_refused() ? NULL : __libc_realloc(old, size); }
void *aligned_alloc(size_t to, size_t size) { return is_refused() ? NULL : __libc_memalign(to, size); }

int posix_memalign(void **made, size_t to, size_t size) {
    void *memory = is_refused() ? NULL : __libc_memalign(to, size);
    if (!memory)
        return ENOMEM;
    *made = memory;
    return 0;
}

static ssize_t failed(void) {
    errno = EIO;
    return -1;
}

static size_t cut(size_t size) { return piece && size > piece ? piece : size; }

ssize_t read(int from, void *to, size_t size) {
    if (from == 0 && ++reads == failing_read)
        return failed();
    return syscall(SYS_read, from, to, cut(size));
}

ssize_t write(int to, const void *from, size_t size) {
    ++writes;
    if (writes == failing_write || (and_later && failing_write && writes > failing_write))
        return failed();
    return syscall(SYS_write, to, from, cut(size));
}
