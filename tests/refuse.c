/* Makes one call of a program fail: its Nth request for memory, read or write, or has a read or write move one byte alone.
   `tests/refuse` loads it before the C library. CALL names the call: memory, message, read or write, with interrupted_ or short_ before the latter two, and NTH its number,
   from 1; a write to standard error is no write here, but a message. When the program ends, the number of such calls goes to file descriptor 9. */
#define _GNU_SOURCE
#include <dlfcn.h>
#include <errno.h>
#include <stdio.h>
#include <stdlib.h>
#include <string.h>
#include <sys/syscall.h>
#include <unistd.h>

static char call[24];
static long nth, count;

__attribute__((constructor)) static void begin(void) {
    const char *name = getenv("CALL"), *number = getenv("NTH");
    if (name && number) {
        nth = atol(number);
        strncpy(call, name, sizeof call - 1);
    }
}

__attribute__((destructor)) static void end(void) {
    char text[24];
    int length = snprintf(text, sizeof text, "%ld", count);
    syscall(SYS_write, 9, text, length);
}

/* whether this call of that name is the one */
static int chosen(const char *name) {
    return strcmp(call, name) == 0 && ++count == nth;
}

void *malloc(size_t size) {
    static void *(*next)(size_t);
    if (!next) next = dlsym(RTLD_NEXT, "malloc");
    if (chosen("memory")) { errno = ENOMEM; return NULL; }
    return next(size);
}

void *realloc(void *block, size_t size) {
    static void *(*next)(void *, size_t);
    if (!next) next = dlsym(RTLD_NEXT, "realloc");
    if (chosen("memory")) { errno = ENOMEM; return NULL; }
    return next(block, size);
}

ssize_t read(int file, void *buffer, size_t length) {
    if (chosen("read")) { errno = EIO; return -1; }
    if (chosen("interrupted_read")) { errno = EINTR; return -1; }
    return syscall(SYS_read, file, buffer, length > 1 && chosen("short_read") ? 1 : length);
}

ssize_t write(int file, const void *buffer, size_t length) {
    if (file == 2 && chosen("message")) { errno = EIO; return -1; }
    if (file != 2 && chosen("write")) { errno = EIO; return -1; }
    if (file != 2 && chosen("interrupted_write")) { errno = EINTR; return -1; }
    return syscall(SYS_write, file, buffer, file != 2 && length > 1 && chosen("short_write") ? 1 : length);
}

ssize_t __write(int file, const void *buffer, size_t length) { return write(file, buffer, length); }
