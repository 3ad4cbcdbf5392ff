/* Refuses one request for memory of a program that is started with this before it (LD_PRELOAD): that of the number in the
 * environment variable REFUSE, counted from the first read of a single byte on. How many there were is printed at the end. */
#define _GNU_SOURCE
#include <errno.h>
#include <stdio.h>
#include <stdlib.h>
#include <sys/syscall.h>
#include <unistd.h>

void *__libc_malloc(size_t size);
void *__libc_calloc(size_t count, size_t size);
void *__libc_realloc(void *old, size_t size);
void *__libc_memalign(size_t alignment, size_t size);

static int counting;
static long made, refused;

static int refuse(void) {
    if (!counting)
        return 0;
    made++;
    if (made != refused)
        return 0;
    errno = ENOMEM;
    return 1;
}

ssize_t read(int file, void *room, size_t length) {
    if (length == 1 && !counting) {
        const char *number = getenv("REFUSE");
        refused = number == NULL ? 0 : atol(number);
        counting = 1;
    }
    return syscall(SYS_read, file, room, length);
}

void *malloc(size_t size) {
    return refuse() ? NULL : __libc_malloc(size);
}

void *calloc(size_t count, size_t size) {
    return refuse() ? NULL : __libc_calloc(count, size);
}

void *realloc(void *old, size_t size) {
    return refuse() ? NULL : __libc_realloc(old, size);
}

int posix_memalign(void **place, size_t alignment, size_t size) {
    if (refuse())
        return ENOMEM;
    *place = __libc_memalign(alignment, size);
    return *place == NULL ? ENOMEM : 0;
}

__attribute__((destructor)) static void tell(void) {
    char text[64];
    int length = snprintf(text, sizeof text, "allocations: %ld\n", made);
    counting = 0;
    if (length > 0 && write(2, text, (size_t)length) < 0)
        _exit(3);
}
