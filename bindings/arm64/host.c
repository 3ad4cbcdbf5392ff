/* What the programs call that no C library of a system has, for Linux on ARM64 with glibc: the kit has it for x86-64 alone.
 * It is written by the contracts of the kit (its rattle/libc/src/heap.rt and rattle/os/src/c.rt). The proofs take these
 * contracts as they are, and read nothing of this file; tests/arm64 runs the programs that scripts/arm64 links with it.
 */
#include <assert.h>
#include <errno.h>
#include <stdalign.h>
#include <stdbool.h>
#include <stddef.h>
#include <stdlib.h>
#include <sys/types.h>

/* Whether there is memory, and where. Where there is none, the place is not null, and nobody owns what is there. */
struct tried {
    bool ok;
    void *place;
};

/* An alignment that is asked for divides 16, and malloc returns no less. */
static_assert(alignof(max_align_t) == 16, "malloc aligns to less than 16 bytes");

static struct tried tried(void *place) {
    static max_align_t nothing;
    return (struct tried){place != NULL, place != NULL ? place : &nothing};
}

/* No request is for 0 bytes, of which C does not say whether it is refused, or frees the block. */
static size_t asked(size_t size, size_t alignment) { return size != 0 ? size : alignment; }

struct tried rattle_alloc(size_t size, size_t alignment) { return tried(malloc(asked(size, alignment))); }

/* The first `kept` bytes are as they were; where there is no memory, the block is. realloc keeps all that fit. */
struct tried rattle_realloc(void *place, size_t kept, size_t size, size_t alignment) {
    (void)kept;
    return tried(realloc(place, asked(size, alignment)));
}

void rattle_dealloc(void *place) { free(place); }

int rattle_errno(void) { return errno; }

void rattle_set_errno(int error) { errno = error; }

static size_t count;
static char **words;

/* glibc hands the arguments of `main` to a constructor, before it calls `main`. */
__attribute__((constructor)) static void keep(int given, char **arguments) {
    count = given > 0 ? (size_t)given : 0;
    words = arguments;
}

/* Puts a text at the start of a buffer and returns its length; -1 where there is none, and -2 where it does not fit, and then
 * the buffer is full. */
static ssize_t put(const char *text, unsigned char *buffer, size_t room) {
    size_t length = 0;
    if (text == NULL)
        return -1;
    for (; text[length] != 0; length++) {
        if (length == room)
            return -2;
        buffer[length] = (unsigned char)text[length];
    }
    return (ssize_t)length;
}

/* An argument. The first one is the name of the program. */
ssize_t rattle_arg(size_t number, unsigned char *buffer, size_t room) {
    return put(number < count ? words[number] : NULL, buffer, room);
}

/* An environment variable. Its name ends with a 0. */
ssize_t rattle_env(const unsigned char *name, unsigned char *buffer, size_t room) {
    return put(getenv((const char *)name), buffer, room);
}
