/* What the kit's contracts ask of each function of host.c: `tests/arm64` runs it with the arguments "" and "four". */
#include <errno.h>
#include <stdbool.h>
#include <stddef.h>
#include <stdint.h>
#include <stdio.h>
#include <stdlib.h>
#include <string.h>
#include <sys/types.h>

struct tried {
    bool ok;
    void *place;
};

struct tried rattle_alloc(size_t size, size_t alignment);
struct tried rattle_realloc(void *place, size_t kept, size_t size, size_t alignment);
void rattle_dealloc(void *place);
int rattle_errno(void);
void rattle_set_errno(int error);
ssize_t rattle_arg(size_t number, unsigned char *buffer, size_t room);
ssize_t rattle_env(const unsigned char *name, unsigned char *buffer, size_t room);

static int passed, failed;

#define CHECK(holds)                                                                                                  \
    do {                                                                                                              \
        if (holds)                                                                                                    \
            passed++;                                                                                                 \
        else                                                                                                          \
            printf("test.c:%d: %s\n", __LINE__, #holds), failed++;                                                    \
    } while (0)

static const size_t most = (size_t)1 << 62;

/* Each size and alignment: memory that can be written, aligned, and apart from other memory. */
static void memory(void) {
    for (size_t alignment = 1; alignment <= 16; alignment *= 2)
        for (size_t size = 0; size <= 4096; size += alignment) {
            struct tried one = rattle_alloc(size, alignment), other = rattle_alloc(size, alignment);
            CHECK(one.ok && other.ok && one.place != NULL && one.place != other.place);
            CHECK((uintptr_t)one.place % alignment == 0);
            memset(one.place, 1, size);
            memset(other.place, 2, size);
            CHECK(size == 0 || ((char *)one.place)[size - 1] == 1);
            rattle_dealloc(one.place);
            rattle_dealloc(other.place);
        }
    struct tried none = rattle_alloc(most, 16);
    CHECK(!none.ok && none.place != NULL);
}

/* The first bytes stay in a block that grows, shrinks or is refused more; a block of no bytes is a block. */
static void changed(void) {
    struct tried block = rattle_alloc(3, 1);
    memcpy(block.place, "abc", 3);
    block = rattle_realloc(block.place, 3, 100000, 1);
    CHECK(block.ok && memcmp(block.place, "abc", 3) == 0);
    struct tried none = rattle_realloc(block.place, 3, most, 1);
    CHECK(!none.ok && none.place != NULL && memcmp(block.place, "abc", 3) == 0);
    block = rattle_realloc(block.place, 2, 2, 1);
    CHECK(block.ok && memcmp(block.place, "ab", 2) == 0);
    block = rattle_realloc(block.place, 0, 0, 1);
    CHECK(block.ok && block.place != NULL);
    rattle_dealloc(block.place);
}

static void errors(void) {
    rattle_set_errno(ENAMETOOLONG);
    CHECK(errno == ENAMETOOLONG && rattle_errno() == ENAMETOOLONG);
    errno = EINVAL;
    CHECK(rattle_errno() == EINVAL);
    rattle_set_errno(0);
    CHECK(errno == 0);
}

/* Each room for an argument, and what is after it. */
static void arguments(void) {
    unsigned char buffer[8] = "........";
    CHECK(rattle_arg(0, buffer, 0) == -2);
    CHECK(rattle_arg(1, buffer, 0) == 0 && rattle_arg(1, buffer, 8) == 0);
    CHECK(rattle_arg(2, buffer, 0) == -2 && memcmp(buffer, "........", 8) == 0);
    CHECK(rattle_arg(2, buffer, 3) == -2 && memcmp(buffer, "fou.....", 8) == 0);
    CHECK(rattle_arg(2, buffer, 4) == 4 && memcmp(buffer, "four....", 8) == 0);
    CHECK(rattle_arg(2, buffer, 8) == 4 && memcmp(buffer, "four....", 8) == 0);
    CHECK(rattle_arg(3, buffer, 8) == -1 && rattle_arg(SIZE_MAX, buffer, 8) == -1);
}

/* Likewise of an environment variable. */
static void environment(void) {
    unsigned char buffer[8] = "........";
    setenv("FOUR", "four", 1);
    setenv("NONE", "", 1);
    CHECK(rattle_env((const unsigned char *)"FOUR", buffer, 0) == -2);
    CHECK(rattle_env((const unsigned char *)"NONE", buffer, 0) == 0);
    CHECK(rattle_env((const unsigned char *)"FOUR", buffer, 3) == -2 && memcmp(buffer, "fou.....", 8) == 0);
    CHECK(rattle_env((const unsigned char *)"FOUR", buffer, 4) == 4 && memcmp(buffer, "four....", 8) == 0);
    CHECK(rattle_env((const unsigned char *)"FIVE", buffer, 8) == -1);
}

int main(void) {
    memory();
    changed();
    errors();
    arguments();
    environment();
    printf("%d passed, %d failed\n", passed, failed);
    return failed != 0;
}
