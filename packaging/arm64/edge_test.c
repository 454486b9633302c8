/* Tries edge.c, or the kit's own functions of these names. trials/arm64.sh builds it for each processor and starts it
 * with the words `one`, an empty one, and one of 300 bytes. It says how many cases were tried, or the first that isn't
 * as wanted. */
#include <errno.h>
#include <malloc.h>
#include <pthread.h>
#include <stdint.h>
#include <stdio.h>
#include <stdlib.h>
#include <string.h>
#include <sys/prctl.h>

/* (as the kit's crates declare them: a flag of one byte, and a pointer) */
struct tried {
    _Bool ok;
    void *place;
};
struct tried rattle_alloc(size_t size, size_t alignment);
struct tried rattle_realloc(void *place, size_t kept, size_t size, size_t alignment);
void rattle_dealloc(void *place);
size_t rattle_arg_count(void);
int64_t rattle_arg(size_t index, unsigned char *bytes, size_t room);
int32_t rattle_errno(void);
void rattle_set_errno(int32_t error);
int32_t rattle_set_thread_name(const char *name);

static int cases;

static void is(const char *what, long long got, long long wanted)
{
    if (got != wanted) {
        printf("%s is %lld, not %lld\n", what, got, wanted);
        exit(1);
    }
    cases++;
}

static int has(const unsigned char *bytes, size_t count, unsigned char byte)
{
    for (size_t at = 0; at < count; at++)
        if (bytes[at] != byte)
            return 0;
    return 1;
}

/* Sizes of 0 to many megabytes under each alignment: aligned, and each byte can be written. */
static void try_memory(void)
{
    static const size_t sizes[] = {0, 1, 2, 15, 16, 17, 4095, 4096, 65537, 33554432};
    enum { kinds = sizeof sizes / sizeof *sizes };
    for (size_t alignment = 1; alignment <= 16; alignment *= 2) {
        unsigned char *places[kinds];
        for (int at = 0; at < kinds; at++) {
            struct tried got = rattle_alloc(sizes[at], alignment);
            is("memory", got.ok, 1);
            is("the rest by the alignment", (uintptr_t)got.place % alignment, 0);
            places[at] = got.place;
            memset(places[at], at + 1, sizes[at]);
        }
        for (int at = 0; at < kinds; at++) {
            is("what stands there beside others", has(places[at], sizes[at], (unsigned char)(at + 1)), 1);
            for (int other = 0; other < at; other++)
                is("whether two have one place", places[at] == places[other], 0);
        }
        for (int at = 0; at < kinds; at++)
            rattle_dealloc(places[at]);
    }
}

/* A room that grows and shrinks keeps what both have, from and to a size of 0 too. */
static void try_changes(void)
{
    static const size_t sizes[] = {0, 1, 100, 0, 70000, 33554432, 16, 0, 0, 5};
    for (size_t alignment = 1; alignment <= 16; alignment *= 2) {
        struct tried got = rattle_alloc(sizes[0], alignment);
        for (size_t at = 1; at < sizeof sizes / sizeof *sizes; at++) {
            size_t old = sizes[at - 1], new = sizes[at], both = old < new ? old : new;
            memset(got.place, 0x5A, old);
            got = rattle_realloc(got.place, both, new, alignment);
            is("memory for a change", got.ok, 1);
            is("the rest by the alignment after it", (uintptr_t)got.place % alignment, 0);
            is("what stands there after it", has(got.place, both, 0x5A), 1);
            memset(got.place, 0x33, new);
        }
        rattle_dealloc(got.place);
    }
}

static size_t used(void)
{
    struct mallinfo2 told = mallinfo2();
    return told.uordblks + told.hblkhd;
}

/* What is freed is the C library's again. */
static void try_freed(void)
{
    size_t size = 67108864, before = used();
    struct tried got = rattle_alloc(size, 16);
    is("whether it is in use", used() - before >= size, 1);
    rattle_dealloc(got.place);
    is("whether it is in use once it was freed", used() - before >= size, 0);
}

/* More than there can be: no memory, and the room stays. */
static void try_refusals(void)
{
    static const size_t sizes[] = {(size_t)INT64_MAX, (size_t)INT64_MAX - 15, (size_t)1 << 62, (size_t)1 << 50};
    for (size_t at = 0; at < sizeof sizes / sizeof *sizes; at++) {
        struct tried none = rattle_alloc(sizes[at], 8);
        is("memory that can't be", none.ok, 0);
        is("whether its place is null", none.place == NULL, 0);
        struct tried kept = rattle_alloc(100, 8);
        memset(kept.place, 0x77, 100);
        struct tried refused = rattle_realloc(kept.place, 100, sizes[at], 8);
        is("a change to what can't be", refused.ok, 0);
        is("whether its place is null", refused.place == NULL, 0);
        is("what stands there after a refusal", has(kept.place, 100, 0x77), 1);
        rattle_dealloc(kept.place);
    }
}

/* The words as trials/arm64.sh gives them: fitting, empty, too long, and none. */
static void try_words(const char *name)
{
    unsigned char room[512], *end = room + sizeof room;
    is("how many words there are", (long long)rattle_arg_count(), 4);
    memset(room, 0xEE, sizeof room);
    is("the length of the name", rattle_arg(0, room, sizeof room), (long long)strlen(name));
    is("what it is", memcmp(room, name, strlen(name)), 0);
    memset(room, 0xEE, sizeof room);
    is("a word's length", rattle_arg(1, room, sizeof room), 3);
    is("what it is", memcmp(room, "one", 3), 0);
    is("what stands after it", has(room + 3, (size_t)(end - room - 3), 0xEE), 1);
    is("a word that just fits", rattle_arg(1, room, 3), 3);
    memset(room, 0xEE, sizeof room);
    is("a word that is one too long", rattle_arg(1, room, 2), -2);
    is("what stands there then", memcmp(room, "on\xEE\xEE", 4), 0);
    memset(room, 0xEE, sizeof room);
    is("a word in no room", rattle_arg(1, room, 0), -2);
    is("an empty word", rattle_arg(2, room, sizeof room), 0);
    is("an empty word in no room", rattle_arg(2, room, 0), 0);
    is("what stands there then", has(room, sizeof room, 0xEE), 1);
    is("a long word", rattle_arg(3, room, sizeof room), 300);
    is("what it is", has(room, 300, 0xC3), 1);
    memset(room, 0xEE, sizeof room);
    is("a long word in less", rattle_arg(3, room, 299), -2);
    is("what stands there then", has(room, 299, 0xC3) && has(room + 299, 213, 0xEE), 1);
    memset(room, 0xEE, sizeof room);
    is("the word after the last", rattle_arg(4, room, sizeof room), -1);
    is("one far after it", rattle_arg((size_t)-1, room, sizeof room), -1);
    is("one that is 2^32 after a word", rattle_arg(((size_t)1 << 32) + 1, room, sizeof room), -1);
    is("what stands there then", has(room, sizeof room, 0xEE), 1);
}

static void *other(void *unused)
{
    (void)unused;
    char name[16] = "fifteen letters", told[16];
    is("the error of a new thread", rattle_errno(), 0);
    rattle_set_errno(EIO);
    is("naming a thread", rattle_set_thread_name(name), 0);
    prctl(PR_GET_NAME, told, 0, 0, 0);
    is("its name", strcmp(told, "fifteen letters"), 0);
    is("naming it by nothing", rattle_set_thread_name(name + 15), 0);
    prctl(PR_GET_NAME, told, 0, 0, 0);
    is("its name then", strcmp(told, ""), 0);
    return NULL;
}

/* The number of an error is the thread's, and the C library's. */
static void try_errors(void)
{
    pthread_t thread;
    errno = ENAMETOOLONG;
    is("the error that was met", rattle_errno(), ENAMETOOLONG);
    rattle_set_errno(0);
    is("the error that was set", errno, 0);
    rattle_set_errno(INT32_MAX);
    is("the greatest one", rattle_errno(), INT32_MAX);
    rattle_set_errno(EAGAIN);
    is("a thread", pthread_create(&thread, NULL, other, NULL), 0);
    pthread_join(thread, NULL);
    is("the error after another thread's", rattle_errno(), EAGAIN);
}

int main(int argc, char **argv)
{
    (void)argc;
    try_memory();
    try_changes();
    try_freed();
    try_refusals();
    try_words(argv[0]);
    try_errors();
    printf("%d cases\n", cases);
    return 0;
}
